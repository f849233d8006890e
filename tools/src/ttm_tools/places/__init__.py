"""Places such as cells, homes or schools, and the folder that adds them to the stops of a feed, with walks.

`read` and `features` read files of them, `frames` takes them from geopandas, `grid` generates cells. `folder` writes
the stops and walks for a run, `long_walks` and `split` those with walks of hours, and `selection` picks the places of a
matrix; `areas` are the polygons that places represent.
"""
