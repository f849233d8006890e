"""The ground of maps: water, parks, railways, streets in three ranks, and names, of an extract of OpenStreetMap.

`tags` says what an object of OpenStreetMap is drawn as, `extract` reads them, `thinning` leaves out points that no
map shows, `packing` writes and reads the file, and `contents` holds what it contains. Pages embed the file as it is.
"""
