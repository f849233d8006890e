"""GTFS feeds in columns: the one package that reads and writes the files of a feed.

`fields` reads texts (numbers, times, dates) and knows the files and limits, `columns` holds a column, `plain` and
`reading` read some, `tables` holds a file, `feeds` all of a feed, `calls` the calls of trips in their order,
`service_days` on which days services run, `identifiers` which column names what, `stops` and `shapes` what a map needs,
`timetable` and `footpaths` what a search for journeys needs; `check` finds the errors of a feed, `likely` what is
probably one.
"""
