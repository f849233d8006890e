"""Journeys of single departures: a search that is independent of the engine, and what it explains.

`network` is the timetable of one date, and `search` finds the journeys in it. `found` has those between two places, and
`itineraries` those of a window, leg by leg.
"""
