"""Walks between stops and places: straight lines, and shortest paths along the streets of an OpenStreetMap file.

`walks` offers both. `osm` reads the streets, `graph` is their graph, and `router` alone searches it. `street_walks`
asks the router for the walks between stops. `straight` measures straight lines, and `needed` picks the walks that
journeys may need.
"""
