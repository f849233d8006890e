"""Pages for a browser: `page` writes one into a file; the other modules serve one with a network behind it.

`server` answers the requests, for this machine alone (`guard`, `serving`, `latest_only`). `session` keeps what a user
explores, `live_network` the processes that answer, and `changes` and `planning` turn changes of the network into a
plan. `routes`, `journeys`, `timetables`, `lines` and `point` compute what the page shows, `page_live` writes it, and
`saving` saves it as a study. The scripts are modules in `assets`, which `bundling` joins. `options` and
`session_inputs` say where an exploration begins.
"""
