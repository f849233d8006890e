#' Journeys, leg by leg
#'
#' The fastest journeys of the window. `ttm-tools` finds them by a second search, which isn't proved, and compares each
#' duration with the engine's; a difference is a `ttm_refusal`. Meant for some hundreds of pairs.
#'
#' @inheritParams travel_time_matrix
#' @param suboptimal_minutes 0. Slower alternatives are refused.
#' @param shortest_path Logical. `TRUE`: the fastest journey of the window. `FALSE`: one option for each journey that is
#'   the fastest of some departure.
#' @param all_to_all Logical. `FALSE` pairs row by row; one row on either side is repeated; otherwise both must have the
#'   same number of rows. `TRUE` takes all pairs.
#' @param drop_geometry Logical. Return a data.table without lines.
#'
#' @return An sf object (EPSG:4326) or a data.table, of class `ttm_itineraries`, with a row for each leg and r5r's
#'   columns. A pair without a journey has no row, and is listed by [ttm_notes()].
#'
#' | Column | Type | Meaning |
#' |:--|:--|:--|
#' | `scenario` | character | only if the network has scenarios |
#' | `from_id`, `from_lat`, `from_lon` | | origin |
#' | `to_id`, `to_lat`, `to_lon` | | destination |
#' | `option` | integer | from 1 |
#' | `departure_time` | character | `"08:03:00"`, when the journey begins |
#' | `total_duration` | numeric | minutes, one decimal; of all legs and waits |
#' | `total_distance` | integer | metres |
#' | `segment` | integer | leg, from 1 |
#' | `mode` | character | `"WALK"`, `"BUS"`, .. |
#' | `segment_duration` | numeric | minutes, one decimal, without the wait |
#' | `wait` | numeric | minutes, one decimal, before boarding |
#' | `distance` | integer | metres; of a ride, along stops |
#' | `route` | character | short name, else long name, else `route_id`; `""` for a walk |
#' | `route_id`, `trip_id`, `from_stop_id`, `to_stop_id` | character | only in `ttmr`; `NA` for a walk or an end without a stop |
#' | `departure_seconds`, `segment_seconds`, `wait_seconds` | integer | only in `ttmr`: the exact times |
#' | `geometry` | LINESTRING | along streets, or from stop to stop |
#'
#' @inheritSection travel_time_matrix Errors
#' @examplesIf ttmr::ttm_available()
#' town <- ttm_sample()
#' network <- setup_ttm(town$data_path)
#' legs <- detailed_itineraries(network, town$homes[1, ], town$clinics[1, ],
#'   departure_datetime = "2026-05-04 08:30", time_window = 20, max_walk_time = 15
#' )
#' legs[, c("segment", "mode", "segment_duration", "wait", "route")]
#' plot(legs["mode"])
#' stop_ttm(network)
#' @export
detailed_itineraries <- function(network, origins, destinations, mode = c("WALK", "TRANSIT"), mode_egress = "WALK",
                                 departure_datetime, time_window = 10L, suboptimal_minutes = 0L, max_walk_time = 10,
                                 max_trip_duration = Inf, walk_speed = 4.8, max_rides = 4L, shortest_path = TRUE,
                                 all_to_all = FALSE, drop_geometry = FALSE, n_threads = Inf, verbose = FALSE,
                                 progress = FALSE, output_dir = NULL, ..., scenarios = NULL) {
  frame <- environment()
  check_value("detailed_itineraries", "suboptimal_minutes", suboptimal_minutes)
  question <- question_of("detailed_itineraries", frame, list(...))
  question$shortest <- flag(shortest_path, "shortest_path")
  from <- places_of(origins, "origins")
  to <- places_of(destinations, "destinations")
  pairs <- paired(length(from$id), length(to$id), flag(all_to_all, "all_to_all"))
  job <- job_of(question, from, to)
  bare <- flag(drop_geometry, "drop_geometry")
  found <- journeys_of(job, pairs)
  legs <- rbindlist(lapply(found, function(journey) legs_of(job, journey)))
  note_missing(job, pairs, found)
  legs <- ordered_legs(legs, job, pairs)
  result <- if (bare) legs[, -"geometry"] else as_lines(legs)
  finish_legs(result, job)
}

# Returns the positions of origin and destination of each pair.
paired <- function(from, to, is_all) {
  if (is_all) {
    return(data.table(from = rep(seq_len(from), each = to), to = rep(seq_len(to), from)))
  }
  if (from != to && from != 1L && to != 1L) {
    what <- paste("pairs rows of origins and destinations, but there are", from, "and", to)
    abort_argument("all_to_all", what, FALSE, "the same number of rows, one row on a side, or all_to_all = TRUE")
  }
  data.table(from = rep_len(seq_len(from), max(from, to)), to = rep_len(seq_len(to), max(from, to)))
}

# Returns the journeys that ttm-tools finds for the pairs. The search is compared with the engine's travel times.
journeys_of <- function(job, pairs) {
  question <- job$question
  recipe <- question$network$recipe
  path <- tempfile("ttmr-pairs-", fileext = ".csv")
  on.exit(unlink(path))
  fwrite(data.table(origin = job$origins$names[pairs$from], destination = job$destinations$names[pairs$to]), path)
  # The percentile 1 is the fastest departure if there are at most 100.
  all_options <- !question$shortest || question$window > 100L
  words <- c(
    "explain", job$walked$feed, unname(job$files), "--pairs", path, "--date", question$date,
    "--from", clock(question$minute), "--to", clock(question$minute + question$window - 1L),
    "--trips", max(1L, question$rides), "--walk", question$walk, "--share", "1",
    "--back", recipe$before, "--ahead", recipe$after, "--footpaths", job$walked$footpaths,
    "--program", program_at("ttm"), if (!is.null(recipe$streets)) c("--streets", recipe$streets),
    if (all_options) "--all-options"
  )
  object <- run_tools(words, if (question$progress) "Journeys" else FALSE, question$verbose)
  job$notes$rows <- c(job$notes$rows, list(notes_of(object)))
  engine <- if (length(job$files)) sub("[.]csv$", "", basename(job$files)) else "base"
  journeys <- Filter(function(it) !is.null(it$seconds) && it$seconds <= question$longest, object$journeys)
  journeys <- Filter(function(it) it$scenario %in% engine, journeys)
  journeys <- lapply(journeys, function(it) {
    it$scenario <- scenario_names(job)[[match(it$scenario, engine)]]
    it
  })
  if (question$shortest && all_options) fastest(journeys) else journeys
}

# Returns the fastest journey of each scenario and pair, as option 1.
fastest <- function(journeys) {
  keys <- vapply(journeys, function(it) paste(it$scenario, it$origin, it$destination, sep = "\r"), "")
  lapply(unname(split(journeys, factor(keys, unique(keys)))), function(options) {
    best <- options[[which.min(vapply(options, function(it) as.numeric(it$seconds), 0))]]
    best$option <- 1L
    best
  })
}

or_missing <- function(value) if (is.null(value)) NA_character_ else as.character(value)

# Returns a row for each leg of a journey.
legs_of <- function(job, journey) {
  legs <- journey$legs
  from <- match(journey$origin, job$origins$names)
  to <- match(journey$destination, job$destinations$names)
  number_of <- function(name) vapply(legs, function(leg) if (is.null(leg[[name]])) 0 else as.numeric(leg[[name]]), 0)
  text_of <- function(name) vapply(legs, function(leg) or_missing(leg[[name]]), "")
  seconds <- number_of("seconds")
  waits <- number_of("wait")
  route_id <- text_of("route_id")
  data.table(
    scenario = journey$scenario, from_number = from, to_number = to, from_id = job$origins$id[from],
    to_id = job$destinations$id[to], option = as.integer(if (is.null(journey$option)) 1L else journey$option),
    departure_time = full_clock(journey$departure), total_duration = round(journey$seconds / 60, 1),
    total_distance = as.integer(round(sum(number_of("metres")))), segment = seq_along(legs), mode = text_of("mode"),
    segment_duration = round(seconds / 60, 1), wait = round(waits / 60, 1),
    distance = as.integer(round(number_of("metres"))),
    route = route_id, route_id = route_id, trip_id = text_of("trip_id"), from_stop_id = text_of("from_stop_id"),
    to_stop_id = text_of("to_stop_id"), departure_seconds = as.integer(number_of("departure")),
    segment_seconds = as.integer(seconds), wait_seconds = as.integer(waits),
    geometry = lapply(legs, function(leg) line_of(leg$line))
  )
}

full_clock <- function(seconds) {
  seconds <- as.integer(seconds)
  sprintf("%02d:%02d:%02d", seconds %/% 3600L, seconds %/% 60L %% 60L, seconds %% 60L)
}

# Returns a line of longitudes and latitudes, empty if an end has no coordinates.
line_of <- function(points) {
  if (length(points) < 2L) {
    return(sf::st_linestring())
  }
  sf::st_linestring(do.call(rbind, lapply(points, function(point) as.numeric(unlist(point)))))
}

# Adds coordinates and route names, and sorts legs by scenario and pair.
ordered_legs <- function(legs, job, pairs) {
  network <- job$question$network
  if (!nrow(legs)) {
    legs <- legs_of(
      job,
      list(
        scenario = "", origin = job$origins$names[[1]], destination = job$destinations$names[[1]], seconds = 0,
        departure = 0, legs = list()
      )
    )
  }
  routes <- feed_table(network, "routes.txt", c("route_id", "route_short_name", "route_long_name"))
  shown <- ifelse(nzchar(routes$route_short_name), routes$route_short_name, routes$route_long_name)
  shown <- ifelse(nzchar(shown), shown, routes$route_id)
  legs$route <- ifelse(is.na(legs$route_id), "", shown[match(legs$route_id, routes$route_id)])
  pair <- match(paste(legs$from_number, legs$to_number), paste(pairs$from, pairs$to))
  order <- order(match(legs$scenario, scenario_names(job)), pair, legs$option, legs$segment)
  places <- lapply(list(from = job$origins, to = job$destinations), function(side) {
    sf::st_coordinates(sf::st_transform(suppressWarnings(sf::st_point_on_surface(shapes_of(side, network))), 4326))
  })
  for (end in c("from", "to")) {
    number <- legs[[paste0(end, "_number")]]
    legs[[paste0(end, "_lat")]] <- unname(places[[end]][number, 2])
    legs[[paste0(end, "_lon")]] <- unname(places[[end]][number, 1])
  }
  first <- c("from_id", "from_lat", "from_lon", "to_id", "to_lat", "to_lon")
  legs <- legs[order, c(
    if (!is.null(job$scenarios)) "scenario", first,
    setdiff(names(legs), c(first, "scenario", "from_number", "to_number"))
  ), with = FALSE]
  legs[]
}

# Notes the pairs that have no journey.
note_missing <- function(job, pairs, found) {
  reached <- vapply(found, function(it) paste(it$scenario, it$origin, it$destination, sep = "\r"), "")
  for (scenario in scenario_names(job)) {
    keys <- paste(scenario, job$origins$names[pairs$from], job$destinations$names[pairs$to], sep = "\r")
    lost <- which(!keys %in% reached)
    for (place in lost) {
      text <- paste0(
        "no journey from ", job$origins$id[pairs$from[place]], " to ", job$destinations$id[pairs$to[place]]
      )
      job$notes$rows <- c(
        job$notes$rows, list(note("unreachable", paste0(text, if (nzchar(scenario)) paste0(" in ", scenario)), 1L))
      )
    }
  }
}

as_lines <- function(legs) {
  table <- as.data.frame(legs[, -"geometry"])
  sf::st_sf(table, geometry = sf::st_sfc(legs$geometry, crs = 4326))
}

finish_legs <- function(result, job) {
  class(result) <- c("ttm_itineraries", class(result))
  finish(result, "ttm_itineraries", job, "min")
}
