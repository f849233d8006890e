# A scenario: `name`, `actions` (lists with the keys of a plan file: texts, numbers and logicals are single values,
# arrays are lists), and `stops` (new stops: id, name, lat, lon).

ROUTE_TYPES <- c(
  tram = 0L, metro = 1L, rail = 2L, bus = 3L, ferry = 4L, cable_tram = 5L, aerial = 6L, funicular = 7L,
  trolleybus = 11L,
  monorail = 12L
)

no_stops <- function() data.table(id = character(), name = character(), lat = numeric(), lon = numeric())

#' Change a timetable
#'
#' `scenario()` begins an empty scenario. Each function returns a new one with an action added, so they chain with `|>`,
#' and a line may be run twice. Nothing is checked against a feed until [with_scenarios()] takes the scenario: then an
#' action that changes nothing, or names something unknown, is a `ttm_refusal` that says which and the nearest name.
#'
#' @param name Text. Name of the scenario in results; not `"today"` or `"base"`.
#' @param scenario A `ttm_scenario`.
#' @param routes,trips,stops Character. Identifiers of the feed, or of lines added before. For `add_line()` and
#'   `extend_route()`, `stops` is a character vector of `stop_id`s in order, or sf points in order (any projection), of
#'   which those without a known `id` become new stops.
#' @param route Text. One `route_id`.
#' @param modes Character: `"tram"`, `"metro"`, `"rail"`, `"bus"`, `"ferry"`, `"cable_tram"`, `"aerial"`, `"funicular"`,
#'   `"trolleybus"`, `"monorail"`.
#' @param by Duration with its unit, such as `"5 min"` or `"-90 s"`, or a difftime. Later, or earlier if negative.
#' @param every Duration. Headway.
#' @param start,end Times of day, `"HH:MM"` or `"HH:MM:SS"`; `start` is included, `end` isn't. Up to `"167:59:59"`, for
#'   trips past midnight.
#' @param direction The feed's `direction_id`, 0 or 1; `NULL` takes both.
#' @param pattern Text. A `trip_id`: only the trips that call at the same stops.
#' @param service Text. A `service_id`: only its trips.
#' @param factor Number above 0. Multiplies run times; 0.85 is faster.
#' @param dwell Duration. For `change_speed()`, added to each stop time; else the stop time at stops between the ends.
#' @param between Two `stop_id`s between which the speed changes; `NULL` is everywhere.
#' @param departures List of `c(first, last, every)`, such as `list(c("05:30", "23:30", "10 min"))`; `last` is included.
#' @param kmh Kilometres per hour along straight lines. Give this, or `run_times`.
#' @param run_times Durations from stop to stop; one less than stops (for `extend_route()`, one for each stop).
#' @param both_ways Logical. Also runs back.
#' @param mode Text. One of `modes`.
#' @param days `"daily"`, `"weekdays"`, names of days such as `"monday tuesday"`, or a service of the feed.
#' @param after,before A `stop_id`: trips that end at `after` go on (or end there, for `cut_route()`); trips that begin
#'   at `before` begin earlier (or begin there). Give one.
#'
#' @return A `ttm_scenario`.
#' @section Errors:
#' `ttm_argument_error` for a bare number as duration, a time that is no time of day, or both of `kmh` and `run_times`.
#'
#' @examples
#' change <- scenario("change") |>
#'   remove_routes("L0013") |>
#'   set_headway("L0010", every = "5 min", start = "06:00", end = "20:00") |>
#'   shift_route("L0032", by = "2 min") |>
#'   add_line("T1", c("B00232N", "B00144N", "B00060N", "B00000N"),
#'     departures = list(c("05:30", "23:30", "10 min")), kmh = 24, dwell = "20 s", mode = "tram"
#'   )
#' change
#' @export
scenario <- function(name) {
  if (!is_text(name) || name %in% c("today", "base")) {
    abort_argument("name", "is no name of a scenario", name, "a text other than \"today\" and \"base\"")
  }
  structure(list(name = name, actions = list(), stops = no_stops()), class = "ttm_scenario")
}

# Returns the scenario with one more action; keys without a value are left out.
with_action <- function(scenario, do, ..., new = NULL) {
  if (!inherits(scenario, "ttm_scenario")) {
    abort_argument("scenario", "is no scenario", NA, "what scenario() or another function of scenarios returns")
  }
  action <- c(list(do = do), Filter(Negate(is.null), list(...)))
  scenario$actions <- c(scenario$actions, list(action))
  scenario$stops <- unique(rbindlist(list(scenario$stops, new)))
  scenario
}

# Returns texts as one value, or as an array if there are several.
names_of <- function(value, argument) {
  value <- if (is.factor(value)) as.character(value) else value
  if (!is.character(value) || !length(value) || anyNA(value) || any(!nzchar(value))) {
    abort_argument(argument, "names nothing", NA, "identifiers of the feed")
  }
  if (length(value) == 1L) value else as.list(value)
}

direction_of <- function(direction) if (!is.null(direction)) whole(direction, "direction", 0, 1)

#' @describeIn scenario Without the trips of these routes.
#' @export
remove_routes <- function(scenario, routes) {
  with_action(scenario, "remove_route", route = names_of(routes, "routes"))
}

#' @describeIn scenario Without the routes of these modes.
#' @export
remove_modes <- function(scenario, modes) {
  wrong <- setdiff(modes, names(ROUTE_TYPES))
  if (!is.character(modes) || !length(modes) || length(wrong)) {
    abort_argument("modes", "is not a mode", wrong, paste(names(ROUTE_TYPES), collapse = ", "))
  }
  with_action(scenario, "remove_mode", mode = names_of(unique(modes), "modes"))
}

#' @describeIn scenario Without these trips.
#' @export
remove_trips <- function(scenario, trips) {
  with_action(scenario, "remove_trip", trip = names_of(trips, "trips"))
}

#' @describeIn scenario Trips, of one route or all, no longer call there; other times stay.
#' @export
remove_stops <- function(scenario, stops, route = NULL) {
  route <- if (!is.null(route)) names_of(route, "route")
  with_action(scenario, "remove_stop", stop = names_of(stops, "stops"), route = route)
}

#' @describeIn scenario All times of a route later or earlier.
#' @export
shift_route <- function(scenario, route, by, direction = NULL) {
  with_action(
    scenario, "shift_route", route = names_of(route, "route"), direction = direction_of(direction),
    seconds = one_duration(by, "by")
  )
}

#' @describeIn scenario All times of these trips later or earlier.
#' @export
shift_trips <- function(scenario, trips, by) {
  with_action(scenario, "shift_trip", trip = names_of(trips, "trips"), seconds = one_duration(by, "by"))
}

one_duration <- function(value, argument, least = -Inf) {
  seconds <- duration_of(value, argument, least)
  if (length(seconds) != 1L) {
    abort_argument(argument, "is not one duration", NA, "one duration")
  }
  seconds
}

#' @describeIn scenario Copies of a typical trip replace the trips that leave from `start` to before `end`.
#' @export
set_headway <- function(scenario, route, every, start, end, direction = NULL, pattern = NULL, service = NULL) {
  with_action(
    scenario, "headway", route = names_of(route, "route"), direction = direction_of(direction), pattern = pattern,
    service = service, every = one_duration(every, "every", 1), from = time_of_day(start, "start"),
    to = time_of_day(end, "end")
  )
}

#' @describeIn scenario All trips stay, and one more leaves halfway to the next.
#' @export
double_frequency <- function(scenario, route, start = "00:00", end = "30:00", direction = NULL) {
  with_action(
    scenario, "headway", route = names_of(route, "route"), direction = direction_of(direction), times = 2L,
    from = time_of_day(start, "start"), to = time_of_day(end, "end")
  )
}

#' @describeIn scenario Run times times `factor`, stop times plus `dwell`.
#' @export
change_speed <- function(scenario, route, factor = 1, dwell = "0 s", between = NULL, direction = NULL) {
  seconds <- one_duration(dwell, "dwell")
  if (!is_number(factor) || factor <= 0) {
    abort_argument("factor", "is out of range", factor, "a number above 0")
  }
  if (!is.null(between) && (!is.character(between) || length(between) != 2L)) {
    abort_argument("between", "is no pair of stops", NA, "two stop_ids, or NULL")
  }
  if (factor == 1 && seconds == 0) {
    abort_argument("factor", "or dwell is needed", factor, "a factor other than 1, or a dwell other than \"0 s\"")
  }
  add <- function(scenario, ...) {
    with_action(
      scenario, "speed", route = names_of(route, "route"), direction = direction_of(direction), from_stop = between[1],
      to_stop = between[2], ...
    )
  }
  if (factor != 1) {
    scenario <- add(scenario, factor = factor)
  }
  if (seconds != 0) add(scenario, dwell = seconds) else scenario
}

# Returns the stops of a line: their identifiers and, of sf points, a table of those that may be new.
stops_along <- function(stops, route, argument = "stops") {
  if (is.character(stops)) {
    return(list(ids = names_of(stops, argument), new = NULL))
  }
  if (!inherits(stops, "sf")) {
    abort_argument(argument, "is not of a known kind", NA, "a character vector of stop_ids, or sf points in order")
  }
  id <- if (is.null(stops[["id"]])) rep(NA_character_, nrow(stops)) else as.character(stops[["id"]])
  id <- ifelse(is.na(id) | !nzchar(id), paste0(route, "-", seq_along(id)), id)
  stops[["id"]] <- id
  places <- points_of_sf(stops, identifiers(id, argument, "row"), argument)
  name <- if (is.null(stops[["name"]])) id else as.character(stops[["name"]])
  list(
    ids = names_of(id, argument),
    new = data.table(id = id, name = name, lat = unname(places$lat), lon = unname(places$lon))
  )
}

# Returns `seconds` or `speed` of a way, of which one must be given.
pace_of <- function(kmh, run_times, count) {
  if (is.null(kmh) == is.null(run_times)) {
    abort_argument("kmh", "or run_times is needed, but not both", NA, "kmh = 24, or run_times = c(\"2 min\", ..)")
  }
  if (!is.null(kmh)) {
    return(list(speed = within_range(kmh, "kmh", 0.1, 1000, "km/h"), seconds = NULL))
  }
  seconds <- duration_of(run_times, "run_times", 0)
  if (length(seconds) != count) {
    abort_argument("run_times", paste("has", length(seconds), "durations"), NA, paste(count, "durations"))
  }
  list(speed = NULL, seconds = as.list(seconds))
}

departures_in <- function(departures) {
  if (!is.list(departures) || !length(departures)) {
    abort_argument("departures", "is no list of periods", NA, "list(c(\"05:30\", \"23:30\", \"10 min\"))")
  }
  lapply(departures, function(period) {
    if (!is.character(period) || length(period) != 3L) {
      abort_argument(
        "departures", "has a period that is not first, last and headway", NA, "c(\"05:30\", \"23:30\", \"10 min\")"
      )
    }
    first <- time_of_day(period[[1]], "departures")
    list(
      first = first, last = time_of_day(period[[2]], "departures"), every = duration_of(period[[3]], "departures", 1)
    )
  })
}

#' @describeIn scenario A new route along `stops`.
#' @export
add_line <- function(scenario, route, stops, departures, kmh = NULL, run_times = NULL, dwell = "0 s",
                     both_ways = TRUE, mode = "bus", days = "daily") {
  if (!is_text(route)) {
    abort_argument("route", "is no identifier", NA, "a text that no route has")
  }
  way <- stops_along(stops, route)
  pace <- pace_of(kmh, run_times, length(way$ids) - 1L)
  mode <- one_of(mode, "mode", names(ROUTE_TYPES))
  weekdays <- c("monday", "tuesday", "wednesday", "thursday", "friday", "saturday", "sunday")
  named <- strsplit(trimws(days[[1]]), "[ ,]+")[[1]]
  running <- if (days[[1]] %in% c(
    "daily", "weekdays", "weekend"
  )) days[[1]] else if (all(named %in% weekdays)) as.list(named)
  dwell <- one_duration(dwell, "dwell", 0)
  with_action(
    scenario, "add_line", route = route, type = ROUTE_TYPES[[mode]], stops = way$ids, seconds = pace$seconds,
    speed = pace$speed, dwell = if (dwell > 0) dwell, both = flag(both_ways, "both_ways"),
    departures = departures_in(departures),
    days = running, service = if (is.null(running)) days[[1]], new = way$new
  )
}

#' @describeIn scenario Trips go on to more stops, or begin earlier.
#' @export
extend_route <- function(scenario, route, stops, after = NULL, before = NULL, kmh = NULL, run_times = NULL,
                         dwell = "0 s", direction = NULL) {
  way <- stops_along(stops, route)
  way$ids <- as.list(unlist(way$ids))
  pace <- pace_of(kmh, run_times, length(way$ids))
  one_end(after, before)
  dwell <- one_duration(dwell, "dwell", 0)
  with_action(
    scenario, "extend", route = names_of(route, "route"), direction = direction_of(direction), after = after,
    before = before,
    stops = way$ids, seconds = pace$seconds, speed = pace$speed, dwell = if (dwell > 0) dwell, new = way$new
  )
}

# Raises `ttm_argument_error` unless one of both ends is named.
one_end <- function(after, before) {
  if (is.null(after) == is.null(before) || !is_text(c(after, before))) {
    abort_argument("after", "or before is needed, but not both", NA, "one stop_id")
  }
}

#' @describeIn scenario Trips end or begin at a stop on their way.
#' @export
cut_route <- function(scenario, route, after = NULL, before = NULL, direction = NULL) {
  one_end(after, before)
  with_action(
    scenario, "cut", route = names_of(route, "route"), direction = direction_of(direction), after = after,
    before = before
  )
}

#' @describeIn scenario Prints the actions, one on each line.
#' @param x A `ttm_scenario`.
#' @param ... Not used.
#' @export
print.ttm_scenario <- function(x, ...) {
  cat("<ttm_scenario> ", x$name, "\n", sep = "")
  for (number in seq_along(x$actions)) {
    action <- x$actions[[number]]
    keys <- action[names(action) != "do"]
    shown <- paste(names(keys), vapply(keys, toml_value, ""), sep = " = ", collapse = ", ")
    cat(sprintf("%3d %s: %s\n", number, action$do, shown))
  }
  invisible(x)
}

#' Add scenarios to a network
#'
#' @param network A `ttm_network`.
#' @param ... Scenarios of [scenario()] or [read_plan()], 14 at most, each independent of the others.
#' @return A `ttm_network` that also answers for these scenarios. `network` itself is unchanged. [ttm_notes()] says what
#'   each action did: trips, stops and stop times before and after.
#' @section Errors:
#' `ttm_refusal` with the action that changes nothing or names something unknown; `ttm_limit`.
#' @examplesIf ttmr::ttm_available()
#' town <- ttm_sample()
#' network <- setup_ttm(town$data_path)
#' planned <- with_scenarios(network, scenario("no13") |> remove_routes("L0013"))
#' ttm_notes(planned)
#' travel_time_matrix(planned, town$homes, town$clinics, departure_datetime = "2026-05-04 08:00")
#' stop_ttm(network, planned)
#' @export
with_scenarios <- function(network, ...) {
  network <- assure_prepared(as_network(network))
  added <- list(...)
  if (length(added) == 1L && is.list(added[[1]]) && !inherits(added[[1]], "ttm_scenario")) {
    added <- added[[1]]
  }
  for (one in added) {
    if (!inherits(one, "ttm_scenario")) {
      abort_argument("...", "has something that is no scenario", NA, "scenarios of scenario() or read_plan()")
    }
  }
  plan <- unname(c(network$recipe$plan, added))
  names <- vapply(plan, function(one) one$name, "")
  if (anyDuplicated(names)) {
    abort_argument("...", "has two scenarios of one name", names[[anyDuplicated(names)]], "unique names")
  }
  planned <- network_of_recipe(network$recipe)
  planned$recipe$plan <- plan
  planned$feed <- network$feed
  planned$feed_key <- network$feed_key
  planned$notes <- network$notes
  if (length(plan)) {
    prepare_plan(planned, FALSE)
  }
  planned
}

# Carries out the scenarios of a network, or finds the result in the cache.
prepare_plan <- function(network, show) {
  plan <- network$recipe$plan
  known <- feed_table(network, "stops.txt", "stop_id", feed_folder(network))$stop_id
  text <- toml_of(plan, known)
  make <- function(folder) {
    path <- file.path(folder, "plan.toml")
    writeLines(enc2utf8(text), path, useBytes = TRUE)
    out <- file.path(folder, "plan")
    object <- run_tools(c("scenarios", feed_folder(network), path, "--out", out), show)
    names <- c("today", vapply(plan, function(one) one$name, ""))
    files <- file.path("plan", "scenarios", basename(unlist(object$files)))
    list(names = names, files = stats::setNames(files, names), actions = object$actions, notes = notes_of(object))
  }
  key <- digest_of(network$feed_key, text, tools_version())
  entry <- cached(cache_folder(network$recipe$is_temporary), "plans", key, make)
  network$plan <- c(entry, list(key = key))
  network$notes <- rbindlist(c(list(network$notes, entry$object$notes), lapply(entry$object$actions, note_of_action)))
  invisible(network)
}

# Says what an action did, in one note.
note_of_action <- function(action) {
  count <- function(what) paste0(
    what, " ", action[[paste0(gsub(" ", "_", what), "_before")]], " to ",
    action[[paste0(gsub(" ", "_", what), "_after")]]
  )
  about <- paste(unlist(action$about), collapse = ", ")
  text <- paste0(
    action$scenario, ": ", action$number, " ", action$do, " ", about, ": ", count("trips"), ", ", count("stops"), ", ",
    count("stop times")
  )
  text <- paste(c(text, unlist(action$notes)), collapse = "; ")
  affected <- sum(unlist(action[c("removed", "shifted", "changed", "added")]))
  note("scenario", text, as.integer(affected))
}
