#' Travel time matrix
#'
#' Percentiles of the travel time from each origin to each destination, over one departure in each minute of the window.
#' Every number is the engine's. Travel times run from the departure to the arrival, so waiting counts.
#'
#' @param network A `ttm_network` of [setup_ttm()]. r5r's `r5r_network =` and `r5r_core =` are accepted by name.
#' @param origins Places where journeys begin (see [ttmr]): sf, a data frame with `id`, `lon`, `lat`, or a character
#'   vector of `stop_id`s.
#' @param destinations Places where journeys end, likewise. The same object twice is one set of places.
#' @param mode Character, in any case. `"WALK"`, `"TRANSIT"`, or r5r's transit modes, of which only those named run.
#' @param mode_egress `"WALK"`.
#' @param departure_datetime First departure: POSIXct, or text such as `"2026-05-04 08:00"`. Whole minutes, as printed,
#'   by the feed's clock. No default. [trips_by_date()] shows on which days trips run.
#' @param time_window Whole minutes, from 1. 10 means ten departures: 08:00 to 08:09. The last is 23:59 at the latest.
#' @param percentiles 1 to 8 whole numbers of 1 to 100, in any order.
#' @param max_walk_time Minutes, 0 to 120. Limit of each walk: to a stop, between stops, from a stop.
#' @param max_trip_duration Minutes, or `Inf`. Slower journeys count as not reached.
#' @param walk_speed Kilometres per hour, 0.1 to 20.
#' @param max_rides Vehicles of a journey, 0 (on foot) to 8.
#' @param n_threads Threads of the engine; `Inf` takes all processors (64 at most).
#' @param verbose Logical. Print what the engine reports.
#' @param progress Logical. Show a bar with the number of origins done.
#' @param output_dir An existing folder, or `NULL`. Write one CSV file for each origin, named after its identifier
#'   (percent-encoded), instead of returning a table. For results larger than memory.
#' @param ... r5r's other arguments, refused or ignored by name: see [r5r_support()]. All arguments after `...` need
#'   their name.
#' @param scenarios Character. Scenarios of the network to compute; `NULL` computes all.
#' @param unit `"min"`: whole minutes, rounded down, as in r5r. `"s"`: exact seconds.
#' @param unreached Logical. Also return pairs that no percentile reaches. r5r leaves them out, too.
#'
#' @return A data.table of class `ttm_matrix`, sorted by origin and destination as given; or `output_dir`.
#'
#' | Column | Type | Meaning |
#' |:--|:--|:--|
#' | `scenario` | character | only if the network has scenarios; `"today"` first |
#' | `from_id` | as `origins$id` | origin |
#' | `to_id` | as `destinations$id` | destination |
#' | `travel_time_p50`, .. | integer | minutes or seconds of each percentile, ascending; `NA` if too few departures arrive |
#'
#' The attribute `ttm` has the question, the unit, the notes, and the versions of engine and toolchain. It survives row
#' filters and sorting, but not [merge()] or `dt[, .(..)]`.
#'
#' @section Differences from r5r:
#' Departures aren't sampled and schedules aren't drawn. `max_walk_time` limits each walk by itself, as in r5r, and also
#' walks between two vehicles. Trips of the service days before and after the date count, so trips past midnight do.
#' Percentiles are by nearest rank.
#'
#' @section Errors:
#' `ttm_argument_error`, `ttm_unsupported`, `ttm_refusal`, `ttm_limit` (more than 65,535 stops and places, or 4,000,000
#' walks: use a shorter `max_walk_time`, or fewer places at a time), `ttm_engine_error`. Warns with
#' `ttm_no_service_warning`, `ttm_unreachable_warning`, `ttm_ignored_warning`.
#'
#' @section Interrupting:
#' You can interrupt a call at any time. The network stays usable: the interrupted process is ended, and the next call
#' starts another one.
#'
#' @examplesIf ttmr::ttm_available()
#' town <- ttm_sample()
#' network <- setup_ttm(town$data_path)
#' times <- travel_time_matrix(
#'   network, town$homes, town$clinics,
#'   departure_datetime = "2026-05-04 08:00", time_window = 60, percentiles = c(25, 50, 75), max_walk_time = 15
#' )
#' times[travel_time_p50 <= 30, .(homes = .N), by = to_id]
#'
#' # exact seconds, between stops of the feed
#' travel_time_matrix(network, "B00170S", c("B00122N", "B00000N"), departure_datetime = "2026-05-04 08:00", unit = "s")
#'
#' # what no home reaches
#' ttm_notes(times)
#' stop_ttm(network)
#' @family travel times
#' @export
travel_time_matrix <- function(network, origins, destinations, mode = c("WALK", "TRANSIT"), mode_egress = "WALK",
                               departure_datetime, time_window = 10L, percentiles = 50L, max_walk_time = 10,
                               max_trip_duration = Inf, walk_speed = 4.8, max_rides = 4L, n_threads = Inf,
                               verbose = FALSE, progress = FALSE, output_dir = NULL, ..., scenarios = NULL,
                               unit = c("min", "s"), unreached = FALSE) {
  frame <- environment()
  question <- question_of("travel_time_matrix", frame, list(...))
  job <- job_of(question, places_of(origins, "origins"), places_of(destinations, "destinations"))
  kept <- collector(job, "from_id")
  in_blocks(job, length(job$destinations$id), function(chosen) {
    last <- question$minute + question$window - 1L
    times <- times_of(job, chosen, question$minute, last, question$percentiles)
    kept$add(
      Map(function(by_percentile, scenario) pairs_of(job, chosen, by_percentile, scenario), times, scenario_names(job))
    )
  })
  kept$end("ttm_matrix")
}

scenario_names <- function(job) if (is.null(job$scenarios)) "" else job$scenarios

# Returns the rows of some origins in one scenario: a column for each percentile.
pairs_of <- function(job, chosen, by_percentile, scenario) {
  question <- job$question
  to <- job$destinations$id
  table <- data.table(from_id = rep(job$origins$id[chosen], each = length(to)), to_id = rep(to, length(chosen)))
  for (place in seq_along(question$percentiles)) {
    name <- paste0("travel_time_p", question$percentiles[[place]])
    table[[name]] <- in_unit(by_percentile[[place]], question$unit)
  }
  if (!question$unreached) {
    table <- table[Reduce(`|`, lapply(by_percentile, function(seconds) !is.na(seconds))), ]
  }
  with_scenario(table, job, scenario)
}

# The columns of percentiles that a result has, named by percentile.
percentile_columns <- function(x) {
  columns <- grep("^travel_time_p[0-9]+$", names(x), value = TRUE)
  stats::setNames(columns, sub("^travel_time_p", "", columns))
}

# Returns the one column that `percentile` names.
one_percentile <- function(x, percentile) {
  columns <- percentile_columns(x)
  chosen <- if (is.null(percentile) && length(columns) == 1L) columns else columns[as.character(percentile)]
  if (length(chosen) != 1L || is.na(chosen)) {
    abort_argument("percentile", "does not name one percentile", percentile, paste(names(columns), collapse = ", "))
  }
  unname(chosen)
}

# Returns the rows of one scenario.
one_scenario <- function(x, scenario) {
  if (is.null(x[["scenario"]])) {
    return(x)
  }
  known <- unique(x[["scenario"]])
  scenario <- if (is.null(scenario)) known[[1]] else scenario
  if (!is_text(scenario) || !scenario %in% known) {
    abort_argument("scenario", "is not in the result", scenario, paste(known, collapse = ", "))
  }
  kept <- x[["scenario"]] == scenario # not within `[`, where `scenario` is the column
  x[kept, ]
}

#' @describeIn travel_time_matrix Number of pairs reached and least, median and greatest travel time, by scenario and
#'   percentile, as a data.table: `scenario`, `percentile`, `pairs`, `reached`, `min`, `median`, `max`, `unit`.
#' @param x,object A `ttm_matrix`.
#' @export
summary.ttm_matrix <- function(object, ...) {
  x <- as.data.table(object)
  columns <- percentile_columns(x)
  unit <- attr(object, "ttm")$unit
  scenario <- if (is.null(x[["scenario"]])) rep("", nrow(x)) else x[["scenario"]]
  rows <- lapply(unique(scenario), function(name) {
    part <- x[scenario == name, ]
    lapply(names(columns), function(percentile) {
      times <- part[[columns[[percentile]]]]
      known <- times[!is.na(times)]
      middle <- if (length(known)) as.numeric(stats::median(known)) else NA_real_
      data.table(
        scenario = name, percentile = as.integer(percentile), pairs = length(times), reached = length(known),
        min = if (length(known)) min(known) else NA_integer_, median = middle,
        max = if (length(known)) max(known) else NA_integer_, unit = if (is.null(unit)) NA_character_ else unit
      )
    })
  })
  table <- rbindlist(unlist(rows, recursive = FALSE))
  if (is.null(x[["scenario"]])) table[, -"scenario"] else table[]
}

#' @describeIn travel_time_matrix A numeric matrix with origins as rows and destinations as columns, `NA` if not
#'   reached.
#' @param percentile Which percentile; needed if there are several.
#' @param scenario Which scenario; default: the first.
#' @export
as.matrix.ttm_matrix <- function(x, percentile = NULL, scenario = NULL, ...) {
  column <- one_percentile(x, percentile)
  asked <- attr(x, "ttm")$question
  part <- as.data.table(one_scenario(x, scenario))
  from <- if (is.null(asked$origins)) unique(part$from_id) else asked$origins
  to <- if (is.null(asked$destinations)) unique(part$to_id) else asked$destinations
  result <- matrix(NA_real_, length(from), length(to), dimnames = list(as.character(from), as.character(to)))
  result[cbind(match(part$from_id, from), match(part$to_id, to))] <- as.numeric(part[[column]])
  result
}
