#' Travel time of each departure
#'
#' One row for each pair and departure minute, so you can draw the distribution behind a percentile. The engine answers
#' one question for each minute; percentiles don't apply.
#'
#' @inheritParams travel_time_matrix
#' @param time_window Whole minutes: as many departures, and as many rows for each pair.
#' @param breakdown `FALSE`. r5r's `TRUE` is refused: [detailed_itineraries()] has the parts of a journey.
#'
#' @return A data.table of class `ttm_expanded`:
#'
#' | Column | Type | Meaning |
#' |:--|:--|:--|
#' | `scenario` | character | only if the network has scenarios |
#' | `from_id`, `to_id` | as given | origin and destination |
#' | `departure_time` | character | `"08:00:00"`, by the feed's clock |
#' | `draw_number` | integer | always 1: nothing is drawn; kept so that r5r scripts run |
#' | `total_time` | integer | minutes, rounded down, or seconds; `NA` if this departure doesn't arrive |
#'
#' r5r's column `routes` is left out, because the engine returns times, not journeys.
#'
#' @inheritSection travel_time_matrix Errors
#' @examplesIf ttmr::ttm_available()
#' town <- ttm_sample()
#' network <- setup_ttm(town$data_path)
#' each <- expanded_travel_time_matrix(
#'   network, town$homes[1:3, ], town$clinics, departure_datetime = "2026-05-04 08:00", time_window = 30, unit = "s"
#' )
#' # the median by nearest rank is what travel_time_matrix() returns
#' each[, .(travel_time_p50 = sort(total_time, na.last = TRUE)[15]), by = .(from_id, to_id)]
#' stop_ttm(network)
#' @family travel times
#' @export
expanded_travel_time_matrix <- function(network, origins, destinations, mode = c("WALK", "TRANSIT"),
                                        mode_egress = "WALK", departure_datetime, time_window = 10L,
                                        breakdown = FALSE, max_walk_time = 10, max_trip_duration = Inf,
                                        walk_speed = 4.8, max_rides = 4L, n_threads = Inf, verbose = FALSE,
                                        progress = FALSE, output_dir = NULL, ..., scenarios = NULL,
                                        unit = c("min", "s"), unreached = FALSE) {
  frame <- environment()
  check_value("expanded_travel_time_matrix", "breakdown", breakdown)
  question <- question_of("expanded_travel_time_matrix", frame, list(...))
  job <- job_of(question, places_of(origins, "origins"), places_of(destinations, "destinations"))
  kept <- collector(job, "from_id")
  minutes <- question$minute + seq_len(question$window) - 1L
  in_blocks(job, length(job$destinations$id) * length(minutes), function(chosen) {
    asked <- lapply(minutes, function(minute) times_of(job, chosen, minute, minute, 100L))
    kept$add(lapply(seq_along(scenario_names(job)), function(place) {
      each <- lapply(asked, function(times) times[[place]][[1]])
      departures_of(job, chosen, each, scenario_names(job)[[place]])
    }))
  })
  kept$end("ttm_expanded")
}

# Returns a row for each pair and departure of some origins; `each` has the seconds of each departure.
departures_of <- function(job, chosen, each, scenario) {
  question <- job$question
  count <- length(each)
  to <- job$destinations$id
  seconds <- as.vector(t(matrix(unlist(each), ncol = count)))
  minutes <- question$minute + seq_len(count) - 1L
  pairs <- length(to) * length(chosen)
  table <- data.table(
    from_id = rep(job$origins$id[chosen], each = length(to) * count),
    to_id = rep(rep(to, each = count), length(chosen)),
    departure_time = rep(paste0(clock(minutes), ":00"), pairs), draw_number = rep(1L, pairs * count),
    total_time = in_unit(seconds, question$unit)
  )
  if (!question$unreached) {
    reached <- rowSums(!is.na(matrix(seconds, ncol = count, byrow = TRUE))) > 0L
    table <- table[rep(reached, each = count), ]
  }
  with_scenario(table, job, scenario)
}
