#' Accessibility: opportunities within reach
#'
#' The sum of opportunities at all destinations, each weighted by its travel time. `step` with whole numbers is the
#' engine's own, proved access and needs no matrix; all else is computed from the exact seconds, block by block.
#'
#' @inheritParams travel_time_matrix
#' @param destinations Places with numeric columns.
#' @param opportunities_colnames Character. Columns of `destinations` to count: 0 or more, not missing.
#' @param decay_function `"step"` (1 up to the cutoff), `"exponential"` (half at the cutoff), `"linear"` (falls within
#'   `decay_value` minutes around the cutoff), `"logistic"` (S-shaped, `decay_value` is the standard deviation in
#'   minutes). Formulas are R5's. r5r's `"fixed_exponential"` is refused.
#' @param cutoffs Minutes, any number of them, up to 10,000. Needed.
#' @param decay_value Minutes; `linear` and `logistic` need it, the others refuse it.
#'
#' @return A data.table of class `ttm_access`, with r5r's columns; or `output_dir`.
#'
#' | Column | Type | Meaning |
#' |:--|:--|:--|
#' | `scenario` | character | only if the network has scenarios |
#' | `id` | as `origins$id` | origin |
#' | `opportunity` | character | one of `opportunities_colnames` |
#' | `percentile` | integer | |
#' | `cutoff` | numeric | minutes |
#' | `accessibility` | numeric | in units of the opportunity |
#'
#' Every origin has a row, also those that reach nothing (0). A travel time equal to the cutoff counts, so a cutoff of
#' 30 ends at 30:00. If you count from [travel_time_matrix()] in whole minutes, `<= 30` takes times up to 30:59.
#'
#' The columns of [travel_time_matrix()] and the destinations are also what the CRAN package \pkg{accessibility} takes:
#' for competition, cost to the closest, Gini, Palma and Theil, use that package.
#'
#' @inheritSection travel_time_matrix Errors
#' @examplesIf ttmr::ttm_available()
#' town <- ttm_sample()
#' network <- setup_ttm(town$data_path)
#' access <- accessibility(network, town$homes, town$jobs, opportunities_colnames = "jobs",
#'   departure_datetime = "2026-05-04 08:00", time_window = 60, cutoffs = c(30, 45), max_walk_time = 15
#' )
#' access[, .(mean = mean(accessibility)), by = cutoff]
#' gradual <- accessibility(network, town$homes, town$jobs, opportunities_colnames = "jobs",
#'   departure_datetime = "2026-05-04 08:00", decay_function = "logistic", cutoffs = 30, decay_value = 10
#' )
#' stop_ttm(network)
#' @export
accessibility <- function(network, origins, destinations, opportunities_colnames = "opportunities",
                          mode = c("WALK", "TRANSIT"), mode_egress = "WALK", departure_datetime, time_window = 10L,
                          percentiles = 50L, decay_function = c("step", "exponential", "linear", "logistic"),
                          cutoffs = NULL, decay_value = NULL, max_walk_time = 10, max_trip_duration = Inf,
                          walk_speed = 4.8, max_rides = 4L, n_threads = Inf, verbose = FALSE, progress = FALSE,
                          output_dir = NULL, ..., scenarios = NULL) {
  frame <- environment()
  question <- question_of("accessibility", frame, list(...))
  question$unit <- "s"
  decay <- decay_of(decay_function, decay_value)
  limits <- cutoffs_of(cutoffs)
  from <- places_of(origins, "origins")
  to <- places_of(destinations, "destinations")
  chances <- opportunities_of(destinations, opportunities_colnames)
  job <- job_of(question, from, to)
  kept <- collector(job, "id")
  is_engines <- decay$name == "step" && all(vapply(chances, is_whole, NA))
  in_blocks(job, if (is_engines) 8L else length(to$id), function(chosen) {
    count <- if (is_engines) proved_access else weighted_access
    kept$add(count(job, chosen, chances, limits, decay))
  })
  kept$end("ttm_access")
}

MOST_OPPORTUNITIES <- 2^32 - 1 # of a place, as ttm reads them

# Whether the engine can count these opportunities.
is_whole <- function(numbers) all(numbers == floor(numbers) & numbers <= MOST_OPPORTUNITIES) && sum(numbers) < 2^53

# Returns a decay function by its name and its value.
decay_of <- function(name, value) {
  choices <- c("step", "exponential", "linear", "logistic")
  if (identical(tolower(name), "fixed_exponential")) {
    abort_unsupported("decay_function", name, "use \"exponential\", whose cutoff is the half-life")
  }
  name <- one_of(name, "decay_function", choices)
  needs_value <- name %in% c("linear", "logistic")
  if (needs_value) {
    if (is.null(value)) {
      abort_argument("decay_value", paste("is needed for", name), NA, "minutes above 0")
    }
    if (!is_number(value) || value <= 0 || value > 10000) {
      abort_argument("decay_value", "is out of range", value, "minutes above 0, up to 10000")
    }
  } else if (!is.null(value)) {
    abort_argument("decay_value", paste("has no meaning for", name), value, "NULL")
  }
  list(name = name, value = value)
}

# Returns the numeric columns of the destinations, named.
opportunities_of <- function(destinations, names) {
  if (!is.data.frame(destinations)) {
    abort_argument("destinations", "has no columns of opportunities", NA, "an sf object or a data frame with them")
  }
  if (!is.character(names) || !length(names) || anyNA(names) || anyDuplicated(names)) {
    abort_argument("opportunities_colnames", "is no vector of names", NA, "names of numeric columns of destinations")
  }
  columns <- lapply(stats::setNames(names, names), function(name) {
    numbers <- destinations[[name]]
    if (!is.numeric(numbers)) {
      what <- if (is.null(numbers)) "is no column of destinations" else "is no numeric column"
      abort_argument("opportunities_colnames", what, name, "numeric columns of destinations")
    }
    wrong <- which(is.na(numbers) | numbers < 0 | !is.finite(numbers))
    if (length(wrong)) {
      abort_argument(
        paste0("destinations$", name), paste("is not allowed in row", wrong[[1]]), numbers[[wrong[[1]]]],
        "numbers from 0"
      )
    }
    as.numeric(numbers)
  })
  columns
}

# Cutoffs in whole seconds, none above the longest journey.
limit_seconds <- function(job, limits) pmin(round(limits * 60), job$question$longest)

# Returns the engine's own access of some origins, without a matrix: a table for each scenario.
proved_access <- function(job, chosen, chances, limits, decay = NULL) {
  question <- job$question
  seconds <- limit_seconds(job, limits)
  asked <- sort(unique(seconds))
  groups <- split(asked, (seq_along(asked) - 1L) %/% 8L)
  percentiles <- question$percentiles
  words <- words_of(job, question$minute, question$minute + question$window - 1L, percentiles)
  rows <- rows_of(job, chosen, percentiles)
  found <- lapply(chances, function(numbers) {
    files <- list(
      origins = data.table(stop_id = job$origins$names[chosen]), destinations = data.table(stop_id = character()),
      opportunities = data.table(
        stop_id = job$destinations$names, opportunities = format(numbers, scientific = FALSE, trim = TRUE)
      )
    )
    columns <- lapply(groups, function(group) {
      body <- ask_job(
        job, c(words, "--within", paste(format(group, scientific = FALSE, trim = TRUE), collapse = ",")), files
      )
      read_numbers(body, integer(), 3L + seq_along(group), 0L, rows)
    })
    access <- do.call(cbind, columns)
    lapply(seq_along(limits), function(place) {
      by_scenario(job, access[, match(seconds[[place]], asked), drop = FALSE], length(chosen), percentiles)
    })
  })
  access_tables(
    job, chosen, limits, names(chances),
    function(scenario, name, percentile, place) found[[name]][[place]][[scenario]][[percentile]]
  )
}

# Returns access with weights that fall with the exact seconds: a table for each scenario.
weighted_access <- function(job, chosen, chances, limits, decay) {
  question <- job$question
  times <- times_of(job, chosen, question$minute, question$minute + question$window - 1L, question$percentiles)
  count <- length(job$destinations$names)
  access_tables(job, chosen, limits, names(chances), function(scenario, name, percentile, place) {
    seconds <- matrix(times[[scenario]][[percentile]], ncol = count, byrow = TRUE)
    weights <- weights_of(seconds, round(limits[[place]] * 60), decay)
    weights[is.na(weights)] <- 0
    as.vector(weights %*% chances[[name]])
  })
}

# Returns the weight of each travel time, with R5's formulas; `limit` is in seconds.
weights_of <- function(seconds, limit, decay) {
  width <- if (is.null(decay$value)) NA_real_ else decay$value * 60
  switch(decay$name,
    step = as.numeric(seconds <= limit) + 0 * seconds,
    exponential = if (limit > 0) 2^(-seconds / limit) else as.numeric(seconds <= 0) + 0 * seconds,
    linear = pmin(pmax((limit + width / 2 - seconds) / width, 0), 1),
    logistic = {
      scale <- width * sqrt(3) / pi
      (1 + exp(-limit / scale)) / (1 + exp((seconds - limit) / scale))
    }
  )
}

# Returns a table for each scenario: by origin, opportunity, percentile and cutoff.
access_tables <- function(job, chosen, limits, names, value) {
  percentiles <- job$question$percentiles
  lapply(seq_along(scenario_names(job)), function(scenario) {
    parts <- lapply(names, function(name) {
      lapply(seq_along(percentiles), function(percentile) {
        lapply(seq_along(limits), function(place) {
          data.table(
            origin_number = seq_along(chosen), id = job$origins$id[chosen], opportunity = name,
            percentile = percentiles[[percentile]],
            cutoff = limits[[place]], accessibility = value(scenario, name, percentile, place)
          )
        })
      })
    })
    table <- rbindlist(unlist(unlist(parts, recursive = FALSE), recursive = FALSE))
    # `order` is stable: opportunities, percentiles and cutoffs stay in their order.
    table <- table[order(table$origin_number), -"origin_number"]
    with_scenario(table, job, scenario_names(job)[[scenario]])
  })
}

#' @describeIn accessibility A data.table by scenario, opportunity, percentile and cutoff: `origins`, `min`, `mean`,
#'   `median`, `max`.
#' @param object A `ttm_access`.
#' @export
summary.ttm_access <- function(object, ...) {
  x <- as.data.table(object)
  by <- intersect(c("scenario", "opportunity", "percentile", "cutoff"), names(x))
  x[, list(
    origins = .N, min = min(accessibility), mean = mean(accessibility),
    median = as.numeric(stats::median(accessibility)),
    max = max(accessibility)
  ), by = by]
}
