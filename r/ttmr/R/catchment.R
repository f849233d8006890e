#' Who can reach a place
#'
#' `who_reaches()` returns all origins with their travel time *to* one or a few places: the catchment of a clinic, a
#' school or a station. Times are of journeys to the place that depart in the window, not to an arrival time.
#'
#' @inheritParams travel_time_matrix
#' @param places Places to be reached, usually one.
#' @param origins Places where people start.
#' @param people_colnames Character. Numeric columns of `origins` that `summary()` adds up.
#' @param cutoffs Minutes. Limits for `summary()` and `plot()`.
#'
#' @return An sf object of class `ttm_catchment`, in the projection of `origins` and with their columns, sorted as
#'   given, with all origins for each place. If `origins` is a data frame or holds `stop_id`s, the geometry is points in
#'   EPSG:4326. Added columns:
#'
#' | Column | Type | Meaning |
#' |:--|:--|:--|
#' | `scenario` | character | only if the network has scenarios |
#' | `to_id` | as `places$id` | the place |
#' | `travel_time_p50`, .. | integer | as in [travel_time_matrix()]; `NA` if not reached |
#'
#' @inheritSection travel_time_matrix Errors
#' @examplesIf ttmr::ttm_available()
#' town <- ttm_sample()
#' network <- setup_ttm(town$data_path)
#' north <- town$clinics[town$clinics$id == "north", ]
#' catchment <- who_reaches(network, north, town$homes,
#'   departure_datetime = "2026-05-04 08:00", time_window = 60, people_colnames = "people", cutoffs = c(15, 30)
#' )
#' summary(catchment)
#' plot(catchment)
#' stop_ttm(network)
#' @family travel times
#' @export
who_reaches <- function(network, places, origins, mode = c("WALK", "TRANSIT"), mode_egress = "WALK",
                        departure_datetime, time_window = 10L, percentiles = 50L, max_walk_time = 10,
                        max_trip_duration = Inf, walk_speed = 4.8, max_rides = 4L, n_threads = Inf, verbose = FALSE,
                        progress = FALSE, ..., people_colnames = character(), cutoffs = c(15, 30, 45, 60),
                        scenarios = NULL, unit = c("min", "s")) {
  frame <- environment()
  question <- question_of("who_reaches", frame, list(...))
  question$unreached <- TRUE
  unit <- question$unit
  question$unit <- "s" # `summary` and `plot` compare exact seconds with the cutoffs
  limits <- cutoffs_of(cutoffs)
  from <- places_of(origins, "origins")
  to <- places_of(places, "places")
  check_people(origins, people_colnames)
  job <- job_of(question, from, to)
  kept <- collector(job, "from_id")
  in_blocks(job, length(to$id), function(chosen) {
    times <- times_of(job, chosen, question$minute, question$minute + question$window - 1L, question$percentiles)
    kept$add(
      Map(function(by_percentile, scenario) pairs_of(job, chosen, by_percentile, scenario), times, scenario_names(job))
    )
  })
  catchment_of(
    kept$end("ttm_matrix"), from, list(people = people_colnames, cutoffs = limits, unit = unit), question$network
  )
}

check_people <- function(origins, names) {
  for (name in names) {
    if (!is.numeric(origins[[name]])) {
      abort_argument("people_colnames", "is no numeric column of origins", name, "names of numeric columns")
    }
  }
}

# Joins travel times to the origins, as an sf object with all origins for each place. `more` has what `summary` and
# `plot` need, and the unit of the columns.
catchment_of <- function(times, from, more, network) {
  keys <- list(match(times$to_id, unique(times$to_id)), match(times$from_id, from$id))
  if (!is.null(times[["scenario"]])) {
    keys <- c(list(match(times[["scenario"]], unique(times[["scenario"]]))), keys)
  }
  times <- times[do.call(order, keys), ]
  place <- match(times$from_id, from$id)
  own <- if (from$kind == "stops") data.frame(id = from$id) else as.data.frame(from$data)
  own <- own[setdiff(names(own), attr(from$data, "sf_column"))]
  added <- as.data.frame(times)[setdiff(names(times), "from_id")]
  columns <- percentile_columns(times)
  about <- attr(times, "ttm")
  about[names(more)] <- more
  about$seconds <- lapply(columns, function(column) added[[column]])
  added[columns] <- lapply(added[columns], in_unit, more$unit)
  table <- cbind(own[place, , drop = FALSE], added)
  rownames(table) <- NULL
  result <- sf::st_sf(table, geometry = shapes_of(from, network)[place])
  class(result) <- c("ttm_catchment", class(result))
  attr(result, "ttm") <- about
  result
}

# Returns the attribute of a catchment, or raises `ttm_argument_error`: a filter of rows loses it.
catchment_about <- function(x) {
  about <- attr(x, "ttm")
  if (is.null(about) || length(about$seconds[[1]]) != nrow(x)) {
    abort_argument("object", "lost its attribute", NA, "the result of who_reaches() with all of its rows")
  }
  about
}

#' @describeIn who_reaches Counts by exact seconds; a time equal to the cutoff counts. It needs the whole result, since
#'   filters of rows lose its attribute. A data.table: `scenario`, `to_id`, `percentile`, `cutoff` (minutes), `origins`
#'   (number within the cutoff), and the sum of each of `people_colnames` within it, with its percentage in a column
#'   `.._percent`.
#' @param object,x A `ttm_catchment`.
#' @export
summary.ttm_catchment <- function(object, ...) {
  about <- catchment_about(object)
  x <- as.data.table(as.data.frame(object))
  by <- intersect(c("scenario", "to_id"), names(x))
  parts <- list()
  for (percentile in names(about$seconds)) {
    for (cutoff in about$cutoffs) {
      within <- !is.na(about$seconds[[percentile]]) & about$seconds[[percentile]] <= round(cutoff * 60)
      counted <- x[, by, with = FALSE]
      counted[["percentile"]] <- as.integer(percentile)
      counted[["cutoff"]] <- cutoff
      counted[["origins"]] <- as.integer(within)
      for (name in about$people) {
        counted[[name]] <- ifelse(within, x[[name]], 0)
        counted[[paste0(name, "_percent")]] <- x[[name]]
      }
      parts <- c(parts, list(counted))
    }
  }
  table <- rbindlist(parts)[, lapply(.SD, sum, na.rm = TRUE), by = c(by, "percentile", "cutoff")]
  for (name in about$people) {
    table[[paste0(name, "_percent")]] <- round(100 * table[[name]] / table[[paste0(name, "_percent")]], 1)
  }
  table[]
}

#' @describeIn who_reaches A map by classes of `cutoffs`; dark is near. Origins that aren't reached are hollow.
#' @export
plot.ttm_catchment <- function(x, ...) {
  about <- catchment_about(x)
  cutoffs <- about$cutoffs
  first <- x[["to_id"]] == x[["to_id"]][[1]]
  if (!is.null(x[["scenario"]])) {
    first <- first & x[["scenario"]] == x[["scenario"]][[1]]
  }
  class <- findInterval(about$seconds[[1]][first], round(cutoffs * 60), left.open = TRUE) + 1L
  missing <- is.na(class) | class > length(cutoffs)
  shapes <- sf::st_geometry(x)[first]
  colours <- time_colours(length(cutoffs))
  graphics::par(mar = c(0, 0, 2, 0))
  plot(shapes, col = NA, border = NA, pch = NA, ...)
  plot(shapes[missing], pch = 1, col = if (is_point(shapes)) HOLLOW else NA, border = HOLLOW, add = TRUE)
  plot(shapes[!missing], pch = 19, col = colours[class[!missing]], border = "#ffffff", add = TRUE)
  labels <- c(paste("up to", cutoffs, "minutes"), "longer, or not reached")
  graphics::legend(
    "topright", labels, fill = c(colours, NA), border = HOLLOW, bg = "#ffffffcc", box.col = NA, cex = 0.8
  )
  graphics::title(main = paste("Travel time to", x[["to_id"]][[1]]), cex.main = 1)
  invisible(x)
}

HOLLOW <- "#8a8f98"

is_point <- function(shapes) all(sf::st_geometry_type(shapes) == "POINT")

# Returns colours of classes of time, dark for near: those of ttm-tools.
time_colours <- function(count) {
  colours <- c("#2b235d", "#164687", "#006fa1", "#0098a6", "#00bb99", "#7bd688", "#d3eb85")
  if (count <= 1L) colours[[3]] else grDevices::colorRampPalette(colours)(count)
}
