#' Isochrones
#'
#' Areas reached in time: the squares whose middles are reached. The last walk leads along streets, or without streets
#' along straight lines times `detour`. The squares cover the ground within a walk of a stop or an origin. They count
#' as places, so a large region needs a larger `cell_size` (`ttm_limit`).
#'
#' @inheritParams travel_time_matrix
#' @param cutoffs Minutes, ascending. A 0, as in r5r's default, is accepted and gives no row.
#' @param sample_size Ignored with a `ttm_ignored_warning`: every cell is used.
#' @param polygon_output `TRUE`. r5r's `FALSE` (lines of streets) is refused.
#' @param percentile One whole number of 1 to 100. r5r takes the median.
#' @param cell_size Metres, 10 to 1,000. Side of the squares.
#' @param dissolve Logical. One area for all origins, without `id`.
#'
#' @return An sf object of class `ttm_isochrone`, in the projection of `origins` (EPSG:4326 for data frames and
#'   `stop_id`s), widest area first, so that a plot shows all:
#'
#' | Column | Type | Meaning |
#' |:--|:--|:--|
#' | `scenario` | character | only if the network has scenarios |
#' | `id` | as `origins$id` | origin; not with `dissolve` |
#' | `isochrone` | numeric | minutes |
#' | `square_km` | numeric | area, measured in the UTM zone |
#' | `polygons` | MULTIPOLYGON | the geometry column, named as in r5r; empty if nothing is reached |
#'
#' @inheritSection travel_time_matrix Errors
#' @examplesIf ttmr::ttm_available()
#' town <- ttm_sample()
#' network <- setup_ttm(town$data_path)
#' areas <- isochrone(network, town$clinics, cutoffs = c(15, 30), departure_datetime = "2026-05-04 08:00")
#' plot(areas)
#' stop_ttm(network)
#' @export
isochrone <- function(network, origins, mode = c("WALK", "TRANSIT"), mode_egress = "WALK", cutoffs = c(15, 30),
                      sample_size = NULL, departure_datetime, polygon_output = TRUE, time_window = 10L,
                      max_walk_time = 10, max_trip_duration = Inf, walk_speed = 4.8, max_rides = 4L,
                      n_threads = Inf, progress = FALSE, verbose = FALSE, ..., scenarios = NULL, percentile = 50L,
                      cell_size = 100, dissolve = FALSE) {
  frame <- environment()
  check_value("isochrone", "polygon_output", polygon_output)
  if (!is.null(sample_size)) {
    warn_ignored("sample_size", sample_size, "every cell is used")
  }
  question <- question_of("isochrone", frame, list(...))
  question$percentiles <- percentiles_of(percentile, "percentile")
  if (length(question$percentiles) != 1L) {
    abort_argument("percentile", "is not one percentile", NA, "one whole number of 1 to 100")
  }
  limits <- cutoffs_of(cutoffs)
  limits <- limits[limits > 0]
  if (!length(limits)) {
    abort_argument("cutoffs", "has no area", 0, "minutes above 0")
  }
  from <- places_of(origins, "origins")
  size <- within_range(cell_size, "cell_size", 10, 1000, "metres")
  job <- job_of(question, from, from, grid = list(size = size, area = area_of(question, from)))
  areas <- lapply(seq_along(from$id), function(place) areas_of(job, place, limits))
  finish_areas(do.call(rbind, areas), job, flag(dissolve, "dissolve"))
}

# Writes the ground that cells cover, within a walk of a stop or an origin, and returns the path.
area_of <- function(question, from) {
  network <- question$network
  stops <- feed_table(network, "stops.txt", c("stop_lat", "stop_lon"))
  lat <- suppressWarnings(as.numeric(stops$stop_lat))
  lon <- suppressWarnings(as.numeric(stops$stop_lon))
  known <- !is.na(lat) & !is.na(lon) & !(lat == 0 & lon == 0)
  stops <- sf::st_as_sf(data.frame(lon = lon[known], lat = lat[known]), coords = c("lon", "lat"), crs = 4326)
  origins <- sf::st_transform(suppressWarnings(sf::st_centroid(shapes_of(from, network))), 4326)
  points <- c(sf::st_geometry(stops), origins)
  metres <- max(question$walk * as.numeric(question$speed), 50)
  ground <- sf::st_union(sf::st_buffer(sf::st_transform(points, utm_of(points)), metres, nQuadSegs = 4))
  path <- tempfile("ttmr-area-", fileext = ".geojson")
  sf::st_write(sf::st_transform(ground, 4326), path, quiet = TRUE)
  path
}

# Returns the UTM zone of some geometries in EPSG:4326.
utm_of <- function(shapes) {
  box <- sf::st_bbox(shapes)
  zone <- floor(((box[["xmin"]] + box[["xmax"]]) / 2 + 180) / 6) %% 60 + 1
  sf::st_crs((if (box[["ymin"]] + box[["ymax"]] >= 0) 32600 else 32700) + zone)
}

# Returns the areas of one origin: a row for each scenario and cutoff, widest first.
areas_of <- function(job, place, limits) {
  question <- job$question
  folder <- tempfile("ttmr-areas-")
  dir.create(folder)
  on.exit(unlink(folder, recursive = TRUE))
  files <- list(
    origins = data.table(stop_id = job$origins$names[place]),
    destinations = data.table(stop_id = job$destinations$names)
  )
  words <- words_of(job, question$minute, question$minute + question$window - 1L, question$percentiles)
  matrix <- file.path(folder, "matrix.csv")
  writeBin(ask_job(job, c(words, "--within", "0"), files), matrix)
  engine <- if (length(job$files)) sub("[.]csv$", "", basename(job$files)) else "base"
  words <- c(
    "isochrones", matrix, "--feed", job$walked$feed, "--origin", job$origins$names[place],
    "--bands", paste(format(limits, trim = TRUE, scientific = FALSE, drop0trailing = TRUE), collapse = ","),
    as.vector(rbind("--scenario", engine)), "--walk", question$walk, "--speed", question$speed,
    if (is.finite(question$longest)) c("--max-minutes", format(question$longest / 60, digits = 15)), "--out", "-"
  )
  path <- file.path(folder, "areas.geojson")
  run_tools(words, keep = path)
  found <- if (any(grepl("\"coordinates\"", readLines(path, warn = FALSE)))) sf::read_sf(path)
  named_areas(job, place, limits, found, engine)
}

# Fills in the areas that the command left out, because nothing is reached, with empty ones.
named_areas <- function(job, place, limits, found, engine) {
  rows <- expand.grid(isochrone = rev(limits), engine = engine, stringsAsFactors = FALSE)
  at <- match(
    paste(rows$engine, rows$isochrone), if (is.null(found)) character() else paste(found$scenario, found$minutes)
  )
  empty <- sf::st_multipolygon()
  shapes <- lapply(at, function(row) if (is.na(row)) empty else as_multipolygon(sf::st_geometry(found)[[row]]))
  table <- data.frame(scenario = scenario_names(job)[match(rows$engine, engine)])
  table$id <- rep(job$origins$id[place], nrow(rows))
  table$isochrone <- rows$isochrone
  table$square_km <- ifelse(is.na(at), 0, found$square_km[at])
  sf::st_sf(table, polygons = sf::st_sfc(shapes, crs = 4326))
}

as_multipolygon <- function(shape) {
  if (inherits(shape, "POLYGON")) sf::st_multipolygon(list(unclass(shape))) else sf::st_multipolygon(unclass(shape))
}

finish_areas <- function(areas, job, dissolve) {
  if (dissolve) {
    areas <- dissolved(areas)
  }
  order <- order(match(areas$scenario, scenario_names(job)), -areas$isochrone)
  areas <- areas[order, ]
  if (is.null(job$scenarios)) {
    areas$scenario <- NULL
  }
  rownames(areas) <- NULL
  areas <- sf::st_transform(areas, job$origins$crs)
  class(areas) <- c("ttm_isochrone", class(areas))
  finish(areas, "ttm_isochrone", job, "min")
}

# Returns one area for all origins of a scenario and cutoff.
dissolved <- function(areas) {
  groups <- unique(data.frame(scenario = areas$scenario, isochrone = areas$isochrone))
  shapes <- lapply(seq_len(nrow(groups)), function(row) {
    part <- areas[areas$scenario == groups$scenario[[row]] & areas$isochrone == groups$isochrone[[row]], ]
    whole <- sf::st_union(sf::st_make_valid(sf::st_transform(sf::st_geometry(part), utm_of(areas))))
    if (all(sf::st_is_empty(whole))) sf::st_multipolygon() else as_multipolygon(whole[[1]])
  })
  shapes <- sf::st_sfc(shapes, crs = utm_of(areas))
  groups$square_km <- round(as.numeric(sf::st_area(shapes)) / 1e6, 4)
  sf::st_sf(groups, polygons = sf::st_transform(shapes, 4326))
}

#' @describeIn isochrone Draws the areas of each scenario, widest first; dark is near.
#' @param x A `ttm_isochrone`.
#' @export
plot.ttm_isochrone <- function(x, ...) {
  cutoffs <- sort(unique(x[["isochrone"]]))
  scenario_of <- if (is.null(x[["scenario"]])) rep("", nrow(x)) else x[["scenario"]]
  scenarios <- unique(scenario_of)
  colours <- time_colours(length(cutoffs))
  old <- graphics::par(mfrow = c(1, length(scenarios)), mar = c(0, 0, 2, 0))
  on.exit(graphics::par(old))
  shapes <- sf::st_geometry(x)
  for (scenario in scenarios) {
    plot(shapes, col = NA, border = NA, ...)
    for (cutoff in rev(cutoffs)) {
      here <- x[["isochrone"]] == cutoff & scenario_of == scenario
      plot(shapes[here], col = colours[[match(cutoff, cutoffs)]], border = "#ffffff", lwd = 0.5, add = TRUE)
    }
    graphics::legend(
      "topright", paste("up to", cutoffs, "minutes"), fill = colours, bg = "#ffffffcc", box.col = NA, cex = 0.8
    )
    graphics::title(main = scenario, cex.main = 1)
  }
  invisible(x)
}
