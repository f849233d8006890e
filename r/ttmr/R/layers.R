#' The transit network as sf objects
#'
#' @param network A `ttm_network`.
#' @return A list of two sf objects in EPSG:4326, as in r5r:
#'
#' | Element | Columns |
#' |:--|:--|
#' | `routes` | the feed's `agency_id`, `route_id`, `short_name`, `long_name`; `mode` (text); `geometry` (MULTILINESTRING along `shapes.txt`, else from stop to stop) |
#' | `stops` | `stop_id`, `stop_name`, `parent_station`, `geometry` (POINT). r5r's `linked_to_street` is left out: walks, not links, decide |
#'
#' @examplesIf ttmr::ttm_available()
#' network <- setup_ttm(ttm_sample()$data_path)
#' layers <- transit_network_to_sf(network)
#' plot(layers$routes["mode"])
#' stop_ttm(network)
#' @export
transit_network_to_sf <- function(network) {
  network <- assure_prepared(as_network(network))
  read <- function(file, columns) feed_table(network, file, columns)
  stops <- read("stops.txt", c("stop_id", "stop_name", "parent_station", "stop_lat", "stop_lon"))
  lat <- suppressWarnings(as.numeric(stops$stop_lat))
  lon <- suppressWarnings(as.numeric(stops$stop_lon))
  known <- !is.na(lat) & !is.na(lon)
  shapes <- Map(function(x, y, is_known) if (is_known) sf::st_point(c(x, y)) else sf::st_point(), lon, lat, known)
  table <- as.data.frame(stops[, c("stop_id", "stop_name", "parent_station"), with = FALSE])
  list(
    routes = routes_layer(read, data.table(stop_id = stops$stop_id, lon = lon, lat = lat)),
    stops = sf::st_sf(table, geometry = sf::st_sfc(unname(shapes), crs = 4326))
  )
}

# Returns the routes with a line for each shape, or for each sequence of stops of trips without a shape.
routes_layer <- function(read, places) {
  routes <- read("routes.txt", c("agency_id", "route_id", "route_short_name", "route_long_name", "route_type"))
  trips <- read("trips.txt", c("trip_id", "route_id", "shape_id"))
  lines <- c(lines_of_shapes(read, trips), lines_of_stops(read, trips, places))
  shapes <- lapply(routes$route_id, function(route) {
    own <- unname(unlist(lines[names(lines) == route], recursive = FALSE))
    if (length(own)) sf::st_multilinestring(own) else sf::st_multilinestring()
  })
  table <- data.frame(
    agency_id = routes$agency_id, route_id = routes$route_id, short_name = routes$route_short_name,
    long_name = routes$route_long_name, mode = mode_of_type(routes$route_type)
  )
  sf::st_sf(table, geometry = sf::st_sfc(shapes, crs = 4326))
}

# Returns coordinates of each shape, named by route.
lines_of_shapes <- function(read, trips) {
  used <- unique(trips[nzchar(trips$shape_id), c("route_id", "shape_id"), with = FALSE])
  if (!nrow(used)) {
    return(list())
  }
  points <- read("shapes.txt", c("shape_id", "shape_pt_lat", "shape_pt_lon", "shape_pt_sequence"))
  points <- points[order(points$shape_id, as.numeric(points$shape_pt_sequence)), ]
  each <- split(seq_len(nrow(points)), points$shape_id)
  lon <- as.numeric(points$shape_pt_lon)
  lat <- as.numeric(points$shape_pt_lat)
  lines <- lapply(used$shape_id, function(shape) list(cbind(lon[each[[shape]]], lat[each[[shape]]])))
  stats::setNames(lines, used$route_id)
}

# Returns coordinates of each different sequence of stops, named by route. Nothing is computed from it.
lines_of_stops <- function(read, trips, places) {
  own <- trips[!nzchar(trips$shape_id), ]
  if (!nrow(own)) {
    return(list())
  }
  calls <- read("stop_times.txt", c("trip_id", "stop_id", "stop_sequence"))
  calls <- calls[calls$trip_id %in% own$trip_id, ]
  calls <- calls[order(calls$trip_id, as.numeric(calls$stop_sequence)), ]
  patterns <- calls[, list(pattern = paste(stop_id, collapse = "\r")), by = "trip_id"]
  patterns <- unique(
    data.table(route_id = own$route_id[match(patterns$trip_id, own$trip_id)], pattern = patterns$pattern)
  )
  lines <- lapply(strsplit(patterns$pattern, "\r", fixed = TRUE), function(stops) {
    row <- match(stops, places$stop_id)
    at <- cbind(places$lon[row], places$lat[row])
    at <- at[stats::complete.cases(at), , drop = FALSE]
    if (nrow(at) > 1L) list(at) else list()
  })
  stats::setNames(lines, patterns$route_id)
}

#' @describeIn setup_ttm Draws routes by mode, and stops.
#' @export
plot.ttm_network <- function(x, ...) {
  layers <- transit_network_to_sf(x)
  modes <- sort(unique(layers$routes$mode))
  colours <- stats::setNames(grDevices::hcl.colors(max(2L, length(modes)), "Dark 3")[seq_along(modes)], modes)
  old <- graphics::par(mar = c(0, 0, 0, 0))
  on.exit(graphics::par(old))
  plot(sf::st_geometry(layers$stops), pch = 19, cex = 0.4, col = HOLLOW, ...)
  plot(sf::st_geometry(layers$routes), col = colours[layers$routes$mode], lwd = 1.5, add = TRUE)
  graphics::legend("topright", modes, col = colours, lwd = 2, bg = "#ffffffcc", box.col = NA, cex = 0.8)
  invisible(x)
}
