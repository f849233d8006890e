# Places of one side of a question: `kind` ("stops" or "points"), `id` as the user gave them (factors become text),
# `lon` and `lat` (points alone), `crs` and `data` (the object itself).

ALLOWED_PLACES <- paste(
  "an sf object of points or polygons with a column id, a data frame with id, lon and lat,",
  "or a character vector of stop_ids"
)

# Returns the places that an argument names, or raises `ttm_argument_error` with the first wrong row.
places_of <- function(x, argument) {
  if (is.factor(x)) {
    x <- as.character(x)
  }
  if (is.character(x)) {
    id <- identifiers(unname(x), argument, "element")
    return(list(kind = "stops", id = id, crs = sf::st_crs(4326), data = x))
  }
  if (!is.data.frame(x)) {
    abort_argument(argument, "is not of a known kind of places", NA, ALLOWED_PLACES)
  }
  if (!nrow(x)) {
    abort_argument(argument, "has no row", NA, "at least one place")
  }
  id <- identifiers(column_of(x, "id", argument), paste0(argument, "$id"), "row")
  if (inherits(x, "sf")) points_of_sf(x, id, argument) else points_of_frame(x, id, argument)
}

column_of <- function(x, name, argument) {
  if (!name %in% names(x)) {
    known <- paste(names(x), collapse = ", ")
    abort_argument(argument, paste0("has no column ", name, ", but ", known), NA, ALLOWED_PLACES)
  }
  x[[name]]
}

# Returns identifiers of which none is missing or used twice.
identifiers <- function(id, argument, unit) {
  id <- if (is.factor(id)) as.character(id) else id
  if (!length(id)) {
    abort_argument(argument, "names no place", NA, "at least one place")
  }
  if (!is.atomic(id)) {
    abort_argument(argument, "is no vector of identifiers", NA, "text or numbers")
  }
  wrong <- which(is.na(id) | (is.character(id) & !nzchar(id)))
  if (length(wrong)) {
    abort_argument(argument, paste0("is missing in ", unit, " ", wrong[[1]]), NA, "identifiers that are not missing")
  }
  twice <- anyDuplicated(id)
  if (twice) {
    what <- paste0("has ", format(id[[twice]]), " twice, again in ", unit, " ", twice)
    abort_argument(argument, what, NA, "unique identifiers")
  }
  id
}

points_of_sf <- function(x, id, argument) {
  if (is.na(sf::st_crs(x))) {
    abort_argument(argument, "has no coordinate reference system", NA, "an sf object with st_crs()")
  }
  shapes <- sf::st_geometry(x)
  wrong <- which(sf::st_is_empty(shapes))
  if (length(wrong)) {
    abort_argument(argument, paste("has an empty geometry in row", wrong[[1]]), NA, "points or polygons")
  }
  types <- as.character(sf::st_geometry_type(shapes))
  wrong <- which(!types %in% c("POINT", "POLYGON", "MULTIPOLYGON"))
  if (length(wrong)) {
    abort_argument(argument, paste("has a", types[[wrong[[1]]]], "in row", wrong[[1]]), NA, "points or polygons")
  }
  areas <- types != "POINT"
  if (any(areas)) {
    shapes[areas] <- suppressWarnings(sf::st_point_on_surface(shapes[areas]))
  }
  places <- sf::st_coordinates(sf::st_transform(shapes, 4326))
  check_degrees(places[, 1], places[, 2], argument)
  list(kind = "points", id = id, lon = places[, 1], lat = places[, 2], crs = sf::st_crs(x), data = x)
}

points_of_frame <- function(x, id, argument) {
  lon <- column_of(x, "lon", argument)
  lat <- column_of(x, "lat", argument)
  if (!is.numeric(lon) || !is.numeric(lat)) {
    abort_argument(argument, "has a lon or lat that is no number", NA, "degrees in EPSG:4326")
  }
  check_degrees(lon, lat, argument)
  list(kind = "points", id = id, lon = lon, lat = lat, crs = sf::st_crs(4326), data = x)
}

check_degrees <- function(lon, lat, argument) {
  wrong <- which(!is.finite(lon) | !is.finite(lat) | abs(lon) > 180 | abs(lat) > 90)
  if (length(wrong)) {
    row <- wrong[[1]]
    what <- paste0("is at longitude ", format(lon[[row]]), ", latitude ", format(lat[[row]]), " in row ", row)
    abort_argument(argument, what, NA, "-180 to 180, and -90 to 90")
  }
}

# Returns geometries of places in their own projection: as given for sf, else points in EPSG:4326.
shapes_of <- function(places, network) {
  if (inherits(places$data, "sf")) {
    return(sf::st_geometry(places$data))
  }
  if (places$kind == "stops") {
    stops <- feed_table(network, "stops.txt", c("stop_id", "stop_lat", "stop_lon"))
    found <- stops[match(places$id, stops$stop_id), ]
    places$lon <- as.numeric(found$stop_lon)
    places$lat <- as.numeric(found$stop_lat)
  }
  points <- Map(function(lon, lat) sf::st_point(c(lon, lat)), places$lon, places$lat)
  sf::st_sfc(unname(points), crs = 4326)
}

# Returns both sides with the identifiers that the engine reads (`names`), and the tables of points to write: one for
# both sides if they are the same places, or if only one of them has points.
sides_of <- function(origins, destinations) {
  same <- identical(origins$data, destinations$data)
  origins$names <- if (origins$kind == "stops") origins$id else paste0(if (same) "~p" else "~o", seq_along(origins$id))
  destinations$names <- if (destinations$kind == "stops") {
    destinations$id
  } else {
    paste0(if (same) "~p" else "~d", seq_along(destinations$id))
  }
  table <- function(side) if (side$kind == "points") data.table(id = side$names, lon = side$lon, lat = side$lat)
  tables <- if (same) {
    list(both = table(origins))
  } else if (origins$kind == "points" && destinations$kind == "points") {
    list(origins = table(origins), destinations = table(destinations))
  } else {
    list(both = if (origins$kind == "points") table(origins) else table(destinations))
  }
  list(origins = origins, destinations = destinations, tables = Filter(Negate(is.null), tables))
}
