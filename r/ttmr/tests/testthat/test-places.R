points <- function(id = c("a", "b"), crs = 4326) {
  shapes <- sf::st_sfc(sf::st_point(c(-0.1, 51.5)), sf::st_point(c(-0.12, 51.52)), crs = 4326)
  sf::st_transform(sf::st_sf(id = id, geometry = shapes), crs)
}

test_that("points in any projection are the same places", {
  for (crs in c(4326, 27700, 3857)) {
    places <- places_of(points(crs = crs), "origins")
    expect_equal(unname(places$lon), c(-0.1, -0.12), tolerance = 1e-6)
    expect_equal(unname(places$lat), c(51.5, 51.52), tolerance = 1e-6)
    expect_identical(places$kind, "points")
  }
})

test_that("a data frame has longitudes and latitudes", {
  places <- places_of(data.frame(id = 1:2, lon = c(7, 8), lat = c(50, 51)), "origins")
  expect_identical(list(places$id, places$lon, places$lat), list(1:2, c(7, 8), c(50, 51)))
})

test_that("a polygon is a point inside it, measured in its own projection", {
  bent <- rbind(c(0, 0), c(10, 0), c(10, 10), c(9, 10), c(9, 1), c(0, 1), c(0, 0)) * 100 + 530000
  area <- sf::st_sf(id = "L", geometry = sf::st_sfc(sf::st_polygon(list(bent)), crs = 27700))
  places <- places_of(area, "origins")
  point <- sf::st_transform(sf::st_sfc(sf::st_point(c(places$lon, places$lat)), crs = 4326), 27700)
  expect_true(sf::st_within(point, area, sparse = FALSE)[1, 1])
})

test_that("identifiers keep their type, and factors become text", {
  for (id in list(c("1,2", "3\"4"), 7:8, c(1.5, 2.5), bit = c(TRUE, FALSE))) {
    expect_identical(places_of(points(id), "origins")$id, id)
  }
  expect_identical(places_of(points(factor(c("z", "y"))), "origins")$id, c("z", "y"))
  expect_identical(places_of(factor(c("S1", "S2")), "origins")$id, c("S1", "S2"))
})

test_that("a character vector is stops of the feed", {
  expect_identical(places_of(c(x = "A", y = "B"), "origins")[c("kind", "id")], list(kind = "stops", id = c("A", "B")))
})

test_that("wrong places are refused with argument and row", {
  refused <- function(x, text) {
    error <- expect_error(places_of(x, "origins"), class = "ttm_argument_error")
    expect_match(conditionMessage(error), text, fixed = TRUE)
  }
  refused(sf::st_set_crs(points(), NA), "origins has no coordinate reference system")
  refused(points(c("a", "a")), "origins$id has a twice, again in row 2")
  refused(points(c("a", NA)), "origins$id is missing in row 2")
  refused(points(c("a", "")), "origins$id is missing in row 2")
  refused(points()["geometry"], "origins has no column id")
  refused(data.frame(id = 1:2, lon = c(0, 181), lat = 0), "origins is at longitude 181, latitude 0 in row 2")
  refused(data.frame(id = 1:2, lon = 0, lat = c(NA, 0)), "in row 1")
  refused(data.frame(id = 1, lon = "0", lat = 0), "origins has a lon or lat that is no number")
  refused(data.frame(id = 1, lat = 0), "origins has no column lon")
  refused(c("A", "A"), "origins has A twice, again in element 2")
  refused(points()[0, ], "origins has no row")
  refused(character(), "origins names no place")
  refused(1:3, "origins is not of a known kind of places")
  empty <- sf::st_sf(id = 1:2, geometry = sf::st_sfc(sf::st_point(c(0, 0)), sf::st_point(), crs = 4326))
  refused(empty, "origins has an empty geometry in row 2")
  line <- sf::st_sf(id = 1, geometry = sf::st_sfc(sf::st_linestring(rbind(c(0, 0), c(1, 1))), crs = 4326))
  refused(line, "origins has a LINESTRING in row 1")
})

test_that("each side has identifiers of its own, and the same object twice is one set", {
  from <- places_of(points(), "origins")
  to <- places_of(points(c("a", "c")), "destinations")
  sides <- sides_of(from, to)
  expect_identical(sides$origins$names, c("~o1", "~o2"))
  expect_identical(sides$destinations$names, c("~d1", "~d2"))
  expect_identical(names(sides$tables), c("origins", "destinations"))
  expect_identical(sides$tables$origins$id, c("~o1", "~o2"))
  expect_equal(sides$tables$destinations$lat, c(51.5, 51.52))
  same <- sides_of(from, places_of(points(), "destinations"))
  expect_identical(same$origins$names, same$destinations$names)
  expect_identical(names(same$tables), "both")
})

test_that("stops need no points, and a side of points with one of stops is one set", {
  stops <- places_of(c("A", "B"), "origins")
  expect_length(sides_of(stops, stops)$tables, 0)
  mixed <- sides_of(stops, places_of(points(), "destinations"))
  expect_identical(mixed$origins$names, c("A", "B"))
  expect_identical(mixed$tables$both$id, c("~d1", "~d2"))
})
