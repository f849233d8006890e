skip_if_not(ttm_available(), "ttm and ttm-tools")

at_eight <- "2026-05-04 08:00"
types <- function(x) vapply(
  as.data.frame(x)[setdiff(names(x), attr(x, "sf_column"))], function(column) class(column)[1], ""
)

test_that("results have the columns of their pages, with their types", {
  network <- sample_network()
  planned <- with_scenarios(network, scenario("no13") |> remove_routes("L0013"))
  town <- ttm_sample()
  from <- town$homes[1:2, ]
  to <- town$clinics[1:2, ]
  call <- function(fun, ..., net = network) {
    suppressWarnings(fun(net, ..., departure_datetime = at_eight, time_window = 5, max_walk_time = 15))
  }
  expect_identical(
    types(call(travel_time_matrix, from, to)),
    c(from_id = "character", to_id = "character", travel_time_p50 = "integer")
  )
  expect_identical(names(call(travel_time_matrix, from, to, net = planned))[1:2], c("scenario", "from_id"))
  expect_identical(types(call(expanded_travel_time_matrix, from, to)), c(
    from_id = "character", to_id = "character", departure_time = "character", draw_number = "integer",
    total_time = "integer"
  ))
  expect_identical(types(call(accessibility, from, town$jobs, "jobs", cutoffs = 30)), c(
    id = "character", opportunity = "character", percentile = "integer", cutoff = "numeric", accessibility = "numeric"
  ))
  expect_identical(
    names(call(who_reaches, to, from)),
    c("id", "people", "income", "income_group", "to_id", "travel_time_p50", "geometry")
  )
  legs <- call(detailed_itineraries, from, to)
  expect_identical(types(legs), c(
    from_id = "character", from_lat = "numeric", from_lon = "numeric", to_id = "character", to_lat = "numeric",
    to_lon = "numeric",
    option = "integer", departure_time = "character", total_duration = "numeric", total_distance = "integer",
    segment = "integer",
    mode = "character", segment_duration = "numeric", wait = "numeric", distance = "integer", route = "character",
    route_id = "character", trip_id = "character", from_stop_id = "character", to_stop_id = "character",
    departure_seconds = "integer", segment_seconds = "integer", wait_seconds = "integer"
  ))
  expect_identical(as.character(unique(sf::st_geometry_type(legs))), "LINESTRING")
  expect_identical(names(compare(call(accessibility, from, town$jobs, "jobs", cutoffs = 30, net = planned))), c(
    "scenario", "id", "opportunity", "percentile", "cutoff", "before", "after", "change", "percent", "what"
  ))
  expect_identical(names(ttm_notes(planned)), c("kind", "text", "affected"))
  stop_ttm(planned)
})

test_that("a network has the parts of its pages", {
  network <- sample_network()
  days <- trips_by_date(network)
  expect_identical(types(days), c(date = "Date", weekday = "integer", trips = "integer"))
  expect_identical(days$trips[days$date == as.Date("2026-05-04")], 4993L)
  expect_identical(days$weekday[days$date == as.Date("2026-05-04")], 1L)
  expect_identical(nrow(days), 365L)
  expect_identical(
    names(summary(network)), c("stops", "routes", "trips", "dates", "scenarios", "repairs", "notes", "processes")
  )
  layers <- transit_network_to_sf(network)
  expect_identical(names(layers$routes), c("agency_id", "route_id", "short_name", "long_name", "mode", "geometry"))
  expect_identical(names(layers$stops), c("stop_id", "stop_name", "parent_station", "geometry"))
  expect_identical(nrow(layers$routes), 37L)
  expect_identical(sort(unique(layers$routes$mode)), c("BUS", "SUBWAY"))
  expect_false(any(sf::st_is_empty(layers$routes)))
  printed <- utils::capture.output(print(network))
  expect_match(printed[2], "town.zip")
})

test_that("feeds are prepared by routes and dates", {
  out <- file.path(withr::local_tempdir(), "one")
  repairs <- prepare_feed(ttm_sample()$gtfs, out, routes = c("L0013", "L0010"), dates = as.Date("2026-05-04"))
  expect_identical(names(repairs), c("file", "record", "column", "value", "rule", "result"))
  expect_identical(sort(data.table::fread(file.path(out, "routes.txt"))$route_id), c("L0010", "L0013"))
  area <- sf::st_sf(geometry = sf::st_buffer(sf::st_sfc(sf::st_point(c(-0.1, 51.5)), crs = 4326), 1500))
  clipped <- file.path(withr::local_tempdir(), "two")
  prepare_feed(ttm_sample()$gtfs, clipped, area = sf::st_transform(area, 27700))
  expect_lt(nrow(data.table::fread(file.path(clipped, "stops.txt"))), 200)
  expect_error(prepare_feed(ttm_sample()$gtfs, clipped), class = "ttm_argument_error")
  expect_error(
    prepare_feed(ttm_sample()$gtfs, tempfile(), dates = as.Date("2026-05-04") + c(0, 9)), class = "ttm_argument_error"
  )
})

test_that("plots draw without an error", {
  network <- sample_network()
  town <- ttm_sample()
  path <- withr::local_tempfile(fileext = ".png")
  grDevices::png(path, 600, 600)
  plot(network)
  north <- who_reaches(network, town$clinics[1, ], town$homes, departure_datetime = at_eight) |> suppressWarnings()
  plot(north)
  grDevices::dev.off()
  expect_gt(file.size(path), 5000)
})

test_that("the state of both programs is reported", {
  report <- NULL
  printed <- utils::capture.output(report <- ttm_sitrep())
  expect_identical(names(report), c(
    "program", "version", "proved_by", "tools", "tools_version", "python_packages", "cache", "cache_mb", "threads"
  ))
  expect_identical(report$version, "2.1.0")
  expect_length(printed, 9)
})
