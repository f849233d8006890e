skip_if_not(ttm_available(), "ttm and ttm-tools")

at_eight <- "2026-05-04 08:00"

test_that("an unknown stop is a refusal of the engine, which answers afterwards", {
  network <- small_network()
  refusal <- expect_error(
    travel_time_matrix(network, c("A", "X"), "B", departure_datetime = at_eight), class = "ttm_refusal"
  )
  expect_identical(refusal$file, "origins") # ttm names the option
  expect_identical(refusal$record, 3L)
  expect_identical(nrow(processes_of(network)), 1L)
  pid <- processes_of(network)$pid
  expect_identical(
    travel_time_matrix(network, "A", "B", departure_datetime = at_eight, time_window = 1)$travel_time_p50, 10L
  )
  expect_identical(processes_of(network)$pid, pid)
})

test_that("a feed that can't be read is refused with its file", {
  folder <- small_feed()
  unlink(file.path(folder, "stop_times.txt"))
  refusal <- expect_error(setup_ttm(gtfs = folder, progress = FALSE), class = "ttm_refusal")
  expect_match(conditionMessage(refusal), "stop_times.txt")
})

test_that("errors are repaired with a warning, or refused", {
  wrong <- c("route_id,route_short_name,route_type", "R1,1,3", "R2,2,3", "R3,3,0", "R1,1,3")
  folder <- small_feed(list(routes.txt = wrong))
  refusal <- expect_error(setup_ttm(gtfs = folder, repair = FALSE, progress = FALSE), class = "ttm_refusal")
  expect_identical(refusal$file, "routes.txt")
  expect_identical(refusal$record, 5L)
  warning <- expect_warning(network <- setup_ttm(gtfs = folder, progress = FALSE), class = "ttm_repair_warning")
  expect_identical(warning$repairs$rule, "same")
  expect_identical(summary(network)$repairs$record, 5L)
  expect_identical(ttm_notes(network)$kind, "repaired")
  errors <- check_feed(folder)
  expect_identical(names(errors), c("file", "record", "column", "value", "error", "allowed"))
  expect_identical(errors$record, 5L)
  expect_identical(nrow(check_feed(small_feed())), 0L)
})

test_that("a day without trips is a warning with the nearest one", {
  network <- small_network()
  warning <- expect_warning(
    times <- travel_time_matrix(network, "A", "B", departure_datetime = "2026-05-05 08:00"),
    class = "ttm_no_service_warning"
  )
  expect_identical(warning$date, as.Date("2026-05-05"))
  expect_identical(nrow(times), 0L)
  expect_true("no service" %in% ttm_notes(times)$kind)
})

test_that("places without a stop in reach are a warning with their identifiers", {
  network <- small_network()
  far <- data.frame(id = c(11, 12), lon = c(7, 9), lat = 50)
  warning <- expect_warning(
    times <- travel_time_matrix(network, far, "B", departure_datetime = at_eight, time_window = 1),
    class = "ttm_unreachable_warning"
  )
  expect_identical(warning$from_id, 12)
  expect_identical(times$from_id, 11)
  expect_true("unreachable" %in% ttm_notes(times)$kind)
})

test_that("a scenario that changes nothing is a refusal", {
  network <- small_network()
  refusal <- expect_error(with_scenarios(network, scenario("x") |> remove_routes("R9")), class = "ttm_refusal")
  expect_match(conditionMessage(refusal), "R9")
  expect_error(with_scenarios(network, scenario("x") |> remove_modes("ferry")), class = "ttm_refusal")
  expect_error(with_scenarios(network, scenario("x"), scenario("x")), class = "ttm_argument_error")
})

test_that("arguments of r5r that aren't supported are named, in a call", {
  network <- small_network()
  ask_with <- function(...) travel_time_matrix(network, "A", "B", departure_datetime = at_eight, ...)
  expect_error(ask_with(mode = "CAR"), class = "ttm_unsupported")
  expect_error(ask_with(mode_egress = "BICYCLE"), class = "ttm_unsupported")
  expect_error(ask_with(max_fare = 5), class = "ttm_unsupported")
  expect_error(ask_with(max_walk_time = Inf), class = "ttm_argument_error")
  expect_error(ask_with(scenarios = "plan"), class = "ttm_argument_error")
  expect_error(ask_with(output_dir = "/no/such/folder"), class = "ttm_argument_error")
  expect_error(ask_with(unit = "h"), class = "ttm_argument_error")
  expect_warning(ask_with(draws_per_minute = 1L), class = "ttm_ignored_warning")
  expect_error(travel_time_matrix(network, "A", "B"), "departure_datetime", class = "ttm_argument_error")
  expect_identical(
    travel_time_matrix(
      r5r_core = network, origins = "A", destinations = "B", departure_datetime = at_eight, time_window = 1
    )$travel_time_p50,
    10L
  )
})

test_that("the call of a condition is the user's", {
  network <- small_network()
  error <- tryCatch(travel_time_matrix(network, "A", 5, departure_datetime = at_eight), error = identity)
  expect_identical(as.character(error$call[[1]]), "travel_time_matrix")
})

test_that("folders without a feed, and those of plans, are refused", {
  folder <- tempfile()
  dir.create(folder)
  expect_error(setup_ttm(folder), "has no GTFS zip file", class = "ttm_argument_error")
  dir.create(file.path(folder, "scenarios"))
  file.create(file.path(folder, "stops.txt"))
  expect_error(setup_ttm(folder), "folder of a plan", class = "ttm_argument_error")
  expect_error(setup_ttm(gtfs = "/no/such/feed.zip"), class = "ttm_argument_error")
  expect_error(setup_ttm(), class = "ttm_argument_error")
  town <- ttm_sample()
  two <- tempfile()
  dir.create(two)
  file.copy(town$gtfs, two)
  file.copy(rep(town$streets, 2), file.path(two, c("a.osm.pbf", "b.osm.pbf")))
  expect_error(setup_ttm(two), "has 2 street files", class = "ttm_argument_error")
  unlink(file.path(two, "b.osm.pbf"))
  file.create(file.path(two, "heights.tif"))
  expect_error(setup_ttm(two), class = "ttm_unsupported")
})
