skip_if_not(ttm_available(), "ttm and ttm-tools")

ask_small <- function(network, ..., from = "A", to = c("A", "B", "C", "D"), minute = "07:58", window = 4) {
  travel_time_matrix(
    network, from, to, departure_datetime = paste("2026-05-04", minute), time_window = window, ...
  )
}

test_that("travel times and percentiles are those of the small feed", {
  network <- small_network()
  times <- ask_small(network, percentiles = c(100, 25, 50, 75), unit = "s", unreached = TRUE)
  expect_identical(as.list(times)[2:6] |> lapply(utils::head, 3), list(
    to_id = c("A", "B", "C"), travel_time_p25 = c(0L, 600L, 1800L), travel_time_p50 = c(0L, 660L, 1860L),
    travel_time_p75 = c(0L, 720L, 1920L), travel_time_p100 = c(0L, NA, NA)
  ))
  expect_s3_class(times, "ttm_matrix")
  expect_s3_class(times, "data.table")
})

test_that("minutes are rounded down", {
  network <- small_network()
  times <- ask_small(network, minute = "08:00", window = 1)
  expect_identical(times$to_id, c("A", "B", "C", "D"))
  expect_identical(times$travel_time_p50, c(0L, 10L, 30L, 9L)) # 599 seconds to D
})

test_that("each departure has a row, and the longest journey counts by exact seconds", {
  network <- small_network()
  each <- expanded_travel_time_matrix(
    network, "A", c("B", "D"), departure_datetime = "2026-05-04 07:59", time_window = 3, max_trip_duration = 10,
    unit = "s"
  )
  expect_identical(each$departure_time, rep(c("07:59:00", "08:00:00", "08:01:00"), 2))
  expect_identical(each$total_time, c(NA, 600L, NA, NA, 599L, NA))
  expect_identical(unique(each$draw_number), 1L)
})

test_that("places walk to their stops, and access counts them", {
  network <- small_network()
  from <- small_places("A")
  to <- small_places()
  access <- accessibility(
    network, from, to, "jobs", departure_datetime = "2026-05-04 07:58", time_window = 4,
    percentiles = c(25, 50, 75, 100),
    cutoffs = c(700 / 60, 30)
  )
  expect_identical(access$percentile, rep(c(25L, 50L, 75L, 100L), each = 2))
  # to itself; to B and D within 700 seconds of 08:00 and 07:59, later ones in half an hour
  expect_identical(access$accessibility, c(3, 4, 3, 3, 1, 3, 1, 1))
  gradual <- accessibility(
    network, from, to, "jobs", departure_datetime = "2026-05-04 08:00", time_window = 1, decay_function = "exponential",
    cutoffs = 10
  )
  expect_equal(gradual$accessibility, 1 + 0.5 + 0.125 + 2^(-599 / 600))
})

test_that("a walk to the stop comes before the ride", {
  network <- small_network()
  near <- data.frame(id = "home", lon = 7, lat = 50 + 100 / 111195) # 100 metres to the north of A
  times <- travel_time_matrix(
    network, near, "B", departure_datetime = "2026-05-04 07:58", time_window = 2, percentiles = c(50, 100), unit = "s"
  )
  # 98 seconds on foot: the departure at 07:58 catches T1, that at 07:59 doesn't
  expect_identical(times$travel_time_p50, 720L)
  expect_identical(times$travel_time_p100, NA_integer_)
  on_foot <- travel_time_matrix(
    network, near, small_places("A"), mode = "WALK", departure_datetime = "2026-05-04 07:58", unit = "s"
  )
  expect_equal(on_foot$travel_time_p50, 98, tolerance = 0.011) # the sphere of ttm-tools may differ by a metre
  none <- suppressWarnings(travel_time_matrix(
    network, near, small_places("A"), max_walk_time = 1, departure_datetime = "2026-05-04 07:58", unit = "s"
  ))
  expect_identical(nrow(none), 0L)
})

test_that("modes and rides are limited", {
  network <- small_network()
  bus <- ask_small(network, mode = c("WALK", "BUS"), minute = "08:00", window = 1)
  expect_identical(bus$to_id, c("A", "B", "C"))
  tram <- ask_small(network, mode = "tram", minute = "08:00", window = 1)
  expect_identical(tram$to_id, c("A", "D"))
  expect_identical(ask_small(network, mode = "WALK", minute = "08:00", window = 1)$to_id, "A")
  expect_identical(ask_small(network, max_rides = 1, minute = "08:00", window = 1)$to_id, c("A", "B", "D"))
  expect_identical(ask_small(network, max_rides = 0, minute = "08:00", window = 1)$to_id, "A")
})

test_that("scenarios have rows of their own, today first", {
  network <- small_network()
  planned <- with_scenarios(
    network, scenario("late") |> shift_route("R1", "5 min"), scenario("cut") |> remove_routes("R2"),
    scenario("untrammed") |> remove_modes("tram")
  )
  times <- ask_small(planned, to = c("B", "C", "D"), minute = "08:00", window = 1, unit = "s")
  expect_identical(unique(times$scenario), c("today", "late", "cut", "untrammed"))
  expect_identical(times[scenario == "today"]$travel_time_p50, c(600L, 1800L, 599L))
  expect_identical(times[scenario == "late"]$travel_time_p50, c(900L, 1800L, 599L))
  expect_identical(times[scenario == "cut"]$to_id, c("B", "D"))
  expect_identical(times[scenario == "untrammed"]$to_id, c("B", "C"))
  one <- ask_small(planned, to = "B", minute = "08:00", window = 1, unit = "s", scenarios = "late")
  expect_identical(as.data.frame(one)$travel_time_p50, 900L)
  bus <- ask_small(
    planned, to = c("B", "D"), minute = "08:00", window = 1, mode = "BUS", scenarios = c("late", "today")
  )
  expect_identical(bus$scenario, c("today", "late"))
  expect_identical(compare(times, scenario = "late", by = "pair")$change, 300L)
  expect_identical(nrow(ttm_notes(planned)[kind == "scenario"]), 3L)
  expect_length(scenarios_of(network), 0)
  stop_ttm(planned)
})

test_that("the first and the last column of a catchment are the origins' and the places'", {
  network <- small_network()
  origins <- cbind(small_places(), people = c(1, 10, 100, 1000))
  catchment <- who_reaches(
    network, small_places("C"), origins, departure_datetime = "2026-05-04 08:00", time_window = 1,
    people_colnames = "people", cutoffs = c(1, 15, 30)
  )
  expect_s3_class(catchment, "sf")
  expect_identical(catchment$id, origins$id)
  expect_identical(catchment$travel_time_p50, c(30L, 30L, 0L, NA))
  total <- summary(catchment)
  expect_identical(total$origins, c(1L, 1L, 3L))
  expect_identical(total$people, c(100, 100, 111))
  expect_identical(total$people_percent, c(9, 9, 10))
})
