refused <- function(code, argument) {
  error <- expect_error(code, class = "ttm_argument_error")
  expect_identical(error$argument, argument)
}

test_that("a departure is read as it prints", {
  expected <- list(date = "20260504", minute = 485L)
  expect_identical(departure_of("2026-05-04 08:05"), expected)
  expect_identical(departure_of("2026-05-04T08:05:00"), expected)
  expect_identical(departure_of(as.POSIXct("2026-05-04 08:05:00", tz = "America/New_York")), expected)
  expect_identical(departure_of(as.POSIXlt("2026-05-04 08:05:00", tz = "UTC")), expected)
  expect_identical(departure_of(as.Date("2026-05-04")), list(date = "20260504", minute = 0L))
  withr::local_timezone("Asia/Tokyo")
  expect_identical(departure_of(as.POSIXct("2026-05-04 08:05:00")), expected)
})

test_that("other departures are refused", {
  for (value in list(
    "8:05", "2026-02-30 08:00", "2026-05-04 24:00", "2026-05-04 08:60", "2026-05-04 08:00:30", NA, 5, character()
  )) {
    refused(departure_of(value), "departure_datetime")
  }
  refused(departure_of(as.POSIXct("2026-05-04 08:05:30", tz = "UTC")), "departure_datetime")
})

test_that("a window ends at 23:59", {
  expect_identical(window_of(60, 23L * 60L), 60L)
  refused(window_of(61, 23L * 60L), "time_window")
  refused(window_of(0, 480L), "time_window")
  refused(window_of(1.5, 480L), "time_window")
})

test_that("percentiles are sorted, whole, and at most eight", {
  expect_identical(percentiles_of(c(75, 25)), c(25L, 75L))
  for (value in list(0, 101, 50.5, c(50, 50), 1:9, numeric(), NA_real_, "50")) {
    refused(percentiles_of(value), "percentiles")
  }
})

test_that("minutes of walks become whole seconds, rounded down", {
  expect_identical(walk_seconds(15), 900L)
  expect_identical(walk_seconds(0.99), 59L)
  expect_identical(walk_seconds(0), 0L)
  refused(walk_seconds(Inf), "max_walk_time")
  refused(walk_seconds(120.5), "max_walk_time")
  refused(walk_seconds(-1), "max_walk_time")
})

test_that("speeds are metres per second", {
  expect_identical(speed_of(3.6), "1")
  expect_equal(as.numeric(speed_of(4.8)), 4.8 / 3.6, tolerance = 1e-14)
  refused(speed_of(0), "walk_speed")
  refused(speed_of(21), "walk_speed")
})

test_that("threads are limited", {
  withr::local_options(ttmr.threads = 5L)
  expect_identical(threads_of(Inf), 5L)
  expect_identical(threads_of(100), 64L)
  refused(threads_of(0), "n_threads")
  withr::local_options(ttmr.threads = NULL)
  withr::local_envvar("_R_CHECK_LIMIT_CORES_" = "TRUE")
  expect_identical(threads_of(Inf), 2L)
})

test_that("durations need a unit", {
  expect_identical(duration_of(c("10 min", "90 s", "1.5 h"), "by"), c(600, 90, 5400))
  expect_identical(duration_of("-90 s", "by"), -90)
  expect_identical(duration_of(as.difftime(2, units = "mins"), "by"), 120)
  for (value in list(10, "10", "10 minutes", "0.5 s", NA_character_, character())) {
    refused(duration_of(value, "by"), "by")
  }
  refused(duration_of("-1 s", "dwell", 0), "dwell")
})

test_that("times of day go up to 167:59:59", {
  expect_identical(time_of_day("167:59:59", "start"), "167:59:59")
  for (value in list("168:00", "8", "08:60", 8)) {
    refused(time_of_day(value, "start"), "start")
  }
})

test_that("modes are those of r5r, in any case", {
  expect_null(modes_of(c("WALK", "TRANSIT")))
  expect_identical(modes_of("walk"), character())
  expect_setequal(modes_of(c("Walk", "bus", "TRAM")), c("BUS", "TRAM"))
  refused(modes_of("PLANE"), "mode")
  unsupported <- expect_error(modes_of(c("WALK", "bicycle")), class = "ttm_unsupported")
  expect_identical(unsupported$argument, "mode")
  expect_identical(
    mode_of_type(c("0", "3", "11", "2", "109", "700", "1501", "")),
    c("TRAM", "BUS", "BUS", "RAIL", "RAIL", "BUS", "OTHER", "OTHER")
  )
})

test_that("cutoffs are different numbers of minutes", {
  expect_identical(cutoffs_of(c(45, 30.5)), c(30.5, 45))
  for (value in list(NULL, -1, 10001, c(30, 30), "30", NA_real_)) {
    refused(cutoffs_of(value), "cutoffs")
  }
})

test_that("defaults that differ from r5r's are reported once", {
  withr::local_options(ttmr.quiet = NULL)
  the$reported <- character()
  told <- expect_message(report_defaults(list(max_rides = 4L)), class = "ttm_default_message")
  expect_identical(told$defaults, list(max_rides = 4L))
  expect_silent(report_defaults(list(max_rides = 4L)))
})
