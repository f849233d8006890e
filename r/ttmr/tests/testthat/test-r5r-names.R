# The arguments of r5r 2.x, as they were written down from memory: names in their order, without those that ttmr names
# otherwise. Compare with an installed r5r before you change them.
recorded <- list(
  travel_time_matrix = c(
    "origins", "destinations", "mode", "mode_egress", "departure_datetime", "time_window", "percentiles",
    "max_walk_time",
    "max_trip_duration", "walk_speed", "max_rides", "n_threads", "verbose", "progress", "output_dir"
  ),
  expanded_travel_time_matrix = c(
    "origins", "destinations", "mode", "mode_egress", "departure_datetime", "time_window", "breakdown", "max_walk_time",
    "max_trip_duration", "walk_speed", "max_rides", "n_threads", "verbose", "progress", "output_dir"
  ),
  accessibility = c(
    "origins", "destinations", "opportunities_colnames", "mode", "mode_egress", "departure_datetime", "time_window",
    "percentiles", "decay_function", "cutoffs", "decay_value", "max_walk_time", "max_trip_duration", "walk_speed",
    "max_rides", "n_threads", "verbose", "progress", "output_dir"
  ),
  isochrone = c(
    "origins", "mode", "mode_egress", "cutoffs", "sample_size", "departure_datetime", "polygon_output", "time_window",
    "max_walk_time", "max_trip_duration", "walk_speed", "max_rides", "n_threads", "progress", "verbose"
  ),
  detailed_itineraries = c(
    "origins", "destinations", "mode", "mode_egress", "departure_datetime", "time_window", "suboptimal_minutes",
    "max_walk_time", "max_trip_duration", "walk_speed", "max_rides", "shortest_path", "all_to_all", "drop_geometry",
    "n_threads", "verbose", "progress", "output_dir"
  ),
  setup_ttm = c("data_path", "verbose", "temp_dir", "overwrite")
)

test_that("functions have r5r's arguments in their order, then their own after the dots", {
  for (fun in names(recorded)) {
    names <- names(formals(get(fun)))
    first <- if (fun == "setup_ttm") character() else "network"
    expect_identical(utils::head(names, match("...", names) - 1L), c(first, recorded[[fun]]), label = fun)
  }
})

test_that("each recorded argument is in the table of support", {
  table <- r5r_support()
  expect_identical(names(table), c("fun", "argument", "r5r_default", "status", "accepted", "advice"))
  expect_setequal(unique(table$status), c("supported", "refused", "ignored"))
  for (fun in names(recorded)) {
    listed <- table$argument[table$fun == fun]
    expect_identical(setdiff(recorded[[fun]], listed), character(), label = fun)
    expect_identical(anyDuplicated(listed), 0L, label = fun)
  }
})

test_that("supported arguments are those of the functions", {
  table <- r5r_support()
  for (row in which(table$status == "supported")) {
    if (table$argument[row] %in% c("r5r_network", "r5r_core")) next
    own <- names(formals(get(table$fun[row])))
    if (table$fun[row] == "who_reaches") own <- c(own, "destinations", "output_dir") # `places`; its result is a map
    expect_true(table$argument[row] %in% own, label = paste(table$fun[row], table$argument[row]))
  }
})

test_that("refused arguments take the value that switches them off, and no other", {
  table <- r5r_support()
  rows <- which(table$status == "refused")
  expect_gt(length(rows), 20)
  for (row in rows) {
    call <- function(value) check_value(table$fun[row], table$argument[row], value)
    off <- eval(parse(text = table$accepted[row]))
    expect_silent(call(off))
    error <- expect_error(call("something else"), class = "ttm_unsupported")
    expect_identical(error$argument, table$argument[row])
    expect_identical(error$value, "something else")
    expect_identical(error$advice, table$advice[row])
  }
})

test_that("ignored arguments raise a warning with their name", {
  table <- r5r_support()
  for (row in which(table$status == "ignored" & table$argument != "elevation")) {
    warning <- expect_warning(check_value(table$fun[row], table$argument[row], 1), class = "ttm_ignored_warning")
    expect_identical(warning$argument, table$argument[row])
  }
})

test_that("unknown arguments are errors with the nearest name", {
  error <- expect_error(check_dots("travel_time_matrix", list(percentile = 50)), class = "ttm_argument_error")
  expect_identical(error$allowed, "the nearest is percentiles")
  expect_error(check_dots("travel_time_matrix", list(50)), class = "ttm_argument_error")
  expect_error(check_dots("isochrone", list(breakdown = FALSE)), class = "ttm_argument_error")
})

test_that("the network is found by r5r's names, but not with others by position", {
  network <- structure(list2env(list(recipe = list())), class = "ttm_network")
  call <- function(network, origins, ...) called_network(environment(), list(...))
  expect_error(call("homes", "clinics", r5r_core = network), "name all", class = "ttm_argument_error")
  expect_error(call("homes"), "is no network", class = "ttm_argument_error")
  expect_error(call(), "is needed", class = "ttm_argument_error")
})

test_that("an installed r5r has the recorded arguments", {
  skip_if_not_installed("r5r")
  for (fun in setdiff(names(recorded), "setup_ttm")) {
    theirs <- names(formals(getExportedValue("r5r", fun)))
    expect_identical(intersect(theirs, recorded[[fun]]), recorded[[fun]], label = fun)
  }
})
