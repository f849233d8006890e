skip_if_not(ttm_available(), "ttm and ttm-tools")

at_eight <- "2026-05-04 08:00"

# Runs a command of ttm-tools as a user would, and returns the table that it writes.
command <- function(...) {
  ran <- processx::run(find_program("ttm-tools"), as.character(c(...)))
  data.table::fread(text = ran$stdout)
}

# Writes what `ttm` prints for a prepared folder, from 08:00 to 08:09.
matrix_of <- function(job, ...) {
  run_ttm(
    job, "20260504", "08:00", "08:09", "--trips", "4", "--share", "50,90", "--within", "1800,2700", ...,
    files = list(origins = stops_file(job$origins$names), destinations = stops_file(job$destinations$names))
  )
}

test_that("accessibility is that of ttm-tools access, with all weights", {
  network <- sample_network()
  town <- ttm_sample()
  from <- town$homes[1:5, ]
  job <- prepared(network, from, town$jobs)
  matrix <- matrix_of(job)
  chances <- tempfile(fileext = ".csv")
  data.table::fwrite(data.table::data.table(stop_id = job$destinations$names, jobs = town$jobs$jobs), chances)
  cases <- list(list("step", NULL), list("exponential", NULL), list("linear", 20), list("logistic", 10))
  for (case in cases) {
    mine <- suppressWarnings(accessibility(
      network, from, town$jobs, "jobs", departure_datetime = at_eight, percentiles = c(50, 90), cutoffs = c(30, 45),
      decay_function = case[[1]], decay_value = case[[2]]
    ))
    theirs <- command(
      "access", matrix, "--opportunities", chances, "--decay", case[[1]], "--cutoffs", "30,45",
      if (!is.null(case[[2]])) c("--decay-value", case[[2]])
    )
    theirs <- theirs[theirs$scenario == "base"]
    key <- function(id, x) paste(id, x$percentile, x$cutoff)
    place <- match(key(job$origins$names[match(mine$id, from$id)], mine), key(theirs$id, theirs))
    expect_false(anyNA(place))
    expect_equal(mine$accessibility, theirs$accessibility[place], tolerance = 1e-6, label = case[[1]])
    expect_gt(sum(mine$accessibility), 1000)
  }
})

test_that("access by weights of whole numbers is the engine's own", {
  network <- sample_network()
  town <- ttm_sample()
  jobs <- town$jobs
  jobs$halves <- jobs$jobs / 2
  ask_for <- function(name, ...) {
    suppressWarnings(accessibility(
      network, town$homes[1:10, ], jobs, name, departure_datetime = at_eight,
      cutoffs = c(5, 10, 15, 20, 25, 30, 35, 40, 45, 60),
      percentiles = c(25, 75), ...
    ))$accessibility
  }
  expect_equal(ask_for("jobs"), 2 * ask_for("halves"))
  expect_equal(ask_for("jobs", max_trip_duration = 20), 2 * ask_for("halves", max_trip_duration = 20))
})

test_that("compare finds what ttm-tools compare finds", {
  network <- sample_network()
  planned <- with_scenarios(network, scenario("no13") |> remove_routes("L0013"))
  stops <- c("B00170S", "B00122N", "B00214N", "B00000N", "B00060N")
  times <- travel_time_matrix(planned, stops, stops, departure_datetime = at_eight, percentiles = 50, unit = "s")
  mine <- compare(times, by = "pair", tolerance = "1 min")
  theirs <- command(
    "compare", "--share", "50", "--base", "today", "--scenario", "no13", matrix_of(prepared(planned, stops, stops))
  )
  key <- function(from, to) paste(from, to)
  place <- match(key(mine$from_id, mine$to_id), key(theirs$origin, theirs$destination))
  expect_identical(nrow(mine), nrow(theirs))
  expect_gt(nrow(mine), 3)
  expect_identical(mine$what, theirs$what[place])
  expect_identical(as.integer(mine$change), as.integer(theirs$change[place]))
})

test_that("areas are the cells that are reached", {
  network <- sample_network()
  town <- ttm_sample()
  areas <- isochrone(
    network, town$clinics[1:2, ], departure_datetime = at_eight, cutoffs = c(0, 15, 30), cell_size = 400,
    max_walk_time = 5
  )
  expect_identical(names(areas), c("id", "isochrone", "square_km", "polygons"))
  expect_identical(areas$id, c("north", "middle", "north", "middle"))
  expect_identical(areas$isochrone, c(30, 30, 15, 15))
  own <- as.numeric(sf::st_area(sf::st_transform(areas, 32630))) / 1e6
  expect_equal(areas$square_km, own, tolerance = 0.01)
  expect_equal(areas$square_km / 0.16, round(areas$square_km / 0.16), tolerance = 1e-3) # whole cells
  expect_true(all(areas$square_km[1:2] >= areas$square_km[3:4]))
  whole <- isochrone(
    network, town$clinics[1:2, ], departure_datetime = at_eight, cutoffs = 30, cell_size = 400, max_walk_time = 5,
    dissolve = TRUE
  )
  expect_identical(names(whole), c("isochrone", "square_km", "polygons"))
  expect_lte(whole$square_km, sum(areas$square_km[1:2]) * 1.001) # of another projection
  expect_gte(whole$square_km, max(areas$square_km[1:2]))
})

test_that("a journey's legs add up to the engine's travel time", {
  network <- sample_network()
  town <- ttm_sample()
  from <- town$homes[1:4, ]
  to <- town$clinics[c(1, 2, 3, 1), ]
  to$id <- paste0("to", 1:4)
  ask_for <- function(fun, ...) fun(
    network, from, to, departure_datetime = "2026-05-04 08:30", time_window = 20, max_walk_time = 15, ...
  )
  legs <- ask_for(detailed_itineraries)
  expect_s3_class(legs, "sf")
  each <- ask_for(expanded_travel_time_matrix, unit = "s")
  sums <- data.table::as.data.table(as.data.frame(legs))[
    , list(seconds = sum(segment_seconds + wait_seconds), total = total_duration[1], start = departure_time[1]),
    by = c("from_id", "to_id")
  ]
  expect_identical(sums$from_id, from$id)
  for (row in seq_len(nrow(sums))) {
    pair <- each[each$from_id == sums$from_id[row] & each$to_id == sums$to_id[row]]
    expect_identical(as.integer(sums$seconds[row]), min(pair$total_time, na.rm = TRUE))
    expect_equal(sums$total[row], round(sums$seconds[row] / 60, 1))
    expect_identical(pair$total_time[pair$departure_time == sums$start[row]], as.integer(sums$seconds[row]))
  }
  bare <- ask_for(detailed_itineraries, drop_geometry = TRUE)
  expect_s3_class(bare, "data.table")
  expect_identical(bare$segment_seconds, legs$segment_seconds)
  options <- ask_for(detailed_itineraries, drop_geometry = TRUE, shortest_path = FALSE)
  expect_gte(max(options$option), 1L)
  expect_error(
    detailed_itineraries(network, from, to[1:2, ], departure_datetime = at_eight), class = "ttm_argument_error"
  )
})
