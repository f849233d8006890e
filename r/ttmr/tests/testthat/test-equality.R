skip_if_not(ttm_available(), "ttm and ttm-tools")

DRAWS <- 50L

# Compares one call with a run of `ttm`, cell by cell.
expect_equal_run <- function(network, from, to, job, draw) {
  times <- suppressWarnings(travel_time_matrix(
    network, from, to, departure_datetime = paste(draw$date, draw$from), time_window = draw$window,
    percentiles = draw$percentiles, max_walk_time = job$question$walk / 60, max_rides = draw$rides, unit = "s",
    unreached = TRUE
  ))
  minute <- departure_of(paste(draw$date, draw$from))$minute
  path <- run_ttm(
    job, format(as.Date(draw$date), "%Y%m%d"), draw$from, clock(minute + draw$window - 1L), "--trips", draw$rides,
    "--share", paste(draw$percentiles, collapse = ","), "--within", "1800",
    files = list(origins = stops_file(job$origins$names), destinations = stops_file(job$destinations$names))
  )
  run <- data.table::fread(path, colClasses = list(character = 1:2))
  for (percentile in draw$percentiles) {
    cells <- as.matrix(run[run$share == percentile, 5:ncol(run)])
    expect_identical(unname(as.matrix(times, percentile)), unname(cells * 1))
  }
  sum(!is.na(cells))
}

test_that("drawn questions are what ttm prints for the folder that points wrote", {
  network <- sample_network()
  town <- ttm_sample()
  set.seed(20260504)
  reached <- 0
  for (number in seq_len(DRAWS)) {
    if (number %% 10L == 1L) {
      from <- town$homes[sample(nrow(town$homes), 7), ]
      to <- if (number %% 20L == 1L) town$jobs[sample(nrow(town$jobs), 5), ] else c("B00000N", "B00122N", "B00170S")
      job <- prepared(network, from, to, walk = sample(c(300L, 600L, 900L), 1))
    }
    draw <- list(
      date = as.character(as.Date("2026-05-01") + sample(0:20, 1)), from = clock(sample(0:1300, 1)),
      window = sample(1:30, 1),
      percentiles = sort(sample(1:100, sample(1:4, 1))), rides = sample(1:6, 1)
    )
    reached <- reached + expect_equal_run(network, from, to, job, draw)
  }
  expect_gt(reached, 100) # the draws aren't empty
})

test_that("blocks of any size, and files of origins, are the same matrix", {
  network <- sample_network()
  town <- ttm_sample()
  from <- town$homes[1:20, ]
  ask_blocks <- function(...) {
    suppressWarnings(travel_time_matrix(
      network, from, town$clinics, departure_datetime = "2026-05-04 08:00", percentiles = c(10, 90), unit = "s", ...
    ))
  }
  whole <- ask_blocks()
  expect_gt(nrow(whole), 20)
  for (size in c(1L, 7L)) {
    withr::with_options(list(ttmr.block = size), expect_identical(as.data.frame(ask_blocks()), as.data.frame(whole)))
  }
  folder <- withr::local_tempdir()
  expect_identical(ask_blocks(output_dir = folder), folder)
  files <- file.path(folder, paste0(unique(whole$from_id), ".csv"))
  read <- data.table::rbindlist(lapply(files, data.table::fread))
  expect_equal(as.data.frame(read), as.data.frame(whole), ignore_attr = TRUE)
})

test_that("the median of all departures is the percentile 50", {
  network <- sample_network()
  town <- ttm_sample()
  ask_both <- function(fun, ...) {
    fun(
      network, town$homes[1:3, ], town$clinics, departure_datetime = "2026-05-04 08:00", time_window = 30,
      max_walk_time = 15,
      unit = "s", unreached = TRUE, ...
    )
  }
  each <- ask_both(expanded_travel_time_matrix)
  expect_identical(nrow(each), 3L * 3L * 30L)
  median <- each[, list(travel_time_p50 = sort(total_time, na.last = TRUE)[15]), by = c("from_id", "to_id")]
  expect_equal(as.data.frame(median), as.data.frame(ask_both(travel_time_matrix)), ignore_attr = TRUE)
})

test_that("places in any projection, and as a data frame, give the same times", {
  network <- sample_network()
  town <- ttm_sample()
  home <- town$homes[1:3, ]
  at <- sf::st_coordinates(home)
  ask_from <- function(from) {
    travel_time_matrix(network, from, town$clinics, departure_datetime = "2026-05-04 08:00", unit = "s")$travel_time_p50
  }
  plain <- ask_from(data.frame(id = home$id, lon = at[, 1], lat = at[, 2]))
  expect_length(plain, 9)
  expect_identical(ask_from(home), plain)
  expect_equal(ask_from(sf::st_transform(home, 27700)), plain, tolerance = 2 / 1000) # a millimetre can be a second
  named <- home
  named$id <- c("B00000N", "1,5", "a\"b")
  expect_identical(ask_from(named), plain)
})

test_that("the sample is the same town everywhere", {
  town <- ttm_sample()
  read <- function(name) {
    file <- unz(town$gtfs, name)
    on.exit(close(file))
    digest_of(readLines(file))
  }
  names <- utils::unzip(town$gtfs, list = TRUE)$Name
  sums <- vapply(sort(names), read, "")
  expect_identical(unname(digest_of(sums)), "74fd2c2b1ed548f09bfa381d0674b6bf")
  places <- vapply(
    c("homes.csv", "jobs.csv", "clinics.csv"), function(name) digest_of(readLines(file.path(town$data_path, name))), ""
  )
  expect_identical(digest_of(places), "da09491139c18ca5d7a3243d0ba57b48")
})
