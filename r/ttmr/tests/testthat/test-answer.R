# Two origins, three destinations, percentiles 25 and 50: each cell has its own number.
wide <- charToRaw(paste0(
  "scenario,origin,share,access_0,X,Y,Z\n",
  "base,a,25,1,101,102,103\n", "base,a,50,1,104,105,\n", "base,b,25,1,201,202,203\n", "base,b,50,1,204,,206\n"
))
two <- c("a", "b")
three <- c("X", "Y", "Z")

test_that("cells of origins, destinations and percentiles are where they belong", {
  job <- job_by_hand(answers_with(wide), two, three, percentiles = c(25L, 50L))
  times <- times_of(job, 1:2, 480L, 483L, c(25L, 50L))
  expect_identical(times[[1]][[1]], c(101L, 102L, 103L, 201L, 202L, 203L))
  expect_identical(times[[1]][[2]], c(104L, 105L, NA, 204L, NA, 206L))
  table <- pairs_of(job, 1:2, times[[1]], "")
  expect_identical(names(table), c("from_id", "to_id", "travel_time_p25", "travel_time_p50"))
  expect_identical(table$from_id, rep(two, each = 3))
  expect_identical(table$to_id, rep(three, 2))
})

test_that("minutes are rounded down, and times later than the longest journey count as not reached", {
  body <- charToRaw("scenario,origin,share,access_0,X,Y,Z\nbase,a,50,1,599,600,601\n")
  job <- job_by_hand(answers_with(body), "a", three, unit = "min", longest = 600, unreached = TRUE)
  table <- pairs_of(job, 1L, times_of(job, 1L, 480L, 483L, 50L)[[1]], "")
  expect_identical(table$travel_time_p50, c(9L, 10L, NA))
})

test_that("pairs that no percentile reaches are left out, unless they are wanted", {
  body <- charToRaw("scenario,origin,share,access_0,X,Y,Z\nbase,a,25,1,5,6,\nbase,a,50,1,7,,\n")
  job <- job_by_hand(answers_with(body), "a", three, percentiles = c(25L, 50L))
  times <- times_of(job, 1L, 480L, 483L, c(25L, 50L))[[1]]
  expect_identical(pairs_of(job, 1L, times, "")$to_id, c("X", "Y"))
  job$question$unreached <- TRUE
  expect_identical(pairs_of(job, 1L, times, "")$to_id, three)
})

test_that("rows of scenario files follow those of the engine's base, which has no place in a result", {
  body <- charToRaw("scenario,origin,share,access_0,X\nbase,a,50,1,1\ntoday,a,50,1,2\nplan,a,50,1,3\n")
  files <- c(today = "today.csv", plan = "plan.csv")
  job <- job_by_hand(answers_with(body), "a", "X", scenarios = c("today", "plan"), files = files)
  times <- times_of(job, 1L, 480L, 483L, 50L)
  expect_identical(times, list(today = list(2L), plan = list(3L)))
  expect_identical(pairs_of(job, 1L, times$plan, "plan")$scenario, "plan")
})

test_that("an answer with other rows or columns than were asked for is an error", {
  job <- job_by_hand(answers_with(wide), two, c("X", "Y"), percentiles = c(25L, 50L))
  expect_silent(times_of(job, 1:2, 480L, 483L, c(25L, 50L)))
  expect_error(times_of(job, 1L, 480L, 483L, c(25L, 50L)), class = "ttm_engine_error")
  job <- job_by_hand(answers_with(wide), two, c(three, "W"), percentiles = c(25L, 50L))
  expect_error(suppressWarnings(times_of(job, 1:2, 480L, 483L, c(25L, 50L))), class = "ttm_engine_error")
})

test_that("stops whose identifier has a comma, a quote or a line end are read by their position", {
  names <- c("a,b", "c\"d", "e\nf")
  body <- charToRaw("scenario,origin,share,access_0,\"a,b\",\"c\"\"d\",\"e\nf\"\nbase,\"o,1\",50,1,1,2,3\n")
  job <- job_by_hand(answers_with(body), "o,1", names)
  expect_identical(times_of(job, 1L, 480L, 483L, 50L)[[1]][[1]], 1:3)
})

test_that("the words of a question are those of the call", {
  seen <- tempfile()
  job <- job_by_hand(answers_with(wide, words = seen), two, three, percentiles = c(25L, 50L), threads = 3L, rides = 0L)
  times_of(job, 1:2, 485L, 500L, c(25L, 50L))
  words <- readLines(seen)
  expect_identical(
    words[1:12],
    c("--from", "08:05", "--to", "08:20", "--trips", "1", "--share", "25,50", "--workers", "3", "--within", "0")
  )
  expect_identical(words[c(13, 15)], c("--origins", "--destinations"))
})

test_that("blocks of any size cover each origin once, in order", {
  for (size in list(1, 7, 50, NULL)) {
    withr::local_options(ttmr.block = size)
    job <- job_by_hand("exit 0", sprintf("o%02d", 1:20), "X")
    seen <- integer()
    in_blocks(job, 1L, function(chosen) seen <<- c(seen, chosen))
    expect_identical(seen, 1:20)
  }
})

test_that("a block's answer stays below the limit of bytes", {
  job <- job_by_hand("exit 0", seq_len(1000), "X", threads = 64L)
  sizes <- integer()
  in_blocks(job, 1e6, function(chosen) sizes <<- c(sizes, length(chosen)))
  expect_lte(max(sizes) * 7e6, 64e6)
  expect_identical(sum(sizes), 1000L)
})

test_that("access is read as numbers that may exceed an integer", {
  body <- charToRaw("scenario,origin,share,access_60,access_120\nbase,a,50,7,4294967295\n")
  job <- job_by_hand(answers_with(body), "a", "X")
  tables <- proved_access(job, 1L, list(jobs = 4294967295), c(1, 2))
  expect_identical(tables[[1]]$accessibility, c(7, 4294967295))
  expect_identical(tables[[1]]$cutoff, c(1, 2))
})

test_that("results that go to a folder are one whole file for each origin", {
  folder <- tempfile()
  dir.create(folder)
  job <- job_by_hand(answers_with(wide), c("a/b", "c d"), three, percentiles = c(25L, 50L), output_dir = folder)
  kept <- collector(job, "from_id")
  kept$add(list(pairs_of(job, 1:2, times_of(job, 1:2, 480L, 483L, c(25L, 50L))[[1]], "")))
  expect_identical(kept$end("ttm_matrix"), folder)
  expect_identical(sort(list.files(folder)), c("a%2Fb.csv", "c%20d.csv"))
  expect_identical(data.table::fread(file.path(folder, "c%20d.csv"))$travel_time_p25, c(201L, 202L, 203L))
})
