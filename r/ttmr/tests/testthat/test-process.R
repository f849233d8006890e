skip_if_not(ttm_available(), "ttm and ttm-tools")

at_eight <- "2026-05-04 08:00"
minutes <- function(network, ...) {
  travel_time_matrix(network, "A", c("B", "C"), departure_datetime = at_eight, time_window = 1, ...)$travel_time_p50
}

test_that("a killed engine is an error before the question, and the next call answers", {
  network <- small_network()
  expect_identical(minutes(network), c(10L, 30L))
  tools::pskill(processes_of(network)$pid, tools::SIGKILL)
  Sys.sleep(0.2)
  expect_identical(minutes(network), c(10L, 30L))
})

test_that("a stopped network answers again", {
  network <- small_network()
  expect_identical(minutes(network), c(10L, 30L))
  stop_ttm(network)
  expect_identical(nrow(processes_of(network)), 0L)
  expect_identical(minutes(network), c(10L, 30L))
  stop_ttm()
  expect_identical(nrow(processes_of(network)), 0L)
})

test_that("questions of one day share an engine, other days and modes have their own", {
  network <- small_network()
  minutes(network)
  minutes(network, max_rides = 2, n_threads = 1)
  travel_time_matrix(network, "A", "B", departure_datetime = "2026-05-04 09:00", percentiles = 75)
  expect_identical(nrow(processes_of(network)), 1L)
  minutes(network, mode = "BUS")
  travel_time_matrix(network, "A", "B", departure_datetime = "2026-05-11 08:00")
  expect_identical(nrow(processes_of(network)), 3L)
})

test_that("a network from a file, in another session, answers from the cache or from its files", {
  network <- small_network()
  path <- tempfile(fileext = ".rds")
  saveRDS(network, path)
  again <- readRDS(path)
  expect_identical(minutes(again), c(10L, 30L))
  stop_ttm(again)
  unlink(file.path(cache_folder(), "feeds", network$feed_key), recursive = TRUE)
  again <- readRDS(path)
  expect_identical(minutes(again), c(10L, 30L))
  writeLines("route_id,route_short_name,route_type\nR1,1,3", file.path(network$recipe$gtfs, "routes.txt"))
  unlink(file.path(cache_folder(), "feeds", network$feed_key), recursive = TRUE)
  expect_error(minutes(readRDS(path)), "changed since", class = "ttm_argument_error")
})

test_that("a fork has engines of its own", {
  skip_on_os("windows")
  network <- small_network()
  expect_identical(minutes(network), c(10L, 30L))
  pid <- processes_of(network)$pid
  expect_identical(parallel::mclapply(1:2, function(number) minutes(network), mc.cores = 2), rep(list(c(10L, 30L)), 2))
  expect_identical(processes_of(network)$pid, pid)
  expect_identical(minutes(network), c(10L, 30L))
})

test_that("no engine is left at the end of a session", {
  skip_if_not_installed("callr")
  installed <- requireNamespace("ttmr", quietly = TRUE) && !"pkgload" %in% loadedNamespaces()
  skip_if_not(installed, "the installed package")
  pids <- callr::r(function(folder) {
    network <- ttmr::setup_ttm(gtfs = folder, progress = FALSE)
    ttmr::travel_time_matrix(network, "A", "B", departure_datetime = "2026-05-04 08:00")
    summary(network)$processes$pid
  }, list(small_feed()), env = c(callr::rcmd_safe_env(), TTM_PROGRAM = find_program("ttm"),
  TTM_TOOLS = find_program("ttm-tools")))
  expect_length(pids, 1)
  Sys.sleep(1)
  expect_false(file.exists(file.path("/proc", pids, "status")))
})
