# Runs of `ttm` itself, to compare with.

# Returns the prepared folder that a call uses: its feed, its walks and the engine's identifiers of both sides.
prepared <- function(network, origins, destinations, walk = 600L, kmh = 4.8) {
  question <- list(
    network = network, walk = walk, speed = speed_of(kmh), progress = FALSE, modes = NULL, rides = 4L,
    scenarios = scenarios_of(network), date = "20260504"
  )
  suppressWarnings(job_of(question, places_of(origins, "origins"), places_of(destinations, "destinations")))
}

# Runs `ttm` on a prepared folder, and returns what it prints as a table of numbers.
run_ttm <- function(job, date, from, to, ..., files = list()) {
  words <- c(
    "--feed", job$walked$feed, "--footpaths", job$walked$footpaths, "--date", date, "--from", from, "--to", to,
    "--walk", job$question$walk, "--workers", "2", "--tries", "1", ...
  )
  for (name in names(files)) {
    path <- tempfile(fileext = ".csv")
    data.table::fwrite(files[[name]], path, quote = TRUE)
    words <- c(words, paste0("--", name), path)
  }
  out <- tempfile(fileext = ".csv")
  processx::run(find_program("ttm"), as.character(c(words, unname(job$files))), stdout = out)
  out
}

stops_file <- function(names) data.table::data.table(stop_id = names)
