# Programs that stand in for `ttm` and `ttm-tools`: shell scripts that print what a test needs.

# Writes a script that answers `--version`, then runs `body`; returns its path.
script <- function(body, version = "2.1.0") {
  path <- tempfile("program-")
  writeLines(c("#!/bin/sh", paste0("[ \"$1\" = --version ] && { echo \"ttm ", version, "\"; exit 0; }"), body), path)
  Sys.chmod(path, "755")
  path
}

# The body of an engine that runs `answer` after each question.
each_question <- function(answer) {
  c("while IFS= read -r line; do", "  if [ -z \"$line\" ]; then", paste("   ", answer), "  fi", "done")
}

# The body of an engine that answers each question with the bytes of a file, and notes the words in another one.
answers_with <- function(bytes, status = 0L, words = "/dev/null") {
  path <- tempfile("answer-")
  writeBin(c(charToRaw(sprintf("answer %d %d\n", status, length(bytes))), bytes), path)
  c(
    "while IFS= read -r line; do", paste0("  echo \"$line\" >> ", words),
    paste0("  [ -z \"$line\" ] && cat ", path), "done"
  )
}

# An engine that runs a script, ended with the test.
engine_of <- function(body, frame = parent.frame()) {
  withr::local_options(ttmr.program = script(body), .local_envir = frame)
  engine <- start_engine(character(), "20260504|0|key")
  withr::defer(engine$process$kill(), frame)
  engine
}

# A job between stops whose engine runs a script; `...` replaces parts of the question.
job_by_hand <- function(body, from, to, ..., scenarios = NULL, files = character(), frame = parent.frame()) {
  withr::local_options(ttmr.program = script(body), .local_envir = frame)
  network <- network_of_recipe(list(before = 1L, after = 1L))
  withr::defer(stop_ttm(network), frame)
  question <- list(
    network = network, fun = "travel_time_matrix", date = "20260504", minute = 480L, window = 4L, percentiles = 50L,
    longest = Inf, rides = 4L, threads = 1L, verbose = FALSE, progress = FALSE, unit = "s", unreached = FALSE
  )
  changed <- list(...)
  question[names(changed)] <- changed
  notes <- new.env()
  notes$rows <- list()
  list(
    question = question, origins = list(id = from, names = as.character(from)),
    destinations = list(id = to, names = as.character(to)), scenarios = scenarios, files = files,
    key = "20260504|0|key", words = function() character(), notes = notes
  )
}

# Sets a ttm-tools that prints a JSON text and ends with a status.
tools_that_print <- function(json, status = 0L, notes = character(), frame = parent.frame()) {
  path <- tempfile("json-")
  writeLines(json, path, useBytes = TRUE)
  body <- c(sprintf("echo '%s' >&2", notes), paste("cat", path), paste("exit", status))
  withr::local_options(ttmr.tools = script(body), .local_envir = frame)
}
