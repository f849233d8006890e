error_json <- function(kind, line, more = "\"status\": 1") {
  error <- sprintf("{\"kind\": \"%s\", \"line\": \"%s\", %s}", kind, line, more)
  sprintf("{\"command\": \"walks\", \"version\": \"2.1.0\", \"warnings\": [], \"error\": %s}", error)
}

test_that("a command's object is returned, and its words have --json", {
  withr::local_options(
    ttmr.tools = script("printf '{\"command\": \"%s\", \"words\": \"%s\", \"warnings\": []}' $1 \"$*\"")
  )
  object <- run_tools(c("walks", "feed"))
  expect_identical(object$words, "walks feed --json --progress json")
})

test_that("an error object is a refusal with its fields", {
  tools_that_print(paste0(
    "{\"command\": \"prepare\", \"version\": \"2.1.0\", \"warnings\": [], \"error\": {\"kind\": \"input\", \"line\": ",
    "\"stop_times.txt: record 5: bad time\", \"status\": 1, \"file\": \"stop_times.txt\", \"record\": 5, \"column\": ",
    "\"arrival_time\", \"value\": \"8:5\", \"allowed\": \"H:MM:SS\", \"limit\": null, \"nearest\": null}}"
  ), 1L)
  refusal <- expect_error(run_tools("prepare"), class = "ttm_refusal")
  found <- unclass(refusal)[c("file", "record", "column", "value", "allowed", "status")]
  expected <- list(
    file = "stop_times.txt", record = 5L, column = "arrival_time", value = "8:5", allowed = "H:MM:SS", status = 1L
  )
  expect_identical(found, expected)
  expect_match(refusal$line, "^ttm-tools prepare: stop_times.txt")
})

test_that("fields that are null are missing values", {
  tools_that_print(error_json("input", "no such thing", "\"file\": null, \"record\": null"), 1L)
  refusal <- expect_error(run_tools("walks"), class = "ttm_refusal")
  expect_identical(refusal$file, NA_character_)
  expect_identical(refusal$record, NA_integer_)
})

test_that("too many walks are a limit", {
  tools_that_print(error_json("input", "x: 4,000,001 walks are more than ttm takes"), 1L)
  expect_identical(expect_error(run_tools("points"), class = "ttm_limit")$limit, "walks")
})

test_that("a missing Python package is a missing program", {
  tools_that_print(error_json("dependency", "no osmium: apt-get install python3-pyosmium"), 1L)
  error <- expect_error(run_tools("points"), class = "ttm_missing_program")
  expect_identical(error$program, "ttm-tools")
  expect_match(conditionMessage(error), "python3-pyosmium")
})

test_that("output that is no object is an error with the last line", {
  tools_that_print("Traceback", 70L, c("some text", "ttm-tools walks: internal error"))
  error <- expect_error(run_tools("walks"), class = "ttm_engine_error")
  expect_identical(error$line, "ttm-tools walks: internal error")
  expect_identical(error$status, 70L)
})

test_that("errors of a feed's check are no failure", {
  tools_that_print(
    "{\"command\": \"prepare\", \"warnings\": [], \"errors\": [{\"file\": \"a.txt\", \"record\": null}]}", 1L
  )
  expect_length(run_tools("prepare")$errors, 1)
})

test_that("warnings become notes", {
  tools_that_print(
    paste0(
      "{\"warnings\": [{\"kind\": \"rounded\", \"text\": \"2 numbers\", \"affected\": 2}, ",
      "{\"kind\": \"feed\", \"text\": \"x\", \"affected\": null}]}"
    )
  )
  notes <- notes_of(run_tools("walks"))
  expect_identical(notes$kind, c("rounded", "feed"))
  expect_identical(notes$affected, c(2L, NA))
})

test_that("progress is shown with a label alone", {
  body <- c(
    "for n in 1 2 3 4; do echo \"{\\\"done\\\": $n, \\\"total\\\": 4}\" >&2; sleep 0.2; done",
    "echo '{\"warnings\": []}'"
  )
  withr::local_options(ttmr.tools = script(body))
  shown <- utils::capture.output(invisible(run_tools("walks", "Walks")), type = "message")
  expect_match(paste(shown, collapse = ""), "Walks .* 4/4")
  expect_identical(utils::capture.output(invisible(run_tools("walks")), type = "message"), character())
})

test_that("the command ends when a call is interrupted", {
  mark <- tempfile()
  withr::local_options(ttmr.tools = script(c(paste("echo $$ >", mark), "sleep 60")))
  tryCatch({
    setTimeLimit(elapsed = 1.5, transient = TRUE)
    run_tools("walks")
  }, error = function(e) NULL, finally = setTimeLimit())
  Sys.sleep(0.5)
  expect_false(dir.exists(file.path("/proc", readLines(mark))))
})

test_that("programs are found by option, then variable, and must be new enough", {
  withr::local_options(ttmr.tools = NULL, ttmr.program = NULL)
  withr::local_envvar(TTM_PROGRAM = script("exit 0"), TTM_TOOLS = script("exit 0", "2.0.9"))
  expect_identical(program_at("ttm"), normalizePath(Sys.getenv("TTM_PROGRAM")))
  error <- expect_error(program_at("ttm-tools"), class = "ttm_missing_program")
  expect_match(conditionMessage(error), "is version 2.0.9, and ttmr needs 2.1.0")
  expect_false(ttm_available())
  withr::local_options(ttmr.tools = script("exit 0"))
  expect_true(ttm_available())
  withr::local_options(ttmr.program = "/no/such/program")
  error <- expect_error(program_at("ttm"), class = "ttm_missing_program")
  expect_identical(error$commands, INSTALL)
  expect_false(ttm_available())
})

test_that("programs are searched in environments, then on the path", {
  withr::local_options(ttmr.tools = NULL, ttmr.program = NULL)
  folder <- tempfile()
  dir.create(file.path(folder, "bin"), recursive = TRUE)
  file.copy(script("exit 0"), file.path(folder, "bin", "ttm"))
  withr::local_envvar(TTM_PROGRAM = "", VIRTUAL_ENV = folder, CONDA_PREFIX = "")
  expect_identical(find_program("ttm"), normalizePath(file.path(folder, "bin", "ttm")))
  withr::local_envvar(VIRTUAL_ENV = "", PATH = paste0(file.path(folder, "bin"), ":/bin:/usr/bin"))
  expect_identical(find_program("ttm"), normalizePath(file.path(folder, "bin", "ttm")))
})

test_that("the cache makes an entry once, and is complete or absent", {
  root <- tempfile()
  made <- 0
  make <- function(folder) {
    made <<- made + 1
    writeLines("x", file.path(folder, "file"))
    list(number = made)
  }
  first <- cached(root, "walks", "key", make)
  expect_identical(cached(root, "walks", "key", make), first)
  expect_identical(made, 1)
  expect_identical(readLines(file.path(first$folder, "file")), "x")
  expect_identical(cached(root, "walks", "key", make, overwrite = TRUE)$object$number, 2)
  expect_error(cached(root, "walks", "other", function(folder) stop("no")))
  expect_identical(list.files(file.path(root, "walks")), "key")
})

test_that("the cache loses the entries that were used longest ago", {
  root <- tempfile()
  withr::local_options(ttmr.most_cache = 2500)
  make <- function(folder) writeBin(raw(1000), file.path(folder, "file"))
  old <- Sys.time() - 2 * 24 * 3600
  for (key in c("a", "b")) {
    Sys.setFileTime(cached(root, "walks", key, make)$folder, old + (key == "b"))
  }
  cached(root, "walks", "c", make)
  expect_identical(list.files(file.path(root, "walks")), c("b", "c"))
})

test_that("checksums of files depend on their names and bytes", {
  folder <- tempfile()
  dir.create(folder)
  path <- file.path(folder, "a.txt")
  writeLines("1", path)
  first <- digest_of_files(folder)
  writeLines("2", path)
  second <- digest_of_files(folder)
  file.rename(path, file.path(folder, "b.txt"))
  expect_length(unique(c(first, second, digest_of_files(folder))), 3)
})
