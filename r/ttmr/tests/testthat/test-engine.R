# Asks, and fails instead of waiting forever for bytes that don't come.
ask_within <- function(engine, words, seconds = 30) {
  setTimeLimit(elapsed = seconds, transient = TRUE)
  on.exit(setTimeLimit())
  ask(engine, words)
}

test_that("an answer is exactly the engine's bytes, also those that are no UTF-8", {
  bytes <- as.raw(c(0xff, 0x0a, 0x01, 0xc3, 0xa9, 0x80, 0x41))
  expect_identical(ask_within(engine_of(answers_with(bytes)), "--trips"), bytes)
})

test_that("a long answer arrives whole, and the next one after it", {
  set.seed(1)
  bytes <- as.raw(sample(1:255, 3e6, replace = TRUE))
  engine <- engine_of(answers_with(bytes))
  expect_identical(ask_within(engine, "--trips"), bytes)
  expect_identical(ask_within(engine, "--trips"), bytes)
})

test_that("an empty answer is no bytes", {
  expect_identical(ask(engine_of(answers_with(raw())), "--trips"), raw())
})

test_that("a question is one word a line, then an empty line", {
  seen <- tempfile()
  ask(engine_of(answers_with(charToRaw("x"), words = seen)), c("--from", "08:00", "--origins", "a b.csv"))
  expect_identical(readLines(seen), c("--from", "08:00", "--origins", "a b.csv", ""))
})

test_that("a word that would end the question is refused before it is sent", {
  engine <- engine_of(answers_with(charToRaw("x")))
  expect_error(ask(engine, c("--from", "")), class = "ttm_argument_error")
  expect_error(ask(engine, "a\nb"), class = "ttm_argument_error")
  expect_identical(ask(engine, "--trips"), charToRaw("x"))
})

test_that("a refusal has file, record and explanation, and the engine lives on", {
  line <- charToRaw("ttm: /tmp/x/ttmr-question-1a2b/origins.csv: record 2: unknown stop\n")
  second <- "echo 'ttm: column stop_id is \"X\"; stops.txt has to name it' >&2"
  body <- c(second, answers_with(line, 2L))
  engine <- engine_of(body)
  refusal <- expect_error(ask(engine, "--trips"), class = "ttm_refusal")
  expect_identical(refusal$file, "origins.csv")
  expect_identical(refusal$record, 2L)
  expect_identical(refusal$status, 2L)
  expect_identical(refusal$column, "stop_id")
  expect_identical(refusal$value, "X")
  expect_identical(refusal$allowed, "stops.txt has to name it")
  expect_true(is_running(engine))
})

test_that("statuses other than 2 are errors of the engine", {
  error <- expect_error(
    ask(engine_of(answers_with(charToRaw("ttm: out of memory\n"), 3L)), "--x"), class = "ttm_engine_error"
  )
  expect_identical(error$status, 3L)
  expect_identical(error$line, "ttm: out of memory")
})

test_that("an engine that is killed in an answer is an error with its signal and last line", {
  engine <- engine_of(each_question("echo 'ttm: rows done: 5' >&2; printf 'answer 0 100\\nabc'; kill -9 $$"))
  error <- expect_error(ask(engine, "--x"), class = "ttm_engine_error")
  expect_identical(error$status, 137L)
  expect_identical(error$line, "ttm: rows done: 5")
  expect_false(is_running(engine))
})

test_that("an engine that ended before the question is an error, not a wait", {
  engine <- engine_of("exit 7")
  engine$process$wait()
  error <- expect_error(ask(engine, "--x"), class = "ttm_engine_error")
  expect_identical(error$status, 7L)
})

test_that("a feed that is refused at the start is a refusal with its two lines", {
  engine <- engine_of(c(
    "echo 'ttm: stops: 4' >&2", "echo 'ttm: stop_times.txt: record 5: bad time' >&2",
    "echo 'ttm: column arrival_time is \"8:5\"; a time is H:MM:SS' >&2", "exit 2"
  ))
  refusal <- expect_error(ask(engine, "--x"), class = "ttm_refusal")
  expect_identical(refusal$record, 5L)
  expect_identical(refusal$value, "8:5")
  expect_identical(refusal$line, "ttm: stop_times.txt: record 5: bad time")
})

test_that("a limit is a refusal with advice", {
  engine <- engine_of(c("echo 'ttm: too many footpaths' >&2", "exit 2"))
  limit <- expect_error(ask(engine, "--x"), class = "ttm_limit")
  expect_s3_class(limit, "ttm_refusal")
  expect_identical(limit$limit, "walks")
  expect_match(limit$advice, "max_walk_time")
})

test_that("output that is no answer ends the engine", {
  engine <- engine_of(each_question("printf '%0100d' 0"))
  expect_error(ask(engine, "--x"), class = "ttm_engine_error")
  engine$process$wait(2000)
  expect_false(is_running(engine))
})

test_that("an interrupted question ends the engine, and the next call starts another one", {
  network <- network_of_recipe(list())
  withr::local_options(ttmr.program = script(each_question("printf 'answer 0 100\\nabc'; sleep 60")))
  engine <- engine_for(network, "20260504|0|key", function() character())
  interrupted <- tryCatch({
    setTimeLimit(elapsed = 1, transient = TRUE)
    ask(engine, "--x")
  }, error = function(e) "interrupted", finally = setTimeLimit())
  expect_identical(interrupted, "interrupted")
  engine$process$wait(2000)
  expect_false(engine$process$is_alive())
  withr::local_options(ttmr.program = script(answers_with(charToRaw("new"))))
  other <- engine_for(network, "20260504|0|key", function() character())
  expect_identical(ask_within(other, "--x", 10), charToRaw("new"))
  stop_ttm(network)
  expect_false(is_running(other))
})

test_that("one engine answers for each key, and the one that is unused for longest ends when there are five", {
  network <- network_of_recipe(list())
  withr::local_options(ttmr.program = script(answers_with(charToRaw("x"))))
  start <- function(key) engine_for(network, key, function() character())
  engines <- lapply(paste0("20260504|0|", 1:4), start)
  expect_identical(start("20260504|0|1"), engines[[1]])
  fifth <- start("20260504|0|5")
  expect_identical(vapply(engines, is_running, NA), c(TRUE, FALSE, TRUE, TRUE))
  expect_identical(nrow(processes_of(network)), 4L)
  stop_ttm(network)
  expect_identical(nrow(processes_of(network)), 0L)
  expect_false(any(vapply(c(engines, fifth), is_running, NA)))
})

test_that("a network that is collected ends its engine", {
  withr::local_options(ttmr.program = script(answers_with(charToRaw("x"))))
  engine <- engine_for(network_of_recipe(list()), "20260504|0|key", function() character())
  gc()
  engine$process$wait(2000)
  expect_false(engine$process$is_alive())
})

test_that("a fork starts an engine of its own, and leaves the parent's alone", {
  skip_on_os("windows")
  network <- network_of_recipe(list())
  withr::local_options(ttmr.program = script(answers_with(charToRaw("x"))))
  engine <- engine_for(network, "20260504|0|key", function() character())
  parent <- engine$process$get_pid()
  children <- parallel::mclapply(1:2, function(number) {
    other <- engine_for(network, "20260504|0|key", function() character())
    answer <- ask(other, "--x")
    pid <- other$process$get_pid()
    stop_ttm(network)
    list(answer = answer, pid = pid)
  }, mc.cores = 2)
  expect_identical(lapply(children, `[[`, "answer"), rep(list(charToRaw("x")), 2))
  expect_false(parent %in% vapply(children, `[[`, 0L, "pid"))
  expect_true(is_running(engine))
  expect_identical(ask(engine, "--x"), charToRaw("x"))
  stop_ttm(network)
})
