# The built-in timetable of ttm: from A it takes 0 seconds to A, 600 to B and 1,800 to C; 10 jobs at B and 5 at C.
seconds <- c(0, 600, 1800, NA)
jobs <- c(0, 10, 5, 100)
access <- function(name, cutoff, value = NULL) {
  weights <- weights_of(seconds, cutoff * 60, list(name = name, value = value))
  sum(weights * jobs, na.rm = TRUE)
}

test_that("weights are those of R5", {
  expect_equal(access("step", 30), 15)
  expect_equal(access("step", 1799 / 60), 10)
  expect_equal(access("linear", 30, 20), 12.5)
  expect_equal(access("exponential", 10), 5.625)
  expect_equal(access("logistic", 10, 5), 10 * 1.02658 / 2 + 5 * 1.02658 / 1416.4, tolerance = 1e-5)
})

test_that("places that aren't reached have no weight", {
  for (name in c("step", "linear", "exponential", "logistic")) {
    expect_true(is.na(weights_of(NA_integer_, 600, list(name = name, value = 5))))
  }
})

test_that("a decay has its value, or none", {
  expect_identical(decay_of("step", NULL), list(name = "step", value = NULL))
  expect_error(decay_of("logistic", NULL), class = "ttm_argument_error")
  expect_error(decay_of("step", 5), class = "ttm_argument_error")
  expect_error(decay_of("linear", 0), class = "ttm_argument_error")
  unsupported <- expect_error(decay_of("fixed_exponential", 0.5), class = "ttm_unsupported")
  expect_match(unsupported$advice, "exponential")
})

test_that("opportunities are numbers from 0", {
  frame <- data.frame(id = 1:2, jobs = c(1, 2), bad = c(1, -1), text = "x")
  expect_identical(opportunities_of(frame, "jobs"), list(jobs = c(1, 2)))
  error <- expect_error(opportunities_of(frame, "bad"), class = "ttm_argument_error")
  expect_identical(error$argument, "destinations$bad")
  expect_error(opportunities_of(frame, "text"), class = "ttm_argument_error")
  expect_error(opportunities_of(frame, "people"), class = "ttm_argument_error")
  expect_error(opportunities_of(c("A", "B"), "jobs"), class = "ttm_argument_error")
})

test_that("the engine counts whole numbers that it can read", {
  expect_true(is_whole(c(0, 4294967295)))
  expect_false(is_whole(0.5))
  expect_false(is_whole(4294967296))
})
