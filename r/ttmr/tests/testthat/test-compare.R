pairs <- function(...) {
  table <- data.table::data.table(...)
  data.table::setattr(table, "class", c("ttm_matrix", class(table)))
  data.table::setattr(table, "ttm", list(unit = "s", question = list(percentiles = 50L)))
  table
}
both <- function() {
  pairs(
    scenario = rep(c("today", "plan"), each = 5), from_id = rep(c("a", "a", "a", "b", "b"), 2),
    to_id = rep(c("x", "y", "z", "x", "y"), 2),
    travel_time_p50 = c(100L, 200L, 300L, 400L, NA, 100L, 260L, NA, 340L, 50L)
  )
}

test_that("pairs are cut off, slower, new or faster", {
  changed <- compare(both(), by = "pair")
  expect_identical(changed$what, c("slower", "cut off", "faster", "new"))
  expect_identical(changed$change, c(60L, NA, -60L, NA))
  expect_identical(changed$to_id, c("y", "z", "x", "y"))
  expect_identical(unique(changed$scenario), "plan")
})

test_that("a change up to the tolerance counts as unchanged", {
  expect_identical(compare(both(), by = "pair", tolerance = "1 min")$what, c("cut off", "new"))
  expect_identical(compare(both(), by = "pair", tolerance = "59 s")$what, c("slower", "cut off", "faster", "new"))
})

test_that("origins have counts and the mean change of pairs that both reach", {
  expect_equal(as.data.frame(compare(both())), data.frame(
    scenario = "plan", from_id = c("a", "b"), cut_off = c(1L, 0L), slower = c(1L, 0L), unchanged = c(1L, 0L),
    faster = c(0L, 1L), new = c(0L, 1L), mean_change = c(30, -60)
  ))
})

test_that("pairs without a row in one of two results are cut off or new", {
  one <- pairs(from_id = c("a", "a"), to_id = c("x", "y"), travel_time_p50 = 1:2)
  two <- pairs(from_id = c("a", "a"), to_id = c("y", "z"), travel_time_p50 = 2:3)
  changed <- compare(one, two, by = "pair")
  expect_identical(changed$what, c("cut off", "new"))
  expect_identical(changed$scenario, c("y", "y"))
})

test_that("matrices in minutes, or without a unit, are refused", {
  minutes <- both()
  attr(minutes, "ttm")$unit <- "min"
  error <- expect_error(compare(minutes), class = "ttm_argument_error")
  expect_match(conditionMessage(error), "off by one")
  lost <- both()
  data.table::setattr(lost, "ttm", NULL)
  expect_error(compare(lost), class = "ttm_argument_error")
  expect_identical(nrow(compare(lost, unit = "s")), 2L)
})

test_that("the scenario is needed if there are several, and must be in the result", {
  more <- both()
  more$scenario[10] <- "other"
  expect_error(compare(more), "is needed", class = "ttm_argument_error")
  expect_error(compare(both(), scenario = "none"), class = "ttm_argument_error")
  expect_error(compare(both(), base = "none"), class = "ttm_argument_error")
  expect_error(compare(both()[scenario == "plan", !"scenario"], unit = "s"), class = "ttm_argument_error")
})

test_that("percentiles are chosen by number", {
  two <- both()
  two$travel_time_p90 <- two$travel_time_p50 * 2L
  expect_error(compare(two), class = "ttm_argument_error")
  expect_identical(compare(two, by = "pair", percentile = 90)$change, c(120L, NA, -120L, NA))
})

access <- function() {
  table <- data.table::data.table(
    scenario = rep(c("today", "plan"), each = 5), id = rep(letters[1:5], 2), opportunity = "jobs", percentile = 50L,
    cutoff = 30,
    accessibility = c(10, 10, 10, 0, 0, 0, 8, 10, 5, 0)
  )
  data.table::setattr(table, "class", c("ttm_access", class(table)))
  table
}

test_that("access has before, after, change and the field's words", {
  found <- compare(access())
  expect_s3_class(found, "ttm_comparison")
  expect_identical(found$what, c("cut off", "loses", "unchanged", "newly reached", "unchanged"))
  expect_identical(found$change, c(-10, -2, 0, 5, 0))
  expect_identical(found$percent, c(-100, -20, 0, NA, NA))
  total <- summary(found)
  expect_identical(
    unlist(total[, c("cut_off", "loses", "unchanged", "gains", "newly_reached")]),
    c(cut_off = 1L, loses = 1L, unchanged = 2L, gains = 0L, newly_reached = 1L)
  )
  expect_identical(total$change, -7)
})

test_that("a matrix has origins as rows and destinations as columns", {
  expect_identical(as.matrix(both(), scenario = "plan"), matrix(
    c(100, 340, 260, 50, NA, NA), 2, 3, dimnames = list(c("a", "b"), c("x", "y", "z"))
  ))
  expect_identical(as.matrix(both())["a", "z"], 300)
})

test_that("a summary counts pairs and those reached", {
  found <- summary(both())
  expect_identical(found$scenario, c("today", "plan"))
  expect_identical(found$pairs, c(5L, 5L))
  expect_identical(found$reached, c(4L, 4L))
  expect_identical(found$median, c(250, 180))
  expect_identical(found$unit, c("s", "s"))
})
