# Counts how often a page of PDF fills a shape with a colour.
filled <- function(draw, colour) {
  path <- withr::local_tempfile(fileext = ".pdf")
  grDevices::pdf(path, compress = FALSE)
  draw()
  grDevices::dev.off()
  lines <- readLines(path, warn = FALSE)
  colours <- grep(" scn$", lines)
  channels <- paste(sprintf("%.3f", grDevices::col2rgb(colour)[, 1] / 255), collapse = " ")
  sets <- grepl(paste(channels, "scn"), lines[colours], fixed = TRUE)
  fills <- grep("(^| )[fbB][*]?$", lines)
  places <- findInterval(fills, colours)
  sum(sets[places[places > 0L]])
}

square <- function(size) sf::st_polygon(list(rbind(c(0, 0), c(size, 0), c(size, size), c(0, size), c(0, 0)) / 100))

areas <- function(...) {
  shapes <- sf::st_sfc(sf::st_multipolygon(list(square(2))), sf::st_multipolygon(list(square(1))), crs = 4326)
  table <- sf::st_sf(..., isochrone = c(30, 15), polygons = shapes)
  class(table) <- c("ttm_isochrone", class(table))
  table
}

test_that("isochrones are drawn in the colours of their classes, with and without scenarios", {
  near <- time_colours(2)[1]
  far <- time_colours(2)[2]
  # the shape and its field of the key
  expect_identical(filled(function() plot(areas(id = "a")), near), 2L)
  expect_identical(filled(function() plot(areas(id = "a")), far), 2L)
  two <- rbind(areas(scenario = "today"), areas(scenario = "plan"))
  class(two) <- c("ttm_isochrone", setdiff(class(two), "ttm_isochrone"))
  expect_identical(filled(function() plot(two), near), 4L)
})

test_that("a catchment shows each origin in the colour of its class", {
  points <- sf::st_sfc(lapply(1:3, function(x) sf::st_point(c(x, 0))), crs = 4326)
  catchment <- sf::st_sf(id = 1:3, to_id = "north", travel_time_p50 = c(5L, 20L, NA), geometry = points)
  class(catchment) <- c("ttm_catchment", class(catchment))
  attr(catchment, "ttm") <- list(
    cutoffs = c(15, 30), seconds = list("50" = c(300, 1200, NA)), unit = "min", people = character()
  )
  expect_identical(filled(function() plot(catchment), time_colours(2)[1]), 2L)
  expect_identical(filled(function() plot(catchment), time_colours(2)[2]), 2L)
})

test_that("colours are dark for near", {
  light <- colSums(grDevices::col2rgb(time_colours(5)))
  expect_false(is.unsorted(light))
})
