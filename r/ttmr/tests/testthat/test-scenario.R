last_action <- function(scenario) scenario$actions[[length(scenario$actions)]]
empty <- function() scenario("plan")
refused <- function(code, argument) {
  error <- expect_error(code, class = "ttm_argument_error")
  expect_identical(error$argument, argument)
}

test_that("each function adds an action with the keys of a plan file", {
  expect_identical(last_action(remove_routes(empty(), "R1")), list(do = "remove_route", route = "R1"))
  expect_identical(last_action(remove_routes(empty(), c("R1", "R2")))$route, list("R1", "R2"))
  expect_identical(last_action(remove_trips(empty(), "T1")), list(do = "remove_trip", trip = "T1"))
  expect_identical(last_action(remove_stops(empty(), "C", "R2")), list(do = "remove_stop", stop = "C", route = "R2"))
  expect_identical(
    last_action(shift_route(empty(), "R1", "5 min")), list(do = "shift_route", route = "R1", seconds = 300)
  )
  expect_identical(
    last_action(shift_trips(empty(), "T1", "-90 s")), list(do = "shift_trip", trip = "T1", seconds = -90)
  )
  expect_identical(
    last_action(set_headway(empty(), "R2", "5 min", "08:10", "08:20", direction = 0)),
    list(do = "headway", route = "R2", direction = 0L, every = 300, from = "08:10", to = "08:20")
  )
  expect_identical(
    last_action(double_frequency(empty(), "R2")),
    list(do = "headway", route = "R2", times = 2L, from = "00:00", to = "30:00")
  )
  expect_identical(last_action(cut_route(empty(), "R1", after = "B")), list(do = "cut", route = "R1", after = "B"))
})

test_that("speed changes by a factor, by dwell, or by one after the other", {
  expect_identical(last_action(change_speed(empty(), "R2", 0.85)), list(do = "speed", route = "R2", factor = 0.85))
  between <- last_action(change_speed(empty(), "R2", dwell = "-10 s", between = c("B", "C")))
  expect_identical(between, list(do = "speed", route = "R2", from_stop = "B", to_stop = "C", dwell = -10))
  expect_length(change_speed(empty(), "R2", 0.85, "10 s")$actions, 2)
  refused(change_speed(empty(), "R2"), "factor")
  refused(change_speed(empty(), "R2", -1), "factor")
})

test_that("a line has stops, a pace and departures", {
  line <- add_line(
    empty(), "T1", c("A", "B"), list(c("08:00", "08:10", "10 min")), run_times = "300 s", dwell = "20 s", mode = "tram"
  )
  expect_identical(last_action(line), list(
    do = "add_line", route = "T1", type = 0L, stops = list("A", "B"), seconds = list(300), dwell = 20, both = TRUE,
    departures = list(list(first = "08:00", last = "08:10", every = 600)), days = "daily"
  ))
  weekend <- add_line(
    empty(), "T1", c("A", "B"), list(c("08:00", "08:10", "10 min")), kmh = 24, days = "saturday sunday"
  )
  expect_identical(last_action(weekend)$days, list("saturday", "sunday"))
  own <- add_line(empty(), "T1", c("A", "B"), list(c("08:00", "08:10", "10 min")), kmh = 24, days = "MON")
  expect_identical(
    last_action(own)[c("service", "days")],
    list(service = "MON", days = NULL)[c("service", NA)] |> stats::setNames(c("service", NA))
  )
})

test_that("points in any projection are stops of a line", {
  shapes <- sf::st_sfc(sf::st_point(c(-0.1, 51.5)), sf::st_point(c(-0.12, 51.52)), crs = 4326)
  way <- sf::st_transform(sf::st_sf(id = c("A", NA), geometry = shapes), 27700)
  line <- add_line(empty(), "T1", way, list(c("08:00", "08:10", "10 min")), kmh = 24)
  expect_identical(last_action(line)$stops, list("A", "T1-2"))
  expect_equal(line$stops$lat, c(51.5, 51.52), tolerance = 1e-6)
  text <- toml_of(list(line), known = "A")
  expect_identical(sum(text == "[[stop]]"), 1L)
  expect_true("id = \"T1-2\"" %in% text)
})

test_that("a route goes on to one stop or more, with a run time for each", {
  one <- last_action(extend_route(empty(), "R1", "C", after = "B", run_times = "600 s", dwell = "30 s"))
  expect_identical(
    one, list(do = "extend", route = "R1", after = "B", stops = list("C"), seconds = list(600), dwell = 30)
  )
  refused(extend_route(empty(), "R1", c("C", "D"), after = "B", run_times = "600 s"), "run_times")
  refused(extend_route(empty(), "R1", "C", after = "B", before = "A", kmh = 20), "after")
  refused(cut_route(empty(), "R1"), "after")
})

test_that("wrong arguments are refused when they are written", {
  refused(scenario("today"), "name")
  refused(remove_routes(empty(), character()), "routes")
  refused(remove_routes("R1", "R1"), "scenario")
  refused(remove_modes(empty(), "plane"), "modes")
  refused(shift_route(empty(), "R1", 300), "by")
  refused(set_headway(empty(), "R1", "5 min", "8", "09:00"), "start")
  refused(add_line(empty(), "T1", c("A", "B"), list(c("05:30", "23:30", "10 min"))), "kmh")
  refused(add_line(empty(), "T1", c("A", "B"), list(c("05:30", "10 min")), kmh = 24), "departures")
  refused(add_line(empty(), "T1", c("A", "B"), list(c("05:30", "23:30", "10")), kmh = 24), "departures")
  refused(add_line(empty(), "T1", c("A", "B"), "05:30", kmh = 24), "departures")
  refused(shift_route(empty(), "R1", "1 min", direction = 2), "direction")
})

test_that("a scenario is not changed by what is made from it", {
  first <- remove_routes(empty(), "R1")
  second <- remove_routes(first, "R2")
  expect_length(first$actions, 1)
  expect_length(second$actions, 2)
})

test_that("a scenario prints its actions, one on each line", {
  printed <- utils::capture.output(print(empty() |> remove_routes("R1") |> shift_trips(c("T1", "T2"), "60 s")))
  expect_identical(printed, c(
    "<ttm_scenario> plan", "  1 remove_route: route = \"R1\"", "  2 shift_trip: trip = [\"T1\", \"T2\"], seconds = 60"
  ))
})

test_that("a plan file is the same scenarios when it is read again", {
  shapes <- sf::st_sfc(sf::st_point(c(7, 50.5)), sf::st_point(c(7, 50)), crs = 4326)
  way <- sf::st_sf(id = c("N", "A"), name = c("New \"one\"", "A"), geometry = shapes)
  plans <- list(
    first = scenario("first") |> remove_routes(c("R1", "a\\b")) |> change_speed("R2", 0.85) |>
      add_line("T1", way, list(c("05:30", "23:30", "10 min"), c("06:00", "07:00", "5 min")), kmh = 24.5),
    second = scenario("second") |> shift_trips("T1", "-60 s")
  )
  path <- tempfile(fileext = ".toml")
  expect_identical(write_plan(plans, path), path)
  expect_equal(read_plan(path), plans, ignore_attr = c("index", ".internal.selfref"))
})

test_that("plan files are read as they are written by hand", {
  path <- tempfile(fileext = ".toml")
  writeLines(c(
    "# a plan", "[[stop]]", "id = \"EAST\"  # new", "name = 'East \"Park\"'", "lat = 51.5115", "lon = -0.0408", "",
    "[[scenario]]",
    "name = \"tram\"", "[[scenario.action]]", "do = \"add_line\"", "route = \"T1\"", "stops = [", "  \"EAST\", # first",
    "  \"B\",", "]", "speed = 24", "both = false",
    "departures = [{ first = \"05:30\", last = \"23:30\", every = 1_000 }]"
  ), path)
  plan <- read_plan(path)$tram
  expect_identical(last_action(plan)$stops, list("EAST", "B"))
  expect_identical(last_action(plan)$departures[[1]]$every, 1000)
  expect_identical(last_action(plan)$both, FALSE)
  expect_identical(plan$stops$name, "East \"Park\"")
})

test_that("a wrong plan file is a refusal with its line", {
  refused_line <- function(lines, record) {
    path <- tempfile(fileext = ".toml")
    writeLines(lines, path)
    refusal <- expect_error(read_plan(path), class = "ttm_refusal")
    expect_identical(refusal$file, path)
    expect_identical(refusal$record, record)
  }
  refused_line(c("[[scenario]]", "name = \"x\"", "[[scenario.action]]", "do = x"), 4L)
  refused_line(c("[[scenario]]", "", "name \"x\""), 3L)
  refused_line(c("", "[[scenarios]]", "name = \"x\""), 2L)
  refused_line(c("[[scenario]]", "title = \"x\""), 1L)
  refused_line(c("[[scenario.action]]", "do = \"cut\""), 1L)
  refused_line("x = 1", 1L)
  refused_line(c("[[stop]]", "id = \"A\"", "lat = 1"), 1L)
  refused_line(c("[[scenario]]", "name = [\"x\""), 2L)
})

test_that("modes and directions are those of a plan file", {
  expect_identical(last_action(remove_modes(empty(), c("tram", "bus")))[["do"]], "remove_mode")
  expect_equal(last_action(shift_route(empty(), "R1", "1 min", direction = 1))[["direction"]], 1)
  path <- tempfile()
  write_plan(scenario("x") |> remove_modes("tram") |> shift_route("R1", "1 min", direction = 0), path)
  expect_true(all(c("mode = \"tram\"", "direction = 0") %in% readLines(path)))
  expect_equal(read_plan(path)[[1]]$actions, (scenario("x") |> remove_modes("tram") |>
    shift_route("R1", "1 min", direction = 0))$actions)
})
