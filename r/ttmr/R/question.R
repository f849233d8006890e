# What a call asks, checked: one reader of the arguments that all functions share.
#
# `frame` is the environment of the exported function. Returns a list; travel times are in seconds.
question_of <- function(fun, frame, dots) {
  check_dots(fun, dots)
  question <- list(network = called_network(frame, dots), fun = fun)
  has <- function(name) exists(name, envir = frame, inherits = FALSE)
  get_it <- function(name) get(name, envir = frame, inherits = FALSE)
  if (eval(quote(missing(departure_datetime)), frame)) {
    abort_argument("departure_datetime", "is needed: a feed seldom runs today", NA, "such as \"2026-05-04 08:00\"")
  }
  if (!identical(toupper(get_it("mode_egress")), "WALK")) {
    abort_unsupported("mode_egress", get_it("mode_egress"), "journeys end on foot, mode_egress = \"WALK\"")
  }
  departure <- departure_of(get_it("departure_datetime"))
  question <- c(question, departure, list(
    modes = modes_of(get_it("mode")), window = window_of(get_it("time_window"), departure$minute),
    walk = walk_seconds(get_it("max_walk_time")), longest = journey_seconds(get_it("max_trip_duration")),
    speed = speed_of(get_it("walk_speed")), rides = whole(get_it("max_rides"), "max_rides", 0, 8, "vehicles"),
    threads = threads_of(get_it("n_threads")), verbose = flag(get_it("verbose"), "verbose"),
    progress = flag(get_it("progress"), "progress"),
    percentiles = if (has("percentiles")) percentiles_of(get_it("percentiles")) else 50L,
    unit = if (has("unit")) one_of(get_it("unit"), "unit", c("min", "s")),
    unreached = if (has("unreached")) flag(get_it("unreached"), "unreached") else TRUE,
    output_dir = if (has("output_dir")) folder_of(get_it("output_dir"), "output_dir")
  ))
  question$scenarios <- chosen_scenarios(question$network, get_it("scenarios"))
  report_defaults(defaults_taken(frame))
  question
}

# The defaults that differ from r5r's and that a call took, as a named list.
defaults_taken <- function(frame) {
  names <- c("mode", "max_walk_time", "max_trip_duration", "walk_speed", "max_rides")
  names <- Filter(function(name) exists(name, envir = frame, inherits = FALSE), names)
  left_out <- Filter(function(name) eval(call("missing", as.name(name)), frame), names)
  stats::setNames(lapply(left_out, get, envir = frame), left_out)
}

# Returns the network of a call: its first argument, or r5r's names for it.
called_network <- function(frame, dots) {
  other <- intersect(c("r5r_network", "r5r_core"), names(dots))
  is_missing <- eval(quote(missing(network)), frame)
  if (is_missing && length(other)) {
    return(assure_prepared(as_network(dots[[other[[1]]]])))
  }
  if (is_missing) {
    abort_argument("network", "is needed", NA, "what setup_ttm() or with_scenarios() returns")
  }
  if (length(other)) {
    what <- paste("is named", other[[1]], "while others have no name; name all arguments")
    abort_argument("network", what, NA, "all by name, or network first")
  }
  assure_prepared(as_network(get("network", envir = frame)))
}

chosen_scenarios <- function(network, chosen) {
  known <- scenarios_of(network)
  if (is.null(chosen)) {
    return(known)
  }
  wrong <- setdiff(chosen, known)
  if (!is.character(chosen) || length(wrong)) {
    listed <- if (length(known)) paste(dQuote(known, FALSE), collapse = ", ") else "NULL, since there are none"
    abort_argument("scenarios", "names a scenario that the network lacks", wrong, listed)
  }
  known[known %in% chosen]
}

# r5r's names of transit modes, by the route_type of the GTFS reference and of its extension.
TRANSIT_MODES <- c(
  "0" = "TRAM", "1" = "SUBWAY", "2" = "RAIL", "3" = "BUS", "4" = "FERRY", "5" = "CABLE_CAR", "6" = "GONDOLA",
  "7" = "FUNICULAR", "11" = "BUS", "12" = "RAIL"
)
EXTENDED_MODES <- c(
  "1" = "RAIL", "2" = "BUS", "4" = "SUBWAY", "5" = "SUBWAY", "6" = "SUBWAY", "7" = "BUS", "8" = "BUS", "9" = "TRAM",
  "10" = "FERRY", "12" = "FERRY", "13" = "GONDOLA", "14" = "FUNICULAR"
)

# Returns the mode of each route_type, "OTHER" for those without one of r5r's names.
mode_of_type <- function(types) {
  number <- suppressWarnings(as.integer(types))
  extended <- unname(EXTENDED_MODES[as.character(number %/% 100L)])
  mode <- unname(TRANSIT_MODES[as.character(number)])
  mode <- ifelse(is.na(mode) & !is.na(number) & number >= 100L, extended, mode)
  ifelse(is.na(mode), "OTHER", mode)
}

# Returns the transit modes that run: NULL for all, none on foot.
modes_of <- function(mode) {
  allowed <- c("WALK", "TRANSIT", unique(TRANSIT_MODES))
  if (!is.character(mode) || !length(mode) || anyNA(mode)) {
    abort_argument("mode", "is no text", NA, paste(allowed, collapse = ", "))
  }
  mode <- unique(toupper(trimws(unlist(strsplit(mode, ";", fixed = TRUE)))))
  refused <- intersect(mode, c("BICYCLE", "BICYCLE_RENT", "CAR", "CAR_PARK"))
  if (length(refused)) {
    abort_unsupported("mode", refused, "journeys are on foot and by public transport; use r5r for others")
  }
  unknown <- setdiff(mode, allowed)
  if (length(unknown)) {
    abort_argument("mode", "is unknown", unknown[[1]], paste(allowed, collapse = ", "))
  }
  if ("TRANSIT" %in% mode) NULL else setdiff(mode, "WALK")
}

# Prepares what the engine needs for a question between two sides: the feed with the places, their walks and the
# scenario files. Returns a job; `names` of the sides are the engine's identifiers. `grid` is NULL, or `size` (metres)
# and `area` (a file of polygons) of square cells, which then are the destinations.
job_of <- function(question, origins, destinations, grid = NULL) {
  network <- question$network
  sides <- sides_of(origins, destinations)
  if (!is.null(grid)) {
    names(sides$tables) <- rep("origins", length(sides$tables))
  }
  walked <- walked_feed(question, sides$tables, grid)
  files <- scenario_files(question)
  places <- sum(vapply(sides$tables, nrow, 0L))
  key <- paste(
    question$date, places, walked$key, question$walk, question$speed, digest_of(names(files), files), sep = "|"
  )
  words <- function() {
    c(
      "--feed", walked$feed, "--date", question$date, "--from", "00:00", "--to", "00:00", "--trips", "4",
      "--walk", question$walk, "--share", "50", "--within", "1800", "--workers", "1", "--tries", "1",
      "--back", network$recipe$before, "--ahead", network$recipe$after, "--footpaths", walked$footpaths,
      unname(files), "--ask", "--report"
    )
  }
  job <- list(
    question = question, origins = sides$origins, destinations = sides$destinations, walked = walked,
    scenarios = if (length(question$scenarios)) question$scenarios, files = files, key = key, words = words,
    has_cells = !is.null(grid)
  )
  if (!is.null(grid)) {
    cells <- fread(walked$destinations, colClasses = "character")$stop_id
    job$destinations <- list(kind = "points", id = cells, names = cells)
  }
  job$notes <- new.env(parent = emptyenv())
  job$notes$rows <- list(walked$notes)
  warn_unreachable(job)
  job
}

# Returns the feed with the places and the file of walks, from the cache or by ttm-tools.
#
# `tables` are the points of each side; without any, the walks are those between stops. `grid` is as for `job_of`.
walked_feed <- function(question, tables, grid) {
  network <- question$network
  recipe <- network$recipe
  limit <- max(1L, question$walk)
  pace <- c("--limit", limit, "--speed", question$speed, "--detour", format(recipe$detour, digits = 15))
  pace <- c(pace, if (!is.null(recipe$streets)) c("--streets", recipe$streets))
  plan_key <- if (is.null(network$plan)) "" else network$plan$key
  key <- digest_of(
    network$feed_key, plan_key, pace, recipe$streets_checksum, tools_version(), names(tables), unlist(tables),
    grid$size,
    if (!is.null(grid)) digest_of_files(grid$area)
  )
  show <- if (question$progress) "Walks" else FALSE
  make <- function(folder) {
    ran <- if (length(tables) || length(grid)) {
      run_points(planned_folder(network), tables, grid, pace, folder, show)
    } else {
      run_tools(c("walks", planned_folder(network), pace, "--out", file.path(folder, "footpaths.csv")), show)
    }
    list(unreachable = ran$unreachable, notes = notes_of(ran), has_places = length(tables) + length(grid) > 0L)
  }
  entry <- cached(cache_folder(recipe$is_temporary), "walks", key, make)
  places <- file.path(entry$folder, "places")
  has_places <- entry$object$has_places
  list(
    key = key, feed = if (has_places) file.path(places, "feed") else planned_folder(network),
    footpaths = file.path(if (has_places) places else entry$folder, "footpaths.csv"),
    destinations = file.path(places, "destinations.csv"), unreachable = entry$object$unreachable,
    notes = entry$object$notes
  )
}

# Writes places and walks with `ttm-tools points` into `folder`.
run_points <- function(feed, tables, grid, pace, folder, show) {
  given <- tempfile("ttmr-places-")
  dir.create(given)
  on.exit(unlink(given, recursive = TRUE))
  files <- stats::setNames(file.path(given, paste0(names(tables), ".csv")), names(tables))
  for (name in names(tables)) {
    fwrite(tables[[name]], files[[name]])
  }
  sides <- files[names(files) != "both"]
  words <- c("points", feed, unname(files[names(files) == "both"])) # before all options
  words <- c(words, as.vector(rbind(sprintf("--%s", names(sides)), sides)))
  words <- c(words, if (!is.null(grid)) c("--grid", grid$size, "--area", grid$area), pace)
  words <- c(words, "--out", file.path(folder, "places"))
  run_tools(words, show)
}

# Returns the scenario files of a question, named by scenario. `mode` adds the removal of all other routes to each.
scenario_files <- function(question) {
  network <- question$network
  wanted <- question$scenarios
  files <- if (length(wanted)) {
    stats::setNames(file.path(network$plan$folder, network$plan$object$files[wanted]), wanted)
  } else {
    character()
  }
  if (is.null(question$modes) && question$rides > 0L) {
    return(files)
  }
  routes <- feed_table(network, "routes.txt", c("route_id", "route_type"))
  runs <- mode_of_type(routes$route_type) %in% question$modes & question$rides > 0L
  if (all(runs)) {
    return(files)
  }
  without <- data.table(action = "remove_route", id = routes$route_id[!runs], seconds = "")
  names <- if (length(files)) names(files) else "modes"
  folder <- file.path(tempdir(), paste0("ttmr-modes-", digest_of(unlist(without), files, unlist(network$plan$key))))
  dir.create(folder, showWarnings = FALSE)
  written <- lapply(names, function(name) {
    path <- file.path(folder, paste0(name, ".csv"))
    own <- if (length(files)) fread(
      files[[name]], colClasses = "character", na.strings = NULL, header = TRUE, sep = ","
    )
    fwrite(rbindlist(list(own, without)), path)
    path
  })
  stats::setNames(unlist(written), names)
}

# Warns of places from which, or to which, no walk leads to a stop.
warn_unreachable <- function(job) {
  lost <- unlist(job$walked$unreachable)
  from <- job$origins$id[job$origins$names %in% lost]
  to <- if (!job$has_cells) job$destinations$id[job$destinations$names %in% lost]
  count <- length(unique(c(as.character(from), as.character(to))))
  if (!count) {
    return(invisible())
  }
  shown <- utils::head(unique(c(as.character(from), as.character(to))), 4L)
  text <- paste0(
    count, if (count == 1L) " place has" else " places have", " no stop within max_walk_time: ",
    paste(shown, collapse = ", "), if (count > 4L) ", .."
  )
  rows <- job$notes$rows[[1]]
  job$notes$rows[[1]] <- rbindlist(list(rows[rows$kind != "unreachable", ], note("unreachable", text, count)))
  warn("ttm_unreachable_warning", text, from_id = from, to_id = to)
}
