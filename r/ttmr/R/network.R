#' Set up a network from a folder, or from feeds and streets
#'
#' Reads one street file and all feeds, repairs what the engine would refuse, and returns a network that all other
#' functions take first. Prepared feeds and walks are cached by checksum, so the second call returns at once. The engine
#' starts with the first question.
#'
#' @param data_path Text. A folder with any number of GTFS zip files and at most one `.osm.pbf` file, as for r5r; other
#'   files are left alone. Or give `gtfs` and `streets`.
#' @param verbose Logical. Print what the tools and the engine report.
#' @param temp_dir Logical. Cache in the session's temporary folder, which R removes, instead of the user's cache.
#' @param overwrite Logical. Prepare again even if the cache has the result.
#' @param ... r5r's other arguments: see [r5r_support()].
#' @param gtfs Character. Zip files or folders of feeds; several are merged. Instead of `data_path`.
#' @param streets Text. An OpenStreetMap file (`.osm.pbf`, `.osm`). Without one, walks are straight lines times
#'   `detour`.
#' @param repair Logical. Repair feeds; `FALSE` raises the `ttm_refusal` of the first error instead.
#' @param allow_loss Logical. Go on even if a repair removes more than a tenth of a file.
#' @param detour Number from 1. Metres walked for a metre of straight line, where there are no streets.
#' @param days_before,days_after Whole numbers, 0 to 6. Neighbouring service days whose trips count. One day before
#'   takes in trips past midnight.
#' @param progress Logical. Show progress while preparing.
#'
#' @return An object of class `ttm_network`. It never changes; [with_scenarios()] returns another one. It survives
#'   [saveRDS()] and the way to a parallel worker: it is then opened again from the cache, or from its files.
#'
#' @section Errors:
#' `ttm_argument_error` if there is no feed, several street files, or the folder of a plan; `ttm_refusal`; `ttm_limit`;
#' `ttm_missing_program`. Warns with `ttm_repair_warning`.
#'
#' @examplesIf ttmr::ttm_available()
#' town <- ttm_sample()
#' network <- setup_ttm(town$data_path)
#' network
#' head(trips_by_date(network))
#' stop_ttm(network)
#'
#' # the same from files
#' network <- setup_ttm(gtfs = town$gtfs, streets = town$streets)
#' stop_ttm(network)
#' @export
setup_ttm <- function(data_path = NULL, verbose = FALSE, temp_dir = FALSE, overwrite = FALSE, ..., gtfs = NULL,
                      streets = NULL, repair = TRUE, allow_loss = FALSE, detour = 1.3, days_before = 1L,
                      days_after = 1L, progress = interactive()) {
  check_dots("setup_ttm", list(...))
  if (has_elevation(data_path)) {
    check_elevation(list(...))
  }
  paths <- inputs_of(data_path, gtfs, streets)
  recipe <- list(
    gtfs = paths$gtfs, streets = paths$streets, plan = list(),
    repair = flag(repair, "repair"), allow_loss = flag(allow_loss, "allow_loss"),
    detour = within_range(detour, "detour", 1, 100, "metres for each metre of straight line"),
    before = whole(days_before, "days_before", 0, 6, "days"), after = whole(days_after, "days_after", 0, 6, "days"),
    is_temporary = flag(temp_dir, "temp_dir"), checksum = digest_of_files(paths$gtfs),
    streets_checksum = if (!is.null(paths$streets)) digest_of_files(paths$streets) else ""
  )
  network <- network_of_recipe(recipe)
  prepare(
    network, flag(overwrite, "overwrite"), if (flag(progress, "progress")) "Feed" else FALSE, flag(verbose, "verbose")
  )
  warn_repairs(network)
  network
}

# Returns the feeds and the street file that the arguments name, as absolute paths.
inputs_of <- function(data_path, gtfs, streets) {
  if (is.null(data_path) == is.null(gtfs)) {
    abort_argument("data_path", "or gtfs is needed, but not both", NA, "data_path = a folder, or gtfs = zip files")
  }
  if (!is.null(data_path)) {
    folder <- folder_of(data_path, "data_path")
    if (!is.null(streets)) {
      abort_argument("streets", "goes with gtfs, not with data_path", streets, "gtfs and streets")
    }
    gtfs <- feeds_in(folder)
    streets <- list.files(folder, "[.]osm[.]pbf$", full.names = TRUE, ignore.case = TRUE)
    if (length(streets) > 1L) {
      abort_argument("data_path", paste("has", length(streets), "street files"), folder, "at most one .osm.pbf file")
    }
  }
  for (path in gtfs) {
    if (!is_text(path) || !file.exists(path)) {
      abort_argument("gtfs", "does not exist", path, "zip files or folders of feeds")
    }
    if (dir.exists(file.path(path, "scenarios"))) {
      abort_argument("gtfs", "is the folder of a plan", path, "the plan's own feed, and with_scenarios(read_plan())")
    }
  }
  if (length(streets) && (!is_text(streets) || !file.exists(streets))) {
    abort_argument("streets", "does not exist", streets, "a .osm.pbf or .osm file")
  }
  list(gtfs = normalizePath(gtfs), streets = if (length(streets)) normalizePath(streets))
}

# Returns the feeds of a folder: its zip files.
feeds_in <- function(folder) {
  if (dir.exists(file.path(folder, "scenarios")) && file.exists(file.path(folder, "stops.txt"))) {
    abort_argument("data_path", "is the folder of a plan", folder, "a folder with GTFS zip files")
  }
  zips <- list.files(folder, "[.]zip$", full.names = TRUE, ignore.case = TRUE)
  is_feed <- function(path) {
    names <- tryCatch(
      utils::unzip(path, list = TRUE)$Name, error = function(e) character(), warning = function(w) character()
    )
    any(basename(names) == "stops.txt")
  }
  found <- Filter(is_feed, zips)
  if (!length(found)) {
    abort_argument("data_path", "has no GTFS zip file", folder, "a folder with at least one")
  }
  found
}

# A network before its feed is prepared. `id` names its pool of engines.
network_of_recipe <- function(recipe) {
  network <- new.env(parent = emptyenv())
  network$recipe <- recipe
  class(network) <- "ttm_network"
  register(network)
  network
}

# Gives a network an identity in this session; a network that was read from a file or by a worker gets another one.
register <- function(network) {
  if (identical(network$pid, Sys.getpid()) && identical(network$session, tempdir())) {
    return(invisible(network))
  }
  network$pid <- Sys.getpid()
  network$session <- tempdir()
  the$count <- if (is.null(the$count)) 1L else the$count + 1L
  network$id <- paste0("network-", network$pid, "-", the$count)
  network$engines <- NULL
  reg.finalizer(network, function(it) if (identical(it$pid, Sys.getpid())) stop_pools(it$id), onexit = FALSE)
  invisible(network)
}

# Returns a network, or raises `ttm_argument_error`.
as_network <- function(network) {
  if (!inherits(network, "ttm_network")) {
    abort_argument("network", "is no network", NA, "what setup_ttm() or with_scenarios() returns")
  }
  register(network)
}

# Prepares the feed and the plan of a network, or finds both in the cache.
prepare <- function(network, overwrite = FALSE, show = FALSE, verbose = FALSE) {
  recipe <- network$recipe
  root <- cache_folder(recipe$is_temporary)
  options <- c(if (recipe$repair) "--repair", if (recipe$allow_loss) "--allow-loss")
  network$feed_key <- digest_of(recipe$checksum, options, tools_version())
  make <- function(folder) {
    if (!all(file.exists(recipe$gtfs)) || digest_of_files(recipe$gtfs) != recipe$checksum) {
      abort_argument("network", "was set up from files that changed since", NA, "call setup_ttm() again")
    }
    feed <- file.path(folder, "feed")
    object <- run_tools(c("prepare", options, "--out", feed, recipe$gtfs), show, verbose)
    object$folder <- NULL
    object
  }
  network$feed <- cached(root, "feeds", network$feed_key, make, overwrite)
  network$notes <- notes_of(network$feed$object)
  network$plan <- NULL
  if (length(recipe$plan)) {
    prepare_plan(network, show)
  }
  invisible(network)
}

# Returns the version of ttm-tools, which is part of all keys of the cache.
tools_version <- function() version_of(program_at("ttm-tools"))

# Prepares again if the cache lost an entry, as after `readRDS()` in another session.
assure_prepared <- function(network) {
  there <- c(feed_folder(network), if (!is.null(network$plan)) network$plan$folder)
  if (!all(dir.exists(there))) {
    prepare(network)
  }
  invisible(network)
}

feed_folder <- function(network) file.path(network$feed$folder, "feed")

# The folder with the trips of all scenarios, or the feed's if there are none.
planned_folder <- function(network) {
  if (is.null(network$plan)) feed_folder(network) else file.path(network$plan$folder, "plan")
}

# Returns columns of a file of the feed as text; a column that the file lacks is empty, and a file that the feed lacks
# has no rows.
feed_table <- function(network, file, columns, folder = planned_folder(network)) {
  path <- file.path(folder, file)
  table <- if (file.exists(path)) {
    fread(path, colClasses = "character", na.strings = NULL, encoding = "UTF-8", header = TRUE, sep = ",")
  } else {
    as.data.table(stats::setNames(rep(list(character()), length(columns)), columns))
  }
  setnames(table, trimws(names(table)))
  for (name in setdiff(columns, names(table))) {
    table[[name]] <- rep("", nrow(table))
  }
  table[, columns, with = FALSE]
}

warn_repairs <- function(network) {
  repairs <- repairs_of(network)
  notes <- network$notes[network$notes$kind == "repaired", ]
  if (nrow(repairs)) {
    text <- paste0("the feed was repaired: ", nrow(repairs), " records; summary(network)$repairs lists them")
    if (!nrow(notes)) {
      network$notes <- rbindlist(list(network$notes, note("repaired", text, nrow(repairs))))
    }
    warn("ttm_repair_warning", text, repairs = repairs)
  }
}

# Returns the records that the repair changed or removed.
repairs_of <- function(network) {
  read_repairs(file.path(feed_folder(network), "prepared.csv"))
}

read_repairs <- function(path) {
  columns <- c("file", "record", "column", "value", "rule", "result")
  none <- data.table(
    file = character(), record = integer(), column = character(), value = character(), rule = character(),
    result = character()
  )
  if (!file.exists(path)) {
    return(none)
  }
  table <- fread(path, colClasses = "character", na.strings = NULL, encoding = "UTF-8", header = TRUE, sep = ",")
  if (!nrow(table)) {
    return(none)
  }
  setnames(table, columns)
  table$record <- as.integer(table$record)
  table[]
}

#' Stop networks
#'
#' Ends the engine processes of networks and removes their temporary files. The cache stays. A network that goes out of
#' scope, or whose session ends, is stopped too. You can go on using a stopped network: its next question starts a
#' process again.
#'
#' @param ... Networks. Without any, all networks of this session are stopped, as `stop_r5()` does.
#' @return `NULL`, invisibly.
#' @examplesIf ttmr::ttm_available()
#' network <- setup_ttm(ttm_sample()$data_path)
#' stop_ttm(network)
#' stop_ttm()
#' @export
stop_ttm <- function(...) {
  networks <- list(...)
  if (!length(networks)) {
    stop_pools(names(the$pools))
  }
  for (network in networks) {
    stop_pools(as_network(network)$id)
  }
  invisible(NULL)
}

#' How many trips run on each day
#'
#' Use it to choose a typical day before you ask for one.
#'
#' @param network A `ttm_network`.
#' @return A data.table with a row for each day between the first and the last with a trip, including days without any:
#'   `date` (Date), `weekday` (integer, 1 is Monday), `trips` (integer).
#' @examplesIf ttmr::ttm_available()
#' network <- setup_ttm(ttm_sample()$data_path)
#' trips_by_date(network)[weekday == 1][which.max(trips)]
#' stop_ttm(network)
#' @export
trips_by_date <- function(network) {
  counts <- unlist(as_network(network)$feed$object$trips_by_date)
  if (!length(counts)) {
    return(data.table(date = as.Date(character()), weekday = integer(), trips = integer()))
  }
  stated <- as.Date(names(counts))
  date <- seq(min(stated[counts > 0]), max(stated[counts > 0]), by = "day")
  trips <- as.integer(counts[match(date, stated)])
  data.table(date = date, weekday = as.POSIXlt(date)$wday + ifelse(as.POSIXlt(date)$wday == 0L, 7L, 0L),
    trips = ifelse(is.na(trips), 0L, trips))
}

#' @describeIn setup_ttm Prints feeds, streets, dates, stops, trips, scenarios and whether a process runs.
#' @param x,object A `ttm_network`.
#' @export
print.ttm_network <- function(x, ...) {
  recipe <- x$recipe
  object <- x$feed$object
  days <- trips_by_date(x)$date
  running <- nrow(processes_of(x))
  lines <- c(
    feeds = paste(basename(recipe$gtfs), collapse = ", "),
    streets = if (is.null(recipe$streets)) paste(
      "none: straight lines times", recipe$detour
    ) else basename(recipe$streets),
    dates = if (length(days)) paste(min(days), "to", max(days)) else "none",
    stops = format(object$stops, big.mark = ","), trips = format(object$trips, big.mark = ","),
    scenarios = if (length(scenarios_of(x))) paste(scenarios_of(x), collapse = ", ") else "none",
    processes = if (running) as.character(running) else "none; the first question starts one"
  )
  cat("<ttm_network>\n", sprintf("  %-10s %s\n", names(lines), lines), sep = "")
  invisible(x)
}

#' @describeIn setup_ttm Returns a list: `stops`, `routes`, `trips` (counts), `dates` (first and last), `scenarios`,
#'   `repairs` (data.table), `notes` (data.table), `processes` (data.table: date, places, memory in MB, process id).
#' @export
summary.ttm_network <- function(object, ...) {
  network <- as_network(object)
  days <- trips_by_date(network)$date
  counts <- network$feed$object
  list(
    stops = as.integer(counts$stops), routes = as.integer(counts$routes), trips = as.integer(counts$trips),
    dates = if (length(days)) range(days) else as.Date(c(NA, NA)), scenarios = scenarios_of(network),
    repairs = repairs_of(network), notes = network$notes[], processes = processes_of(network)
  )
}

# Returns the names of a network's scenarios, "today" first; none without a plan.
scenarios_of <- function(network) if (is.null(network$plan)) character() else network$plan$object$names

# Whether a folder of r5r has a raster of elevations.
has_elevation <- function(folder) {
  is_text(folder) && length(list.files(folder, "[.]tiff?$", ignore.case = TRUE)) > 0L
}

check_elevation <- function(dots) {
  value <- if (is.null(dots[["elevation"]])) "TOBLER" else dots[["elevation"]]
  if (!identical(toupper(value), "NONE")) {
    advice <- "walks are flat here; pass elevation = \"NONE\", or keep the raster in another folder"
    abort_unsupported("elevation", value, advice)
  }
}
