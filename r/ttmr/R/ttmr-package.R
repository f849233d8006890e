#' ttmr: exact travel times by public transport, with r5r's functions
#'
#' `ttmr` asks the proved engine `ttm` for travel times over every minute of a departure window, with the function
#' names, arguments and columns of \pkg{r5r}. Results are data.tables and sf objects. The package contains no engine:
#' install `ttm` and `ttm-tools` as [ttm_available()] says.
#'
#' @section Rules that hold in all functions:
#'
#' - **Units.** Arguments and columns that r5r has are in r5r's units: minutes, kilometres per hour, metres. Columns
#'   that only `ttmr` has name their unit. In scenarios a duration is a text with its unit, such as `"10 min"` or
#'   `"90 s"`, or a `difftime`; a bare number is an error.
#' - **Percentiles** are by nearest rank over the departures, never interpolated. A departure without a journey comes
#'   last. Nothing is drawn at random, so the same call returns the same numbers.
#' - **Places** are an sf object of points or polygons in any projection, with a column `id`; or a data frame with
#'   `id`, `lon`, `lat` (EPSG:4326); or a character vector of the feed's own `stop_id`s. Identifiers are unique and not
#'   missing. A polygon counts as a point inside it. Results have identifiers of the same type; factors become text.
#' - **Clock.** `departure_datetime` is read as it prints: `ttmr` ignores its time zone and takes the feed's clock.
#' - **Scenarios.** If a network has scenarios, results begin with a column `scenario`, and `"today"` is the feed as it
#'   is. Without scenarios the columns are exactly r5r's.
#' - **Nothing is dropped silently.** Repairs, places without a stop in reach and days without trips are warnings with a
#'   class of their own ([ttm_conditions]). [ttm_notes()] returns them again from the result, and what `ttm-tools`
#'   rounded or left out.
#'
#' @section Defaults that differ from r5r:
#'
#' | Argument | r5r 2.x | ttmr | Reason |
#' |:--|:--|:--|:--|
#' | `mode` | `"WALK"` | `c("WALK", "TRANSIT")` | transit is what the engine is for |
#' | `departure_datetime` | `Sys.time()` | none, so you must give it | a feed seldom runs today; results must be repeatable |
#' | `max_walk_time` | `Inf` | `10` | ttm's default; two hours are the most, and cost much more than ten minutes |
#' | `max_trip_duration` | `120` | `Inf` | the window, not a limit, decides what counts as reached |
#' | `walk_speed` | `3.6` | `4.8` | ttm's default |
#' | `max_rides` | `3` | `4` | ttm's default |
#' | `isochrone(cutoffs)` | `c(0, 15, 30)` | `c(15, 30)` | 0 minutes is no area |
#' | `isochrone(mode)` | `"transit"` | `c("WALK", "TRANSIT")` | as above |
#'
#' The first call of a session that leaves out one of the first six prints the value it took, once, as a message of
#' class `ttm_default_message`. `options(ttmr.quiet = TRUE)` turns this off.
#'
#' @section Options and environment variables:
#'
#' | Name | Meaning |
#' |:--|:--|
#' | `options(ttmr.program)`, `TTM_PROGRAM` | path of `ttm` |
#' | `options(ttmr.tools)`, `TTM_TOOLS` | path of `ttm-tools` |
#' | `options(ttmr.cache)`, `TTM_CACHE` | prepared feeds, plans and walks are in its folder `r`, at most 2 GB |
#' | `options(ttmr.threads)` | what `n_threads = Inf` means; default: all processors, 64 at most |
#' | `options(ttmr.quiet)` | `TRUE`: no message about defaults |
#'
#' @keywords internal
"_PACKAGE"

#' @importFrom data.table := .N .SD as.data.table data.table fread fwrite
#' @importFrom data.table rbindlist setattr setcolorder setnames setorder
NULL

# The state of this session: `pools` of engines by network, `versions` of programs, `reported` defaults.
the <- new.env(parent = emptyenv())
the$pools <- list()
the$owner <- Sys.getpid()

.datatable.aware <- TRUE

utils::globalVariables(c(
  ".", "accessibility", "after", "base_value", "before", "change", "cutoff", "error", "file", "from_id", "fun", "id",
  "opportunity", "percent", "percentile", "record", "result", "rule", "scenario", "status", "time", "to_id", "value",
  "what", "argument", "column", "seconds", "minutes", "origin_number", "shape_id", "shape_pt_sequence", "stop_sequence",
  "stop_lat", "stop_lon", "trip_id", "stop_id", "route_id", "route_type", "pattern", "number"
))

.onLoad <- function(libname, pkgname) {
  the$pools <- list()
  the$owner <- Sys.getpid()
  the$reported <- character()
  the$versions <- list()
  if (!nzchar(Sys.getenv("PROCESSX_NOTIFY_OLD_SIGCHLD"))) {
    Sys.setenv(PROCESSX_NOTIFY_OLD_SIGCHLD = "true") # so that `mclapply()` notices when its children end
  }
  reg.finalizer(the, function(state) stop_pools(names(state$pools)), onexit = TRUE)
}

.onUnload <- function(libpath) {
  stop_pools(names(the$pools))
}
