# The arguments of r5r 2.x, function by function, with r5r's defaults as text. Both lists were written from memory:
# compare them with an installed r5r before you rely on a default.
R5R_COMMON <- c(
  r5r_network = "", r5r_core = "", origins = "", destinations = "", mode = "\"WALK\"", mode_egress = "\"WALK\"",
  departure_datetime = "Sys.time()", time_window = "10L", max_walk_time = "Inf", max_bike_time = "Inf",
  max_car_time = "Inf", max_trip_duration = "120L", walk_speed = "3.6", bike_speed = "12", max_rides = "3",
  max_lts = "2", n_threads = "Inf", verbose = "FALSE", progress = "FALSE", output_dir = "NULL"
)
R5R_STREETS <- c(new_carspeeds = "NULL", carspeed_scale = "1", new_lts = "NULL", pickup_zones = "NULL")
R5R_FARES <- c(fare_structure = "NULL", max_fare = "Inf")
R5R_ARGUMENTS <- list(
  setup_ttm = c(data_path = "", verbose = "FALSE", temp_dir = "FALSE", elevation = "\"TOBLER\"", overwrite = "FALSE"),
  travel_time_matrix = c(R5R_COMMON, percentiles = "50L", R5R_FARES, draws_per_minute = "5L", R5R_STREETS),
  expanded_travel_time_matrix = c(
    R5R_COMMON, breakdown = "FALSE", R5R_FARES, draws_per_minute = "5L", R5R_STREETS
  ),
  who_reaches = c(R5R_COMMON, percentiles = "50L", R5R_FARES, draws_per_minute = "5L", R5R_STREETS),
  accessibility = c(
    R5R_COMMON, opportunities_colnames = "\"opportunities\"", percentiles = "50L", decay_function = "\"step\"",
    cutoffs = "NULL", decay_value = "NULL", R5R_FARES, draws_per_minute = "5L", R5R_STREETS
  ),
  isochrone = c(
    R5R_COMMON[setdiff(names(R5R_COMMON), c("destinations", "output_dir"))], cutoffs = "c(0, 15, 30)",
    sample_size = "0.8",
    polygon_output = "TRUE", draws_per_minute = "5L", R5R_STREETS
  ),
  detailed_itineraries = c(
    R5R_COMMON, suboptimal_minutes = "0L", shortest_path = "TRUE", all_to_all = "FALSE", drop_geometry = "FALSE",
    osm_link_ids = "FALSE", R5R_FARES, R5R_STREETS
  )
)

# What is refused, with the values that switch the feature off, and what is ignored.
REFUSED <- list(
  polygon_output = list(list(TRUE), "areas are polygons"),
  breakdown = list(list(FALSE), "detailed_itineraries() has the parts of a journey"),
  suboptimal_minutes = list(list(0), "only the fastest journeys are found"),
  fare_structure = list(list(NULL), "there are no fares; use r5r"),
  max_fare = list(list(Inf), "there are no fares; use r5r"),
  new_carspeeds = list(list(NULL), "there are no cars; use r5r"),
  carspeed_scale = list(list(1), "there are no cars; use r5r"),
  new_lts = list(list(NULL), "there are no bicycles; use r5r"),
  pickup_zones = list(list(NULL), "there are no pickups; use r5r"),
  osm_link_ids = list(list(FALSE), "journeys don't name the ways of streets")
)
IGNORED <- c(
  draws_per_minute = "no schedule is drawn: trips of frequencies.txt leave at their listed times",
  max_bike_time = "there are no bicycles", max_car_time = "there are no cars", bike_speed = "there are no bicycles",
  max_lts = "there are no bicycles", sample_size = "every cell is used",
  elevation = "walks are flat; a folder with a raster is refused unless elevation = \"NONE\""
)
PARTLY <- c(
  mode = "\"BICYCLE\", \"BICYCLE_RENT\", \"CAR\" and \"CAR_PARK\" are refused",
  mode_egress = "all but \"WALK\" is refused", max_walk_time = "at most 120; Inf is an error",
  decay_function = "\"fixed_exponential\" is refused: use \"exponential\""
)

# Returns what happens to an argument: its status, the values that a refused one may have, and advice.
support_of <- function(argument) {
  if (argument %in% names(REFUSED)) {
    accepted <- paste(
      vapply(REFUSED[[argument]][[1]], function(value) paste(deparse(value), collapse = ""), ""), collapse = ", "
    )
    return(list(status = "refused", accepted = accepted, advice = REFUSED[[argument]][[2]]))
  }
  if (argument %in% names(IGNORED)) {
    return(list(status = "ignored", accepted = "", advice = IGNORED[[argument]]))
  }
  list(status = "supported", accepted = "", advice = if (argument %in% names(PARTLY)) PARTLY[[argument]] else "")
}

#' What happens to each argument of r5r
#'
#' `r5r_support()` lists the functions and arguments of r5r 2.x and what `ttmr` does with them. The same table decides
#' at run time, so it can't differ from what the functions do.
#'
#' An argument that `ttmr` doesn't support never changes an answer silently:
#'
#' - **refused**: a value that would change the answer raises `ttm_unsupported`. The value that switches the feature off
#'   in r5r (`NULL`, `FALSE`, `Inf`, 0 or 1, as listed) is accepted.
#' - **ignored**: the argument can't change the answer here, and raises a `ttm_ignored_warning`.
#' - **unknown**: any other name raises `ttm_argument_error` with the nearest known name.
#'
#' The names, defaults and columns of r5r 2.x were written down from memory, without an installed r5r. The least certain
#' are `carspeed_scale`, `new_lts`, `pickup_zones`, and the columns of [isochrone()] and [transit_network_to_sf()]. The
#' names follow r5r so that scripts run; the project is independent of it.
#'
#' @section Arguments:
#'
#' | r5r's argument | ttmr | What happens |
#' |:--|:--|:--|
#' | `r5r_network`, `r5r_core` | supported | by position it is `network`; by name both are accepted |
#' | `origins`, `destinations` | supported | also polygons, other projections and `stop_id`s |
#' | `mode` | supported | `WALK`, `TRANSIT`, and r5r's transit modes, in any case: `BUS`, `TRAM`, `SUBWAY`, `RAIL`, `FERRY`, `CABLE_CAR`, `GONDOLA`, `FUNICULAR`. Naming some takes the routes of all others out. `"WALK"` alone is a matrix on foot, each way limited by `max_walk_time`. `BICYCLE`, `BICYCLE_RENT`, `CAR`, `CAR_PARK`: refused |
#' | `mode_egress` | supported | `"WALK"`; all else refused |
#' | `departure_datetime` | supported | no default; whole minutes; `Date` and text are accepted |
#' | `time_window` | supported | whole minutes from 1; one departure each minute, the first at `departure_datetime`; ends by 23:59 |
#' | `percentiles` | supported | 1 to 8 whole numbers of 1 to 100; r5r takes 5 |
#' | `max_walk_time` | supported | 0 to 120 minutes, for each walk; `Inf` is an error that names the range |
#' | `max_trip_duration` | supported | longer journeys count as not reached; applied to the exact seconds |
#' | `walk_speed` | supported | km/h; a new speed prepares the walks again |
#' | `max_rides` | supported | 0 (on foot) to 8 |
#' | `opportunities_colnames` | supported | |
#' | `decay_function` | supported | `step`, `exponential`, `linear`, `logistic`; `fixed_exponential` refused: use `exponential`, whose cutoff is the half-life |
#' | `cutoffs`, `decay_value` | supported | minutes; any number of cutoffs |
#' | `shortest_path`, `all_to_all`, `drop_geometry` | supported | |
#' | `n_threads`, `verbose`, `progress`, `output_dir` | supported | 64 threads at most |
#' | `draws_per_minute` | ignored | the engine draws no schedules: trips of `frequencies.txt` leave at their listed times |
#' | `max_bike_time`, `max_car_time`, `bike_speed`, `max_lts` | ignored | they have no effect without bicycles and cars |
#' | `sample_size` | ignored | isochrones use every cell |
#' | `polygon_output` | refused | unless `TRUE` |
#' | `breakdown` | refused | unless `FALSE`; [detailed_itineraries()] has the parts of a journey |
#' | `suboptimal_minutes` | refused | unless 0 |
#' | `fare_structure`, `max_fare` | refused | unless `NULL` and `Inf` |
#' | `new_carspeeds`, `carspeed_scale`, `new_lts`, `pickup_zones` | refused | unless `NULL` and 1 |
#' | `osm_link_ids` | refused | unless `FALSE` |
#' | `elevation` | refused | if the folder has a raster, unless `"NONE"`; else ignored |
#' | `temp_dir`, `overwrite` | supported | |
#'
#' @section Functions:
#'
#' | r5r's function | ttmr |
#' |:--|:--|
#' | `setup_r5()`, `build_network()` | [setup_ttm()] |
#' | `stop_r5()` | [stop_ttm()] |
#' | `travel_time_matrix()`, `expanded_travel_time_matrix()`, `accessibility()`, `isochrone()`, `detailed_itineraries()`, `transit_network_to_sf()` | the same names |
#' | `r5r_sitrep()` | [ttm_sitrep()] |
#' | `arrival_travel_time_matrix()` | none: windows are of departures |
#' | `pareto_frontier()`, `setup_fare_structure()`, `read_fare_structure()`, `write_fare_structure()` | none: no fares |
#' | `street_network_to_sf()`, `street_network_bbox()`, `find_snap()` | none; `ttm-tools points` reports places far from a street |
#' | `download_r5()`, `r5r_cache()` | none: nothing is downloaded |
#'
#' @return A data.table with a row for each function and argument: `fun`, `argument`, `r5r_default` (text), `status`
#'   (`"supported"`, `"refused"`, `"ignored"`), `accepted` (values that a refused argument may have, as text), `advice`.
#' @examples
#' r5r_support()
#' @export
r5r_support <- function() {
  rows <- lapply(names(R5R_ARGUMENTS), function(fun) {
    arguments <- R5R_ARGUMENTS[[fun]]
    support <- lapply(names(arguments), support_of)
    each <- function(name) vapply(support, function(one) one[[name]], "")
    data.table(
      fun = fun, argument = names(arguments), r5r_default = unname(arguments), status = each("status"),
      accepted = each("accepted"), advice = each("advice")
    )
  })
  rbindlist(rows)
}

# Checks the arguments that a call has in `...`: each is one of r5r's, or unknown.
check_dots <- function(fun, dots) {
  if (length(dots) && (is.null(names(dots)) || any(!nzchar(names(dots))))) {
    abort_argument("...", "has an argument without a name", NA, "the arguments after ... need their names")
  }
  known <- names(R5R_ARGUMENTS[[fun]])
  own <- setdiff(names(formals(get(fun, envir = topenv()))), "...")
  for (name in setdiff(names(dots), c("r5r_network", "r5r_core"))) {
    if (!name %in% known) {
      nearest <- c(own, known)[which.min(utils::adist(name, c(own, known)))]
      abort_argument(name, "is not an argument", NA, paste0("the nearest is ", nearest))
    }
    check_value(fun, name, dots[[name]])
  }
}

# Raises `ttm_unsupported` for a refused value, or warns of an ignored argument.
check_value <- function(fun, argument, value) {
  support <- support_of(argument)
  if (support$status == "ignored" && argument != "elevation") {
    warn_ignored(argument, value, support$advice)
  }
  if (support$status == "refused") {
    is_off <- any(
      vapply(REFUSED[[argument]][[1]], function(off) isTRUE(all.equal(off, value, check.attributes = FALSE)), NA)
    )
    if (!is_off) {
      abort_unsupported(argument, value, support$advice)
    }
  }
  invisible()
}
