#' Check or prepare a feed
#'
#' `check_feed()` lists all errors for which the engine would refuse a feed. `prepare_feed()` merges, repairs and clips
#' feeds into a folder. [setup_ttm()] does both for you; use these to see what happens.
#'
#' @param gtfs Character. Zip files or folders.
#' @param out Text. A folder to write; new or empty.
#' @param repair,allow_loss As in [setup_ttm()].
#' @param area An sf object of polygons in any projection: keep the stops inside. `NULL` keeps all.
#' @param routes,agencies Character. Identifiers to keep; empty keeps all.
#' @param dates Dates whose services to keep, with the day before the first and the day after the last; empty keeps all.
#'   The last is at most five days after the first.
#'
#' @return A data.table with a row for each record: `file`, `record` (1 is the header), `column`, `value`, and
#'   `error`, `allowed` for `check_feed()`, or `rule`, `result` for `prepare_feed()`. No rows mean no errors.
#' @section Errors:
#' `ttm_refusal` if a required file is missing, or if a repair removes more than a tenth of a file.
#' @examplesIf ttmr::ttm_available()
#' check_feed(ttm_sample()$gtfs)
#' repairs <- prepare_feed(ttm_sample()$gtfs, file.path(tempdir(), "peak"), dates = as.Date("2026-05-04"))
#' @export
check_feed <- function(gtfs) {
  known <- inputs_of(NULL, gtfs, NULL)$gtfs
  object <- run_tools(c("prepare", "--check", known))
  columns <- c("file", "record", "column", "value", "error", "allowed")
  rows <- lapply(object$errors, function(error) {
    values <- lapply(stats::setNames(columns, columns), function(name) or_missing(error[[name]]))
    values$record <- if (is.null(error$record)) NA_integer_ else as.integer(error$record)
    as.data.table(values)
  })
  none <- data.table(
    file = character(), record = integer(), column = character(), value = character(), error = character(),
    allowed = character()
  )
  rbindlist(c(list(none), rows))
}

#' @rdname check_feed
#' @export
prepare_feed <- function(gtfs, out, repair = TRUE, allow_loss = FALSE, area = NULL, routes = character(),
                         agencies = character(), dates = as.Date(character())) {
  known <- inputs_of(NULL, gtfs, NULL)$gtfs
  if (!is_text(out) || (file.exists(out) && length(list.files(out)))) {
    abort_argument("out", "is not a new or empty folder", out, "a new or empty folder")
  }
  region <- if (!is.null(area)) area_file(area)
  on.exit(unlink(region))
  words <- c(
    "prepare", if (flag(repair, "repair")) "--repair", if (flag(allow_loss, "allow_loss")) "--allow-loss",
    if (!is.null(region)) c("--area", region), as.vector(rbind(rep("--routes", length(routes)), routes)),
    as.vector(rbind(rep("--agency", length(agencies)), agencies)), days_words(dates), "--out", out, known
  )
  run_tools(words)
  read_repairs(file.path(out, "prepared.csv"))
}

# Writes polygons as GeoJSON, and returns the path.
area_file <- function(area) {
  if (!inherits(area, c("sf", "sfc")) || is.na(sf::st_crs(area))) {
    abort_argument("area", "is no sf object with a coordinate reference system", NA, "polygons")
  }
  path <- tempfile("ttmr-area-", fileext = ".geojson")
  sf::st_write(sf::st_transform(sf::st_geometry(area), 4326), path, quiet = TRUE)
  path
}

# The options that keep the services of some dates, with the day before and the day after.
days_words <- function(dates) {
  dates <- tryCatch(as.Date(dates), error = function(e) as.Date(NA))
  if (!length(dates)) {
    return(character())
  }
  span <- as.integer(max(dates) - min(dates))
  if (anyNA(dates) || span > 5L) {
    abort_argument(
      "dates", "are not within six days", NA, "dates of which the last is at most five days after the first"
    )
  }
  c("--date", format(min(dates), "%Y%m%d"), "--back", 1L, "--ahead", span + 1L)
}
