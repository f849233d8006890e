#' A sample town
#'
#' An invented town of 482 stops with streets, homes, jobs and clinics. All examples use it. Python's
#' `ttm_tools.sample()` is the same town.
#'
#' @return A list of class `ttm_sample`:
#'
#' | Element | What it is |
#' |:--|:--|
#' | `data_path` | folder for [setup_ttm()], with the next two |
#' | `gtfs`, `streets` | paths of the feed (zip) and of the OpenStreetMap file |
#' | `homes` | sf points: `id`, `people`, `income`, `income_group` |
#' | `jobs` | sf points: `id`, `jobs` |
#' | `clinics` | sf points: `id` (`"north"`, `"middle"`, `"south"`), `beds` |
#'
#' @examples
#' town <- ttm_sample()
#' town
#' head(town$homes)
#' @export
ttm_sample <- function() {
  folder <- system.file("extdata", "town", package = "ttmr")
  if (!nzchar(folder)) {
    abort_argument("ttm_sample()", "has no files in this package", NA, "a package that r/build.sh built")
  }
  read <- function(name) {
    table <- utils::read.csv(file.path(folder, name), stringsAsFactors = FALSE)
    sf::st_as_sf(table, coords = c("lon", "lat"), crs = 4326)
  }
  town <- list(
    data_path = folder, gtfs = file.path(folder, "town.zip"), streets = file.path(folder, "town.osm.pbf"),
    homes = read("homes.csv"), jobs = read("jobs.csv"), clinics = read("clinics.csv")
  )
  structure(town, class = "ttm_sample")
}

#' @describeIn ttm_sample Prints the elements with their sizes.
#' @param x A `ttm_sample`.
#' @param ... Not used.
#' @export
print.ttm_sample <- function(x, ...) {
  size <- function(path) paste0(basename(path), " (", format(round(file.size(path) / 1000), big.mark = ","), " kB)")
  count <- function(places) paste0(
    nrow(places), " places: ", paste(setdiff(names(places), "geometry"), collapse = ", ")
  )
  lines <- c(
    data_path = x$data_path, gtfs = size(x$gtfs), streets = size(x$streets), homes = count(x$homes),
    jobs = count(x$jobs),
    clinics = count(x$clinics)
  )
  cat("<ttm_sample>\n", sprintf("  %-10s %s\n", names(lines), lines), sep = "")
  invisible(x)
}
