# The oldest versions of both programs that understand what this package asks.
MINIMUM <- "2.1.0"
INSTALL <- c("pip install \"ttm_tools-VERSION.whl[streets,gis]\"", "apt install ./ttm_VERSION_amd64.deb")
PROGRAMS <- list(
  ttm = list(option = "ttmr.program", variable = "TTM_PROGRAM"),
  "ttm-tools" = list(option = "ttmr.tools", variable = "TTM_TOOLS")
)

# Returns the path of "ttm" or "ttm-tools", or "" if there is none.
find_program <- function(name) {
  named <- PROGRAMS[[name]]
  given <- getOption(named$option, Sys.getenv(named$variable))
  if (nzchar(given)) {
    return(if (file.exists(given)) normalizePath(given) else "")
  }
  environments <- Sys.getenv(c("VIRTUAL_ENV", "CONDA_PREFIX"))
  places <- file.path(environments[nzchar(environments)], "bin", name)
  places <- c(places, Sys.which(name), file.path(path.expand("~"), ".local", "bin", name))
  places <- places[nzchar(places) & file.access(places, 1L) == 0L]
  if (length(places)) normalizePath(places[[1]]) else ""
}

# Returns the version that a program prints, such as "2.1.0", or NA if it doesn't run.
version_of <- function(path) {
  key <- paste(path, file.mtime(path))
  if (is.null(the$versions[[key]])) {
    ran <- tryCatch(processx::run(path, "--version", error_on_status = FALSE, timeout = 60), error = function(e) NULL)
    found <- if (is.null(ran)) character() else regmatches(ran$stdout, regexpr("[0-9]+[.][0-9]+[.][0-9]+", ran$stdout))
    the$versions[[key]] <- if (length(found)) found else NA_character_
  }
  the$versions[[key]]
}

abort_missing <- function(name, what) {
  message <- paste0(
    name, " ", what, ". Install it with one of these commands:\n", paste0("  ", INSTALL, collapse = "\n")
  )
  abort("ttm_missing_program", message, program = name, commands = INSTALL)
}

# Returns the path of a program, or raises `ttm_missing_program`.
program_at <- function(name) {
  path <- find_program(name)
  if (!nzchar(path)) {
    named <- PROGRAMS[[name]]
    given <- getOption(named$option, Sys.getenv(named$variable))
    abort_missing(name, if (nzchar(given)) paste0("is not at ", given) else "is not installed")
  }
  version <- version_of(path)
  if (is.na(version)) {
    abort_missing(name, paste0("does not run: ", path))
  }
  if (utils::compareVersion(version, MINIMUM) < 0) {
    abort_missing(name, paste0("is too old: ", path, " is version ", version, ", and ttmr needs ", MINIMUM))
  }
  path
}

#' Is the engine installed?
#'
#' `ttmr` has no binary inside. Install `ttm` and `ttm-tools` with one of these commands:
#'
#' ```
#' pip install "ttm_tools-VERSION.whl[streets,gis]"
#' apt install ./ttm_VERSION_amd64.deb
#' ```
#'
#' Both are for Linux on x86-64. On Windows use R in WSL, on macOS R in a Linux container. `ttmr` itself installs
#' everywhere; without an engine its functions raise `ttm_missing_program`.
#'
#' `ttmr` searches in this order: the option `ttmr.program` (`ttmr.tools`), the variable `TTM_PROGRAM` (`TTM_TOOLS`),
#' the active virtual environment (`VIRTUAL_ENV`, `CONDA_PREFIX`), the `PATH`, `~/.local/bin`.
#'
#' @return `ttm_available()`: `TRUE` if both programs run and are new enough. It never raises an error.
#'   `ttm_sitrep()`: a list, printed: `program`, `version`, `proved_by` (the toolchain that proved the engine), `tools`,
#'   `tools_version`, `python_packages`, `cache`, `cache_mb`, `threads`.
#' @examples
#' ttm_available()
#' if (ttm_available()) ttm_sitrep()
#' @export
ttm_available <- function() {
  tryCatch(all(nzchar(vapply(names(PROGRAMS), program_at, ""))), error = function(e) FALSE)
}

# Returns the line of a package's file PROVED that names the toolchain, or NA.
proved_by <- function(program) {
  places <- c(
    file.path(dirname(program), "PROVED"), file.path(dirname(dirname(program)), "share", "doc", "ttm", "PROVED")
  )
  for (place in places[file.exists(places)]) {
    line <- grep("^proved with ", readLines(place, warn = FALSE), value = TRUE)
    if (length(line)) {
      return(sub("^proved with ", "", line[[1]]))
    }
  }
  NA_character_
}

# Returns the versions of the Python packages that ttm-tools uses, NA for those that its Python lacks.
python_packages <- function(tools) {
  names <- c("numpy", "pandas", "pyproj", "scipy", "osmium", "shapely", "geopandas")
  unknown <- stats::setNames(rep(NA_character_, length(names)), names)
  first <- readLines(tools, n = 1L, warn = FALSE)
  interpreter <- strsplit(sub("^#! *", "", first), " +")[[1]]
  if (!length(interpreter) || !grepl("^#!.*python", first)) {
    return(unknown)
  }
  code <- paste0(
    "import importlib.metadata as m\nfor n in '", paste(names, collapse = " "), "'.split():\n",
    "    try: print(n, m.version(n))\n    except m.PackageNotFoundError: pass\n"
  )
  run <- function() processx::run(interpreter[[1]], c(interpreter[-1], "-c", code), error_on_status = FALSE)
  ran <- tryCatch(run(), error = function(e) list(stdout = ""))
  found <- strsplit(strsplit(ran$stdout, "\n", fixed = TRUE)[[1]], " ", fixed = TRUE)
  for (pair in found) {
    unknown[[pair[[1]]]] <- pair[[2]]
  }
  unknown
}

#' @rdname ttm_available
#' @export
ttm_sitrep <- function() {
  programs <- vapply(names(PROGRAMS), find_program, "")
  versions <- vapply(programs, function(path) if (nzchar(path)) version_of(path) else NA_character_, "")
  programs[!nzchar(programs)] <- NA_character_
  sizes <- file.size(list.files(cache_folder(), recursive = TRUE, full.names = TRUE, all.files = TRUE))
  report <- list(
    program = programs[["ttm"]], version = versions[["ttm"]],
    proved_by = if (is.na(programs[["ttm"]])) NA_character_ else proved_by(programs[["ttm"]]),
    tools = programs[["ttm-tools"]], tools_version = versions[["ttm-tools"]],
    python_packages = if (is.na(programs[["ttm-tools"]])) character() else python_packages(programs[["ttm-tools"]]),
    cache = cache_folder(), cache_mb = round(sum(sizes, na.rm = TRUE) / 1e6, 1), threads = threads_of(Inf)
  )
  for (name in setdiff(names(report), "python_packages")) {
    cat(sprintf("%-16s %s\n", name, report[[name]]))
  }
  cat(
    sprintf(
      "%-16s %s\n", "python_packages", paste(names(report$python_packages), report$python_packages, collapse = ", ")
    )
  )
  invisible(report)
}
