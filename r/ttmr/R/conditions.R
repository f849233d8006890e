#' Conditions: errors and warnings by class
#'
#' Every error of `ttmr` inherits from `ttm_error`, and every warning from `ttm_warning`. Catch them by class with
#' [tryCatch()] or [withCallingHandlers()]; don't match their text.
#'
#' | Class | When | Fields in addition to `message` and `call` |
#' |:--|:--|:--|
#' | `ttm_refusal` | `ttm` or `ttm-tools` refuses a feed, a file or a scenario | `line` (as printed), `status`, `file`, `record`, `column`, `value`, `allowed` (each `NA` if unknown) |
#' | `ttm_limit` | a `ttm_refusal` because of a limit: stops, walks, trips, scenarios | `limit`, `advice` |
#' | `ttm_unsupported` | an r5r argument or value that `ttm` has no equivalent of | `argument`, `value`, `advice` |
#' | `ttm_argument_error` | an argument with a wrong type, unit or value, or an unknown argument | `argument`, `value`, `allowed` |
#' | `ttm_engine_error` | the process ended without an answer; the next call starts a new one | `line`, `status` (128 plus the number of a signal) |
#' | `ttm_missing_program` | `ttm` or `ttm-tools` isn't found, is too old, or lacks a Python package | `program`, `commands` (how to install it) |
#' | `ttm_repair_warning` | a feed was repaired | `repairs` (data.table) |
#' | `ttm_no_service_warning` | no trip runs on the date, or a scenario changes nothing on it | `date`, `nearest` |
#' | `ttm_unreachable_warning` | places have no stop within `max_walk_time` | `from_id`, `to_id` |
#' | `ttm_ignored_warning` | an r5r argument that changes nothing here | `argument`, `value` |
#' | `ttm_default_message` | a default that differs from r5r's, once per session | `defaults` |
#'
#' Records are counted from 1, the header, as in `ttm`'s own messages. In a `ttm_argument_error` about a data frame,
#' rows count from 1, as in R.
#'
#' @examplesIf ttmr::ttm_available()
#' network <- setup_ttm(ttm_sample()$data_path)
#' refusal <- tryCatch(
#'   travel_time_matrix(network, "X", "B00000N", departure_datetime = "2026-05-04 08:00"),
#'   ttm_refusal = function(e) e
#' )
#' refusal$file
#' refusal$record
#' unsupported <- tryCatch(
#'   isochrone(network, "B00000N", mode = "CAR", departure_datetime = "2026-05-04 08:00"),
#'   ttm_unsupported = function(e) e
#' )
#' unsupported$argument
#' stop_ttm(network)
#' @name ttm_conditions
NULL

# Returns the call of the exported function that the user called, or NULL.
exported_call <- function() {
  home <- topenv()
  for (frame in seq_len(sys.nframe())) {
    place <- environment(sys.function(frame))
    if (!is.null(place) && identical(topenv(place), home)) {
      return(sys.call(frame))
    }
  }
  NULL
}

# Raises an error of this class; fields are plain vectors, so a worker can send the condition.
abort <- function(class, message, ...) {
  stop(errorCondition(message, ..., class = c(class, "ttm_error"), call = exported_call()))
}

# Signals a warning of this class.
warn <- function(class, message, ...) {
  warning(warningCondition(message, ..., class = c(class, "ttm_warning"), call = exported_call()))
}

# Raises `ttm_argument_error`. `value` is shown in the message if it is a single value.
abort_argument <- function(argument, what, value = NA, allowed = NA_character_) {
  shown <- if (is.atomic(value) && length(value) == 1L && !is.na(value)) {
    paste0(" is ", if (is.character(value)) dQuote(value, FALSE) else format(value), ",")
  } else {
    ""
  }
  message <- paste0(argument, shown, " ", what, if (!is.na(allowed)) paste0("; allowed: ", allowed))
  abort("ttm_argument_error", message, argument = argument, value = value, allowed = allowed)
}

# Raises `ttm_unsupported` for an argument or a value of r5r that has no equivalent.
abort_unsupported <- function(argument, value, advice) {
  shown <- if (is.atomic(value) && length(value)) paste(format(value), collapse = ", ") else class(value)[1]
  message <- paste0("ttm doesn't support ", argument, " = ", shown, ": ", advice)
  abort("ttm_unsupported", message, argument = argument, value = value, advice = advice)
}

# The limits of ttm: words of a refusal, and what to do about it.
LIMITS <- list(
  list("too many footpaths|[0-9,]+ walks are more", "walks", "use a shorter max_walk_time, or fewer places at a time"),
  list("locations of the feed and", "stops", "take fewer places at a time or larger cells, or use prepare_feed()"),
  list("too many scenarios|has at most 14 scenarios", "scenarios", "take fewer scenarios at a time"),
  list("too many runs|network too large", "trips", "use days_before = 0 and days_after = 0, or fewer scenarios"),
  list(": too many$", "records", "clip the feed with prepare_feed()")
)

# Splits a line such as "ttm: stop_times.txt: record 5: bad time" into file and record; NA if it names none.
place_of_line <- function(line) {
  text <- sub("^ttm(-tools [a-z]+)?: ", "", line)
  found <- regmatches(text, regexec("^(.*?): record ([0-9]+)(: .*)$", text, perl = TRUE))[[1]]
  if (length(found)) {
    return(list(file = found[2], record = as.integer(found[3])))
  }
  found <- regmatches(text, regexec("^([^:]*[.](txt|csv|toml|zip|osm|pbf|geojson)): (.*)$", text))[[1]]
  list(file = if (length(found)) found[2] else NA_character_, record = NA_integer_)
}

# Splits an explanation of `--report`: column, value and what is allowed.
explanation_of <- function(line) {
  unknown <- list(column = NA_character_, value = NA_character_, allowed = NA_character_)
  if (!length(line) || is.na(line)) {
    return(unknown)
  }
  text <- sub("^ttm: ", "", line)
  found <- regmatches(text, regexec("^(column )?(\\S+) is \"(.*)\"; (.*)$", text))[[1]]
  if (length(found)) list(column = found[3], value = found[4], allowed = found[5]) else unknown
}

# Raises `ttm_refusal`, or `ttm_limit` if the line is about a limit.
#
# `line` is what the program printed; `explanation` is the second line of `--report` or NA; `fields` replaces what is
# parsed from the lines.
abort_refusal <- function(line, status, explanation = NA_character_, fields = list()) {
  known <- c(place_of_line(line), explanation_of(explanation))
  given <- Filter(function(value) !is.null(value) && !is.na(value), fields)
  known[names(given)] <- given
  message <- sub("^ttm(-tools)?( [a-z]+)?: ", "", line)
  if (!is.na(explanation)) {
    message <- paste0(message, "\n", sub("^ttm: ", "", explanation))
  }
  values <- known[c("file", "record", "column", "value", "allowed")]
  for (limit in LIMITS) {
    if (grepl(limit[[1]], line)) {
      more <- list(limit = limit[[2]], advice = limit[[3]])
      message <- paste0(message, "\n", limit[[3]])
      condition <- c(list(c("ttm_limit", "ttm_refusal"), message, line = line, status = status), values, more)
      do.call(abort, condition)
    }
  }
  do.call(abort, c(list("ttm_refusal", message, line = line, status = status), values))
}

# Raises `ttm_engine_error`: a process ended, or reported a status that isn't a refusal.
abort_engine <- function(line, status) {
  what <- if (status > 128L) paste0("ended by signal ", status - 128L) else paste("status", status)
  message <- paste0("ttm gave no answer (", what, ")", if (nzchar(line)) paste0(": ", sub("^ttm: ", "", line)))
  abort("ttm_engine_error", message, line = line, status = status)
}

warn_ignored <- function(argument, value, advice) {
  text <- paste0(argument, " is ignored: ", advice)
  warn("ttm_ignored_warning", text, argument = argument, value = value)
}

# Reports the defaults that a call took and that differ from r5r's, each once in a session.
#
# `defaults` is a named list of values.
report_defaults <- function(defaults) {
  defaults <- defaults[setdiff(names(defaults), the$reported)]
  if (!length(defaults) || isTRUE(getOption("ttmr.quiet"))) {
    return(invisible())
  }
  the$reported <- c(the$reported, names(defaults))
  values <- vapply(defaults, function(value) paste(deparse(value), collapse = ""), "")
  text <- paste0("Defaults that differ from r5r's: ", paste(names(defaults), "=", values, collapse = ", "), "\n")
  class <- c("ttm_default_message", "message", "condition")
  message(structure(class = class, list(message = text, call = NULL, defaults = defaults)))
}
