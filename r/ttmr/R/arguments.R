LAST_MINUTE <- 23L * 60L + 59L
MOST_WALK <- 120
MOST_THREADS <- 64L

is_number <- function(x) is.numeric(x) && length(x) == 1L && !is.na(x)
is_text <- function(x) is.character(x) && length(x) == 1L && !is.na(x) && nzchar(x)

# Returns TRUE or FALSE, or raises `ttm_argument_error`.
flag <- function(value, argument) {
  if (!is.logical(value) || length(value) != 1L || is.na(value)) {
    abort_argument(argument, "is no logical value", value, "TRUE, FALSE")
  }
  value
}

# Returns one of the choices; the default of a formal argument, all choices, means the first.
one_of <- function(value, argument, choices) {
  if (identical(value, choices)) {
    return(choices[[1]])
  }
  if (!is_text(value) || !value %in% choices) {
    abort_argument(argument, "is not a choice", value, paste(dQuote(choices, FALSE), collapse = ", "))
  }
  value
}

# Returns a whole number within a range, as an integer.
whole <- function(value, argument, least, most, unit = "") {
  allowed <- paste0("a whole number from ", least, " to ", most, if (nzchar(unit)) paste0(" (", unit, ")"))
  if (!is_number(value) || value != floor(value) || value < least || value > most) {
    abort_argument(argument, "is out of range", value, allowed)
  }
  as.integer(value)
}

# Returns a number within a range.
within_range <- function(value, argument, least, most, unit) {
  if (!is_number(value) || value < least || value > most) {
    abort_argument(argument, "is out of range", value, paste0(least, " to ", most, " ", unit))
  }
  as.numeric(value)
}

# Returns the date (`YYYYMMDD`) and the minute of the day of a first departure. Time zones are ignored: the text that
# the value prints counts.
departure_of <- function(value) {
  allowed <- "a POSIXct, a Date, or a text such as \"2026-05-04 08:00\", in whole minutes"
  if (length(value) != 1L || is.na(value)) {
    abort_argument("departure_datetime", "is not one time", value, allowed)
  }
  text <- if (inherits(value, "POSIXt")) {
    format(value, "%Y-%m-%d %H:%M:%OS")
  } else if (inherits(value, "Date")) {
    format(value, "%Y-%m-%d")
  } else {
    as.character(value)
  }
  pattern <- "^([0-9]{4})-([0-9]{2})-([0-9]{2})([ T]([0-9]{2}):([0-9]{2})(:00([.]0*)?)?)?$"
  found <- regmatches(text, regexec(pattern, text))[[1]]
  date <- if (length(found)) as.Date(paste(found[2:4], collapse = "-"), optional = TRUE) else as.Date(NA)
  minute <- if (length(found) && nzchar(found[5])) as.integer(found[6]) * 60L + as.integer(found[7]) else 0L
  if (is.na(date) || minute > LAST_MINUTE || (length(found) && nzchar(found[7]) && as.integer(found[7]) > 59L)) {
    abort_argument("departure_datetime", "is no time of a day", text, allowed)
  }
  list(date = paste(found[2:4], collapse = ""), minute = minute)
}

# Returns a minute of the day as `HH:MM`.
clock <- function(minute) sprintf("%02d:%02d", minute %/% 60L, minute %% 60L)

# Returns the number of departures of a window that begins at `minute`.
window_of <- function(value, minute) {
  allowed <- paste0(
    "a whole number from 1 to ", LAST_MINUTE - minute + 1L, " (minutes; the last departure is at 23:59)"
  )
  if (!is_number(value) || value != floor(value) || value < 1 || minute + value - 1 > LAST_MINUTE) {
    abort_argument("time_window", "is out of range", value, allowed)
  }
  as.integer(value)
}

percentiles_of <- function(value, argument = "percentiles") {
  is_good <- is.numeric(value) && length(value) %in% 1:8 && !anyNA(value)
  if (!is_good || any(value != floor(value) | value < 1 | value > 100) || anyDuplicated(value)) {
    abort_argument(argument, "is not allowed", value, "1 to 8 different whole numbers of 1 to 100")
  }
  sort(as.integer(value))
}

# Returns the longest walk in whole seconds.
walk_seconds <- function(value) {
  if (!is_number(value) || value < 0 || value > MOST_WALK) {
    what <- "is out of range: each walk takes at most two hours"
    abort_argument("max_walk_time", what, value, paste("0 to", MOST_WALK, "minutes"))
  }
  as.integer(floor(value * 60))
}

# Returns the longest journey in seconds, or Inf.
journey_seconds <- function(value) {
  if (!is_number(value) || value < 0) {
    abort_argument("max_trip_duration", "is out of range", value, "minutes from 0, or Inf")
  }
  if (is.finite(value)) floor(value * 60 + 1e-9) else Inf
}

# Returns metres per second, as ttm-tools reads them.
speed_of <- function(value) {
  format(within_range(value, "walk_speed", 0.1, 20, "km/h") / 3.6, digits = 15)
}

# Returns the number of threads that `n_threads` means.
threads_of <- function(value) {
  if (!is_number(value) || value < 1 || (is.finite(value) && value != floor(value))) {
    abort_argument("n_threads", "is out of range", value, "a whole number from 1, or Inf")
  }
  if (is.infinite(value)) {
    limited <- nzchar(Sys.getenv("_R_CHECK_LIMIT_CORES_"))
    found <- if (limited) 2L else parallel::detectCores()
    value <- getOption("ttmr.threads", if (is.na(found)) 1L else found)
  }
  as.integer(min(value, MOST_THREADS))
}

# Returns cutoffs in minutes, ascending. They are exact to the second.
cutoffs_of <- function(value, least = 0) {
  if (!is.numeric(value) || !length(value) || anyNA(value) || any(
    value < least | value > 10000
  ) || anyDuplicated(value)) {
    allowed <- paste0("different numbers of minutes from ", least, " to 10000")
    abort_argument("cutoffs", if (is.null(value)) "is needed" else "is not allowed", value, allowed)
  }
  sort(as.numeric(value))
}

# Returns the whole seconds of a duration such as "10 min", "-90 s" or a difftime. A bare number is an error.
duration_of <- function(value, argument, least = -Inf) {
  allowed <- "a text with a unit, such as \"10 min\", \"90 s\" or \"1 h\", or a difftime, in whole seconds"
  if (inherits(value, "difftime")) {
    seconds <- as.numeric(value, units = "secs")
  } else {
    units <- c(s = 1, sec = 1, min = 60, h = 3600)
    pattern <- "^ *(-?[0-9]+([.][0-9]+)?) *(s|sec|min|h) *$"
    text <- if (is.character(value)) value else rep("", length(value))
    found <- regmatches(text, regexec(pattern, text))
    parsed <- function(part) if (length(part)) as.numeric(part[2]) * units[[part[4]]] else NA_real_
    seconds <- vapply(found, parsed, 0)
  }
  seconds <- round(seconds, 6)
  if (!length(seconds) || anyNA(seconds) || any(seconds != floor(seconds) | seconds < least)) {
    abort_argument(argument, "is no duration", value, allowed)
  }
  seconds
}

# Returns a time of day as text, `HH:MM` or `HH:MM:SS`.
time_of_day <- function(value, argument) {
  found <- if (is_text(value)) regmatches(value, regexec("^([0-9]{1,3}):([0-5][0-9])(:[0-5][0-9])?$", value))[[1]]
  if (!length(found) || as.integer(found[2]) > 167L) {
    abort_argument(argument, "is no time of day", value, "\"HH:MM\" or \"HH:MM:SS\", up to \"167:59:59\"")
  }
  value
}

# Returns an existing folder, or NULL.
folder_of <- function(value, argument) {
  if (!is.null(value) && (!is_text(value) || !dir.exists(value))) {
    abort_argument(argument, "is no folder", value, "an existing folder, or NULL")
  }
  value
}
