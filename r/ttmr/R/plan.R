# Plan files: TOML with [[scenario]] tables, their [[scenario.action]] tables, and [[stop]] tables. The reader takes
# what plans need: texts in double or single quotes, numbers, true and false, arrays, inline tables and comments.

# Returns a value as TOML.
toml_value <- function(value) {
  if (is.list(value) && !is.null(names(value))) {
    parts <- paste(names(value), vapply(value, toml_value, ""), sep = " = ", collapse = ", ")
    return(paste0("{ ", parts, " }"))
  }
  if (is.list(value)) {
    return(paste0("[", paste(vapply(value, toml_value, ""), collapse = ", "), "]"))
  }
  if (is.character(value)) {
    return(toml_text(value))
  }
  if (is.logical(value)) {
    return(if (value) "true" else "false")
  }
  format(value, digits = 15, scientific = FALSE, trim = TRUE)
}

toml_text <- function(value) {
  for (pair in list(c("\\", "\\\\"), c("\"", "\\\""), c("\n", "\\n"), c("\r", "\\r"), c("\t", "\\t"))) {
    value <- gsub(pair[[1]], pair[[2]], value, fixed = TRUE)
  }
  paste0("\"", value, "\"")
}

# Returns the lines of a plan file. Stops of which the feed has the identifier (`known`) aren't new.
toml_of <- function(scenarios, known = character()) {
  stops <- unique(rbindlist(c(list(no_stops()), lapply(scenarios, function(one) one$stops))))
  stops <- stops[!stops$id %in% known, ]
  keys_of <- function(table) paste(names(table), vapply(table, toml_value, ""), sep = " = ")
  lines <- lapply(seq_len(nrow(stops)), function(row) c("[[stop]]", keys_of(as.list(stops[row, ])), ""))
  for (one in scenarios) {
    actions <- lapply(one$actions, function(action) c("[[scenario.action]]", keys_of(action), ""))
    lines <- c(lines, list(c("[[scenario]]", paste("name =", toml_text(one$name)), "")), actions)
  }
  unlist(lines)
}

#' Read and write plan files
#'
#' A plan file (TOML) holds scenarios. `ttm-tools scenarios`, studies and `ttm-tools explore` use the same format.
#'
#' @param path Text. A `.toml` file.
#' @param scenarios A list of `ttm_scenario`.
#' @return `read_plan()`: a list of `ttm_scenario`, named. `write_plan()`: `path`, invisibly.
#' @section Errors:
#' `ttm_refusal` with the line of the file.
#' @examplesIf ttmr::ttm_available()
#' path <- tempfile(fileext = ".toml")
#' write_plan(list(scenario("no13") |> remove_routes("L0013")), path)
#' read_plan(path)
#' @export
read_plan <- function(path) {
  if (!is_text(path) || !file.exists(path)) {
    abort_argument("path", "does not exist", path, "a .toml file")
  }
  text <- read_text(path)
  if (!validUTF8(text)) {
    abort_refusal(paste0(path, ": is not UTF-8"), 1L, fields = list(file = path))
  }
  reader <- toml_reader(text, path)
  tables <- reader$tables()
  scenarios_from(tables, path)
}

# Raises `ttm_refusal` with the line of a plan file.
abort_plan <- function(path, line, what) {
  abort_refusal(paste0(path, ": line ", line, ": ", what), 1L, fields = list(file = path, record = as.integer(line)))
}

# Makes scenarios of the tables of a plan file.
scenarios_from <- function(tables, path) {
  stops <- no_stops()
  scenarios <- list()
  for (table in tables) {
    values <- table$values
    if (table$name == "stop") {
      missing <- setdiff(c("id", "lat", "lon"), names(values))
      if (length(missing)) {
        abort_plan(path, table$line, paste0("a stop needs ", missing[[1]]))
      }
      name <- if (is.null(values$name)) values$id else values$name
      stops <- rbindlist(
        list(stops, data.table(id = values$id, name = name, lat = as.numeric(values$lat), lon = as.numeric(values$lon)))
      )
    } else if (table$name == "scenario") {
      if (!is_text(values$name)) {
        abort_plan(path, table$line, "a scenario needs a name")
      }
      scenarios[[values$name]] <- scenario(values$name)
      current <- values$name
    } else if (table$name == "scenario.action") {
      if (!length(scenarios) || !is_text(values$do)) {
        abort_plan(path, table$line, "an action needs a scenario before it, and a text do")
      }
      scenarios[[current]]$actions <- c(scenarios[[current]]$actions, list(values))
    } else {
      abort_plan(
        path, table$line, paste0("[[", table$name, "]] is not a table of a plan: stop, scenario or scenario.action")
      )
    }
  }
  lapply(scenarios, function(one) {
    named <- unlist(lapply(one$actions, function(action) action$stops))
    one$stops <- stops[stops$id %in% c(
      named, unlist(lapply(one$actions, function(action) c(action$after, action$before)))
    ), ]
    one
  })
}

# A reader of TOML: `tables()` returns tables with `name`, `line` and `values` in their order.
toml_reader <- function(text, path) {
  pattern <- "\"(\\\\.|[^\"\\\\\n])*\"|'[^'\n]*'|#[^\n]*|\\[\\[|\\]\\]|[\\[\\]{}=,\n]|[^\\s\\[\\]{}=,#\"']+"
  tokens <- regmatches(text, gregexpr(pattern, text, perl = TRUE))[[1]]
  line <- cumsum(c(1L, utils::head(tokens == "\n", -1L)))
  keep <- !startsWith(tokens, "#")
  state <- new.env(parent = emptyenv())
  state$tokens <- tokens[keep]
  state$lines <- line[keep]
  state$at <- 1L
  state$path <- path
  list(tables = function() toml_tables(state))
}

toml_next <- function(state) {
  if (state$at > length(state$tokens)) {
    abort_plan(state$path, utils::tail(c(1L, state$lines), 1L), "the file ends within a table")
  }
  state$at <- state$at + 1L
  state$tokens[[state$at - 1L]]
}

toml_peek <- function(state) if (state$at > length(state$tokens)) "" else state$tokens[[state$at]]

toml_line <- function(state) state$lines[[min(state$at, length(state$lines))]]

toml_expect <- function(state, token) {
  line <- toml_line(state)
  found <- toml_next(state)
  if (found != token) {
    abort_plan(
      state$path, line, paste0("is no TOML of a plan: ", dQuote(token, FALSE), " expected, not ", dQuote(found, FALSE))
    )
  }
}

toml_tables <- function(state) {
  tables <- list()
  while (state$at <= length(state$tokens)) {
    line <- toml_line(state)
    token <- toml_peek(state)
    if (token == "\n") {
      state$at <- state$at + 1L
    } else if (token == "[[") {
      state$at <- state$at + 1L
      name <- toml_next(state)
      toml_expect(state, "]]")
      tables <- c(tables, list(list(name = name, line = line, values = list())))
    } else {
      key <- toml_key(state)
      toml_expect(state, "=")
      if (!length(tables)) {
        abort_plan(state$path, line, paste0(key, " is before the first table"))
      }
      tables[[length(tables)]]$values[[key]] <- toml_read(state)
    }
  }
  tables
}

toml_key <- function(state) gsub("^[\"']|[\"']$", "", toml_next(state))

toml_skip <- function(state) while (toml_peek(state) == "\n") state$at <- state$at + 1L

# Reads one value.
toml_read <- function(state) {
  line <- toml_line(state)
  token <- toml_next(state)
  if (token %in% c("[", "[[")) {
    return(toml_array(state, if (token == "[[") list(toml_array(state, list())) else list()))
  }
  if (token == "{") {
    return(toml_inline(state))
  }
  if (startsWith(token, "'")) {
    return(substr(token, 2L, nchar(token) - 1L))
  }
  if (startsWith(token, "\"")) {
    return(toml_unquoted(token))
  }
  if (token %in% c("true", "false")) {
    return(token == "true")
  }
  number <- suppressWarnings(as.numeric(gsub("_", "", token, fixed = TRUE)))
  if (is.na(number)) {
    abort_plan(state$path, line, paste0(dQuote(token, FALSE), " is no text in quotes, number, true or false"))
  }
  number
}

toml_unquoted <- function(token) {
  parsed <- tryCatch(jsonlite::fromJSON(paste0("[", token, "]")), error = function(e) NULL)
  if (is.null(parsed)) substr(token, 2L, nchar(token) - 1L) else parsed
}

toml_array <- function(state, values) {
  repeat {
    toml_skip(state)
    if (toml_peek(state) == "]") {
      state$at <- state$at + 1L
      return(values)
    }
    values <- c(values, list(toml_read(state)))
    toml_skip(state)
    if (toml_peek(state) == ",") {
      state$at <- state$at + 1L
    } else if (toml_peek(state) != "]") {
      toml_expect(state, "]")
    }
  }
}

toml_inline <- function(state) {
  values <- list()
  repeat {
    if (toml_peek(state) == "}") {
      state$at <- state$at + 1L
      return(values)
    }
    key <- toml_key(state)
    toml_expect(state, "=")
    values[[key]] <- toml_read(state)
    if (toml_peek(state) == ",") {
      state$at <- state$at + 1L
    } else if (toml_peek(state) != "}") {
      toml_expect(state, "}")
    }
  }
}

#' @rdname read_plan
#' @export
write_plan <- function(scenarios, path) {
  if (inherits(scenarios, "ttm_scenario")) {
    scenarios <- list(scenarios)
  }
  for (one in scenarios) {
    if (!inherits(one, "ttm_scenario")) {
      abort_argument("scenarios", "has something that is no scenario", NA, "a list of scenarios")
    }
  }
  work <- tempfile("ttmr-", tmpdir = dirname(path))
  writeLines(enc2utf8(toml_of(scenarios)), work, useBytes = TRUE)
  file.rename(work, path)
  invisible(path)
}
