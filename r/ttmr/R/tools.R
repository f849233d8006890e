# Runs a command of ttm-tools with `--json`, and returns its object as a list.
#
# A refusal becomes `ttm_refusal`. `show` is FALSE, or the label of a progress bar. `keep` is a file for the output.
run_tools <- function(words, show = FALSE, verbose = FALSE, keep = NULL) {
  program <- program_at("ttm-tools")
  folder <- tempfile("ttmr-tools-")
  dir.create(folder)
  on.exit(unlink(folder, recursive = TRUE))
  out <- file.path(folder, "out")
  err <- file.path(folder, "err")
  words <- c(enc2utf8(as.character(words)), "--json", "--progress", "json")
  process <- processx::process$new(program, words, stdin = "|", stdout = out, stderr = err, cleanup_tree = TRUE)
  on.exit(if (process$is_alive()) process$kill(), add = TRUE, after = FALSE)
  bar <- progress_bar(show)
  while (process$is_alive()) {
    process$wait(100L)
    bar$of_lines(err)
  }
  bar$end()
  notes <- lines_of(err)
  notes <- notes[!startsWith(notes, "{")]
  if (verbose && length(notes)) {
    message(paste(notes, collapse = "\n"))
  }
  if (!is.null(keep)) {
    file.copy(out, keep)
  }
  object_of(out, process$get_exit_status(), notes, words[[1]])
}

# Returns the object that a command printed, or raises the condition of its error.
object_of <- function(path, status, notes, command) {
  text <- read_text(path)
  parsed <- tryCatch(jsonlite::fromJSON(text, simplifyVector = FALSE), error = function(e) NULL)
  last <- if (length(notes)) notes[[length(notes)]] else ""
  if (is.null(parsed)) {
    abort_engine(last, status)
  }
  if (!is.null(parsed[["error"]])) { # `$` would also find `errors`
    abort_tools(parsed[["error"]], status, command)
  }
  if (status != 0L && is.null(parsed[["errors"]])) {
    abort_engine(last, status)
  }
  parsed
}

# Raises the condition of an error object: a refusal, a missing package, or a failure of the tool itself.
abort_tools <- function(error, status, command) {
  line <- paste0("ttm-tools ", command, ": ", if (is.null(error$line)) "no message" else error$line)
  kind <- if (is.null(error$kind)) "input" else error$kind
  if (kind == "dependency") {
    abort_missing("ttm-tools", paste0("lacks a package (", error$line, ")"))
  }
  if (kind %in% c("internal", "interrupted", "memory")) {
    abort_engine(line, status)
  }
  fields <- lapply(error[c("file", "column", "value", "allowed")], function(x) if (is.null(x)) NA else as.character(x))
  fields$record <- if (is.null(error$record)) NA else as.integer(error$record)
  abort_refusal(line, status, fields = stats::setNames(fields, c("file", "column", "value", "allowed", "record")))
}

read_text <- function(path) {
  bytes <- readBin(path, "raw", file.size(path))
  text <- rawToChar(bytes)
  Encoding(text) <- "UTF-8"
  text
}

lines_of <- function(path) {
  if (!file.exists(path)) {
    return(character())
  }
  readLines(path, warn = FALSE, encoding = "UTF-8", skipNul = TRUE)
}

# A progress bar: `of_lines(path)` reads the newest line such as {"done": 3, "total": 10}, `to(done, total)` sets it,
# and `end()` closes it. Without a label nothing is shown.
progress_bar <- function(label) {
  shown <- is_text(label)
  state <- new.env(parent = emptyenv())
  to <- function(done, total) {
    if (shown && total > 0) {
      state$shown <- TRUE
      width <- 40L
      full <- round(width * done / total)
      bar <- paste0(strrep("=", full), strrep(" ", width - full))
      cat(sprintf("\r%s |%s| %d/%d", label, bar, as.integer(done), as.integer(total)), file = stderr())
    }
  }
  of_lines <- function(path) {
    lines <- if (shown) grep("^[{]\"done\"", lines_of(path), value = TRUE)
    if (length(lines)) {
      step <- tryCatch(jsonlite::fromJSON(lines[[length(lines)]]), error = function(e) list(done = 0, total = 0))
      to(step$done, step$total)
    }
  }
  list(to = to, of_lines = of_lines, end = function() if (isTRUE(state$shown)) cat("\n", file = stderr()))
}

# Returns warnings of a command as notes.
notes_of <- function(object) {
  rows <- lapply(object$warnings, function(it) {
    affected <- if (is.null(it$affected)) NA_integer_ else as.integer(it$affected)
    note(it$kind, it$text, affected)
  })
  rbindlist(c(list(no_notes()), rows))
}
