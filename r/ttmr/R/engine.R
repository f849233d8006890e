MOST_ENGINES <- 4L
HEAD <- "^answer ([0-9]{1,3}) ([0-9]{1,15})$"

# Starts `ttm --ask`. Its standard error goes to a file, because an unread pipe would block it. ISO-8859-1 makes each
# byte one character: with UTF-8, processx drops the bytes that are none.
start_engine <- function(words, key) {
  engine <- new.env(parent = emptyenv())
  engine$key <- key
  engine$owner <- Sys.getpid()
  engine$errors <- tempfile("ttmr-engine-", fileext = ".txt")
  engine$seen <- 0L
  engine$started <- FALSE
  words <- enc2utf8(as.character(words))
  engine$process <- processx::process$new(
    program_at("ttm"), words, stdin = "|", stdout = "|", stderr = engine$errors, encoding = "ISO-8859-1", cleanup = TRUE
  )
  engine
}

is_running <- function(engine) identical(engine$owner, Sys.getpid()) && engine$process$is_alive()

# Ends an engine: it ends by itself when its input ends, and is killed if that takes longer than a second.
stop_engine <- function(engine) {
  if (!identical(engine$owner, Sys.getpid())) {
    return(invisible()) # the parent of this fork uses it
  }
  if (engine$process$is_alive()) {
    try(close(engine$process$get_input_connection()), silent = TRUE)
    engine$process$wait(1000L)
    engine$process$kill()
  }
  unlink(engine$errors)
}

# Ends all engines of these networks.
stop_pools <- function(ids) {
  forget_inherited()
  for (id in ids) {
    for (engine in the$pools[[id]]) {
      stop_engine(engine)
    }
    the$pools[[id]] <- NULL
  }
}

# In a fork the engines belong to the parent, and a pipe that two processes read would mix their answers. They are kept
# unused, so that no finalizer ends them.
forget_inherited <- function() {
  if (!identical(the$owner, Sys.getpid())) {
    the$inherited <- c(the$inherited, the$pools)
    the$pools <- list()
    the$owner <- Sys.getpid()
  }
}

# Returns the engine of a network with this key, and starts it if there is none. `words()` gives its command line.
engine_for <- function(network, key, words) {
  forget_inherited()
  id <- register(network)$id
  pool <- Filter(is_running, the$pools[[id]])
  same <- vapply(pool, function(engine) identical(engine$key, key), NA)
  if (any(same)) {
    engine <- pool[[which(same)]]
    pool <- pool[!same]
  } else {
    for (old in pool[seq_len(max(0L, length(pool) - MOST_ENGINES + 1L))]) {
      stop_engine(old)
    }
    pool <- Filter(is_running, pool)
    engine <- start_engine(words(), key)
  }
  the$pools[[id]] <- c(pool, list(engine)) # the one that was used last is last
  engine
}

# Asks a question: words, one a line. Returns the bytes of the answer, or raises the condition of its status.
ask <- function(engine, words) {
  words <- enc2utf8(as.character(words))
  if (any(!nzchar(words) | grepl("\n", words, fixed = TRUE))) {
    abort_argument("question", "has a word that is empty or has a line end", words)
  }
  complete <- FALSE
  # The rest of an answer would be in the pipe, and the engine cannot cancel a question.
  on.exit(if (!complete) engine$process$kill())
  send(engine, charToRaw(paste0(paste0(words, "\n", collapse = ""), "\n")))
  answer <- receive(engine)
  complete <- TRUE
  engine$started <- TRUE
  if (answer$status == 0L) {
    return(answer$body)
  }
  line <- sub("\n.*$", "", rawToChar(answer$body))
  line <- gsub("[^ ]*/ttmr-question-[0-9a-f]+/", "", line, useBytes = TRUE) # the files of a question are ours
  Encoding(line) <- "UTF-8"
  if (answer$status != 2L) {
    abort_engine(line, answer$status)
  }
  abort_refusal(line, answer$status, explanation_in(engine))
}

# Writes all bytes; an engine that ended before it read them raises its condition.
send <- function(engine, left) {
  while (length(left)) {
    left <- tryCatch(engine$process$write_input(left), error = function(e) NULL)
    if (is.null(left)) {
      engine$process$wait(1000L)
      abort_ended(engine)
    }
  }
}

# Reads `answer STATUS LENGTH`, then LENGTH bytes, which may be more than an integer counts.
receive <- function(engine) {
  process <- engine$process
  parts <- list()
  have <- 0
  need <- Inf
  head <- raw()
  status <- NA_integer_
  while (have < need) {
    process$poll_io(200L) # can be interrupted
    text <- process$read_output(1e6)
    if (!nzchar(text)) {
      if (!process$is_alive() && !process$is_incomplete_output()) {
        abort_ended(engine)
      }
      next
    }
    bytes <- iconv(text, "UTF-8", "ISO-8859-1", toRaw = TRUE)[[1]]
    if (is.na(status)) {
      head <- c(head, bytes)
      end <- match(as.raw(10L), head)
      if (is.na(end) && length(head) <= 64L) {
        next
      }
      found <- head_of(engine, head, end)
      status <- found$status
      need <- found$length
      bytes <- head[-seq_len(end)]
    }
    parts[[length(parts) + 1L]] <- bytes
    have <- have + length(bytes)
  }
  body <- if (length(parts)) do.call(c, parts) else raw()
  if (have > need) {
    abort_engine("more bytes than it announced", 0L)
  }
  list(status = status, body = body)
}

# Reads the first line of an answer.
head_of <- function(engine, head, end) {
  line <- if (is.na(end)) "" else rawToChar(head[seq_len(end - 1L)])
  found <- regmatches(line, regexec(HEAD, line))[[1]]
  if (length(found) != 3L) {
    engine$process$kill()
    abort_engine("its output is no answer", 0L)
  }
  list(status = as.integer(found[2]), length = as.numeric(found[3]))
}

# Raises the condition of an engine that ended: a refusal of its feed, or a crash.
abort_ended <- function(engine) {
  engine$process$wait(1000L)
  status <- engine$process$get_exit_status()
  status <- if (is.null(status)) 1L else if (status < 0L) 128L - status else status
  lines <- engine_lines(engine)
  is_second <- grepl(SECOND, lines)
  refusal <- utils::tail(lines[!is_second], 1L)
  if (status == 2L && length(refusal) && !engine$started) {
    second <- utils::tail(lines, 1L)
    abort_refusal(refusal, status, if (grepl(SECOND, second)) second else NA_character_)
  }
  abort_engine(if (length(lines)) utils::tail(lines, 1L) else "", status)
}

SECOND <- "^ttm: (column |--|folder )"

engine_lines <- function(engine) {
  lines <- lines_of(engine$errors)
  lines[nzchar(lines)]
}

# Returns the lines of `--report` since the last call.
new_lines <- function(engine) {
  lines <- engine_lines(engine)
  added <- lines[seq_along(lines) > engine$seen]
  engine$seen <- length(lines)
  added
}

# Returns the explanation of the refusal that the engine just answered, or NA.
explanation_in <- function(engine) {
  found <- grep(SECOND, new_lines(engine), value = TRUE)
  if (length(found)) found[[1]] else NA_character_
}

# Returns the running processes of a network.
processes_of <- function(network) {
  rows <- lapply(Filter(is_running, the$pools[[network$id]]), function(engine) {
    pid <- engine$process$get_pid()
    status <- sprintf("/proc/%d/status", pid)
    line <- if (file.exists(status)) grep("^VmRSS:", readLines(status, warn = FALSE), value = TRUE)
    kilobytes <- if (length(line)) as.numeric(gsub("[^0-9]", "", line)) else NA_real_
    parts <- strsplit(engine$key, "|", fixed = TRUE)[[1]]
    data.table(
      date = as.Date(parts[1], "%Y%m%d"), places = as.integer(parts[2]), memory_mb = round(kilobytes / 1000, 1),
      pid = pid
    )
  })
  none <- data.table(date = as.Date(character()), places = integer(), memory_mb = numeric(), pid = integer())
  rbindlist(c(list(none), rows))
}
