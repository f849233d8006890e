MOST_BYTES <- 64e6 # of an answer; larger blocks would come near the limits of R's vectors
SECONDS_OF_BLOCK <- 1

# Asks one question of a job. `words` are those that differ from question to question.
ask_job <- function(job, words, files = list()) {
  engine <- engine_for(job$question$network, job$key, job$words)
  folder <- tempfile("ttmr-question-")
  dir.create(folder)
  on.exit(unlink(folder, recursive = TRUE))
  for (name in names(files)) {
    path <- file.path(folder, paste0(name, ".csv"))
    fwrite(files[[name]], path, quote = TRUE)
    words <- c(words, paste0("--", name), path)
  }
  was_started <- engine$started
  shown <- length(engine_lines(engine))
  on.exit(if (job$question$verbose) show_lines(engine, shown), add = TRUE, after = FALSE)
  body <- ask(engine, words)
  if (!was_started) {
    engine$report <- report_of(new_lines(engine))
  }
  if (is.null(job$notes$reported)) {
    job$notes$reported <- TRUE
    signal_report(job, engine$report)
  }
  body
}

show_lines <- function(engine, from) {
  lines <- engine_lines(engine)
  if (length(lines) > from) {
    message(paste(lines[-seq_len(from)], collapse = "\n"))
  }
}

# Returns what `--report` warns of: texts, the scenarios that change nothing, and whether the date has no trip.
report_of <- function(lines) {
  scenario <- NA_character_
  report <- list(idle = character(), is_empty = FALSE, nearest = NA_character_, other = character())
  for (line in lines) {
    named <- regmatches(line, regexec("^ttm: runs in scenario (.*): [0-9]+$", line))[[1]]
    if (length(named)) {
      scenario <- named[2]
    } else if (grepl("^ttm: warning: no trip runs on the date", line)) {
      report$is_empty <- TRUE
    } else if (grepl("^ttm: warning: this scenario changes nothing", line)) {
      report$idle <- c(report$idle, scenario)
    } else if (grepl("^ttm: nearest date with runs", line) && is.na(report$nearest)) {
      report$nearest <- sub("^.*: ", "", line)
    } else if (grepl("^ttm: warning: ", line)) {
      report$other <- c(report$other, sub("^ttm: warning: ", "", line))
    }
  }
  report
}

# Turns the engine's warnings into conditions and notes, once a call.
signal_report <- function(job, report) {
  date <- as.Date(job$question$date, "%Y%m%d")
  on_foot <- identical(job$question$modes, character()) || job$question$rides == 0L
  add <- function(kind, text) job$notes$rows <- c(job$notes$rows, list(note(kind, text, NA_integer_)))
  if (isTRUE(report$is_empty) && !on_foot) {
    text <- paste0(
      "no trip runs on ", date, if (!is.na(report$nearest)) paste0("; the nearest date with trips is ", report$nearest)
    )
    add("no service", text)
    warn("ttm_no_service_warning", text, date = date, nearest = as.Date(report$nearest))
  }
  for (name in setdiff(report$idle, c("today", "modes"))) {
    text <- paste0("scenario ", name, " changes nothing on ", date)
    add("no service", text)
    warn("ttm_no_service_warning", text, date = date, nearest = as.Date(NA))
  }
  for (text in report$other) {
    add("engine", text)
  }
}

# Calls `each(chosen)` for blocks of origins, by their positions. The first has 16 for each thread. Later ones take
# about a second, and their answers stay below `MOST_BYTES`. Rows of different origins don't depend on each other, so
# blocks together are the same matrix.
in_blocks <- function(job, columns, each) {
  question <- job$question
  count <- length(job$origins$names)
  rows <- (1L + length(job$files)) * length(question$percentiles)
  most <- max(1, floor(MOST_BYTES / (rows * (columns * 7 + 60))))
  fixed <- getOption("ttmr.block")
  size <- if (is.null(fixed)) min(most, 16L * question$threads) else fixed
  bar <- progress_bar(if (question$progress) "Origins" else FALSE)
  begin <- 1L
  while (begin <= count) {
    chosen <- seq.int(begin, min(count, begin + size - 1L))
    started <- proc.time()[["elapsed"]]
    each(chosen)
    taken <- proc.time()[["elapsed"]] - started
    begin <- begin + length(chosen)
    bar$to(begin - 1L, count)
    if (is.null(fixed)) {
      size <- max(1, min(most, floor(size * min(8, SECONDS_OF_BLOCK / max(taken, 0.01)))))
    }
  }
  bar$end()
}

# The words that a question about departures from `from` to `to` (minutes of the day) always has.
words_of <- function(job, from, to, percentiles) {
  question <- job$question
  c(
    "--from", clock(from), "--to", clock(to), "--trips", max(1L, question$rides),
    "--share", paste(percentiles, collapse = ","), "--workers", question$threads
  )
}

# Returns the seconds of some origins: for each scenario and percentile a vector, destinations fastest; NA if not
# reached, or later than `max_trip_duration`.
times_of <- function(job, chosen, from, to, percentiles) {
  files <- list(
    origins = data.table(stop_id = job$origins$names[chosen]),
    destinations = data.table(stop_id = job$destinations$names)
  )
  body <- ask_job(job, c(words_of(job, from, to, percentiles), "--within", "0"), files)
  columns <- length(job$destinations$names)
  lines <- sum(lengths(regmatches(job$destinations$names, gregexpr("\n", job$destinations$names, fixed = TRUE))))
  wide <- read_numbers(body, 4L + seq_len(columns), integer(), lines, rows_of(job, chosen, percentiles))
  wide[wide > job$question$longest] <- NA_integer_
  by_scenario(job, wide, length(chosen), percentiles)
}

rows_of <- function(job, chosen, percentiles) {
  (1L + length(job$files)) * length(chosen) * length(percentiles)
}

# Reads columns of an answer into a matrix: `whole` as integers, or `wide` as numbers that may be larger. Names of
# columns aren't read: they may collide.
read_numbers <- function(body, whole, wide, header_lines, rows) {
  path <- tempfile("ttmr-answer-")
  on.exit(unlink(path))
  writeBin(body, path)
  select <- if (length(whole)) list(integer = whole) else list(double = wide)
  table <- fread(
    path, header = FALSE, skip = 1L + header_lines, select = select, na.strings = "", sep = ",", fill = FALSE,
    showProgress = FALSE
  )
  if (nrow(table) != rows || ncol(table) != length(whole) + length(wide)) {
    abort_engine(paste("an answer of", nrow(table), "rows and", ncol(table), "columns, not", rows), 0L)
  }
  as.matrix(table)
}

# Splits the rows of an answer (by scenario, origin, percentile) into vectors, for each scenario and percentile.
by_scenario <- function(job, wide, origins, percentiles) {
  count <- length(percentiles)
  first <- if (length(job$files)) seq_along(job$files) else 0L # the engine's base is 0; files follow
  split <- lapply(first, function(place) {
    block <- wide[place * origins * count + seq_len(origins * count), , drop = FALSE]
    lapply(
      seq_len(count), function(at) as.vector(t(block[seq.int(at, by = count, length.out = origins), , drop = FALSE]))
    )
  })
  stats::setNames(split, if (is.null(job$scenarios)) "" else job$scenarios)
}

# Whole minutes, rounded down, or seconds.
in_unit <- function(seconds, unit) if (unit == "min") seconds %/% 60L else seconds

# Adds a column `scenario` in front if the network has scenarios.
with_scenario <- function(table, job, scenario) {
  if (is.null(job$scenarios)) {
    return(table)
  }
  data.table(scenario = rep(scenario, nrow(table)), table)
}

# Collects tables of blocks: in memory, or as a file for each origin.
collector <- function(job, id_column) {
  parts <- new.env(parent = emptyenv())
  parts$by_scenario <- list()
  folder <- job$question$output_dir
  add <- function(tables) {
    if (!is.null(folder)) {
      write_origins(rbindlist(tables), folder, id_column)
      return(invisible())
    }
    for (place in seq_along(tables)) {
      parts$by_scenario[place] <- list(
        c(if (place <= length(parts$by_scenario)) parts$by_scenario[[place]], list(tables[[place]]))
      )
    }
  }
  end <- function(class) {
    if (!is.null(folder)) {
      return(folder)
    }
    whole <- rbindlist(unlist(parts$by_scenario, recursive = FALSE))
    finish(whole, class, job)
  }
  list(add = add, end = end)
}

# Writes one CSV file for each origin, under its final name only when it is complete.
write_origins <- function(table, folder, id_column) {
  for (rows in split(table, by = id_column, sorted = FALSE)) {
    name <- utils::URLencode(as.character(rows[[id_column]][[1]]), reserved = TRUE)
    work <- tempfile("ttmr-", tmpdir = folder)
    fwrite(rows, work)
    file.rename(work, file.path(folder, paste0(name, ".csv")))
  }
}

# Gives a result its class and its attribute `ttm`.
finish <- function(table, class, job, unit = job$question$unit) {
  question <- job$question
  asked <- question[setdiff(names(question), c("network", "threads", "verbose", "progress", "output_dir", "scenarios"))]
  asked$origins <- job$origins$id
  asked$destinations <- job$destinations$id
  about <- list(
    question = asked, unit = unit, notes = rbindlist(job$notes$rows), scenarios = job$scenarios,
    versions = list(
      ttm = version_of(program_at("ttm")), tools = tools_version(), proved_by = proved_by(program_at("ttm"))
    )
  )
  setattr(table, "class", unique(c(class, class(table))))
  setattr(table, "ttm", about)
  table
}
