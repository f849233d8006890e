#' Compare scenarios, or two results
#'
#' What changes between two scenarios of one result, or between two results with the same question, such as morning and
#' evening, or two timetables.
#'
#' @param x A `ttm_matrix` in seconds (`unit = "s"`), or a `ttm_access`.
#' @param y Another one of the same kind, to compare with `x` as the base; `NULL` compares scenarios of `x`.
#' @param scenario Text. The scenario to compare; needed only if there are several in addition to the base.
#' @param base Text. The scenario to compare with; default: `"today"`.
#' @param ... Not used.
#'
#' @return For a `ttm_access`, a data.table of class `ttm_comparison`:
#'
#' | Column | Meaning |
#' |:--|:--|
#' | `scenario`, `id`, `opportunity`, `percentile`, `cutoff` | as in [accessibility()] |
#' | `before`, `after`, `change` | opportunities |
#' | `percent` | change in percent of `before`; `NA` if that is 0 |
#' | `what` | `"cut off"`, `"loses"`, `"unchanged"`, `"gains"`, `"newly reached"` |
#'
#' For a `ttm_matrix` with `by = "origin"`: `scenario`, `from_id`, `cut_off`, `slower`, `unchanged`, `faster`, `new`
#' (number of destinations), `mean_change` (seconds, of destinations that both reach). With `by = "pair"`, only pairs
#' that change: `scenario`, `from_id`, `to_id`, `what`, `before`, `after`, `change` (seconds).
#'
#' @section Errors:
#' `ttm_argument_error` if a matrix is in whole minutes (a difference of rounded minutes may be off by one), if its
#' attribute was lost and `unit` isn't given, or if `x` and `y` have different questions, origins or destinations.
#'
#' @examplesIf ttmr::ttm_available()
#' town <- ttm_sample()
#' planned <- with_scenarios(setup_ttm(town$data_path), scenario("no13") |> remove_routes("L0013"))
#' times <- travel_time_matrix(planned, town$homes, town$clinics, departure_datetime = "2026-05-04 08:00", unit = "s")
#' compare(times)
#' compare(times, by = "pair")[what == "cut off"]
#' access <- accessibility(planned, town$homes, town$jobs, "jobs",
#'   departure_datetime = "2026-05-04 08:00", cutoffs = 30
#' )
#' summary(compare(access))
#' stop_ttm()
#' @export
compare <- function(x, y = NULL, scenario = NULL, base = NULL, ...) {
  UseMethod("compare")
}

# The rows of base and scenario to compare: one result with scenarios, or two results.
compared <- function(x, y, scenario, base) {
  if (!is.null(y)) {
    same_question(x, y)
    before <- one_scenario(x, base)
    after <- one_scenario(y, scenario)
    name <- if (is.null(after[["scenario"]])) "y" else after[["scenario"]][1]
    return(list(before = as.data.table(before), after = stats::setNames(list(as.data.table(after)), name)))
  }
  if (is.null(x[["scenario"]])) {
    abort_argument("x", "has no scenarios", NA, "a result of with_scenarios(), or a second result y")
  }
  base <- if (is.null(base)) "today" else base
  known <- setdiff(unique(x[["scenario"]]), base)
  chosen <- if (is.null(scenario)) known else scenario
  if (length(chosen) != 1L || !chosen %in% known) {
    abort_argument(
      "scenario", if (length(chosen) == 1L) "is not in the result" else "is needed", chosen[1],
      paste(known, collapse = ", ")
    )
  }
  after <- list(as.data.table(one_scenario(x, chosen)))
  list(before = as.data.table(one_scenario(x, base)), after = stats::setNames(after, chosen))
}

# Raises `ttm_argument_error` if two results answer different questions.
same_question <- function(x, y) {
  about <- list(attr(x, "ttm")$question, attr(y, "ttm")$question)
  for (name in c("fun", "percentiles", "window", "origins", "destinations")) {
    if (!identical(about[[1]][[name]], about[[2]][[name]])) {
      abort_argument(
        "y", paste0("has other ", name, " than x"), NA,
        "results with the same origins, destinations, percentiles and window length"
      )
    }
  }
}

#' @describeIn compare Travel times.
#' @param by `"origin"` or `"pair"`.
#' @param percentile One percentile; needed if there are several.
#' @param tolerance Duration, such as `"1 min"`: a smaller change, or an equal one, counts as unchanged.
#' @param unit `"s"`, only if the attribute of `x` was lost.
#' @export
compare.ttm_matrix <- function(x, y = NULL, scenario = NULL, base = NULL, by = c("origin", "pair"),
                               percentile = NULL, tolerance = "0 s", unit = NULL, ...) {
  by <- one_of(by, "by", c("origin", "pair"))
  unit <- if (is.null(attr(x, "ttm"))) unit else attr(x, "ttm")$unit
  if (!identical(unit, "s")) {
    what <- if (is.null(unit)) "lost its unit" else "is in whole minutes, whose difference may be off by one"
    abort_argument("x", what, NA, "unit = \"s\" in travel_time_matrix()")
  }
  if (!is.null(y) && !identical(attr(y, "ttm")$unit, "s")) {
    abort_argument("y", "is not in seconds", NA, "unit = \"s\" in travel_time_matrix()")
  }
  column <- one_percentile(x, percentile)
  least <- one_duration(tolerance, "tolerance", 0)
  sides <- compared(x, y, scenario, base)
  pairs <- changed_pairs(sides, column, least)
  if (by == "pair") {
    changed <- c("cut off", "slower", "new", "faster")
    return(
      pairs[pairs$what %in% changed, c(
        "scenario", "from_id", "to_id", "what", "before", "after", "change"
      ), with = FALSE]
    )
  }
  count <- function(what, name) sum(what == name)
  pairs[, list(
    cut_off = count(what, "cut off"), slower = count(what, "slower"), unchanged = count(what, "unchanged"),
    faster = count(what, "faster"), new = count(what, "new"), mean_change = mean(change, na.rm = TRUE)
  ), by = c("scenario", "from_id")]
}

# Returns a row for each pair that one of both reaches, and what happens to it.
changed_pairs <- function(sides, column, least) {
  keys <- c("from_id", "to_id")
  before <- sides$before[, c(keys, column), with = FALSE]
  after <- sides$after[[1]][, c(keys, column), with = FALSE]
  setnames(before, column, "before")
  setnames(after, column, "after")
  from <- unique(c(sides$before$from_id, sides$after[[1]]$from_id))
  to <- unique(c(sides$before$to_id, sides$after[[1]]$to_id))
  pairs <- merge(before, after, by = keys, all = TRUE)
  pairs <- pairs[!is.na(pairs$before) | !is.na(pairs$after), ]
  pairs <- pairs[order(match(pairs$from_id, from), match(pairs$to_id, to)), ]
  pairs[["change"]] <- pairs$after - pairs$before
  pairs[["what"]] <- ifelse(
    is.na(pairs$after), "cut off",
    ifelse(
      is.na(pairs$before), "new",
      ifelse(pairs$change > least, "slower", ifelse(-pairs$change > least, "faster", "unchanged"))
    )
  )
  pairs[["scenario"]] <- rep(names(sides$after), nrow(pairs))
  pairs
}

#' @describeIn compare Accessibility.
#' @export
compare.ttm_access <- function(x, y = NULL, scenario = NULL, base = NULL, ...) {
  sides <- compared(x, y, scenario, base)
  keys <- c("id", "opportunity", "percentile", "cutoff")
  before <- sides$before
  after <- sides$after[[1]]
  place <- match(
    do.call(paste, c(before[, keys, with = FALSE], sep = "\r")),
    do.call(paste, c(after[, keys, with = FALSE], sep = "\r"))
  )
  if (anyNA(place) || nrow(before) != nrow(after)) {
    abort_argument("y", "has other origins, opportunities, percentiles or cutoffs than x", NA, "the same question")
  }
  table <- data.table(
    scenario = rep(names(sides$after), nrow(before)), before[, keys, with = FALSE], before = before$accessibility,
    after = after$accessibility[place]
  )
  table[["change"]] <- table$after - table$before
  table[["percent"]] <- ifelse(table$before == 0, NA_real_, round(100 * table$change / table$before, 1))
  table[["what"]] <- access_words(table$before, table$after)
  setattr(table, "class", c("ttm_comparison", class(table)))
  table
}

# The words of the field for what an origin's access does.
access_words <- function(before, after) {
  ifelse(
    before > 0 & after == 0, "cut off",
    ifelse(
      before == 0 & after > 0, "newly reached",
      ifelse(after < before, "loses", ifelse(after > before, "gains", "unchanged"))
    )
  )
}

#' @describeIn compare Number of origins by `what`, and the sum of changes.
#' @param object A `ttm_comparison`.
#' @export
summary.ttm_comparison <- function(object, ...) {
  x <- as.data.table(object)
  by <- c("scenario", "opportunity", "percentile", "cutoff")
  words <- c("cut off", "loses", "unchanged", "gains", "newly reached")
  counts <- x[, c(
    stats::setNames(lapply(words, function(word) sum(what == word)), gsub(" ", "_", words)), list(change = sum(change))
  ), by = by]
  counts[]
}
