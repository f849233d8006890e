no_notes <- function() data.table(kind = character(), text = character(), affected = integer())

note <- function(kind, text, affected) data.table(kind = kind, text = text, affected = affected)

#' Notes of a result or a network
#'
#' @param x A network, or a result of `ttmr`.
#' @return A data.table: `kind`, `text`, `affected` (number of records, places or trips; `NA` if it has no number). No
#'   rows if there is nothing to say. Kinds are `"repaired"`, `"no service"`, `"unreachable"`, `"scenario"`, `"engine"`,
#'   and those of `ttm-tools`: `"rounded"`, `"feed"` (a likely mistake in the feed), `"left out"`, `"renamed"` and
#'   `"place"` (stops without coordinates or far from a street).
#' @examplesIf ttmr::ttm_available()
#' network <- setup_ttm(ttm_sample()$data_path)
#' ttm_notes(network)
#' stop_ttm(network)
#' @export
ttm_notes <- function(x) {
  if (inherits(x, "ttm_network")) {
    return(as_network(x)$notes[])
  }
  about <- attr(x, "ttm")
  if (is.null(about)) {
    abort_argument("x", "has no notes", NA, "a network, or a result of ttmr with its attribute")
  }
  about$notes[]
}
