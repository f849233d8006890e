options(ttmr.threads = 2L, ttmr.quiet = TRUE)
Sys.setenv(TTM_CACHE = file.path(tempdir(), "cache"))
data.table::setDTthreads(2)
withr::defer(stop_ttm(), teardown_env())
