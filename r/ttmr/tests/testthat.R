library(testthat)
library(ttmr)

test_check("ttmr")
