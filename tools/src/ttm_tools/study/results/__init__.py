"""The results of a study. `registry` lists them; `tables`, `windows`, `maps` and `page` give their stages."""
