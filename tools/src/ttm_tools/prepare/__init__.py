"""Published feeds, prepared for `ttm`: their errors, rules that repair these, clipping, and merging."""
