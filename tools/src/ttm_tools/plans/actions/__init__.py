"""The functions that carry out the actions of a plan; `..action_list` lists them."""
