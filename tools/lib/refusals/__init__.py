"""The calls of `check-refusals`, and what the pages say of each."""
