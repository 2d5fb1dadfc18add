"""Bugs that are planted in the crates: those written by hand, what came of each, and the page."""
