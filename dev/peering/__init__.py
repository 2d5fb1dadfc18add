"""Runs the same work in Capriccio and in what else runs many threads, for dev/peers."""
