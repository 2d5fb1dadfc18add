"""Faults in allocations, reads, writes and opens of a program, by a preloaded library."""
