"""Reads this repository for the tools that check its map and write the made pages."""
