"""The views of a run: each module makes one of the document that the program `report` prints, or of a log."""
