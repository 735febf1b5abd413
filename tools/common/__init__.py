"""What several tools share: which file the program is, and how files are written."""
