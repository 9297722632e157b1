"""Rows of programs as texts: `rows/README.md` describes the form of a file."""
