"""What the tools share: reading sessions and transcripts, the names of what is in them, running the program, and the
timeline. Python's standard library alone, 3.7 or later. docs/SESSION.md says what the lines mean."""
