"""A reader for each text format of docs/MANUAL.md: each takes the lines of a text and gives what they say, typed, or refuses
the first line that has not the form."""
