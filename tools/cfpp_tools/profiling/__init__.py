"""Where the instructions and the moves of a run go: what a report shows of it, counted by address and then by symbol."""
