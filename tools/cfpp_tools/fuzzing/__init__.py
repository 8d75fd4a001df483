"""Random and changed files for every command of the program, and what must hold of each call on them."""
