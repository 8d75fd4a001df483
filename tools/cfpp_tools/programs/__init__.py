"""The programs of tools/, each with a function `main` that takes the arguments."""
