"""Many runs, and the table that has a row for each."""
