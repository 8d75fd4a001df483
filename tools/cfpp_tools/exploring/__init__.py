"""Explores a space of layouts: which there are, what each costs and needs, and which no other beats."""
