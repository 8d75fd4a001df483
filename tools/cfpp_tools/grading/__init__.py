"""Goals of exercises, and whether a student's file meets them."""
