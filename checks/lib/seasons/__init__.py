"""A season as a clerk keeps it: what happens in it, and what the table has to be."""
