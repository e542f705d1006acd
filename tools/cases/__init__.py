"""The cases that tools/make-cases writes: the list and its files, what the groups are built from, and the groups."""
