"""The tests outside Rattle."""
