"""Rewrites preprocessed C into the C90 that the program reads, with the same places."""
