"""Copies of functions for each call, so that what they do is told apart by the caller."""
