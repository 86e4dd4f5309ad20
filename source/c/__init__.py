"""Preprocessed C: tokens and their places, trees with types, and edits that keep places."""
