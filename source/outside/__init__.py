"""Functions that no file defines, and which of them may write what they are taken not to write."""
