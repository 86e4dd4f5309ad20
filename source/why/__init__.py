"""Why there is a warning: the nearest cause of what is wrong there, and the way from it."""
