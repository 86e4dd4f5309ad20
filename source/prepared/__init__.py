"""What is put into texts so that the analysis knows more: models of library functions, and
conditions that name what they test. It means the same to a compiler, but for the models."""
