"""From the words of the command line to the report: preprocessing, the program's runs, refusals."""
