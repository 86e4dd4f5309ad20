"""The report for people and for other programs: alarms folded, told in words, and written."""
