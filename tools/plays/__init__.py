"""The files of a play, read for people: captures, traces, and both joined row by row."""
