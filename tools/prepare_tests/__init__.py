"""Tests of `tools/prepare`, `tools/check-streams` and of how traces are compared: `python3 -B -m unittest discover -s tools -t tools` from the top."""
