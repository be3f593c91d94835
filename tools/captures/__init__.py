"""Capture files for `ix`: read, prepared for a replay, and compared."""
