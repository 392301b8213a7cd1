"""Trials of lab and run: `tools/try_lab` runs them. A file `trial_*.py` has classes over `Trial` of `rooms.py`, whose methods are `test_..`."""
