"""Stands in for pytket in tests: the names that `qroute.pytket` uses, written after its documentation, and no more."""
