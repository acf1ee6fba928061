"""Dumps of Fuzzball MUCK, as objects of a world of muckd."""
