"""The tests that tools/selftest runs."""
