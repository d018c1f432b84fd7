"""Gives the fixtures of dev/trials/lib/trial_fixtures.py to all tests and trials."""

pytest_plugins = ["trial_fixtures"]
