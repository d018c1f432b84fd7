"""The state machine of a run, and what does what it decides."""
