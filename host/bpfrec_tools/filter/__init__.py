"""bpfrec filter: what a filter keeps of a capture, as a capture."""
