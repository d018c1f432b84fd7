"""bpfrec salvage: what is left of a damaged recording."""
