"""bpfrec preflight: all that is wrong with settings, filters, feeds and OUT, before a recording."""
