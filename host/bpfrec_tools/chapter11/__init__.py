"""bpfrec export: the whole Chapter 11 file of a recording, which bpfrec makes by settings that are made here."""
