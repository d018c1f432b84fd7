"""bpfrec export: one file of recordings, a capture in pcapng or a whole Chapter 11 file."""
