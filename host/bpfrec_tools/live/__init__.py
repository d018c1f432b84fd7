"""bpfrec live: records network interfaces by `capture`, `bpfrec record` and `bpfrec audit`, as one command."""
