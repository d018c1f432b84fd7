"""bpfrec check: whether recordings are what they say, by their sums, the facts beside them and the audit."""
