"""What stays of a run: recordings, facts, hashes, signatures and whole files."""
