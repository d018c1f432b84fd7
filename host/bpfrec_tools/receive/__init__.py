"""bpfrec receive: what bpfrec publish sends, as a file again."""
