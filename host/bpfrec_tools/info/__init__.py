"""bpfrec info: what is in a recording, as a text, as JSON or as a page."""
