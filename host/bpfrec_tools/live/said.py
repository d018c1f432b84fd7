"""What live says in its own name; other lines are its programs'."""


def said(text: str) -> str:
    """A line as live says it."""
    return f"bpfrec live: {text}"
