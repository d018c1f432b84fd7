"""What a run reports: on its streams, to the journal and the service manager, to an observer, and to ground stations."""
