"""What the commands share: arguments, streams, what is printed, and how programs are run."""
