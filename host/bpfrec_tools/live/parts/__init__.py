"""The processes, pipes and files of a run."""
