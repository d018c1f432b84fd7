"""What a recording has, and the order of the frames of several."""
