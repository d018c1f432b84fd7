"""bpfrec follow: the frames of a recording that goes on, as pcapng, each packet as soon as it is written."""
