"""bpfrec tell: lines for a recording that goes on."""
