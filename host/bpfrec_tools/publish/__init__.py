"""bpfrec publish: the packets of a recording as UDP datagrams, as it grows."""
