"""The formats that are read and written, a module each."""
