"""The tools that users run beside the proved program, each a verb of the command `bpfrec`.

They need Python 3.9 or later and no other package. Nothing of them is proved.
They stand on the library, the package `bpfrec` for scripts, which imports nothing of them.
"""

from bpfrec import __version__

# That of the program and of the library too.
VERSION = __version__
