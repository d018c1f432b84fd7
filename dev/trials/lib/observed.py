"""bpfrec live with an observer of its run."""

from support import ROOT

# bpfrec live with an observer that notes each call as a line of JSON.
OBSERVED = f"""
import json, sys
sys.dont_write_bytecode = True
sys.path.insert(0, {str(ROOT / "host")!r})
from bpfrec_tools.cli.ending import guarded
from bpfrec_tools.live import command

class Noting:
    def __init__(self, path):
        self.file = open(path, "w", buffering=1)

    def __getattr__(self, name):
        return lambda *told: self.file.write(json.dumps([name, *told]) + "\\n")

sys.exit(guarded("live", lambda: command.run(sys.argv[2:], Noting(sys.argv[1]))))
"""
