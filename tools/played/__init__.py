"""What tools/sockets plays. Some of its helpers are those of tools/status too.

- **Helpers**: `program` (run to its end), `streams`, `servers`, `peers` (connections), `members` (of a crowd), `calls`, `lines` (of the log),
  `inspection` (of a folder of banks).
- **Checks**: each other module has those of one subject. A check is a function that is given a new folder and raises AssertionError if something is
  not as docs/COMMANDS.md says. It is played once tools/sockets has it in its list.
"""

import sys
from pathlib import Path

# Frames are those of examples/client.py.
sys.path.insert(0, str(Path(__file__).resolve().parent.parent.parent / "examples"))
