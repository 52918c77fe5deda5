"""A clock that goes faster than that of the machine, for programs of a check: what they do once a minute is played in seconds.

It is no tool by itself: simulator/clock.c is preloaded into them.
"""

from __future__ import annotations

import os
import subprocess
from pathlib import Path

SOURCE = Path(__file__).resolve().parent / "simulator/clock.c"


def faster(folder: Path, times: int) -> dict[str, str]:
    """The environment of a program whose clock goes so many times as fast; what is preloaded is kept in this folder."""
    library = folder / "clock.so"
    if not library.exists():
        subprocess.run(["cc", "-shared", "-fPIC", "-O1", "-o", library, SOURCE, "-ldl"], check=True)
    others = os.environ.get("LD_PRELOAD")
    return {**os.environ, "LD_PRELOAD": f"{library}:{others}" if others else str(library), "CLOCK_TIMES": str(times)}
