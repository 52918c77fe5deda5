"""Runs of the program linda_test_simulator: servers, disks, networks and clients in one process, all by a seed."""

from __future__ import annotations

import os
import shutil
import subprocess
import sys
import tempfile
import time
from pathlib import Path
from typing import NamedTuple

TOP = Path(__file__).resolve().parent.parent.parent
REFUSER = TOP / "tools" / "simulator" / "scarce.c"
# Events of a run, and runs of a process.
EVENTS, RUNS = 100_000, 40
LIMIT = 600


CRATE = "linda_test_simulator"


class Kind(NamedTuple):
    """A kind of runs: the option of tools/simulate that asks for it, the first word of a line that says one, and the word before its seed."""

    option: str = ""
    first: str = ""
    before: str = ""


SERVER = Kind()
SCARCE = Kind(" --scarce", before="scarce ")
CLIENTS = Kind(" --clients", first="clients ")
# The share of the time that each has with --all.
SHARES = ((SERVER, 0.5), (SCARCE, 0.25), (CLIENTS, 0.25))


def is_newer(program: Path) -> bool:
    """Whether the program is there, and no source is newer."""
    if not program.is_file():
        return False
    built = program.stat().st_mtime
    return all(it.stat().st_mtime <= built for it in (TOP / "crates").glob("*/src/**/*.rt"))


def program() -> Path:
    """The program that `rt ci` built, or one that is built now, without a proof, as tools/quick does."""
    out = TOP / "crates" / CRATE / "out"
    if is_newer(out / CRATE):
        return out / CRATE
    quick = out / "quick" / CRATE
    if not is_newer(quick):
        subprocess.run([TOP / "tools/quick", quick, CRATE], check=True)
    return quick


def refuser(folder: Path) -> Path:
    """The library that refuses memory below the program, as that asks."""
    library = folder / "scarce.so"
    subprocess.run(["cc", "-shared", "-fPIC", "-O1", "-o", library, REFUSER], check=True)
    return library


def played(it: Path, lines: list[str], below: Path | None) -> tuple[int, list[str]]:
    env = {**os.environ, "LD_PRELOAD": str(below)} if below else None
    run = subprocess.run([it], input="\n".join(lines) + "\n", capture_output=True, text=True, timeout=LIMIT, env=env)
    return run.returncode, run.stdout.splitlines()


def first_that_differs(said: list[str]) -> int | None:
    """The seed of the first run that differs."""
    for line in said:
        if line.startswith("seed ") and not line.endswith(": no difference"):
            return int(line.split()[1].rstrip(","))
    return None


def play_all(seed: int, seconds: float, shrinks: bool) -> None:
    """Runs of each kind, as `play` does them. Those with scarce memory are left out if there is no compiler."""
    for kind, share in SHARES:
        if kind is not SCARCE or shutil.which("cc"):
            play(seed, seconds * share, shrinks, kind)


def play(seed: int, seconds: float, shrinks: bool, kind: Kind) -> None:
    """Runs with the seeds N, N + 1, .., for so many seconds, or one of N if there are none. Ends with 1 at the first that differs."""
    with tempfile.TemporaryDirectory() as folder:
        play_over(refuser(Path(folder)) if kind is SCARCE else None, seed, seconds, shrinks, kind)


def play_over(below: Path | None, seed: int, seconds: float, shrinks: bool, kind: Kind) -> None:
    it = program()
    began, first, events = time.monotonic(), seed, 0
    while True:
        count = RUNS if seconds else 1
        hows = ["tell" if not seconds else "twice" if at == 0 else "" for at in range(count)]
        status, said = played(it, [f"{kind.first}{how} {kind.before}{first + at} {EVENTS}".replace("  ", " ").strip() for at, how in enumerate(hows)], below)
        if status != 0:
            report(it, said, shrinks, below, kind)
        events += count * EVENTS
        first += count
        if time.monotonic() - began >= seconds:
            break
    if not seconds:
        print("\n".join(said))
    taken = time.monotonic() - began
    print(f"{first - seed} runs in one process from seed {seed}{kind.option}, {events:,} events: no difference ({taken:.0f} s)", flush=True)


def report(it: Path, said: list[str], shrinks: bool, below: Path | None, kind: Kind) -> None:
    seed = first_that_differs(said)
    print("\n".join(line for line in said if not line.endswith("no difference")), flush=True)
    if seed is None:
        sys.exit("the program ended without a word of a run that differs")
    if shrinks:
        _, few = played(it, [f"{kind.first}shrink {kind.before}{seed} {EVENTS}"], below)
        row = next((line for line in few if line.startswith(f"{kind.first}tell ")), "")
        print(f"shrunk, as a line that {CRATE} reads:\n{row}")
        print("\n".join(played(it, [row], below)[1]) if row else "it does not differ again")
    print(f"again: tools/simulate --inside {seed}{kind.option} --shrink")
    sys.exit(1)


if __name__ == "__main__":
    sys.exit("tools/simulate --inside SEED plays these runs")
