#!/usr/bin/env python3
"""Stores that fill their disk or are restarted often: each takes a snapshot in the end, and none is closed for good.

    tools/hostile_stores.py [NAME..]     these parts, or all: lives, small, first; `--program FILE` plays another program than ./linda

- lives: a server of an empty space is ended and started again, 12 times, each time after 300 puts and takes one by one. Its bank may not have the
  records of two lives at the end of any.
- small: a disk of 64 MiB, and a client that puts 60 tuples of 127 KB and takes them again. A server that goes down is started again. 1,200 pairs, twice
  the disk, must go through in 5 lives at most. It needs the right to mount a tmpfs.
- first: a large disk and the same client, for 20 seconds: its bank may have 128 MiB at most.

Each line has the figures of a part; what is not as it must be is printed, and ends it with 1.
"""

from __future__ import annotations

import argparse
import subprocess
import sys
import tempfile
import time
from pathlib import Path
from typing import Callable, Iterator, List, Tuple

from served import PROGRAM, TOP, Server

sys.path.insert(0, str(TOP / "clients" / "python"))
from linda_space import ANY, Space, SpaceError  # noqa: E402

MEBI = 1_048_576
# As many as one client puts before it takes, each near the largest that there is.
TUPLES = 60
LARGE = "x" * 4_095
LIVES, EACH = 12, 300
MOST_LIVED = 131_072
PAIRS = 1_200
STARTS = 5
SMALL = 64
MOST_USED = 128 * MEBI


class Difference(Exception):
    """What is not as it must be."""


def used_of(program: Path, folder: Path) -> Tuple[int, int]:
    """How many records the bank in use has, and how many bytes."""
    said = subprocess.run([program, "inspect", folder], capture_output=True, text=True, check=True).stdout
    words = next(line for line in said.splitlines() if line.startswith("bank ")).split()
    return int(words[words.index("records") + 1]), int(words[words.index("used") + 1])


def end(server: Server) -> None:
    """Ends it as a supervisor does, by SIGTERM."""
    server.process.terminate()
    server.kill()


def put_and_take(space: Space) -> None:
    """60 tuples of 127 KB each, and then none."""
    space.out_many([("big", number, *[LARGE] * 31) for number in range(TUPLES)], timeout=120)
    space.take_many("big", *[ANY] * 32, count=TUPLES, timeout=120)


def lives(program: Path, folder: Path) -> str:
    most = 0
    for _ in range(LIVES):
        server = Server(folder, program=program)
        with Space([server.port], client=1) as space:
            for number in range(EACH):
                space.out("job", number)
                space.take("job", number)
        end(server)
        records, used = used_of(program, folder)
        most = max(most, used)
        if most > MOST_LIVED:
            raise Difference(f"the bank has {records} records of {used} bytes")
    return f"{LIVES} lives of {2 * EACH} records, the bank had {most} bytes at most"


def small(program: Path, folder: Path) -> str:
    subprocess.run(["mount", "-t", "tmpfs", "-o", f"size={SMALL}m", "tmpfs", folder], check=True)
    try:
        pairs, starts, beginning = 0, 0, 0
        while pairs < PAIRS:
            if starts == STARTS:
                raise Difference(f"{pairs} pairs went through in {starts} lives, {pairs - beginning} in the last one")
            starts, beginning = starts + 1, pairs
            server = Server(folder, program=program)
            try:
                with Space([server.port], client=1, patience=2) as space:
                    space.purge("big", *[ANY] * 32, timeout=120)
                    while pairs < PAIRS:
                        put_and_take(space)
                        pairs += TUPLES
            except (SpaceError, OSError):
                pass
            finally:
                server.kill()
        records, used = used_of(program, folder)
        return f"{pairs} pairs in {starts} lives, records {records} used {used}"
    finally:
        subprocess.run(["umount", folder], check=True)


def first(program: Path, folder: Path) -> str:
    most = 0
    with Server(folder, program=program) as server, Space([server.port], client=1, patience=5) as space:
        until = time.monotonic() + 20
        for pairs in range(0, 4_000, TUPLES):
            put_and_take(space)
            if time.monotonic() > until:
                break
            most = max(most, used_of(program, folder)[1])
            if most > MOST_USED:
                raise Difference(f"the bank has {most / MEBI:.0f} MiB after {pairs + TUPLES} pairs, beside an empty space")
    return f"{pairs + TUPLES} pairs, the bank had {most / MEBI:.0f} MiB at most"


PARTS: "dict[str, Callable[[Path, Path], str]]" = {"lives": lives, "small": small, "first": first}


def played(program: Path, names: List[str]) -> Iterator[str]:
    """A line for each part; a Difference if something is not as it must be."""
    for name in names:
        with tempfile.TemporaryDirectory(prefix="stores-") as place:
            folder = Path(place) / "space"
            folder.mkdir()
            yield f"{name}: {PARTS[name](program, folder)}"


def main() -> int:
    given = argparse.ArgumentParser(usage=__doc__)
    given.add_argument("names", nargs="*", metavar="NAME")
    given.add_argument("--program", type=Path, default=PROGRAM)
    chosen = given.parse_args()
    failed = 0
    for name in chosen.names or PARTS:
        try:
            for line in played(chosen.program, [name]):
                print(line, flush=True)
        except Difference as difference:
            print(f"{name}: WRONG: {difference}", flush=True)
            failed = 1
    return failed


if __name__ == "__main__":
    sys.exit(main())
