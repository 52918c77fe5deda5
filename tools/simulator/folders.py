"""Folders of stores: as an earlier server left them, what `linda inspect` says of them, and copies of those at work."""

from __future__ import annotations

import os
import random
import shutil
import subprocess
from pathlib import Path

import banks
from served import TOP, frames
from simulator.call import PROGRAM
from simulator.clients import JOB
from simulator.wire import Fault, lines_of

PATIENCE = 60.0
# The most tuples and records that an earlier server left. A large store has LARGE tuples more, each with LETTERS letters: its bank has more than
# 256 KiB, so its snapshots are written in steps.
MOST_TUPLES, MOST_RECORDS = 20, 40
LARGE, LETTERS = 1_100, 250
IN_STEPS = 262_144
SLOW_CP = '#!/bin/sh\n/bin/cp "$1" "$3"\nsleep 0.3\n/bin/cp "$2" "$3"\n'


def number(value: int, size: int = 8) -> bytes:
    return value.to_bytes(size, "big")


def earlier_bank(client: int, dice: random.Random, is_large: bool) -> bytes:
    """A bank with a snapshot of some tuples of a client, and a journal in which it puts and takes by turns."""
    def spelled(place: int) -> bytes:
        return frames.spell_items(JOB, (client, place, "l" * LETTERS if is_large else ""))

    last = dice.randint(0, MOST_TUPLES) + (LARGE if is_large else 0)
    book = {client: (last, ("Stored", last))} if last else {}
    state = banks.State(last + 1, {place: spelled(place) for place in range(1, last + 1)}, book)
    data, following = banks.spell_bank(dice.randint(2, 1_000), state)[:-1], last + 1
    for at in range(dice.randint(0, MOST_RECORDS)):
        last += 1
        if at % 2 == 0:
            deed = b"\1" + number(client, 4) + number(last) + spelled(following)
            following += 1
        else:
            deed = b"\2" + number(client, 4) + number(last) + number(following - 1)
        data += b"\1" + number(len(deed), 4) + deed
    return data + b"\0"


def make_earlier(folder: Path, client: int, dice: random.Random, is_large: bool) -> None:
    """Such a bank, of the first form or the second, and beside it nothing, a closed bank or an older one."""
    side, other = dice.sample(banks.SIDES, 2)
    bank = earlier_bank(client, dice, is_large)
    (folder / f"{side}.bank").write_bytes(banks.in_form(bank, 1) if dice.random() < 0.5 else bank)
    (folder / f"{other}.bank").write_bytes(dice.choice([b"", b"\0", banks.spell_bank(1, banks.State())]))


def inspected(folder: Path) -> list[str]:
    """What `linda inspect` says of the state."""
    words = [PROGRAM, "inspect", str(folder), "--tuples", "--clients"]
    try:
        done = subprocess.run(words, capture_output=True, text=True, timeout=PATIENCE)
    except subprocess.TimeoutExpired:
        raise Fault(f"linda inspect {folder} has not ended in {PATIENCE:.0f} s") from None
    if done.returncode != 0:
        raise Fault(f"linda inspect {folder} ended with {done.returncode} and {done.stderr!r}")
    lines = done.stdout.splitlines()
    if lines[-1:] == ["stands neither a server makes a new store"]:
        return lines_of(banks.State())
    return lines[next((at for at, line in enumerate(lines) if line.startswith("next ")), 0):]


def copied(folder: Path, top: Path, is_slow: bool) -> tuple[list[str], int]:
    """The state of a copy by examples/backup.sh, with a `cp` that waits between the two files if it is to be slow; and
    how often it was begun anew."""
    target, slow = top / "copy", top / "slow"
    slow.mkdir(exist_ok=True)
    (slow / "cp").write_text(SLOW_CP)
    (slow / "cp").chmod(0o755)
    path = f"{slow}:{os.environ['PATH']}" if is_slow else os.environ["PATH"]
    words = [TOP / "examples/backup.sh", folder, target]
    done = subprocess.run(words, capture_output=True, text=True, check=True, env={**os.environ, "PATH": path})
    state, lines = banks.verdict(*banks.folder_bytes(target)).state, inspected(target)
    if state is None or lines_of(state) != lines:
        raise Fault(f"a copy in {target} is not what `linda inspect` says of it")
    shutil.rmtree(target)
    return lines, done.stderr.count("once more")
