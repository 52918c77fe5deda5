"""The disk below a server: its folder, what is planned to go wrong, and what a stop leaves of it.

disk.c, which is preloaded into the server, keeps for each bank the calls since its last sync. A stop of only the process
leaves the files as the system has them, and those calls are still not synced in the next life. A power cut leaves
what crates/linda_disk/README.md allows: from what was synced, each call since is done, left out, or done in part, with any bytes in
its range.
"""

import os
import random
import shutil
import struct
import subprocess
from pathlib import Path
from typing import NamedTuple

import banks

SOURCE = Path(__file__).resolve().parent / "disk.c"
HEAD = struct.Struct("<QQQQ")


class Call(NamedTuple):
    """A write (`new`, at an offset) or a cut (to `at`), with what it wrote over or took off, and the length before."""

    at: int
    old: bytes
    new: bytes
    old_length: int


def build(folder: Path) -> Path:
    """Compiles the library that is preloaded."""
    library = folder / "disk.so"
    subprocess.run(["cc", "-shared", "-fPIC", "-O1", "-o", library, SOURCE], check=True)
    return library


def calls_of(log: bytes) -> list[Call]:
    """The calls of an undo log; one that was cut short by a kill was not begun."""
    calls, at = [], 0
    while at + HEAD.size <= len(log):
        offset, new_size, old_size, old_length = HEAD.unpack_from(log, at)
        body = log[at + HEAD.size:at + HEAD.size + old_size + new_size]
        if len(body) < old_size + new_size:
            break
        calls.append(Call(offset, body[:old_size], body[old_size:], old_length))
        at += HEAD.size + len(body)
    return calls


def undone(data: bytes, calls: list[Call]) -> bytes:
    """What the file held before these calls."""
    for call in reversed(calls):
        image = bytearray(data[:call.old_length].ljust(call.old_length, b"\0"))
        image[call.at:call.at + len(call.old)] = call.old
        data = bytes(image)
    return data


def torn(data: bytes, call: Call, dice: random.Random) -> bytes:
    """What a call may have made of these bytes when the power went."""
    how = dice.choice(["whole", "none", "front", "mixed", "garbage"])
    if not call.new:
        lowest = min(call.at, len(data))
        return data[:{"whole": lowest, "none": len(data)}.get(how, dice.randint(lowest, len(data)))]
    if how == "none" or len(data) < call.at:
        return data
    old = data[call.at:call.at + len(call.new)].ljust(len(call.new), b"\0")
    piece = dice.choice([1, 4, 64, 512])
    if how == "whole":
        new = call.new
    elif how == "front":
        size = dice.randint(0, len(call.new))
        new = call.new[:size] + data[call.at + size:call.at + len(call.new)]
    elif how == "mixed":
        new = b"".join((call.new if dice.random() < 0.5 else old)[at:at + piece] for at in range(0, len(old), piece))
    else:
        new = dice.randbytes(len(call.new)) if dice.random() < 0.5 else bytes([dice.randrange(256)]) * len(call.new)
    return data[:call.at] + new + data[call.at + len(call.new):]


class Disk:
    """The folder of a server, and beside it the folder of what disk.c keeps."""

    def __init__(self, top: Path, name: str, library: Path, dice: random.Random) -> None:
        self.folder, self.side, self.library, self.dice = top / name, top / f"{name}-calls", library, dice
        self.folder.mkdir()
        self.side.mkdir()
        self.lost = 0

    def environment(self) -> dict[str, str]:
        return dict(os.environ, LD_PRELOAD=str(self.library), SIMULATED=str(self.side))

    def plan(self, lines: list[str]) -> None:
        """What goes wrong in the next life."""
        (self.side / "plan").write_text("".join(f"{line}\n" for line in lines))
        for name in ("fired", "said", *(f"{side}.early" for side in banks.SIDES)):
            (self.side / name).unlink(missing_ok=True)

    def fired(self) -> list[str]:
        """The calls that went wrong in this life."""
        file = self.side / "fired"
        return file.read_text().splitlines() if file.exists() else []

    def has_read_unsynced(self) -> bool:
        """Whether this life last read a bank while some of that was not synced."""
        return any(self.side.glob("*.early"))

    def unsynced_when_ready(self) -> list[str]:
        """What was not synced when this life said that it is ready: `SIDE.undo` for what is in a bank, `SIDE.new` for its name.

        A server may begin a snapshot as soon as it has said so: a look at the banks then comes too late.
        """
        file = self.side / "said"
        return file.read_text().splitlines() if file.exists() else []

    def has_unsynced(self) -> bool:
        """Whether the banks have what a power cut may take."""
        return any(it.stat().st_size > 0 for it in self.side.glob("*.undo"))

    def cut_power(self) -> None:
        """Leaves what a power cut may leave."""
        for side in banks.SIDES:
            bank = self.folder / f"{side}.bank"
            log, new, lost = (self.side / f"{side}.{kind}" for kind in ("undo", "new", "lost"))
            if bank.exists():
                calls = calls_of(log.read_bytes() if log.exists() else b"")
                image = undone(bank.read_bytes(), calls)
                for call in calls:
                    image = torn(image, call, self.dice)
                bank.write_bytes(image)
                self.lost += len(calls)
                if new.exists() and self.dice.random() < 0.5:
                    bank.unlink()
            for it in (log, new, lost):
                it.unlink(missing_ok=True)

    def empty(self) -> None:
        for folder in (self.folder, self.side):
            shutil.rmtree(folder)
            folder.mkdir()

    def verdict(self) -> banks.Verdict:
        return banks.verdict(*banks.folder_bytes(self.folder))
