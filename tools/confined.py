"""A unit of systemd played by its own lines, without systemd: its ExecStart with given options, under what its lines ask for.

    [*OWN, python3, tools/confined.py, PROGRAM, GATE, UNIT..]

It is no tool by itself: tools/installed.py plays the units of a release so. `OWN` has new folders /run and /var/lib, and a network of its own. Kept are
UMask, the folders of StateDirectory and RuntimeDirectory with their modes, LimitNOFILE, and, by filters of the system's calls,
RestrictAddressFamilies and MemoryDenyWriteExecute. A client puts and takes a tuple at each port and socket of the options: those of the unit, those that its
first comment has, and only a socket in the unit's folder of /run. Nobody else may enter the folder of the space, read its banks, or use the
socket. The unit of the gate is played before a server of the first unit. A line is printed for each fault, and the last line counts the conversations.
"""

import ctypes
import os
import re
import resource
import select
import socket
import struct
import subprocess
import sys
from contextlib import contextmanager
from pathlib import Path
from typing import Iterator, NamedTuple

sys.dont_write_bytecode = True
sys.path.insert(0, str(Path(__file__).resolve().parent.parent / "examples"))
import client as frames  # noqa: E402

OWN = ["unshare", "--user", "--map-root-user", "--mount", "--net", "sh", "-c",
       'mount -t tmpfs none /run && mount -t tmpfs none /var/lib && ip link set lo up && exec "$@"', "sh"]
PATIENCE = 60.0
INSTANCE, CLIENT = "work", 7
ASKED, ANSWERED = 'out ("unit", 1)\nsync in ("unit", ?i)\n', r'7 stored 0 \d+\n7 took 0 \d+ \("unit", 1\) binds \[1\] labels \[\] raised \[\]\n'
# What HAProxy sends ahead of a connection: that it is of the client whose certificate has the name 7.
NAMED = b"\x22\0\1" + str(CLIENT).encode()
TLS = b"\x20" + struct.pack(">H", 5 + len(NAMED)) + b"\7\0\0\0\0" + NAMED
AHEAD = b"\r\n\r\n\0\r\nQUIT\n\x21\x11" + struct.pack(">H", 12 + len(TLS)) + bytes(12) + TLS
FAMILIES = {"AF_UNIX": socket.AF_UNIX, "AF_INET": socket.AF_INET, "AF_INET6": socket.AF_INET6}
# Filters of calls on x86-64 are steps: a word is loaded, masked, or compared, which passes over so many steps if it is equal and so many if not; or the end.
Step = tuple[int, int, int, int]
LOAD, MASK, EQUAL, END = 0x20, 0x54, 0x15, 0x06
ALLOWED, REFUSED = (END, 0, 0, 0x7FFF0000), 0x00050000
CALL, FIRST, THIRD = 0, 16, 32
MMAP, MPROTECT, SOCKET, WRITE_AND_EXECUTE, EXECUTE = 9, 10, 41, 6, 4
EPERM, EAFNOSUPPORT = 1, 97
NO_NEW_PRIVILEGES, SECCOMP, BY_FILTER = 38, 22, 2


def for_families(families: list[int]) -> list[Step]:
    """Only sockets of these families are made."""
    count = len(families)
    return [(LOAD, 0, 0, CALL), (EQUAL, 0, count + 2, SOCKET), (LOAD, 0, 0, FIRST), *((EQUAL, count - at, 0, family) for at, family in enumerate(families)),
            (END, 0, 0, REFUSED | EAFNOSUPPORT), ALLOWED]


def without(call: int, bits: int) -> list[Step]:
    """No call of this number has all of these bits in its third argument."""
    return [(LOAD, 0, 0, CALL), (EQUAL, 0, 4, call), (LOAD, 0, 0, THIRD), (MASK, 0, 0, bits), (EQUAL, 0, 1, bits), (END, 0, 0, REFUSED | EPERM), ALLOWED]


def keep(steps: list[Step]) -> None:
    """The system asks this filter before each call of this process from now on, and of the program that it becomes."""
    code = ctypes.create_string_buffer(b"".join(struct.pack("HBBI", *step) for step in steps))
    filter_of = ctypes.create_string_buffer(struct.pack("HxxxxxxP", len(steps), ctypes.addressof(code)))
    library = ctypes.CDLL(None, use_errno=True)
    if library.prctl(NO_NEW_PRIVILEGES, 1, 0, 0, 0) or library.prctl(SECCOMP, BY_FILTER, filter_of, 0, 0):
        raise OSError(ctypes.get_errno(), "prctl")


class Unit:
    """The lines of a unit, of an instance if it is a template."""

    def __init__(self, path: Path) -> None:
        text = path.read_text().replace("%i", INSTANCE)
        self.name, self.shown = path.name, re.findall(r"^# +OPTIONS=(.*)$", text, re.M)
        self.values = dict(re.findall(r"^(\w+)=(.*)$", text, re.M))
        self.own = re.findall(r'^Environment="OPTIONS=(.*)"$', text, re.M)
        self.place = Path("/run") / self.values["RuntimeDirectory"]

    def folders(self) -> list[Path]:
        """Those that are made for it, with their modes: the one of the space first, if it has one."""
        made = [Path("/var/lib") / self.values["StateDirectory"]] if "StateDirectory" in self.values else []
        for place, kind in zip([*made, self.place], ["State"] * len(made) + ["Runtime"]):
            place.mkdir(exist_ok=True)
            place.chmod(int(self.values.get(f"{kind}DirectoryMode", "0755"), 8))
        return [*made, self.place]

    def confine(self) -> None:
        """This process may do no more than the unit's lines allow."""
        os.umask(int(self.values.get("UMask", "0022"), 8))
        files = int(self.values.get("LimitNOFILE", "1024"))
        resource.setrlimit(resource.RLIMIT_NOFILE, (files, files))
        if self.values.get("MemoryDenyWriteExecute") == "yes":
            keep(without(MMAP, WRITE_AND_EXECUTE))
            keep(without(MPROTECT, EXECUTE))
        if families := self.values.get("RestrictAddressFamilies"):
            keep(for_families([FAMILIES[it] for it in families.split()]))

    @contextmanager
    def begun(self, program: Path, options: str) -> Iterator[str]:
        """What it is at work with these options; yields the line that says where it listens, or what it wrote in place of one."""
        words = [str(program), *self.values["ExecStart"].replace("$OPTIONS", options).split()[1:]]
        process = subprocess.Popen(words, env={"PATH": "/usr/bin:/bin"}, stdin=subprocess.DEVNULL, stdout=subprocess.PIPE, stderr=subprocess.PIPE, text=True, preexec_fn=self.confine)
        assert process.stdout and process.stderr
        try:
            line = process.stdout.readline() if select.select([process.stdout], [], [], PATIENCE)[0] else ""
            yield line if line.startswith("ready ") else f"it is not ready: {line or process.stderr.read()}".strip()
        finally:
            process.kill()
            process.communicate()


class Played:
    """What was found: the faults, and how many conversations there were."""

    def __init__(self, program: Path, gate: Path) -> None:
        self.program, self.gate = program, gate
        self.wrong: list[str] = []
        self.conversations = 0

    def serve(self, unit: Unit) -> None:
        """A server by this unit, with each of its options."""
        for options in [*unit.own, *unit.shown, f"--socket {unit.place}/socket"]:
            space, _ = unit.folders()
            with unit.begun(self.program, options) as line:
                if not line.startswith("ready "):
                    self.wrong.append(f"{unit.name}: with {options} {line}")
                    continue
                for place in re.findall(r"--port (\d+)", options):
                    self.converse(unit, options, [place])
                for place in re.findall(r"--socket (\S+)", options):
                    self.converse(unit, options, ["--socket", place])
                    self.look_at(unit, Path(place), 0o007, "used")
                self.look_at(unit, space, 0o077, "entered")
                for bank in space.iterdir():
                    self.look_at(unit, bank, 0o077, "read")

    def converse(self, unit: Unit, options: str, at: list[str]) -> None:
        run = subprocess.run([self.program, "call", "--client", str(CLIENT), "--again", *at], input=ASKED, capture_output=True, text=True, timeout=PATIENCE)
        self.conversations += 1
        if not re.fullmatch(ANSWERED, run.stdout):
            self.wrong.append(f"{unit.name}: with {options} a client at {at[-1]} is answered {run.stdout!r} {run.stderr!r}")

    def look_at(self, unit: Unit, path: Path, bits: int, verb: str) -> None:
        if (mode := path.stat().st_mode & 0o777) & bits:
            self.wrong.append(f"{unit.name}: {path} may be {verb} by others, its mode is {mode:o}")

    def pass_through(self, gate: Unit, server: Unit) -> None:
        """The gate by its unit, before a server whose socket its group may use."""
        before, behind = re.findall(r"--(?:listen|server) (\S+)", gate.values["ExecStart"])
        server.folders(), gate.folders()
        with server.begun(self.program, f"--socket {behind} --mode 660") as line, gate.begun(self.gate, "") as own:
            if not line.startswith("ready ") or not own.startswith("ready "):
                self.wrong.append(f"{gate.name}: before {server.name} {own if line.startswith('ready ') else line}")
                return
            self.conversations += 1
            try:
                taken = taken_through(before)
            except (OSError, ValueError) as fault:
                taken = str(fault)
            if taken != ("gate", 1):
                self.wrong.append(f"{gate.name}: through it a client takes {taken}")
            self.look_at(gate, Path(before), 0o007, "used")


def taken_through(gate: str) -> tuple:
    """What a client puts and takes through a gate, to which it comes as from HAProxy."""
    with socket.socket(socket.AF_UNIX) as stream:
        stream.settimeout(PATIENCE)
        stream.connect(gate)
        stream.sendall(AHEAD)
        read = stream.makefile("rb")

        def receive() -> tuple[str, dict]:
            length = read.read(4)
            return frames.read_frame(length + read.read(int.from_bytes(length, "big")))

        client = frames.Client(stream.sendall, receive, CLIENT, fresh=False)
        client.put("gate", 1)
        return client.take("gate", frames.INT)


def main() -> None:
    program, gate, *paths = map(Path, sys.argv[1:])
    units, played = [Unit(path) for path in paths], Played(program, gate)
    for unit in units:
        if "StateDirectory" in unit.values:
            played.serve(unit)
        else:
            played.pass_through(unit, units[0])
    print(*played.wrong, f"{played.conversations} conversations", sep="\n")
    sys.exit(1 if played.wrong else 0)


if __name__ == "__main__":
    main()
