"""A storage that machines share, on this one: a cluster of Ceph with one monitor, three OSDs and one MDS in a folder, and mounts of its file system, each
of which is a machine of its own to the cluster.

It needs root, /dev/fuse and Debian's ceph-mon, ceph-osd, ceph-mds, ceph-fuse and ceph-common. Nobody authenticates, and all ports are of 127.0.0.1.
"""

from __future__ import annotations

import contextlib
import json
import os
import shutil
import signal
import socket
import subprocess
import time
import uuid
from pathlib import Path
from typing import Callable

PATIENCE = 120
COMMANDS = ("ceph-mon", "ceph-osd", "ceph-mds", "ceph-fuse", "ceph", "monmaptool")
# Bytes of each OSD's disk, which is sparse.
BLOCK = 3 * 2**30
CONFIGURATION = """[global]
fsid = {fsid}
mon initial members = a
mon host = [v2:127.0.0.1:{port},v1:127.0.0.1:{next_port}]
public network = 127.0.0.0/8
auth cluster required = none
auth service required = none
auth client required = none
osd crush chooseleaf type = 0
osd pool default size = 3
osd pool default min size = 2
mon allow pool delete = true
mon data avail crit = 1
mon data avail warn = 1
mon clock drift allowed = 1
osd objectstore = bluestore
bluestore block create = true
bluestore block size = {block}
osd memory target = 939524096
mon data = {folder}/$name
osd data = {folder}/$name
mds data = {folder}/$name
run dir = {folder}
pid file = {folder}/$name.$pid.pid
admin socket = {folder}/$name.$pid.asok
log file = {folder}/$name.log
"""


def lacking() -> list[str]:
    """The programs that a cluster needs and that are not here."""
    missing = [name for name in COMMANDS if not shutil.which(name)]
    missing += [] if os.geteuid() == 0 else ["root"]
    return missing + ([] if Path("/dev/fuse").exists() else ["/dev/fuse"])


def free_ports() -> int:
    """The first of two free ports."""
    for port in range(28_400, 29_400, 2):
        with contextlib.suppress(OSError), socket.create_server(("127.0.0.1", port)), socket.create_server(("127.0.0.1", port + 1)):
            return port
    raise AssertionError("no two free ports")


class Cluster:
    """The cluster, which ends with `end`."""

    def __init__(self, folder: Path) -> None:
        self.folder, self.daemons, self.mounts = folder, [], {}
        folder.mkdir()
        port, self.fsid = free_ports(), str(uuid.uuid4())
        self.conf = folder / "ceph.conf"
        self.conf.write_text(CONFIGURATION.format(fsid=self.fsid, port=port, next_port=port + 1, block=BLOCK, folder=folder))
        self.environment = {**os.environ, "CEPH_CONF": str(self.conf)}
        names = f"[v2:127.0.0.1:{port},v1:127.0.0.1:{port + 1}]"
        self.run("monmaptool", "--create", "--clobber", "--addv", "a", names, "--fsid", self.fsid, folder / "monmap")
        self.run("ceph-mon", "--mkfs", "-i", "a", "--monmap", folder / "monmap")
        self.start("ceph-mon", "-i", "a")
        self.until("the monitor answers", lambda: self.ceph("status", limit=10) is not None)
        for number in range(3):
            name = str(uuid.uuid4())
            self.ceph("osd", "new", name)
            (folder / f"osd.{number}").mkdir()
            self.run("ceph-osd", "-i", number, "--mkfs", "--osd-uuid", name)
            self.start("ceph-osd", "-i", number)
        (folder / "mds.a").mkdir()
        self.start("ceph-mds", "-i", "a")
        for pool in ("meta", "data"):
            self.ceph("osd", "pool", "create", pool, "8")
        self.ceph("fs", "new", "fs", "meta", "data")
        self.ceph("fs", "set", "fs", "session_timeout", "30")
        self.until("the file system is there", lambda: "up:active" in (self.ceph("mds", "stat") or ""))

    def run(self, *words: object) -> str:
        done = subprocess.run([*map(str, words)], env=self.environment, stdin=subprocess.DEVNULL, capture_output=True, text=True, timeout=PATIENCE)
        if done.returncode != 0:
            raise AssertionError(f"{' '.join(map(str, words))}: {(done.stderr or done.stdout).strip()[-500:]}")
        return done.stdout

    def ceph(self, *words: str, limit: float = PATIENCE) -> str | None:
        """What the command `ceph` prints; nothing if it fails."""
        with contextlib.suppress(subprocess.TimeoutExpired):
            done = subprocess.run(["ceph", *words], env=self.environment, stdin=subprocess.DEVNULL, capture_output=True, text=True, timeout=limit)
            return done.stdout if done.returncode == 0 else None
        return None

    def start(self, *words: object) -> "subprocess.Popen[bytes]":
        """Starts a daemon that stays in front."""
        with open(self.folder / "said", "ab") as said:
            process = subprocess.Popen([*map(str, words), "-f"], env=self.environment, stdin=subprocess.DEVNULL, stdout=said, stderr=said, start_new_session=True)
        self.daemons.append(process)
        return process

    def until(self, what: str, holds: Callable[[], bool]) -> None:
        end = time.monotonic() + PATIENCE
        while not holds():
            if time.monotonic() > end:
                raise AssertionError(f"not within {PATIENCE} s: {what}")
            time.sleep(0.2)

    def mount(self, name: str) -> Path:
        """A machine with the file system, which is another one each time."""
        place = self.folder / name
        place.mkdir(exist_ok=True)
        self.mounts[name] = self.start("ceph-fuse", place)
        self.until(f"{name} is mounted", lambda: os.path.ismount(place))
        return place

    def session_of(self, place: Path) -> int:
        """The number of a mount among the sessions of the MDS."""
        for session in json.loads(self.ceph("tell", "mds.a", "client", "ls") or "[]"):
            if session["client_metadata"].get("mount_point") == str(place):
                return int(session["id"])
        raise AssertionError(f"no session of {place}")

    def evict(self, place: Path) -> None:
        """Cuts a machine off for good: nothing that it writes arrives any more."""
        if self.ceph("tell", "mds.a", "client", "evict", f"id={self.session_of(place)}") is None:
            raise AssertionError(f"{place} is not evicted")

    def unmount(self, name: str) -> None:
        process = self.mounts.pop(name)
        subprocess.run(["umount", "--lazy", self.folder / name], capture_output=True)
        with contextlib.suppress(ProcessLookupError):
            os.killpg(process.pid, signal.SIGKILL)
        process.wait()

    def end(self) -> None:
        for name in list(self.mounts):
            self.unmount(name)
        for process in reversed(self.daemons):
            with contextlib.suppress(ProcessLookupError):
                os.killpg(process.pid, signal.SIGKILL)
            process.wait()
