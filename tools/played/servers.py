"""Servers, each a process on a folder; checks over a server; ports and open files."""

import functools
import os
import resource
import select
import socket
import subprocess
import time
from pathlib import Path

import clocks
from played.program import PATIENCE, PROGRAM, SOON
from served import free_port  # noqa: F401

# The records after which a snapshot is due.
SNAPSHOT_RECORDS = 1_024


class Server:
    """A server on a folder, at a port that stays its own after it (`free_port`) if none is named. `ready` waits for its line; `kill` is kill -9. Its clock goes
    so many times as fast as that of the machine."""

    def __init__(self, folder, port=0, *words, before=None, times=1):
        where = () if port is None else ("--port", str(port or free_port()))
        around = None if times == 1 else clocks.faster(folder, times)
        self.process = subprocess.Popen([PROGRAM, "serve", *where, "--dir", str(folder), *map(str, words)], preexec_fn=before,
                                        stdout=subprocess.PIPE, stderr=subprocess.PIPE, text=True, env=around)
        self.heard = ""
        line = self.process.stdout.readline()
        assert line.startswith("ready "), (line, self.process.stderr.read())
        self.place = line.rstrip("\n").partition(" ")[2]
        self.port = None if port is None else int(self.place)

    def __enter__(self):
        return self

    def __exit__(self, *_):
        self.kill()

    def kill(self):
        self.process.kill()
        self.process.wait()
        self.process.stdout.close()
        self.process.stderr.close()

    def processor_time(self):
        """How many seconds of processor time it took until now."""
        fields = Path(f"/proc/{self.process.pid}/stat").read_text().rpartition(")")[2].split()
        return (int(fields[11]) + int(fields[12])) / os.sysconf("SC_CLK_TCK")

    def hears(self, words):
        """Reads its log up to a line with these words, of a minute too; `end` tells what was read."""
        stream, line, until = self.process.stderr.fileno(), "", time.monotonic() + 3 * PATIENCE
        while not (line.endswith("\n") and words in line):
            line = "" if line.endswith("\n") else line
            is_there = select.select([stream], [], [], max(0.0, until - time.monotonic()))[0]
            if not is_there or not (byte := os.read(stream, 1)):
                raise AssertionError(f"its log has no line with {words!r}: {self.heard}")
            line, self.heard = line + byte.decode("latin-1"), self.heard + byte.decode("latin-1")

    def end(self):
        out, err = self.process.communicate(timeout=PATIENCE)
        return self.process.returncode, out, self.heard + err


def over_a_server(check):
    """The check over a new server."""
    @functools.wraps(check)
    def whole(folder):
        with Server(folder) as server:
            check(server)
    return whole


def is_refused(port, host="127.0.0.1"):
    """Nobody listens there. (If the port is a server's that ended, it is one of `free_port`: any other one may be another process's by now.)"""
    try:
        socket.create_connection((host, port), timeout=SOON).close()
        raise AssertionError(f"{host} takes connections on port {port}")
    except ConnectionRefusedError:
        pass


def many_files():
    """This process, and servers that it begins, may have as many open files as the system allows, up to some thousands."""
    hard = resource.getrlimit(resource.RLIMIT_NOFILE)[1]
    resource.setrlimit(resource.RLIMIT_NOFILE, (min(hard, 10_000), hard))
