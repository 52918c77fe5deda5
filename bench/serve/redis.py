"""Redis as a server beside `linda serve`: each write is appended to its log and synced before it is answered."""

from __future__ import annotations

import shutil
import socket
import subprocess
import sys
import time
from pathlib import Path

sys.dont_write_bytecode = True
sys.path.insert(0, str(Path(__file__).resolve().parent.parent.parent / "tools"))
from served import Use, use_of  # noqa: E402

PROGRAM = "redis-server"
WORDS = ["--bind", "127.0.0.1", "--appendonly", "yes", "--appendfsync", "always", "--save", "", "--tcp-backlog", "65535", "--maxclients", "20000"]
PATIENCE = 10.0


def is_here() -> bool:
    return shutil.which(PROGRAM) is not None


class Redis:
    """A server on a folder and a port, which is ready once this is made."""

    def __init__(self, folder: Path, port: int) -> None:
        self.port = port
        words = [PROGRAM, "--port", str(port), "--dir", str(folder), *WORDS]
        self.process = subprocess.Popen(words, stdin=subprocess.DEVNULL, stdout=subprocess.DEVNULL)
        until = time.monotonic() + PATIENCE
        while not self.answers():
            if self.process.poll() is not None or time.monotonic() > until:
                self.__exit__()
                raise ConnectionError(f"{PROGRAM} did not start: status {self.process.returncode}")
            time.sleep(0.02)

    def answers(self) -> bool:
        try:
            with socket.create_connection(("127.0.0.1", self.port), timeout=1) as stream:
                stream.sendall(b"*1\r\n$4\r\nPING\r\n")
                return stream.recv(16) == b"+PONG\r\n"
        except OSError:
            return False

    def __enter__(self) -> Redis:
        return self

    def __exit__(self, *_: object) -> None:
        self.process.kill()
        self.process.wait()

    def use(self) -> Use:
        return use_of(self.process.pid)
