"""Calls, each a process that is given lines; and what they connect to in place of a server: a proxy that loses a reply, and a script."""

import signal
import socket
import subprocess
import threading
import time
from pathlib import Path

import client as frames
from played.program import PATIENCE, PROGRAM, SOON, equal

WELCOME, STORED, OFFER, TAKEN, GONE, REFUSED, LEFT = 0x11, 0x12, 0x13, 0x15, 0x16, 0x17, 0x18


class Call:
    """A client on a command line, which is given a line and waits for what it prints."""

    def __init__(self, number, *words, around=None):
        self.process = subprocess.Popen([PROGRAM, "call", "--client", str(number), *map(str, words)],
                                        stdin=subprocess.PIPE, stdout=subprocess.PIPE, stderr=subprocess.PIPE, text=True, env=around)

    def say(self, line):
        self.process.stdin.write(line + "\n")
        self.process.stdin.flush()

    def hear(self):
        """The next line, while its input stays open; nothing if none comes in time, and then the call is killed."""
        timer = threading.Timer(PATIENCE, self.process.kill)
        timer.start()
        try:
            return self.process.stdout.readline().rstrip("\n")
        finally:
            timer.cancel()

    def ask(self, line):
        self.say(line)
        return self.hear()

    def end(self):
        out, err = self.process.communicate(timeout=PATIENCE)
        return self.process.returncode, out, err


def stop(process):
    """Stops the process, and waits until each of its threads is stopped: the signal by itself does not wait."""
    process.send_signal(signal.SIGSTOP)
    end = time.monotonic() + PATIENCE
    while any((task / "stat").read_text().rpartition(")")[2].split()[0] != "T" for task in Path(f"/proc/{process.pid}/task").iterdir()):
        if time.monotonic() > end:
            raise AssertionError("a process did not stop")
        time.sleep(0.01)


class Proxy:
    """Is between clients and a server. In place of the first reply of the name `cut` it does `at_cut` and ends the connection, and the reply is lost."""

    def __init__(self, port):
        self.to, self.cut, self.cuts, self.at_cut = port, None, 0, lambda: None
        self.listener = socket.create_server(("127.0.0.1", 0))
        self.port = self.listener.getsockname()[1]
        threading.Thread(target=self.accept, daemon=True).start()

    def accept(self):
        while True:
            try:
                near, _ = self.listener.accept()
            except OSError:
                return
            try:
                far = socket.create_connection(("127.0.0.1", self.to))
            except OSError:
                near.close()
                continue
            for stream in (near, far):
                stream.setsockopt(socket.IPPROTO_TCP, socket.TCP_NODELAY, 1)
            threading.Thread(target=self.carry, args=(near, far, False), daemon=True).start()
            threading.Thread(target=self.carry, args=(far, near, True), daemon=True).start()

    def carry(self, source, to, has_replies):
        came = bytearray()
        try:
            while part := source.recv(65_536):
                came += part
                while has_replies and len(came) >= 4 and len(came) >= (end := 4 + int.from_bytes(came[:4], "big")):
                    if frames.read_frame(bytes(came[:end]))[0] == self.cut:
                        self.cut, self.cuts = None, self.cuts + 1
                        self.at_cut()
                        return
                    to.sendall(came[:end])
                    del came[:end]
                if not has_replies:
                    to.sendall(came)
                    came.clear()
        except OSError:
            pass
        finally:
            for stream in (source, to):
                try:
                    stream.shutdown(socket.SHUT_RDWR)
                except OSError:
                    pass


class Script:
    """A server of a call that only does what a check says, over sockets: it hears each message, and answers as the check says."""

    def __init__(self):
        self.listener = socket.create_server(("127.0.0.1", 0))
        self.listener.settimeout(SOON)
        self.port = self.listener.getsockname()[1]
        self.stream = None

    def __enter__(self):
        return self

    def __exit__(self, *_):
        self.drop()
        self.listener.close()

    def meet(self):
        """The next connection; its first message, in words."""
        self.drop()
        self.stream, _ = self.listener.accept()
        self.stream.settimeout(SOON)
        self.stream.setsockopt(socket.IPPROTO_TCP, socket.TCP_NODELAY, 1)
        return self.hear()

    def hear(self):
        """The next message, in words."""
        length = self.take(4)
        return frames.words_of(*frames.read_frame(length + self.take(int.from_bytes(length, "big"))))

    def take(self, size):
        data = b""
        while len(data) < size:
            piece = self.stream.recv(size - len(data))
            if not piece:
                raise ConnectionError("the call ended the connection")
            data += piece
        return data

    def say(self, *parts):
        """Sends a frame of a kind byte, and of numbers of 8 bytes and other bytes."""
        self.stream.sendall(frames.frame(bytes([parts[0]]) + b"".join(part if isinstance(part, bytes) else frames.spell_number(part) for part in parts[1:])))

    def is_silent(self):
        """Checks that nothing comes for a while."""
        self.stream.settimeout(0.3)
        try:
            equal(self.stream.recv(100), "nothing")
        except TimeoutError:
            self.stream.settimeout(SOON)

    def is_over(self):
        """Checks that the call ends the connection, and says no more on it."""
        equal(self.stream.recv(100), b"")

    def drop(self):
        if self.stream:
            self.stream.close()
            self.stream = None
