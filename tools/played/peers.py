"""Connections to a server that speak frames: they send bytes, and hear each frame in words."""

import contextlib
import select
import socket
import time

import client as frames
from played.program import PATIENCE, SOON, equal
from served import rest


def connection(port):
    """A socket, and functions that send bytes and receive a frame in words over it."""
    send, receive = frames.connect(port)
    return send, lambda: frames.words_of(*receive())


def connected_to(path):
    """A connection to a unix socket."""
    stream = socket.socket(socket.AF_UNIX)
    stream.settimeout(PATIENCE)
    try:
        stream.connect(str(path))
    except OSError:
        stream.close()
        raise
    return stream


def ended(receive):
    try:
        raise AssertionError(f"the connection goes on: {receive()}")
    except ConnectionError:
        pass


class Peer:
    """A connection that is watched to its end: no call waits longer than PATIENCE."""

    def __init__(self, port, client=None):
        """Connects to this port, or to the unix socket at this path."""
        if isinstance(port, int):
            self.stream = socket.create_connection(("127.0.0.1", port), timeout=PATIENCE)
            self.stream.setsockopt(socket.IPPROTO_TCP, socket.TCP_NODELAY, 1)
        else:
            self.stream = connected_to(port)
        if client is not None:
            equal(self.ask(frames.hello(client, True)), "Welcome last 0")

    def take(self, size):
        data = b""
        while len(data) < size:
            if not (piece := self.stream.recv(size - len(data))):
                raise ConnectionError("the server ended the connection")
            data += piece
        return data

    def send(self, *messages):
        """Sends all of them at once."""
        self.stream.sendall(b"".join(messages))

    def hear(self):
        length = self.take(4)
        return frames.words_of(*frames.read_frame(length + self.take(int.from_bytes(length, "big"))))

    def ask(self, *messages):
        self.send(*messages)
        return self.hear()

    def end_comes(self):
        """Checks that the server ends the connection, and sends nothing before that."""
        equal(self.stream.recv(1), b"")

    def close(self):
        self.stream.close()


def again(port, client):
    """The client, greeted once more: while its last connection is not over at the server it is Busy."""
    for _ in range(100 * SOON):
        peer = Peer(port)
        if (reply := peer.ask(frames.hello(client, False))) != "Refused Busy, detail 0":
            return peer, reply
        peer.close()
        time.sleep(0.01)
    raise AssertionError(f"client {client} is Busy for good")


@contextlib.contextmanager
def keys_that_are_free(port, count=10):
    """Connections that come before those of the block and are gone after it: so a loop has keys that nobody has, below those that somebody has."""
    first = [Peer(port) for _ in range(count)]
    for peer in first:
        equal(peer.ask(frames.out(1, "a")), "Refused NoHello, detail 0")
    yield
    for peer in first:
        peer.close()


def has_by_rest(server, peer):
    """Waits until no thread of the server has anything to do, or it has ended; checks that something, or the end, came to the peer by then."""
    rest(server.process.pid)
    if not select.select([peer.stream], [], [], 0)[0]:
        raise AssertionError("the server rests, and has not sent what is due")


def puts(port, client, count):
    """Puts `count` tuples, each by itself."""
    send, receive = connection(port)
    send(frames.hello(client, True))
    receive()
    for number in range(1, count + 1):
        send(frames.out(number, "a", number))
        equal(receive(), f"Stored number {number}, id {number}")
