#!/usr/bin/env python3
"""A small client of a tuple space, over the frames of docs/PROTOCOL.md, with only Python's own library.

    examples/client.py demo                 starts linda pipe, puts, reads, takes and waits, and prints what came back
    examples/client.py demo PORT CLIENT     the same with a server that listens on this port of this machine, as a client that was never used
    examples/client.py decode < lines       explains lines of hexadecimal digits, each a whole frame, in words

The demo starts the program that LINDA names; else `linda` on the PATH; else that of the folder around, a repository or an unpacked release.

As a module: `Client(send, receive, number)` speaks over any pair of functions, `connect(port)` gives those of a socket; a value is an int, a str or a bool; a pattern is a value, or one
of INT, TEXT, BOOL (a formal of that kind) or ANY.
"""

import os
import shutil
import socket
import subprocess
import sys
from pathlib import Path

VERSION = 2
INT, TEXT, BOOL, ANY = (object() for _ in range(4))
FORMALS = {INT: 4, TEXT: 5, BOOL: 6, ANY: 7}
NAMES = {4: "?i", 5: "?s", 6: "?b", 7: "_"}
REFUSALS = {1: "Version", 2: "Known", 3: "Busy", 4: "Old", 5: "Gap", 6: "Full", 7: "TooManyClients", 8: "Down", 9: "Malformed",
            10: "TooManyAsks", 11: "Left", 12: "NoHello"}


# ---- spelling

def spell_number(number, size=8):
    return number.to_bytes(size, "big")


def spell_atom(value):
    if isinstance(value, bool):
        return bytes([3, value])
    if isinstance(value, int):
        return b"\x01" + value.to_bytes(8, "big", signed=True)
    content = value.encode()
    return b"\x02" + spell_number(len(content), 2) + content


def spell_items(tag, items):
    spelled = [bytes([FORMALS[item]]) if not isinstance(item, (int, str)) else spell_atom(item) for item in items]
    return spell_atom(tag) + bytes([len(items)]) + b"".join(spelled)


def frame(payload):
    return spell_number(len(payload), 4) + payload


def hello(client, fresh):
    return frame(bytes([1, VERSION]) + spell_number(client, 4) + bytes([fresh]))


def out(number, tag, *fields):
    return frame(b"\x02" + spell_number(number) + spell_items(tag, fields))


def ask(ticket, remove, tag, *patterns):
    return frame(b"\x03" + spell_number(ticket) + bytes([remove]) + spell_items(tag, patterns))


def accept(number, ticket, tuple_id):
    return frame(b"\x04" + spell_number(number) + spell_number(ticket) + spell_number(tuple_id))


def cancel(ticket):
    return frame(b"\x05" + spell_number(ticket))


def leave(number):
    return frame(b"\x06" + spell_number(number))


# ---- reading

class Reader:
    """Reads a frame's bytes from left to right."""

    def __init__(self, data):
        self.data, self.at = data, 0

    def take(self, size):
        if self.at + size > len(self.data):
            raise ValueError("the frame ends too early")
        self.at += size
        return self.data[self.at - size:self.at]

    def number(self, size=8):
        return int.from_bytes(self.take(size), "big")

    def item(self):
        kind = self.number(1)
        if kind == 1:
            return int.from_bytes(self.take(8), "big", signed=True)
        if kind == 2:
            return self.take(self.number(2)).decode()
        if kind == 3:
            return bool(self.number(1))
        return next(formal for formal, byte in FORMALS.items() if byte == kind)

    def items(self):
        tag = self.item()
        return (tag, *(self.item() for _ in range(self.number(1))))


READERS = {
    1: ("Hello", lambda r: {"version": r.number(1), "client": r.number(4), "fresh": bool(r.number(1))}),
    2: ("Out", lambda r: {"number": r.number(), "tuple": r.items()}),
    3: ("Ask", lambda r: {"ticket": r.number(), "remove": bool(r.number(1)), "template": r.items()}),
    4: ("Accept", lambda r: {"number": r.number(), "ticket": r.number(), "id": r.number()}),
    5: ("Cancel", lambda r: {"ticket": r.number()}),
    6: ("Leave", lambda r: {"number": r.number()}),
    0x11: ("Welcome", lambda r: {"last": r.number()}),
    0x12: ("Stored", lambda r: {"number": r.number(), "id": r.number()}),
    0x13: ("Offer", lambda r: {"ticket": r.number(), "id": r.number(), "tuple": r.items()}),
    0x14: ("Read", lambda r: {"ticket": r.number(), "id": r.number(), "tuple": r.items()}),
    0x15: ("Taken", lambda r: {"number": r.number(), "id": r.number(), "tuple": r.items()}),
    0x16: ("Gone", lambda r: {"number": r.number()}),
    0x17: ("Refused", lambda r: {"code": r.number(1), "detail": r.number()}),
    0x18: ("Left", lambda r: {"number": r.number()}),
}


def read_frame(data):
    """The name and the parts of a whole frame."""
    reader = Reader(data)
    if reader.number(4) != len(data) - 4:
        raise ValueError("the length is not that of the frame")
    kind = reader.number(1)
    if kind not in READERS:
        raise ValueError(f"no kind {kind:02x}")
    name, body = READERS[kind]
    parts = body(reader)
    if reader.at != len(data):
        raise ValueError(f"bytes are left over at {reader.at}")
    return name, parts


def text_of(value):
    """A value, a pattern, or a tuple of them, as people write it."""
    if isinstance(value, tuple):
        return "(" + ", ".join(text_of(item) for item in value) + ")"
    if isinstance(value, bool):
        return "true" if value else "false"
    if isinstance(value, str):
        return '"' + value.replace("\\", "\\\\").replace('"', '\\"') + '"'
    return NAMES[FORMALS[value]] if not isinstance(value, int) else str(value)


def words_of(name, parts):
    if name == "Refused":
        return f"Refused {REFUSALS.get(parts['code'], parts['code'])}, detail {parts['detail']}"
    return name + " " + ", ".join(f"{key} {text_of(value)}" for key, value in parts.items())


# ---- connections

def connect(port):
    """Functions that send bytes, and receive a frame, over a new connection to the server on this port of this machine."""
    stream = socket.create_connection(("127.0.0.1", port))
    stream.setsockopt(socket.IPPROTO_TCP, socket.TCP_NODELAY, 1)

    def take(size):
        data = b""
        while len(data) < size:
            piece = stream.recv(size - len(data))
            if not piece:
                raise ConnectionError("the server ended the connection")
            data += piece
        return data

    def receive():
        length = take(4)
        return read_frame(length + take(int.from_bytes(length, "big")))

    return stream.sendall, receive


# ---- a client

class Client:
    """Greets, and keeps the numbers of Outs, Accepts and the Leave (one sequence) and the tickets, none of which is used twice."""

    def __init__(self, send, receive, client, fresh=True, ticket=0):
        self.send, self.receive, self.ticket = send, receive, ticket
        self.send(hello(client, fresh))
        name, parts = self.receive()
        if name != "Welcome":
            raise ValueError(words_of(name, parts))
        self.number = parts["last"]

    def put(self, tag, *fields):
        """Puts a tuple, and returns its id."""
        self.number += 1
        self.send(out(self.number, tag, *fields))
        return self.answer("Stored")["id"]

    def wait_for(self, tag, *patterns, remove=True):
        """Asks for a tuple, and returns the first reply: an Offer (to take) or a Read; it waits until there is one."""
        self.ticket += 1
        self.send(ask(self.ticket, remove, tag, *patterns))
        return self.answer("Offer" if remove else "Read")

    def read(self, tag, *patterns):
        return self.wait_for(tag, *patterns, remove=False)["tuple"]

    def look(self, tag, *patterns):
        """A matching tuple that is there now, or None. The Ask is cancelled at once, so that nothing comes for it later; an Out with number 0 is always refused,
        after what the Ask led to."""
        self.ticket += 1
        self.send(ask(self.ticket, False, tag, *patterns) + cancel(self.ticket) + out(0, tag))
        name, parts = self.receive()
        if name == "Read":
            self.answer("Refused")
            return parts["tuple"]
        return None

    def take(self, tag, *patterns):
        """Takes a matching tuple: asks, accepts the offer, and asks again if it was gone."""
        while True:
            offer = self.wait_for(tag, *patterns)
            self.number += 1
            self.send(accept(self.number, offer["ticket"], offer["id"]))
            name, parts = self.receive()
            self.send(cancel(offer["ticket"]))
            if name == "Taken":
                return parts["tuple"]
            if name != "Gone":
                raise ValueError(words_of(name, parts))

    def leave(self):
        """Gives the client number up for good: the server does nothing more for it."""
        self.number += 1
        self.send(leave(self.number))
        self.answer("Left")

    def answer(self, wanted):
        name, parts = self.receive()
        if name != wanted:
            raise ValueError(words_of(name, parts))
        return parts


def show(send, receive, number):
    """Puts two jobs, reads one, takes both, and prints all that is sent and what comes back."""
    def send_shown(data):
        print("sent", words_of(*read_frame(data)))
        send(data)

    def receive_shown():
        reply = receive()
        print("     came", words_of(*reply))
        return reply

    client = Client(send_shown, receive_shown, number)
    client.put("job", 1)
    client.put("job", 2)
    print("read", text_of(client.read("job", INT)))
    print("took", text_of(client.take("job", 2)))
    print("took", text_of(client.take("job", ANY)))


def program():
    """The program linda."""
    top = Path(__file__).resolve().parent.parent
    around = (str(it) for it in (top / "linda", top / "bin/linda") if it.is_file())
    found = os.environ.get("LINDA") or shutil.which("linda") or next(around, None)
    return found or sys.exit("there is no linda: set LINDA to its path, or put it on the PATH")


def demo():
    pipe = subprocess.Popen([program(), "pipe"], stdin=subprocess.PIPE, stdout=subprocess.PIPE, text=True)

    def send(data):
        pipe.stdin.write(data.hex() + "\n")
        pipe.stdin.flush()

    show(send, lambda: read_frame(bytes.fromhex(pipe.stdout.readline())), 7)
    pipe.stdin.close()
    sys.exit(pipe.wait())


def decode():
    for line in sys.stdin:
        if line.strip():
            try:
                print(words_of(*read_frame(bytes.fromhex(line))))
            except (ValueError, StopIteration) as fault:
                print("no whole frame:", fault)


if __name__ == "__main__":
    if sys.argv[1:] == ["demo"]:
        demo()
    elif sys.argv[1:2] == ["demo"] and len(sys.argv) == 4 and all(word.isdigit() for word in sys.argv[2:]):
        show(*connect(int(sys.argv[2])), int(sys.argv[3]))
    elif sys.argv[1:] == ["decode"]:
        decode()
    else:
        sys.exit(__doc__)
