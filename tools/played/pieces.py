"""Checks of how bytes come to a server that serves by loops or by threads: many messages in a piece, halves, wrong lengths, ends; and peers that read nothing."""

import random
import re
import signal
import socket
import struct
import threading
import time
from pathlib import Path

import client as frames
from played.members import Crowd
from played.peers import Peer, again
from played.program import PATIENCE, SOON, equal
from played.servers import Server, over_a_server
from served import rest, use_of

# A loop reads a connection in pieces of this many bytes.
READ_AT_ONCE = 16_384


@over_a_server
def ends_of_streams(server):
    """The last bytes and the end of the stream come at once, in pieces as long as one read, or shorter, or longer: all is answered, and then the connection
    ends."""
    dice, client = random.Random(1), 0
    for size in (100, READ_AT_ONCE - 1, READ_AT_ONCE, READ_AT_ONCE + 1, 2 * READ_AT_ONCE, 3 * READ_AT_ONCE - 7):
        for _ in range(25):
            client += 1
            stream = [frames.hello(client, True)]
            left, number = size - len(stream[0]), 0
            empty = len(frames.out(0, "e", ""))
            while left:
                # (texts of any lengths; the last one gives the whole its length)
                length = dice.choice([0, 9, 300, 4_000])
                if left < 2 * empty + length:
                    length = min(left - empty, 4_095)
                number += 1
                stream.append(frames.out(number, "e", "y" * length))
                left -= empty + length
            half = dice.choice([b"", frames.out(number + 1, "e")[:dice.randint(1, 9)]])
            peer = Peer(server.port)
            if dice.random() < 0.7:
                # (the system keeps what is less than a packet until the end, and sends it with the end)
                peer.stream.setsockopt(socket.IPPROTO_TCP, socket.TCP_NODELAY, 0)
                peer.stream.setsockopt(socket.IPPROTO_TCP, socket.TCP_CORK, 1)
            peer.send(*stream, half)
            peer.stream.shutdown(socket.SHUT_WR)
            peer.stream.settimeout(SOON)
            try:
                equal(peer.hear(), "Welcome last 0")
                equal([peer.hear().split(",")[0] for _ in range(number)], [f"Stored number {at}" for at in range(1, number + 1)])
                peer.end_comes()
            except TimeoutError:
                raise AssertionError(f"nothing more comes of {size} bytes and {len(half)}, which ended") from None
            peer.close()


@over_a_server
def faults_of_a_length(server):
    """A length that no frame has is a fault by itself, after a Hello too: the client sends not a byte more, and does not end its side."""
    client = 0
    for length in (0, 262_145, 2**31, 2**32 - 1):
        for cut in (0, 1, 2, 3, 4):
            for before in ((), (frames.out(1, "a"),), (frames.ask(1, True, "none"), frames.out(0, "a"))):
                client += 1
                peer, fault = Peer(server.port), struct.pack(">I", length)
                peer.stream.settimeout(SOON)
                peer.send(frames.hello(client, True), *before, fault[:cut])
                if cut < 4:
                    time.sleep(0.005)
                    peer.send(fault[cut:])
                try:
                    told = [peer.hear().split(",")[0] for _ in range(2 + bool(before))]
                    peer.end_comes()
                except TimeoutError:
                    raise AssertionError(f"nothing more comes of a length of {length}, of which {cut} bytes came at once") from None
                equal(told, ["Welcome last 0", *(["Refused Old"] if len(before) == 2 else ["Stored number 1"] * len(before)), "Refused Malformed"])
                peer.close()


@over_a_server
def many_messages_at_once(server):
    """More messages in one piece than a connection may have under way: all are answered, in order."""
    dice = random.Random(2)
    for client, count in enumerate((64, 65, 66, 127, 128, 129, 200, 200, 200), 1):
        peer, said, wanted, number, ticket = Peer(server.port, client), [], [], 0, 0
        peer.stream.settimeout(SOON)
        for at in range(count):
            if number and (client == 7 or dice.random() < 0.4):
                ticket += 1
                what = dice.randint(1, number)
                said.append(frames.ask(ticket, False, "m", client, what))
                wanted.append(f'Read ticket {ticket}, tuple ("m", {client}, {what})')
            elif dice.random() < 0.1:
                said.append(frames.hello(client, False))
                wanted.append("Refused Busy, detail 0")
            else:
                number += 1
                said.append(frames.out(number, "m", client, number))
                wanted.append(f"Stored number {number}")
        peer.send(*said)
        try:
            found = [re.sub(r", id \d+", "", peer.hear()) for _ in wanted]
        except TimeoutError:
            raise AssertionError(f"of {count} messages at once not all are answered") from None
        equal(found, wanted)
        # (only Asks, which make no deed)
        peer.send(*[frames.ask(1_000 + at, False, "m", client, 1) for at in range(count)], frames.out(0, "m"))
        found = [re.sub(r", id \d+", "", peer.hear()) for _ in range(count + 1)]
        equal(found, [f'Read ticket {1_000 + at}, tuple ("m", {client}, 1)' for at in range(count)] + [f"Refused Old, detail {number}"])
        peer.close()


@over_a_server
def asks_behind_puts(server):
    """An Ask sees what came before it on its connection in the same piece, and not what comes after it, while others put and take."""
    others, faults = Crowd(server.port, range(100, 112)), []

    def work():
        try:
            others.work(2.5, SOON)
        except AssertionError as fault:
            faults.append(fault)

    beside = threading.Thread(target=work)
    beside.start()
    try:
        peer, number, ticket = Peer(server.port, 1), 0, 0
        for turn in range(1_000):
            # (what is asked for and given up before it is put is not offered, and so nothing is once it was taken)
            peer.send(frames.ask(ticket + 1, True, "mine", turn), frames.cancel(ticket + 1), frames.out(number + 1, "mine", turn), frames.ask(ticket + 2, True, "mine", turn),
                      frames.cancel(ticket + 2), frames.ask(ticket + 3, False, "mine", turn), frames.out(0, "mine"))
            stored = peer.hear()
            at = stored.rpartition(" ")[2]
            equal([stored, peer.hear(), peer.hear(), peer.hear()],
                  [f"Stored number {number + 1}, id {at}", f'Offer ticket {ticket + 2}, id {at}, tuple ("mine", {turn})', f'Read ticket {ticket + 3}, id {at}, tuple ("mine", {turn})',
                   f"Refused Old, detail {number + 1}"])
            equal(peer.ask(frames.ask(ticket + 4, True, "mine", turn)), f'Offer ticket {ticket + 4}, id {at}, tuple ("mine", {turn})')
            peer.send(frames.accept(number + 2, ticket + 4, int(at)), frames.ask(ticket + 5, False, "mine", turn), frames.cancel(ticket + 5), frames.out(0, "mine"))
            equal([peer.hear(), peer.hear()], [f'Taken number {number + 2}, id {at}, tuple ("mine", {turn})', f"Refused Old, detail {number + 2}"])
            number, ticket = number + 2, ticket + 5
    finally:
        beside.join()
        others.close()
    equal(faults, [])


def queued(port, other):
    """How many bytes at this port of a connection the system has not sent, or the other side has not taken yet; and how many came there and were not read."""
    for line in Path("/proc/net/tcp").read_text().splitlines()[1:]:
        words = line.split()
        if words[1:3] == [f"0100007F:{port:04X}", f"0100007F:{other:04X}"]:
            return tuple(int(word, 16) for word in words[4].split(":"))
    raise AssertionError("there is no such connection")


def waiting_at(port, peer):
    """How many bytes of the peer the system has that the server has not read."""
    return queued(port, peer.stream.getsockname()[1])[1]


@over_a_server
def a_peer_that_never_reads(server):
    """Replies of 200 MB are due to it: it is read no more once some of them wait, the server rests and has little memory, others are answered; and once it reads, all come in order."""
    count, other = 1_500, Peer(server.port, 1)
    equal(other.ask(frames.out(1, "wide", *["x" * 4_095] * 32)), "Stored number 1, id 1")
    stuck = Peer(server.port, 2)
    first = use_of(server.process.pid)
    stuck.send(*[frames.ask(ticket, False, "wide", *[frames.ANY] * 32) for ticket in range(1, count + 1)])
    rest(server.process.pid)
    left = waiting_at(server.port, stuck)
    if not left:
        raise AssertionError(f"the server reads on though nobody reads its replies: {use_of(server.process.pid)}, before there were {first}")
    for number in range(2, 102):
        equal(other.ask(frames.out(number, "small")), f"Stored number {number}, id {number}")
    began = use_of(server.process.pid)
    time.sleep(1)
    now = use_of(server.process.pid)
    if now.processor - began.processor > 0.3:
        raise AssertionError(f"the server worked for {now.processor - began.processor} s in a second in which nothing came")
    if now.most - first.most > 40 * 1024:
        raise AssertionError(f"the server has {now}, before there were {first}")
    equal(waiting_at(server.port, stuck), left)
    for ticket in range(1, count + 1):
        frame = stuck.take(int.from_bytes(stuck.take(4), "big"))
        equal((frame[0], int.from_bytes(frame[1:9], "big"), int.from_bytes(frame[9:17], "big")), (0x14, ticket, 1))
    equal(stuck.ask(frames.out(0, "small")), "Refused Old, detail 0")


def a_greeting_on_a_broken_connection(folder):
    """A client whose earlier replies wait in the loop greets, and breaks its connection before it is greeted: its session ends, and it may come again."""
    early, refused, said = frames.out(1, "a"), 14, 0
    with Server(folder) as server:
        stream = socket.socket()
        stream.settimeout(PATIENCE)
        stream.setsockopt(socket.SOL_SOCKET, socket.SO_RCVBUF, 4_096)
        stream.connect(("127.0.0.1", server.port))
        here, there = (stream.getsockname()[1], server.port), (server.port, stream.getsockname()[1])
        # (until more replies are due than the system takes, and fewer than those after which a loop reads no more)
        while refused * said - queued(*here)[1] - queued(*there)[0] < 1_000:
            equal(said < 1_000_000, True)
            stream.sendall(early * 10_000)
            said += 10_000
            while queued(*there)[1] or queued(*here)[0]:
                time.sleep(0.005)
        server.process.send_signal(signal.SIGSTOP)
        stream.sendall(frames.hello(1, True))
        stream.setsockopt(socket.SOL_SOCKET, socket.SO_LINGER, struct.pack("ii", 1, 0))
        stream.close()
        server.process.send_signal(signal.SIGCONT)
        other, reply = again(server.port, 1)
        equal(reply, "Welcome last 0")
        other.close()


@over_a_server
def halves_and_silence(server):
    """Connections that sent a part of a frame, cut at each place, keep nobody else waiting, and are answered when the rest comes."""
    hello, put = frames.hello(0, True), frames.out(1, "half", "x" * 40)
    halves = []
    for client, cut in enumerate(range(1, len(hello) + len(put)), 1):
        whole, peer = frames.hello(client, True) + put, Peer(server.port)
        peer.send(whole[:cut])
        halves.append((peer, whole[cut:]))
    others = Crowd(server.port, range(500, 510))
    until = time.monotonic() + SOON
    while len(others.taken) <= 100 and time.monotonic() < until:
        others.work(1, SOON)
    others.close()
    equal(len(others.taken) > 100, True)
    for peer, rest in halves:
        peer.send(rest)
    for peer, _ in halves:
        equal([peer.hear(), peer.hear().split(",")[0]], ["Welcome last 0", "Stored number 1"])
        peer.close()


@over_a_server
def halves_cost_no_processor(server):
    """While connections wait that sent a part of a frame, greeted or not, the server does nothing."""
    peers = [Peer(server.port) for _ in range(4)] + [Peer(server.port, client) for client in range(1, 5)]
    put = frames.out(1, "half", "x" * 40)
    for peer, cut in zip(peers, (1, 4, 5, len(put) - 1) * 2):
        peer.send(put[:cut])
    rest(server.process.pid)
    before = server.processor_time()
    time.sleep(1)
    spent = server.processor_time() - before
    equal(spent < 0.3, True)
    for client, peer in enumerate(peers[4:], 1):
        peer.send(put[(1, 4, 5, len(put) - 1)[client - 1]:])
        equal(peer.hear().split(",")[0], "Stored number 1")
