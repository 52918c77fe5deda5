"""Checks of records: how many messages are one, large ones over a kill, and room that is written ahead of them."""

import re
import resource
import time
from pathlib import Path

import banks
import client as frames
from played.inspection import bank_of, records_in
from played.peers import Peer, again
from played.program import SOON, equal, most, wait_until
from played.servers import SNAPSHOT_RECORDS, Server
from served import listing


def a_burst_is_one_record(folder):
    """Messages that come at once are one record, 64 at most, a Leave among them; a Hello goes by itself, and so does a single message."""
    with Server(folder) as server:
        peer = Peer(server.port, 7)
        done = 0

        def burst(records, *messages, replies):
            nonlocal done
            peer.send(*messages)
            equal([peer.hear() for _ in replies], replies)
            done += records
            equal(records_in(folder), (1, done))

        def stored(first, count):
            return [f"Stored number {number}, id {number}" for number in range(first, first + count)]

        puts = [frames.out(number, "a") for number in range(1, 200)]
        burst(1, *puts[:20], replies=stored(1, 20))
        burst(1, puts[20], replies=stored(21, 1))
        burst(1, puts[21], replies=stored(22, 1))
        burst(2, *puts[22:92], replies=stored(23, 70))
        burst(2, *puts[92:95], frames.hello(7, True), *puts[95:98], replies=[*stored(93, 3), "Refused Busy, detail 0", *stored(96, 3)])
        burst(1, *puts[98:100], frames.leave(101), replies=[*stored(99, 2), "Left number 101"])
        peer = Peer(server.port)
        burst(1, frames.hello(8, True), *[frames.out(number, "b") for number in (1, 2, 3)],
              replies=["Welcome last 0", *[f"Stored number {number}, id {100 + number}" for number in (1, 2, 3)]])


def large_records_over_a_kill(folder):
    """A server puts tuples of 131 KB, one by one and many at once: in records of more than 65,536 bytes, and of more than 200,000. What the banks have after
    a kill, and what is offered then, is what was put; and so it is after a snapshot."""
    put = {}

    def burst(peer, *tuples):
        places = range(len(put) + 1, len(put) + len(tuples) + 1)
        peer.send(*(frames.out(place, *it) for place, it in zip(places, tuples)))
        equal([peer.hear() for _ in places], [f"Stored number {place}, id {place}" for place in places])
        put.update(zip(places, tuples))

    def large(count):
        return [("j", *(f"{len(put) + it} {at} ".ljust(4_095, "l") for at in range(32))) for it in range(1, count + 1)]

    def lengths():
        found = banks.verdict(*banks.folder_bytes(folder))
        equal(found.refusal, "")
        return [end - gate for gate, end in zip(found.records, found.ends)]

    def is_there(generation):
        found = banks.verdict(*banks.folder_bytes(folder))
        equal((found.refusal, found.generation), ("", generation))
        equal([place for place in found.state.bag.keys() | put.keys() if place not in put or found.state.bag.get(place) != frames.spell_items(put[place][0], put[place][1:])], [])

    def is_offered(port):
        found = listing(port, frames.spell_items("j", (frames.TEXT,) * 32), 100)
        equal([place for place, it in put.items() if it[0] == "j" and found.pop(place, None) != it], [])
        equal(found, {})

    with Server(folder) as server:
        peer = Peer(server.port, 1)
        burst(peer, *large(1))
        # (how many of them come at once is up to the system)
        for _ in range(20):
            burst(peer, *large(8))
            if lengths()[-1] > 200_000:
                break
    equal((65_536 < lengths()[0] <= 200_000, lengths()[-1] > 200_000), (True, True))
    is_there(1)
    with Server(folder) as server:
        is_offered(server.port)
        peer, _ = again(server.port, 1)
        for number in range(SNAPSHOT_RECORDS + 76):
            burst(peer, ("a", number))
        wait_until(lambda: records_in(folder)[0], 2)
    is_there(2)
    with Server(folder) as server:
        is_offered(server.port)


def room_is_written_ahead(folder):
    """While records come fast, the file of the bank has room ahead of them, of closed gates; a put now and then leaves it as it is. A server that opens it
    reads what was put."""
    with Server(folder) as server:
        peer, number = Peer(server.port, 1), 1
        equal(peer.ask(frames.out(1, "a", 1)), "Stored number 1, id 1")
        time.sleep(0.5)
        data, used = bank_of(folder, "left")
        # (the first record has more room made than it needs)
        if not used < len(data) <= used + 66_000:
            raise AssertionError(f"{len(data)} bytes, of which {used} are used")
        until = time.monotonic() + SOON
        # (a snapshot is due after 1,024 records, so they come together)
        while (folder / "left.bank").stat().st_size < 1_048_576:
            if time.monotonic() > until:
                raise AssertionError(f"after {number} puts nothing is written ahead")
            peer.send(*[frames.out(number + at, "a", number + at) for at in range(1, 65)])
            for _ in range(64):
                number += 1
                equal(peer.hear(), f"Stored number {number}, id {number}")
            time.sleep(0.005)
        time.sleep(0.5)
        data, used = bank_of(folder, "left")
        if not used < len(data) <= used + 1_048_576:
            raise AssertionError(f"{len(data)} bytes, of which {used} are used")
        equal(data[used:], bytes(len(data) - used))
        server.process.kill()
        server.end()
    with Server(folder) as server:
        peer = Peer(server.port)
        equal(peer.ask(frames.hello(1, False)), f"Welcome last {number}")
        equal(peer.ask(frames.out(number + 1, "a", 0)), f"Stored number {number + 1}, id {number + 1}")


def a_disk_that_is_full(folder):
    """On a disk that has no room for more, puts and takes of few tuples go on for ever; if there are many, puts are refused Full, and no server goes down: takes
    go on, and then puts. A kill loses nothing."""
    text = "x" * 4_000
    # (each of its two files may have so many bytes: 180 tuples have as many)
    full = lambda: most(resource.RLIMIT_FSIZE, 1_500_000)  # noqa: E731
    with Server(folder, before=full) as server:
        peer, number, there = Peer(server.port, 1), 0, []

        def put():
            nonlocal number
            if (reply := peer.ask(frames.out(number + 1, "job", text, text))).startswith("Stored"):
                number += 1
                there.append(int(reply.rsplit(" ", 1)[1]))
                return True
            return equal(reply, "Refused Full, detail 0")

        def take():
            nonlocal number
            equal(peer.ask(frames.ask(1, True, "job", frames.TEXT, frames.TEXT)).startswith(f"Offer ticket 1, id {there[0]},"), True)
            if (reply := peer.ask(frames.accept(number + 1, 1, there[0]))).startswith("Taken"):
                number += 1
                there.pop(0)
                return True
            equal(reply, "Refused Full, detail 0")
            return peer.send(frames.cancel(1))

        for _ in range(70):
            equal(put(), True)
        for _ in range(700):
            equal((put(), take()), (True, True))
        while put():
            equal(len(there) < 200, True)
        if len(there) < 120:
            raise AssertionError(f"only {len(there)} tuples of 8 KB have room in 1.5 MB")
        wait_until(take, True)
        for _ in range(9):
            wait_until(take, True)
        wait_until(put, True)
        server.process.kill()
        server.end()
    for _ in range(2):
        with Server(folder, before=full) as server:
            peer = Peer(server.port)
            equal(peer.ask(frames.hello(1, False)), f"Welcome last {number}")
            equal((take(), put()), (True, True))
    equal(sorted(banks.verdict(*banks.folder_bytes(folder)).state.bag), there)
