"""Checks of devices that fail: a server that goes down ends all its connections, and then itself."""

import socket
import time

import banks
import client as frames
from played.peers import Peer, has_by_rest, keys_that_are_free
from played.program import SOON, equal, writes_fail_beyond
from played.servers import SNAPSHOT_RECORDS, Server, free_port, is_refused


def connections_of_a_failed_device(folder):
    """If the server goes down, what is not answered is refused Down, every connection ends, one that was never greeted too, and no other is accepted: the
    server ends by itself."""
    with Server(folder, free_port(), before=writes_fail_beyond(2000)) as server:
        with keys_that_are_free(server.port):
            silent, half, waiting = Peer(server.port), Peer(server.port), Peer(server.port, 8)
            half.send(frames.hello(9, True)[:5])
            waiting.send(frames.ask(1, True, "never"))
            peer = Peer(server.port, 7)
        for number in range(1, 20):
            if (reply := peer.ask(frames.out(number, "a", "x" * 200))) == "Refused Down, detail 0":
                break
            equal(reply, f"Stored number {number}, id {number}")
        equal((reply, number < 19), ("Refused Down, detail 0", True))
        for one in (peer, waiting, silent, half):
            has_by_rest(server, one)
            one.end_comes()
        equal(server.end(), (3, "", "store: down\n"))
        is_refused(server.port)


def a_failed_device_beside_a_peer_that_never_reads(folder):
    """A server that goes down ends, though a peer takes none of the replies that are due to it."""
    # (a bank that is written here: one that a server wrote is a MiB longer once there is room for its next records, which may be before it is killed)
    bank = banks.spell_bank(1, banks.State(2, {1: frames.spell_items("wide", ("x" * 4_095,) * 32)}))
    (folder / "left.bank").write_bytes(bank)
    (folder / "right.bank").write_bytes(b"\0")
    with Server(folder, before=writes_fail_beyond(len(bank) + 2_000)) as server:
        with keys_that_are_free(server.port):
            stuck = Peer(server.port, 2)
        # (so little is kept for it that what the server has spelled for it has no room there when it goes down)
        stuck.stream.setsockopt(socket.SOL_SOCKET, socket.SO_RCVBUF, 4_096)
        stuck.send(*[frames.ask(ticket, False, "wide", *[frames.ANY] * 32) for ticket in range(1, 101)])
        time.sleep(0.5)
        peer, told = Peer(server.port, 3), ""
        for number in range(1, 20):
            if (told := peer.ask(frames.out(number, "a", "x" * 200))) == "Refused Down, detail 0":
                break
        equal(told, "Refused Down, detail 0")
        peer.end_comes()
        equal(server.end(), (3, "", "store: down\n"))


def a_failed_device_is_told_past_a_stuck_peer(folder):
    """A client does not read the 8 MB that are due to it. The server goes down by the put of another, and the connections of all others end at once,
    whatever becomes of that client."""
    wide = ["x" * 4_095] * 32
    with Server(folder, before=writes_fail_beyond(200_000)) as server:
        stuck, other, waiting = Peer(server.port, 1), Peer(server.port, 2), Peer(server.port, 3)
        equal(waiting.ask(frames.ask(1, True, "never"), frames.out(0, "a")), "Refused Old, detail 0")
        stuck.send(*[frames.ask(ticket, False, "wide", *[frames.ANY] * 32) for ticket in range(1, 65)])
        equal(stuck.ask(frames.out(0, "a")), "Refused Old, detail 0")
        equal(other.ask(frames.out(1, "wide", *wide)), "Stored number 1, id 1")
        # (what is due to it is on its way by then)
        time.sleep(0.5)
        for peer in (waiting, other):
            peer.stream.settimeout(SOON)
        # (nothing is taken from a connection to which so much is due)
        equal(other.ask(frames.out(2, "wide", *wide)), "Refused Down, detail 0")
        waiting.end_comes()
        other.end_comes()
        stuck.close()
        equal(server.end(), (3, "", "store: down\n"))


def a_snapshot_ends_a_server(folder):
    """If the server goes down in a snapshot, and no message comes after that, every connection ends all the same, one that waits and one that never greeted
    too."""
    size = len(frames.spell_items("a", ()))
    # (a snapshot has more bytes of a client with one tuple than the record of its put, so only the snapshot reaches this length)
    room = 33 + 1_200 * (1 + 4 + 13 + size)
    with Server(folder, before=writes_fail_beyond(room)) as server:
        silent, waiting = Peer(server.port), Peer(server.port, 5_000)
        equal(waiting.ask(frames.ask(1, True, "never"), frames.out(0, "a")), "Refused Old, detail 0")
        # (the last one makes it due)
        for number in range(1, SNAPSHOT_RECORDS + 1):
            peer = Peer(server.port)
            peer.send(frames.hello(number, True), frames.out(1, "a"))
            equal([peer.hear(), peer.hear()], ["Welcome last 0", f"Stored number 1, id {number}"])
            peer.close()
        for peer in (silent, waiting):
            peer.stream.settimeout(SOON)
            peer.end_comes()
        equal(server.end(), (3, "", "store: down\n"))


def a_failed_device_ends_a_crowd(folder):
    """If the server goes down by the put of one of a hundred clients, all of them get nothing more, and their connections end, whichever loop has them."""
    for who in (0, 99):
        own = folder / str(who)
        own.mkdir()
        with Server(own, 0, before=writes_fail_beyond(2_000)) as server:
            peers, others = [], []
            for client in range(100):
                # (each tenth has one before it that goes, so keys of both loops are free)
                if client % 10 == 0:
                    others.append(Peer(server.port, 1_000 + client))
                peers.append(Peer(server.port, client))
            for peer in peers:
                equal(peer.ask(frames.ask(1, True, "never"), frames.out(0, "a")), "Refused Old, detail 0")
            for peer in others:
                peer.close()
            putter = peers.pop(who)
            for number in range(1, 20):
                if (reply := putter.ask(frames.out(number, "a", "x" * 200))) == "Refused Down, detail 0":
                    break
            equal(reply, "Refused Down, detail 0")
            for peer in [putter, *peers]:
                peer.stream.settimeout(SOON)
                try:
                    peer.end_comes()
                except TimeoutError:
                    raise AssertionError("a connection does not end though the server is down") from None
            equal(server.end(), (3, "", "store: down\n"))
