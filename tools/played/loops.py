"""Checks of the two loops of a server: how they share connections, wake each other, and give connections up."""

import os
import re
import signal
import socket
import time
from pathlib import Path

import client as frames
from played.leases import LEASE, ends_after
from played.peers import Peer, again, has_by_rest, keys_that_are_free
from played.program import SOON, equal, wait_until, writes_fail_beyond
from played.servers import Server

LONG = ["x" * 4_000] * 30


def sockets_of_loops(server):
    """How many sockets each loop of the server looks at, in the order of its loops; the first one looks at the listener too. It returns nothing while some are
    being closed."""
    place = Path(f"/proc/{server.process.pid}")
    try:
        links = {name: os.readlink(place / "fd" / name) for name in sorted(os.listdir(place / "fd"), key=int)}
        polls = [(place / "fdinfo" / name).read_text() for name, link in links.items() if link == "anon_inode:[eventpoll]"]
    except FileNotFoundError:
        return None
    return [sum(links.get(name, "").startswith("socket:") for name in re.findall(r"^tfd:\s*(\d+)", text, re.MULTILINE)) for text in polls]


def loops_share_a_crowd(folder):
    """The first 32 connections are those of the first loop, and each one after them goes to the loop that has the fewest; the same holds again once all have
    ended."""
    with Server(folder) as server:
        for turn in range(3):
            peers = [Peer(server.port) for _ in range(100)]
            wait_until(lambda: sockets_of_loops(server), [51, 50])
            for peer in peers:
                peer.close()
            wait_until(lambda: sockets_of_loops(server), [1, 0])
        peers = [Peer(server.port, client) for client in range(32)]
        wait_until(lambda: sockets_of_loops(server), [33, 0])
        peers.append(Peer(server.port, 32))
        wait_until(lambda: sockets_of_loops(server), [33, 1])


def keys_that_are_free_at_both_loops(folder):
    """At both loops, of which the first keys are free: a client that waits hears of a put and of a leave at the other loop, a lease ends, and so do all
    connections when the server is down."""
    with Server(folder, 0, "--lease", LEASE, before=writes_fail_beyond(2_000)) as server:
        first = [Peer(server.port) for _ in range(60)]
        wait_until(lambda: sockets_of_loops(server), [33, 28])
        at = [], []
        while min(map(len, at)) < 5:
            before, peer = sockets_of_loops(server), Peer(server.port, 1 + sum(map(len, at)))
            wait_until(lambda: sum(sockets_of_loops(server) or ()), sum(before) + 1)
            at[sockets_of_loops(server)[1] - before[1]].append(peer)
        for peer in first:
            peer.close()
        wait_until(lambda: sockets_of_loops(server), [1 + len(at[0]), len(at[1])])
        last, numbers = 0, dict.fromkeys(sum(at, []), 0)

        def put(peer, *values):
            nonlocal last
            last, numbers[peer] = last + 1, numbers[peer] + 1
            equal(peer.ask(frames.out(numbers[peer], *values)), f"Stored number {numbers[peer]}, id {last}")

        for turn, (near, far) in enumerate((at, at[::-1])):
            near[0].send(frames.ask(1, False, "seen"))
            put(far[0], "seen")
            equal(near[0].hear(), f'Read ticket 1, id {last}, tuple ("seen")')
            taken = near[0].ask(frames.ask(2, True, "seen"))
            equal(taken, f'Offer ticket 2, id {last}, tuple ("seen")')
            numbers[near[0]] += 1
            equal(near[0].ask(frames.accept(numbers[near[0]], 2, last)).split(",")[0], f"Taken number {numbers[near[0]]}")
            # One that holds a tuple leaves, and one says nothing for as long as its lease.
            for place, word in enumerate((f"left {turn}", f"late {turn}"), 1 + 2 * turn):
                holder, waiting = near[place], far[place]
                put(near[0], word)
                began = time.monotonic()
                equal(holder.ask(frames.ask(1, True, word)), f'Offer ticket 1, id {last}, tuple ("{word}")')
                waiting.send(frames.ask(2, True, word))
                if word.startswith("left"):
                    holder.close()
                else:
                    equal(ends_after(holder, began) > LEASE, True)
                equal(waiting.hear(), f'Offer ticket 2, id {last}, tuple ("{word}")')
                waiting.send(frames.cancel(2))
        equal(at[0][0].ask(frames.out(numbers[at[0][0]] + 1, "a", "x" * 4_000)), "Refused Down, detail 0")
        for peer in (at[0][0], at[0][3], at[0][4], *at[1][:3]):
            peer.stream.settimeout(SOON)
            peer.end_comes()


def connections_that_are_given_up(folder):
    """A connection whose peer sends no more and takes none of its replies is given up after some seconds, though keys are free below its own."""
    with Server(folder) as server:
        with keys_that_are_free(server.port):
            other, stuck = Peer(server.port, 1), Peer(server.port, 2)
        equal(other.ask(frames.out(1, "wide", *["x" * 4_095] * 32)), "Stored number 1, id 1")
        wait_until(lambda: sockets_of_loops(server), [3, 0])
        # (13 MB are more than the system keeps for a peer that reads nothing)
        stuck.send(*[frames.ask(ticket, False, "wide", *[frames.ANY] * 32) for ticket in range(1, 101)])
        stuck.stream.shutdown(socket.SHUT_WR)
        wait_until(lambda: sockets_of_loops(server), [2, 0])
        equal(other.ask(frames.out(2, "a")), "Stored number 2, id 2")
        stuck.close()


def loops_wake_each_other(folder):
    """What is for a loop at which nothing happens comes there at once: what a put at the other loop sends, what a client held that goes there, a
    connection, and that the server is down."""
    with Server(folder, before=writes_fail_beyond(2_000)) as server:
        near, holder = Peer(server.port, 1), Peer(server.port, 3)
        idle = [Peer(server.port) for _ in range(30)]
        far = Peer(server.port, 2)
        for number in range(1, 6):
            equal(far.ask(frames.ask(number, False, "a", number), frames.out(0, "a")), "Refused Old, detail 0")
            equal(near.ask(frames.out(number, "a", number)), f"Stored number {number}, id {number}")
            has_by_rest(server, far)
            equal(far.hear(), f'Read ticket {number}, id {number}, tuple ("a", {number})')
            idle.append(Peer(server.port))
            idle[-1].send(frames.hello(100 + number, True))
            has_by_rest(server, idle[-1])
            equal(idle[-1].hear(), "Welcome last 0")
            wait_until(lambda: sockets_of_loops(server), [33, 1 + number])
        equal(near.ask(frames.out(6, "held")), "Stored number 6, id 6")
        equal(holder.ask(frames.ask(1, True, "held")), 'Offer ticket 1, id 6, tuple ("held")')
        equal(far.ask(frames.ask(6, True, "held"), frames.out(0, "a")), "Refused Old, detail 0")
        holder.close()
        has_by_rest(server, far)
        equal(far.hear(), 'Offer ticket 6, id 6, tuple ("held")')
        equal(near.ask(frames.out(7, "a", "x" * 4_000)), "Refused Down, detail 0")
        has_by_rest(server, far)
        far.end_comes()


def loops_at_once(folder):
    """A put at one loop while the other reads long Asks, so that what it sends comes there in the middle: a client that waits hears of it at once, and a session that begins then
    hears nothing of the one before it."""
    with Server(folder) as server:
        putter = Peer(server.port, 1)
        idle = [Peer(server.port) for _ in range(31)]
        slow, many, waiting, old = (Peer(server.port, client) for client in (2, 3, 4, 5))
        for turn in range(1, 41):
            fresh = Peer(server.port) if turn % 2 else None
            equal(waiting.ask(frames.ask(turn, False, "a", turn), frames.out(0, "a")), "Refused Old, detail 0")
            equal(old.ask(frames.ask(turn, True, "a", turn), frames.out(0, "a")), "Refused Old, detail 0")
            server.process.send_signal(signal.SIGSTOP)
            if fresh:
                # (it is refused first, so that it greets once the loop has heard of the end of the session before)
                old.stream.shutdown(socket.SHUT_WR)
                fresh.send(frames.out(1, "a"), frames.hello(5, False))
            slow.send(*[frames.ask(10 * turn + at, False, "none", *LONG) for at in range(8)])
            if fresh:
                # (of more Asks than go in one group the loop goes round again before it takes what came from the other one)
                many.send(*[message for at in range(40) for message in (frames.ask(100 * turn + at, False, "none"), frames.cancel(100 * turn + at))])
            putter.send(frames.out(turn, "a", turn))
            server.process.send_signal(signal.SIGCONT)
            equal(putter.hear(), f"Stored number {turn}, id {turn}")
            has_by_rest(server, waiting)
            equal(waiting.hear(), f'Read ticket {turn}, id {turn}, tuple ("a", {turn})')
            if fresh:
                equal(fresh.hear(), "Refused NoHello, detail 0")
                if fresh.hear() != "Welcome last 0":
                    fresh.close()
                    fresh, reply = again(server.port, 5)
                    equal(reply, "Welcome last 0")
                equal(fresh.ask(frames.out(0, "a")), "Refused Old, detail 0")
                old.close()
                old = fresh
            else:
                equal(old.hear(), f'Offer ticket {turn}, id {turn}, tuple ("a", {turn})')
            slow.send(*[frames.cancel(10 * turn + at) for at in range(8)])
