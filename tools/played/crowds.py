"""Checks of crowds: from forty clients to a thousand at once, whose sessions begin and end, over a kill too."""

import random
import re
import selectors
import signal
import socket
import struct
import threading
import time

import client as frames
from played.members import Crowd, Member, are_free_soon
from played.peers import Peer
from played.program import PATIENCE, SOON, equal
from played.servers import Server, free_port, is_refused, many_files, over_a_server
from served import listing


@over_a_server
def waits_for_others_puts(server):
    """A hundred clients, half of which wait for what the others put: each tuple goes to one of them, and each client hears in order of its tickets and of the tuples."""
    many_files()
    asks, rounds, burst = 8, 40, 4
    members = [Member(server.port, client) for client in range(1, 101)]
    eyes = selectors.DefaultSelector()
    takers, putters = members[0::2], members[1::2]
    for member in members:
        eyes.register(member.stream, selectors.EVENT_READ, member)
        member.ids, member.tickets, member.left = [], [], rounds

    def put(member):
        member.left -= 1
        member.send(*[frames.out(member.number + 1 + at, "job", member.client, member.number + 1 + at) for at in range(burst)])
        member.due = burst

    total = len(putters) * rounds * burst
    for taker in takers:
        taker.ticket = asks
        taker.send(*[frames.ask(ticket, True, "job", frames.ANY, frames.INT) for ticket in range(1, asks + 1)])
    for putter in putters:
        put(putter)
    stored, taken, until = {}, {}, time.monotonic() + PATIENCE
    while len(taken) < total or len(stored) < total:
        if time.monotonic() > until:
            raise AssertionError(f"{len(stored)} of {total} were stored and {len(taken)} taken within {PATIENCE} s")
        for key, _ in eyes.select(0.5):
            member = key.data
            for name, parts in member.heard():
                if name == "Stored":
                    member.number += 1
                    equal(parts["number"], member.number)
                    equal(parts["id"] in stored, False)
                    stored[parts["id"]] = "job", member.client, member.number
                    member.due -= 1
                    if not member.due and member.left:
                        put(member)
                elif name == "Offer":
                    member.tickets.append(parts["ticket"])
                    member.ids.append(parts["id"])
                    member.number, member.ticket = member.number + 1, member.ticket + 1
                    member.send(frames.accept(member.number, parts["ticket"], parts["id"]), frames.ask(member.ticket, True, "job", frames.ANY, frames.INT))
                elif name == "Taken":
                    equal(parts["id"] in taken, False)
                    taken[parts["id"]] = parts["tuple"]
                else:
                    raise AssertionError(f"client {member.client} hears {frames.words_of(name, parts)}")
    equal(taken == stored, True)
    for taker in takers:
        equal((taker.client, taker.tickets), (taker.client, sorted(taker.tickets)))
        equal((taker.client, taker.ids), (taker.client, sorted(taker.ids)))
        taker.close()
    for putter in putters:
        putter.close()
    eyes.close()


@over_a_server
def sessions_that_come_again(server):
    """Forty clients whose sessions end and begin again at once, 2,000 times, while others put what they wait for: none hears of its session before, and none is
    Busy for ever."""
    many_files()
    # (so many that the next connections go to both loops in turn)
    idle = [Peer(server.port, client) for client in range(500, 564)]
    others = [Peer(server.port, client) for client in (600, 601, 602)]
    is_over, faults, stored, busy = threading.Event(), [], set(), []

    def guard(work, *given):
        def whole():
            try:
                work(*given)
            except (AssertionError, OSError, ValueError) as fault:
                faults.append(fault)
        return threading.Thread(target=whole)

    def put(peer):
        number = 0
        while not is_over.is_set() and number < 20_000:
            peer.send(*[frames.out(number + at, "work", at) for at in (1, 2, 3, 4)])
            for _ in range(4):
                number += 1
                name, given = peer.hear().split(", id ")
                equal(name, f"Stored number {number}")
                stored.add(int(given))
            time.sleep(0.004)

    def come_again(client):
        dice = random.Random(client)
        for session in range(1, 51):
            if faults:
                return
            peer = Peer(server.port)
            until = time.monotonic() + SOON
            while (reply := peer.ask(frames.hello(client, False))) == "Refused Busy, detail 0":
                busy.append(client)
                if time.monotonic() > until:
                    raise AssertionError(f"client {client} is Busy for good")
                time.sleep(0.0005)
            equal((session, reply), (session, "Welcome last 0"))
            first = 10 * session
            asks = dice.randint(1, 9)
            peer.send(*[frames.ask(first + at, True, "work", frames.ANY) for at in range(asks)])
            for _ in range(min(asks, dice.choice([0, 0, 1, 1, 2]))):
                heard = peer.hear()
                ticket = re.match(r"Offer ticket (\d+), id ", heard)
                if not ticket or int(ticket[1]) // 10 != session:
                    raise AssertionError(f"client {client} hears in session {session}: {heard}")
                if dice.random() < 0.3:
                    peer.send(frames.cancel(int(ticket[1])), frames.ask(first + 9, True, "work", frames.ANY))
                    break
            way = dice.random()
            if way < 0.3:
                peer.stream.setsockopt(socket.SOL_SOCKET, socket.SO_LINGER, struct.pack("ii", 1, 0))
            elif way < 0.6:
                peer.stream.shutdown(socket.SHUT_WR)
            peer.close()

    threads = [guard(come_again, client) for client in range(1, 41)]
    puts = [guard(put, peer) for peer in others]
    for thread in puts + threads:
        thread.start()
    for thread in threads:
        thread.join()
    is_over.set()
    for thread in puts:
        thread.join()
    if faults:
        raise AssertionError(str(faults[0]))
    are_free_soon(server.port, stored)
    for peer in idle + others:
        peer.close()


def sessions_of_a_crowd(folder):
    """A server that ends after a hundred connections serves each of them to its end, whichever loop has it, and none of those after them."""
    with Server(folder, free_port(), "--sessions", "100") as server:
        peers = [Peer(server.port, client) for client in range(100)]
        more = [socket.create_connection(("127.0.0.1", server.port), timeout=SOON) for _ in range(5)]
        for one in more:
            one.sendall(frames.hello(200, True))
        for number, peer in enumerate(random.Random(3).sample(peers, 100), 1):
            equal(server.process.poll(), None)
            equal(peer.ask(frames.out(1, "a")), f"Stored number 1, id {number}")
            peer.close()
        equal(server.end(), (0, "", ""))
        for one in more:
            try:
                equal(one.recv(1), b"")
            except ConnectionResetError:
                pass
            one.close()
        is_refused(server.port)


def a_kill_under_a_crowd(folder):
    """A server is killed while a hundred clients put and take. All that was answered is there after it, and of what was not, each is done or not; the clients go on."""
    with Server(folder, 0) as server:
        crowd = Crowd(server.port, range(1, 101))

        def kill():
            # (on a busy machine the first answers come late)
            until = time.monotonic() + SOON
            time.sleep(1)
            while len(crowd.stored) < 200 and time.monotonic() < until:
                time.sleep(0.01)
            server.process.kill()

        killer = threading.Thread(target=kill)
        killer.start()
        try:
            crowd.work(PATIENCE, PATIENCE)
            raise AssertionError("the crowd works on without a server")
        except (ConnectionError, AssertionError) as fault:
            if server.process.wait(PATIENCE) != -signal.SIGKILL or not isinstance(fault, ConnectionError) and "ended" not in str(fault):
                raise
    with Server(folder, 0) as server:
        done = 0
        for member in crowd.members:
            member.close()
            # (what it may have had under way is an Accept and an Out)
            again = Peer(server.port)
            last = int(again.ask(frames.hello(member.client, False)).rpartition(" ")[2])
            heard = member.number - sum(name != "Offer" for name in member.wanted)
            equal((member.client, heard <= last <= member.number), (member.client, True))
            done += last - heard
            again.close()
        free = set(listing(server.port, frames.spell_items("work", [frames.ANY]), 1_000_000, PATIENCE))
        kept = crowd.stored - crowd.taken
        equal(len(crowd.stored) > 100, True)
        equal(free & crowd.taken, set())
        # (of the tuples that were put or taken by a message that was not answered, some were put so and then taken, and for these both messages may be
        # unanswered)
        seen = len(kept - free) + len(free - kept) + len(crowd.taken - crowd.stored)
        equal((seen <= done, (done - seen) % 2, done <= 200), (True, 0, True))


@over_a_server
def crowds(server):
    """256 clients, and then 1,000, put and take at once for three seconds: each has its answers, no tuple is taken twice, and what is left is there."""
    many_files()
    stored, taken = set(), set()
    for first, count in ((1, 256), (1_000, 1_000)):
        crowd = Crowd(server.port, range(first, first + count))
        crowd.work(3, PATIENCE)
        crowd.close()
        equal((count, len(crowd.stored) - len(crowd.taken), crowd.stored & stored, crowd.taken & taken), (count, count, set(), set()))
        stored, taken = stored | crowd.stored, taken | crowd.taken
    equal(taken <= stored, True)
    are_free_soon(server.port, stored - taken)
