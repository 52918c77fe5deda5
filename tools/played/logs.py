"""Checks of the log: its lines of minutes, refusals, snapshots, failed devices and limits, to the end."""

import json
import re
import resource
import socket
import threading
import time
import urllib.request
from concurrent.futures import ThreadPoolExecutor

import banks
import client as frames
from played.lines import BANK, TIME, log_lines
from played.peers import Peer, connection, ended, puts
from played.program import PATIENCE, Late, equal, most, wait_until, writes_fail_beyond
from played.servers import Server, free_port
from served import rest, use_of

# How many times as fast the clock of a server goes whose minutes are waited for.
TIMES = 6
# The bytes of address space in which a server can begin, and could not have two threads for each of sixty connections.
LITTLE_ROOM = 200 * 2**20


def is_in_first_minute(began, times=TIMES, left=5):
    """The first minute of a server that began then is not over: what was played is in one line of its log. So many seconds of it are left."""
    if (gone := time.monotonic() - began) > (60 - left) / times:
        raise Late(f"what belongs to one minute took {gone:.1f} s")


def logs(folder):
    times = 2
    with Server(folder, 0, "--sessions", "5", "--lease", "10", "--log", times=times) as server:
        began = time.monotonic()
        idle = [Peer(server.port), Peer(server.port), Peer(server.port, 9)]
        puts(server.port, 7, 1100)
        equal(idle[2].ask(frames.out(1, "b")), "Stored number 1, id 1101")
        for number, place in ((2, 5), (3, 1101)):
            asked = frames.ask(number, True, "a", 5) if place == 5 else frames.ask(number, True, "b")
            equal(idle[2].ask(asked).split(",")[:2], [f"Offer ticket {number}", f" id {place}"])
            equal(idle[2].ask(frames.accept(number, number, place)).split(",")[:2], [f"Taken number {number}", f" id {place}"])
        late = Peer(server.port, 8)
        equal(late.ask(frames.ask(1, True, "a", 9)), 'Offer ticket 1, id 9, tuple ("a", 9)')
        is_in_first_minute(began, times, 20)
        server.hears(" late 1\n")
        for peer in idle:
            peer.close()
        status, _, err = server.end()
        equal(status, 0)
    # (on a busy machine a minute may be over before all is put, or after another one in which nothing happened)
    minutes = [line for line in err.splitlines() if " minute " in line and not line.endswith(" late 1")]
    for line in minutes:
        log_lines(line, rf"minute connections \d deeds \d+ refused 0 unserved 0 tuples \d+ clients \d next \d+ {BANK} busy 0 toomany 0 greetings 0 malformed 0 late 0")
    log_lines("\n".join(line for line in err.splitlines() if line not in minutes),
              f"opened port {server.port} bank left generation 1 tuples 0 clients 0 next 1 records 0 used 33 limit 1073741824",
              rf"snapshot result taken milliseconds \d+ {BANK}",
              rf"minute connections 3 deeds 1103 refused 0 unserved 0 tuples 1099 clients 2 next 1102 {BANK} busy 0 toomany 0 greetings 0 malformed 0 late 1",
              rf"end cause sessions connections 5 deeds 1103 tuples 1099 clients 2 next 1102 {BANK}")
    with Server(folder, 0, "--sessions", "0", "--log") as server:
        log_lines(server.end()[2], rf"opened port {server.port} bank right generation 2 tuples 1099 clients 2 next 1102 {BANK}",
                  rf"end cause sessions connections 0 deeds 0 tuples 1099 clients 2 next 1102 {BANK}")


def logs_of_a_start(folder):
    """A snapshot that is taken at a start has a line of its own, after the first one; a start without one has none."""
    with Server(folder) as server:
        peer = Peer(server.port, 7)
        for number in range(1, 31):
            equal(peer.ask(frames.out(number, "a", "x" * 4_000)), f"Stored number {number}, id {number}")
    for lines in ([r"opened port \d+ bank right generation 2 .*", rf"snapshot result taken milliseconds \d+ {BANK}"], [r"opened port \d+ bank right generation 2 .*"]):
        with Server(folder, 0, "--log", "--sessions", "0") as server:
            log_lines(server.end()[2], *lines, r"end cause sessions connections 0 .*")


def logs_of_a_failed_device(folder):
    """The file of the bank in use takes no more: the log says which bank that is."""
    for side, generation in (("left", 1), ("right", 2)):
        own = folder / side
        own.mkdir()
        (own / "left.bank").write_bytes(b"")
        (own / "right.bank").write_bytes(b"")
        (own / f"{side}.bank").write_bytes(banks.spell_bank(generation, banks.State()))
        with Server(own, 0, "--log", before=writes_fail_beyond(2000)) as server:
            send, receive = connection(server.port)
            send(frames.hello(7, True) + b"".join(frames.out(number, "a", "x" * 200) for number in range(1, 20)))
            while receive() != "Refused Down, detail 0":
                pass
            status, _, err = server.end()
            equal(status, 3)
        equal(err.splitlines()[-1], "store: down")
        log_lines(err.rsplit("\n", 2)[0], f"opened port {server.port} bank {side} generation {generation} .*",
                  rf"down deeds \d+ {BANK}", rf"failed bank {side} call write error File too large \(os error 27\)",
                  r"end cause device connections 1 .*")


def logs_of_a_bank_without_room(folder):
    """A bank of the first form that can have no snapshot, since no generation is left: what has no spelling in it is refused Full, which the log counts."""
    (folder / "left.bank").write_bytes(b"\1LND1" + frames.spell_number(2**64 - 1) + frames.spell_number(16, 4) + frames.spell_number(1) + bytes(9))
    (folder / "right.bank").write_bytes(b"\0")
    with Server(folder, 0, "--log", times=TIMES) as server:
        began, peer = time.monotonic(), Peer(server.port, 7)
        full = "Refused Full, detail 0"
        equal(peer.ask(frames.out(1, "x" * 256)), full)
        server.hears(" full records ")
        equal([peer.ask(frames.leave(1)), peer.ask(frames.out(1, "a")), peer.ask(frames.out(2, "x" * 300))], [full, "Stored number 1, id 1", full])
        is_in_first_minute(began)
        server.hears(" minute ")
        equal(peer.ask(frames.out(2, "x" * 256)), full)
        server.hears(" minute ")
        server.process.terminate()
        _, _, err = server.end()
    lines = [line for line in err.splitlines() if " snapshot " not in line]
    # (a record of its own: a gate, a length of 4 bytes, and a deed of 1, 4 and 8 bytes and the tuple, of 4 in the first form)
    bank = f"records 1 used {33 + 1 + 4 + 1 + 4 + 8 + 4} limit 1073741824"
    log_lines("\n".join(lines), f"opened port {server.port} bank left generation 18446744073709551615 tuples 0 clients 0 next 1 records 0 used 33 limit 1073741824",
              "full records 0 used 33 limit 1073741824",
              rf"minute connections 1 deeds 1 refused 3 unserved 0 tuples 1 clients 1 next 2 {bank} busy 0 toomany 0 greetings 0 malformed 0 late 0",
              rf"minute connections 1 deeds 0 refused 1 unserved 0 tuples 1 clients 1 next 2 {bank} busy 0 toomany 0 greetings 0 malformed 0 late 0")
    taken = [line for line in err.splitlines() if " snapshot " in line]
    equal([line for line in taken if not re.fullmatch(rf"{TIME} snapshot result full milliseconds \d+ {BANK}", line)], [])
    equal(len(taken) > 0, True)


def connections_want_no_room(folder):
    """In little room sixty connections are served, with no further thread, and nothing is logged."""
    with Server(folder, 0, "--log", before=lambda: most(resource.RLIMIT_AS, LITTLE_ROOM)) as server:
        peers = [Peer(server.port, 0)]
        # (it says that it is ready before all its own threads are begun)
        rest(server.process.pid)
        first = use_of(server.process.pid)
        peers += [Peer(server.port, number) for number in range(1, 60)]
        for number, peer in enumerate(peers, 1):
            equal(peer.ask(frames.out(1, "a")), f"Stored number 1, id {number}")
        now = use_of(server.process.pid)
        equal((now.threads, now.files), (first.threads, first.files + 59))
        for peer in peers:
            peer.close()
        wait_until(lambda: use_of(server.process.pid).files, first.files - 1)
        server.process.terminate()
        log_lines(server.end()[2], f"opened port {server.port} .*")


def logs_of_refusals(folder):
    """A line for each kind of refused client when it begins, and again only after a minute without one; and how many there were, once a minute. A number
    that is in use counts once it was asked for again and again for a second, and not if it was asked for now and then."""
    state = banks.State(6, {number: frames.spell_items("job", (number,)) for number in range(1, 6)}, {client: (1, ("Gone",)) for client in range(banks.CLIENTS)})
    (folder / "left.bank").write_bytes(banks.spell_bank(1, state))
    (folder / "right.bank").write_bytes(b"\0")
    status = free_port()
    with Server(folder, 0, "--log", "--status", status, "--lease", 1, times=TIMES) as server:
        held, hear = connection(server.port)
        held(frames.hello(7, False))
        equal(hear(), "Welcome last 1")
        # (five that hold a tuple and say no more are late)
        late = [Peer(server.port) for _ in range(5)]
        for number, peer in enumerate(late, 1):
            peer.send(frames.hello(100 + number, False), frames.ask(1, True, "job", number))
            equal([peer.hear(), peer.hear()], ["Welcome last 1", f'Offer ticket 1, id {number}, tuple ("job", {number})'])

        def counted():
            with urllib.request.urlopen(f"http://127.0.0.1:{status}/status.json", timeout=PATIENCE) as got:
                return json.load(got)["refusals_busy"]

        def asks_on():
            """Asks for the number that is in use until that is counted, which takes a second, or more if others keep it from asking often; returns how often it
            was counted."""
            send, receive = connection(server.port)
            before, since, is_counted = counted(), time.monotonic(), threading.Event()

            def ask():
                while not is_counted.is_set():
                    send(frames.hello(7, False))
                    equal(receive(), "Refused Busy, detail 0")

            with ThreadPoolExecutor(1) as other:
                asking = other.submit(ask)
                while counted() == before and not asking.done() and time.monotonic() < since + PATIENCE:
                    pass
                took = time.monotonic() - since
                is_counted.set()
                asking.result()
            assert took >= 1 / TIMES, "a number in use is counted within a second"
            return counted() - before

        def refused(reply, *messages, ends=False):
            send, receive = connection(server.port)
            send(b"".join(messages))
            equal([receive() for _ in messages], [reply] * len(messages))
            if ends:
                ended(receive)
            time.sleep(0.4 / TIMES)

        began = time.monotonic()
        for _ in range(3):
            refused("Refused Busy, detail 0", frames.hello(7, False))
        refused("Refused TooManyClients, detail 65536", *[frames.hello(70_000, True)] * 2)
        refused("Refused Known, detail 1", frames.hello(8, True))
        refused("Refused Version, detail 2", frames.frame(bytes([1, 1, 0, 0, 0, 9, 1])))
        refused("Refused NoHello, detail 0", *[frames.out(1, "a")] * 2)
        for _ in range(3):
            refused("Refused Malformed, detail 0", frames.frame(b""), ends=True)
        equal(counted(), 0)
        first = asks_on()
        is_in_first_minute(began)
        server.hears(" minute ")
        second = asks_on()
        server.hears(" minute ")
        asks_on()
        refused("Refused Malformed, detail 0", frames.frame(b""), ends=True)
        server.hears(" refused why malformed ")
        server.process.terminate()
        _, _, err = server.end()
    kept = rf"tuples 5 clients 65536 next 6 {BANK}"
    log_lines(err, f"opened port {server.port} bank left generation 1 .*", r"refused why toomany connections \d+",
              r"refused why greeting connections \d+", r"refused why malformed connections \d+", r"refused why busy connections \d+",
              rf"minute connections \d+ deeds 0 refused 0 unserved 0 {kept} busy {first} toomany 2 greetings 4 malformed 3 late 5",
              rf"minute connections \d+ deeds 0 refused 0 unserved 0 {kept} busy {second} toomany 0 greetings 0 malformed 0 late 0", r"refused why malformed connections \d+")


def logs_to_the_end(folder):
    """What happened just before the end is logged before the last line."""
    for _ in range(4):
        with Server(folder, 0, "--log", "--sessions", "1") as server:
            equal(Peer(server.port).ask(frames.frame(b"")), "Refused Malformed, detail 0")
            status, _, err = server.end()
        equal(status, 0)
        log_lines(err, f"opened port {server.port} .*", r"refused why malformed connections \d+", "end cause sessions connections 1 deeds 0 .*")


def logs_of_no_files(folder):
    """A connection for which no file is left waits, and each try for it is not one of the `--sessions`."""
    few = lambda: most(resource.RLIMIT_NOFILE, 16)
    with Server(folder, 0, "--log", "--sessions", "30", before=few) as server:
        held = [socket.create_connection(("127.0.0.1", server.port)) for _ in range(20)]
        server.hears(" limit lacks connection ")
        for one in held:
            one.close()
        Peer(server.port, 7).close()
        equal(server.process.poll(), None)
        server.process.terminate()
        log_lines(server.end()[2], f"opened port {server.port} .*", r"limit lacks connection connections \d+")
