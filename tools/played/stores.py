"""Checks of stores: damaged ones, one that a second server waits for, one that is put back, and a full one (dear: gigabytes)."""

import fcntl
import select
import shutil
import subprocess
import time

import client as frames
from played.calls import Call
from played.inspection import tuples_in
from played.lines import log_lines
from played.program import PATIENCE, PROGRAM, TOP, equal, run
from played.servers import Server


def refused_stores(folder):
    left, right = folder / "left.bank", folder / "right.bank"
    serve = "serve", "--port", 0, "--dir", folder
    with Server(folder) as server:
        equal(run(*serve), (3, "", "store: in use\n"))
        equal(run("serve", "--port", server.port, "--dir", folder), (3, "", "store: in use\n"))
    whole = left.read_bytes()
    equal(len(whole), 34)
    left.write_bytes(whole[:20])
    equal(run(*serve), (3, "", "store: damaged left 17\n"))
    left.write_bytes(bytes(2))
    equal(run(*serve), (3, "", "store: no store\n"))
    left.write_bytes(b"\0")
    right.write_bytes(whole[:20])
    equal(run(*serve), (3, "", "store: damaged right 17\n"))
    left.write_bytes(whole[:33] + b"\1")
    right.write_bytes(b"\0")
    equal(run(*serve), (3, "", "store: damaged left 33\n"))
    left.write_bytes(whole)
    right.write_bytes(whole)
    equal(run(*serve), (3, "", "store: damaged left 5\n"))
    right.unlink()
    left.write_bytes(b"")
    with Server(folder):
        # (the other file is as long as the bank)
        equal((left.read_bytes(), right.read_bytes()), (whole, bytes(34)))
    equal(run("serve", "--port", 0, "--dir", folder / "none")[0], 3)


def a_standby(folder):
    """With --wait a second server says that it waits, in its log only, and serves nobody. Once the first one was killed it serves, with all that was answered meanwhile."""
    words = [PROGRAM, "serve", "--port", "0", "--dir", folder, "--log"]
    server = Server(folder)
    equal(run("call", "--client", 1, server.port, given='out ("a", 1)\n'), (0, "1 stored 0 1\n", ""))
    waiting = subprocess.Popen([*words, "--wait"], stdout=subprocess.PIPE, stderr=subprocess.PIPE, text=True)
    try:
        log_lines(waiting.stderr.readline(), "waiting")
        equal(run(*words[1:]), (3, "", "store: in use\n"))
        equal(run("call", "--client", 1, "--again", server.port, given='out ("a", 2)\n'), (0, "1 stored 0 2\n", ""))
        equal(select.select([waiting.stdout, waiting.stderr], [], [], 1), ([], [], []))
        server.kill()
        line = waiting.stdout.readline()
        equal(line.startswith("ready "), True)
        port = line.split()[1]
        log_lines(waiting.stderr.readline(), f"opened port {port} bank left generation 1 tuples 2 clients 1 next 3 records 2 .*")
        equal(run("call", "--client", 2, port, given='sync in ("a", 1)\nsync in ("a", 2)\n'),
              (0, '2 took 0 1 ("a", 1) binds [] labels [] raised []\n2 took 0 2 ("a", 2) binds [] labels [] raised []\n', ""))
    finally:
        server.kill()
        waiting.kill()
        waiting.communicate()
    # It waits for the holder of either lock, and for nothing else: what is damaged is said at once.
    for name in ("left.bank", "right.bank"):
        with open(folder / name) as bank:
            fcntl.flock(bank, fcntl.LOCK_EX | fcntl.LOCK_NB)
            waiting = subprocess.Popen([*words, "--wait", "--sessions", "0"], stdout=subprocess.PIPE, stderr=subprocess.PIPE, text=True)
            log_lines(waiting.stderr.readline(), "waiting")
            time.sleep(0.3)
            equal(waiting.poll(), None)
        out, _ = waiting.communicate(timeout=PATIENCE)
        equal((waiting.returncode, out.startswith("ready ")), (0, True))
    (folder / "left.bank").write_bytes(bytes(2))
    equal(run(*words[1:], "--wait"), (3, "", "store: no store\n"))


def a_store_that_is_put_back(folder):
    """A server that goes on from an older copy of its store is not taken for the one before."""
    store, copy = folder / "store", folder / "copy"
    store.mkdir()
    server = Server(store)
    caller = Call(9, server.port)
    equal(caller.ask('out ("a", 1)'), "9 stored 0 1")
    subprocess.run([TOP / "examples/backup.sh", store, copy], check=True, capture_output=True)
    equal(caller.ask('out ("a", 2)'), "9 stored 0 2")
    server.kill()
    shutil.rmtree(store)
    shutil.copytree(copy, store)
    with Server(store, server.port):
        caller.say('out ("a", 3)')
        equal(caller.end(), (3, "", "server 0: restored\n"))
    equal(tuples_in(store), ['tuple 1 ("a", 1) free'])


MOST_BYTES, LETTERS = 2**30, 4_000
ROOM = 40_000
TAKES = 1_200


def full_bank(room):
    """A bank of the second form whose snapshot leaves about `room` bytes of what a bank may have: tuples ("x", so many letters), and one client."""
    row = frames.spell_items("x", ("y" * LETTERS,))
    count = (MOST_BYTES - room - 100) // (8 + len(row))
    snapshot = bytearray(frames.spell_number(count + 1) + frames.spell_number(count, 4))
    for place in range(1, count + 1):
        snapshot += frames.spell_number(place)
        snapshot += row
    snapshot += frames.spell_number(1, 4) + frames.spell_number(3, 4) + frames.spell_number(count) + b"\1" + frames.spell_number(count)
    return b"\1LND2" + frames.spell_number(1) + frames.spell_number(len(snapshot), 4) + bytes(snapshot) + b"\0", count


def a_full_store(folder):
    """A store whose banks have no room for one tuple more, and few records since the last snapshot: what is taken makes room again. It takes 2 GB of disk and some of memory."""
    bank, count = full_bank(ROOM)
    (folder / "left.bank").write_bytes(bank)
    (folder / "right.bank").write_bytes(b"\0")
    del bank
    with Server(folder, 0, "--log") as server:
        send, receive = frames.connect(server.port)
        number = 0

        def ask(data):
            send(data)
            return receive()

        def done(message):
            """Asks until it is done; how often it was refused Full, and the reply."""
            until = time.monotonic() + 2 * PATIENCE
            for tries in range(10**9):
                reply = ask(message)
                if reply != ("Refused", {"code": 6, "detail": 0}):
                    return tries, reply
                if time.monotonic() > until:
                    raise AssertionError(f"{number} messages were done, and then all were refused Full for {2 * PATIENCE} s")
                time.sleep(0.1)

        equal(ask(frames.hello(1, True)), ("Welcome", {"last": 0}))
        put = lambda: frames.out(number + 1, "x", "y" * LETTERS)
        while (reply := ask(put())) != ("Refused", {"code": 6, "detail": 0}):
            number += 1
            equal(reply, ("Stored", {"number": number, "id": count + number}))
        equal(number < 100, True)
        puts, began, waited = number, time.monotonic(), 0
        for ticket in range(1, TAKES + 1):
            send(frames.ask(ticket, True, "x", frames.TEXT))
            name, offer = receive()
            equal((name, offer["id"]), ("Offer", ticket))
            tries, (name, parts) = done(frames.accept(number + 1, ticket, ticket))
            equal((name, parts["id"]), ("Taken", ticket))
            number, waited = number + 1, waited + tries
        for more in range(1, TAKES // 2):
            tries, reply = done(put())
            number, waited = number + 1, waited + tries
            equal(reply, ("Stored", {"number": number, "id": count + puts + more}))
        print(f"{count} tuples, {puts} more until it was full; then {TAKES} takes and {TAKES // 2 - 1} puts in {time.monotonic() - began:.0f} s, {waited} times refused Full meanwhile")
