"""Checks of snapshots: when a server takes one, its steps, and a copy of the banks meanwhile."""

import json
import os
import re
import subprocess
import time
import urllib.request

import banks
import client as frames
from played.inspection import bank_of, records_in, tuples_in
from played.peers import Peer, puts
from played.program import PATIENCE, TOP, equal, wait_until
from played.servers import SNAPSHOT_RECORDS, Server, free_port


def snapshots_of_a_server(folder):
    """After as many records as make one due a snapshot is taken, and the other bank is in use, with few records."""
    with Server(folder) as server:
        puts(server.port, 7, 1100)
        wait_until(lambda: records_in(folder)[0], 2)
        equal(records_in(folder)[1] < 1000, True)
        equal(len(tuples_in(folder)), 1100)


def a_snapshot_is_put_off(folder):
    """A start gives back the room of a snapshot that was cut off in a file that is shorter than the bank; and the next snapshot, though there are records enough, waits for half as many bytes of
    records."""
    with Server(folder) as server:
        puts(server.port, 7, 1_023)
    equal(records_in(folder), (1, 1_023))
    (folder / "right.bank").write_bytes(bytes(10_000))
    with Server(folder) as server:
        peer, number, (_, size) = Peer(server.port, 8), 0, bank_of(folder, "left")
        # (what is left of it is closed gates, and the file is as long as the bank)
        equal((folder / "right.bank").read_bytes() == bytes(size + 1), True)
        while (more := bank_of(folder, "left")[1] - size) < 4_000:
            for number in range(number + 1, number + 11):
                equal(peer.ask(frames.out(number, "b", number)), f"Stored number {number}, id {1_023 + number}")
        # (ten looks of the thread that takes snapshots)
        time.sleep(1)
        equal(("a snapshot was taken after bytes", more, records_in(folder)), ("a snapshot was taken after bytes", more, (1, 1_023 + number)))
        for number in range(number + 1, number + 101):
            equal(peer.ask(frames.out(number, "b", number)), f"Stored number {number}, id {1_023 + number}")
        wait_until(lambda: records_in(folder)[0], 2)


# Copies the first of two files, and the second once it may.
SLOW_CP = """#!/bin/sh
/bin/cp "$1" "$3"
if [ ! -e '{folder}/begun' ]; then
    touch '{folder}/begun'
    while [ ! -e '{folder}/go' ]; do sleep 0.01; done
fi
/bin/cp "$2" "$3"
"""


def a_copy_while_banks_change(folder):
    """A copy by examples/backup.sh is made anew if the server goes over to its other bank after the first file was copied; it has all that was answered."""
    space, copy, slow = (folder / name for name in ("space", "copy", "slow"))
    for it in (space, slow):
        it.mkdir()
    (space / "left.bank").write_bytes(b"\0")
    (space / "right.bank").write_bytes(banks.spell_bank(2, banks.State()))
    (slow / "cp").write_text(SLOW_CP.format(folder=folder))
    (slow / "cp").chmod(0o755)
    with Server(space) as server:
        puts(server.port, 7, 10)
        copying = subprocess.Popen([TOP / "examples/backup.sh", space, copy], env={**os.environ, "PATH": f"{slow}:{os.environ['PATH']}"}, stderr=subprocess.PIPE, text=True)
        try:
            wait_until((folder / "begun").exists, True)
            peer = Peer(server.port, 8)
            for number in range(1, SNAPSHOT_RECORDS + 76):
                equal(peer.ask(frames.out(number, "b")), f"Stored number {number}, id {10 + number}")
            wait_until(lambda: records_in(space)[0], 3)
        finally:
            (folder / "go").touch()
            _, err = copying.communicate(timeout=PATIENCE)
        equal((copying.returncode, err), (0, "backup: the server went over to its other bank, so once more\n"))
        equal(len(tuples_in(copy)), 10 + SNAPSHOT_RECORDS + 75)


SLOW_MV = """#!/bin/sh
touch '{folder}/moves'
while [ ! -e '{folder}/move' ]; do sleep 0.01; done
exec /bin/mv "$@"
"""


def copies_to_one_place(folder):
    """Of two copies by examples/backup.sh to one place at once the first to end is whole there; the other ends with 1, and leaves nothing."""
    space, copy, moves, copies = (folder / name for name in ("space", "copy", "slow mv", "slow cp"))
    for it, name, text in ((moves, "mv", SLOW_MV), (copies, "cp", SLOW_CP)):
        it.mkdir()
        (it / name).write_text(text.format(folder=folder))
        (it / name).chmod(0o755)
    space.mkdir()

    def begin(first):
        return subprocess.Popen([TOP / "examples/backup.sh", space, copy], env={**os.environ, "PATH": f"{first}:{os.environ['PATH']}"}, stderr=subprocess.PIPE, text=True)

    with Server(space) as server:
        puts(server.port, 7, 10)
        one = begin(moves)
        wait_until((folder / "moves").exists, True)
        other = begin(copies)
        wait_until((folder / "begun").exists, True)
        (folder / "move").touch()
        found = one.communicate(timeout=PATIENCE), one.returncode, sorted(it.name for it in copy.iterdir())
        (folder / "go").touch()
        other.communicate(timeout=PATIENCE)
    equal(found, ((None, ""), 0, ["left.bank", "right.bank"]))
    equal((other.returncode, len(tuples_in(copy)), list(folder.glob("copy.*"))), (1, 10, []))


# Says of each file whether the copy was there by its sync.
NOTED_SYNC = """#!/bin/sh
for it; do
    if [ -e '{folder}/copy' ]; then echo "after $it"; else echo "before $it"; fi
done >>'{folder}/synced'
exec /bin/sync "$@"
"""


def a_copy_is_synced_and_private(folder):
    """Of a copy by examples/backup.sh both files and their folder are synced before it has its name, and the folder above it afterwards; nobody else may
    enter its folder or read its files, whatever whoever made it lets others do."""
    space, copy, syncs = (folder / name for name in ("space", "copy", "syncs"))
    for it in (space, syncs):
        it.mkdir()
    (syncs / "sync").write_text(NOTED_SYNC.format(folder=folder))
    (syncs / "sync").chmod(0o755)
    with Server(space) as server:
        puts(server.port, 7, 10)
        for bank in space.iterdir():
            bank.chmod(0o666)
        subprocess.run([TOP / "examples/backup.sh", space, copy], env={**os.environ, "PATH": f"{syncs}:{os.environ['PATH']}"}, umask=0, check=True)
    synced = re.sub(r"copy\.part\.\w+", "part", (folder / "synced").read_text()).splitlines() if (folder / "synced").exists() else []
    equal(synced, [*(f"before {folder}/part{name}" for name in ("/left.bank", "/right.bank", "")), f"after {folder}"])
    equal([(it.name, oct(it.stat().st_mode & 0o077)) for it in sorted([copy, *copy.iterdir()])], [(name, "0o0") for name in ("copy", "left.bank", "right.bank")])


def snapshots_in_steps(folder):
    """A bank of more than 256 KiB has its snapshot in steps, while tuples are put: one comes, and then the next one. Each time the server counts as many
    records as the bank has, and every tuple is there."""
    status, done = free_port(), 0

    def counted():
        with urllib.request.urlopen(f"http://127.0.0.1:{status}/status.json", timeout=PATIENCE) as got:
            return json.load(got)["records"]

    with Server(folder, 0, "--status", status) as server:
        peer = Peer(server.port, 7)
        for generation in (2, 3):
            before = done
            while records_in(folder)[0] < generation:
                # (5,000 at least, in a record for each four of them, or for fewer)
                equal(done - before < 40_000, True)
                for _ in range(250):
                    places = range(done + 1, done + 5)
                    peer.send(*(frames.out(place, "a", place, "letters" * 15) for place in places))
                    equal([peer.hear() for _ in places], [f"Stored number {place}, id {place}" for place in places])
                    done += len(places)
            equal(done - before >= 2_500, True)
            equal(records_in(folder), (generation, counted()))
            equal(len(tuples_in(folder)), done)
