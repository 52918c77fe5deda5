"""Checks of the files of banks: no files, links, their locks, the old form, and one that is begun anew while it is read."""

import fcntl
import os
import re
import signal
import socket
import stat
import subprocess
import time
from pathlib import Path

import banks
import client as frames
from played.inspection import JOBS, tuples_in
from played.peers import connection
from played.program import BUILT, PATIENCE, equal, run
from played.servers import Server
from played.streams import begin_closed, end_closed

STRANGE = ["fifo", "device", "link to a device", "link to a fifo", "folder", "socket", "hard link to the other", "link to the other", "link to nothing", "link to nothing in no folder"]


def look_of(path):
    """What is at the path, without opening what is no file."""
    found = path.lstat()
    return found.st_mode, found.st_ino, os.readlink(path) if path.is_symlink() else path.read_bytes() if stat.S_ISREG(found.st_mode) else b""


def looks_in(folder):
    return {path.name: look_of(path) for path in sorted(folder.iterdir())}


def make_strange(kind, path, other):
    """Makes something in the place of a bank, for which the other bank may be needed; returns whether it could be made."""
    try:
        if kind == "fifo":
            os.mkfifo(path)
        elif kind == "device":
            os.mknod(path, 0o666 | stat.S_IFCHR, os.makedev(1, 3))
        elif kind == "link to a device":
            path.symlink_to("/dev/null")
        elif kind == "link to a fifo":
            os.mkfifo(path.with_name("pipe"))
            path.symlink_to("pipe")
        elif kind == "folder":
            path.mkdir()
        elif kind == "socket":
            socket.socket(socket.AF_UNIX).bind(os.path.relpath(path))
        elif kind == "hard link to the other":
            os.link(other, path)
        elif kind == "link to the other":
            path.symlink_to(other.name)
        elif kind == "link to nothing":
            path.symlink_to("nothing")
        elif kind == "link to nothing in no folder":
            path.symlink_to("nowhere/nothing")
    except PermissionError:
        return False
    return True


def banks_that_are_no_files(folder):
    """Both commands end at once, with `store: disk`, and change nothing; if the other bank is missing, `serve` may make an empty file of it, which is the same
    to all."""
    whole = folder / "whole"
    whole.mkdir()
    with Server(whole) as server:
        equal(run("call", "--client", 1, server.port, given='out ("job", 1)\n')[0], 0)
    images = {side: (whole / f"{side}.bank").read_bytes() for side in ("left", "right")}
    for kind in STRANGE:
        for side, opposite in (("left", "right"), ("right", "left")):
            for is_new in ((False, True) if "the other" not in kind else (False,)):
                own = folder / f"{kind} {side} {is_new}"
                own.mkdir()
                path, other = own / f"{side}.bank", own / f"{opposite}.bank"
                if not is_new:
                    other.write_bytes(images["left" if "the other" in kind else opposite])
                if not make_strange(kind, path, other):
                    continue
                before = looks_in(own)
                for words in (["inspect", own], ["serve", "--port", 0, "--dir", own, "--sessions", 0]):
                    what = (kind, side, "a new folder" if is_new else "an old one", words[0])
                    status, _, err = end_closed(begin_closed(set(), *words))
                    after = looks_in(own)
                    if words[0] == "serve" and other.name not in before and other.is_file() and other.stat().st_size == 0:
                        del after[other.name]
                        other.unlink()
                    equal((what, status, err, after), (what, 3, "store: disk\n", before))


def banks_that_are_links(folder):
    """A bank may be a link to a file elsewhere."""
    store, elsewhere = folder / "store", folder / "elsewhere"
    store.mkdir()
    elsewhere.mkdir()
    with Server(store) as server:
        equal(run("call", "--client", 1, server.port, given='out ("job", 1)\n')[0], 0)
    for side in ("left", "right"):
        (store / f"{side}.bank").rename(elsewhere / side)
        (store / f"{side}.bank").symlink_to(elsewhere / side)
    with Server(store) as server:
        equal(run("call", "--client", 2, server.port, given='sync rd ("job", 1)\nout ("job", 2)\n'),
              (0, '2 read 0 1 ("job", 1) binds [] labels [] raised []\n2 stored 0 2\n', ""))
    equal(tuples_in(store), JOBS[:2])


def locks_of_both_banks(folder):
    """While a folder is served nobody else gets the lock of either file; and while somebody has either lock the folder is not served."""
    banks_of_it = folder / "left.bank", folder / "right.bank"
    with Server(folder):
        for path in banks_of_it:
            with open(path) as bank:
                try:
                    fcntl.flock(bank, fcntl.LOCK_EX | fcntl.LOCK_NB)
                except BlockingIOError:
                    continue
                raise AssertionError(f"{path.name} is not locked")
    for path in banks_of_it:
        with open(path) as bank:
            fcntl.flock(bank, fcntl.LOCK_EX | fcntl.LOCK_NB)
            equal(run("serve", "--port", 0, "--dir", folder), (3, "", "store: in use\n"))
    equal(run("serve", "--port", 0, "--dir", folder, "--sessions", 0)[0], 0)


def a_leave_in_an_old_bank(folder):
    """A bank of the first form has no spelling for it. A server leaves that form soon, so a refusal comes only at the start, if at all."""
    left = b"\1LND1" + bytes([0, 0, 0, 0, 0, 0, 0, 1, 0, 0, 0, 16, 0, 0, 0, 0, 0, 0, 0, 1]) + bytes(9)
    (folder / "left.bank").write_bytes(left)
    (folder / "right.bank").write_bytes(b"\0")
    with Server(folder) as server:
        send, receive = connection(server.port)
        send(frames.hello(7, True))
        equal(receive(), "Welcome last 0")
        for _ in range(200):
            send(frames.leave(1))
            if (reply := receive()) != "Refused Full, detail 0":
                break
            time.sleep(0.05)
        equal(reply, "Left number 1")
    equal(run("inspect", folder, "--clients")[1].splitlines()[-1], "client 7 1 left")


def a_bank_begun_anew_meanwhile(folder):
    """A bank that is begun anew while it is read is read again: the report is of one bank, and not of the front of one and the rest of another."""
    def bank(generation, letter):
        row = frames.spell_items("big", (letter * 4_000,))
        return banks.spell_bank(generation, banks.State(100_000, {generation * 5_000 + at: row for at in range(count)}))

    def place_in(process):
        """How far the process has read the bank."""
        try:
            for path in Path(f"/proc/{process.pid}/fd").iterdir():
                if os.readlink(path).endswith("left.bank"):
                    return int(re.search(r"^pos:\s*(\d+)", Path(f"/proc/{process.pid}/fdinfo/{path.name}").read_text(), re.MULTILINE)[1])
        except OSError:
            pass
        return 0

    # (on a busy machine it may have read all before it is met)
    count, met, until = 4_000, 0, time.monotonic() + 2 * PATIENCE
    left, old, new = folder / "left.bank", bank(1, "x"), bank(3, "y")
    (folder / "right.bank").write_bytes(b"\0")
    while met < 3:
        equal(time.monotonic() < until or ("met while it read", met), True)
        left.write_bytes(old)
        process = subprocess.Popen([BUILT, "inspect", folder], stdout=subprocess.PIPE, stderr=subprocess.PIPE, text=True)
        while process.poll() is None and place_in(process) < 100_000:
            pass
        process.send_signal(signal.SIGSTOP)
        if is_between := 0 < place_in(process) < len(old):
            with open(left, "r+b") as file:
                file.write(new)
        process.send_signal(signal.SIGCONT)
        out, err = process.communicate(timeout=PATIENCE)
        equal((process.returncode, err), (0, ""))
        if is_between:
            met += 1
            equal(out.splitlines()[0], f"left LND2 generation 3 bytes {len(new)}")


def banks_that_are_replaced(folder):
    """A server whose file is removed, moved or replaced goes down, whatever other names the file has: it would write where nobody looks."""
    def remove(bank):
        bank.unlink()

    def move(bank):
        bank.parent.rename(bank.parent.with_name(f"{bank.parent.name}, moved"))

    def replace(bank):
        (other := bank.with_name("other")).write_bytes(bank.read_bytes())
        other.rename(bank)

    def link(bank):
        bank.with_name("second name").hardlink_to(bank)
        bank.unlink()

    for way in (remove, move, replace, link):
        for side in ("left", "right"):
            own = folder / f"{way.__name__} {side}"
            own.mkdir()
            with Server(own, 0, "--log") as server:
                send, receive = connection(server.port)
                send(frames.hello(1, True) + frames.out(1, "a"))
                equal([receive(), receive()], ["Welcome last 0", "Stored number 1, id 1"])
                way(own / f"{side}.bank")
                status, _, err = server.end()
            lines = [line for line in err.splitlines() if " removed " in line]
            # (a folder that is moved has neither bank: the left one is said)
            equal((status, [line.split(" ", 1)[1] for line in lines]), (3, [f"removed bank {'left' if way is move else side}"]))
            equal(err.splitlines()[-1], "store: down")
