"""Checks of unix sockets: servers and calls at them, their modes and users, and what else may be at their paths."""

import os
import re
import select
import socket
import stat
import subprocess
import sys
import time
from pathlib import Path

import client as frames
from played.calls import Call
from played.inspection import tuples_in
from played.lines import BANK, TIME, log_lines
from played.peers import Peer, again, connected_to
from played.program import PATIENCE, equal, refused_as_words, run, wait_until
from played.servers import Server


def listed(folder):
    return sorted(path.name for path in folder.iterdir())


def is_left(path):
    """Checks that a unix socket is there, and that nobody listens on it."""
    equal(stat.S_ISSOCK(path.lstat().st_mode), True)
    try:
        connected_to(path).close()
        raise AssertionError(f"{path} takes connections")
    except ConnectionRefusedError:
        pass


def tcp_sockets_of(process):
    """The sockets of a process that are of TCP."""
    place = Path(f"/proc/{process}")
    own = {os.readlink(it) for it in (place / "fd").iterdir()}
    rows = [line.split() for line in (place / "net/tcp").read_text().splitlines()[1:]]
    return [row[1] for row in rows if f"socket:[{row[9]}]" in own]


def serves_at_a_socket(folder):
    """A server at only a socket, and one that has a port too: what is printed, what clients of both see of each other, and that the file is gone at the end."""
    path, store = folder / "s", folder / "store"
    store.mkdir()
    with Server(store, None, "--socket", path, "--sessions", 2, "--log") as server:
        equal(server.place, str(path))
        equal(listed(folder), ["s", "store"])
        equal(tcp_sockets_of(server.process.pid), [])
        one, two = Peer(path, 1), Peer(path, 2)
        equal(one.ask(frames.out(1, "a", 3)), "Stored number 1, id 1")
        equal(two.ask(frames.ask(1, True, "a", 3)), 'Offer ticket 1, id 1, tuple ("a", 3)')
        one.close()
        two.close()
        status, out, err = server.end()
        equal((status, out), (0, ""))
        log_lines(err, rf"opened port none bank left generation 1 tuples 0 clients 0 next 1 {BANK} socket {re.escape(str(path))}",
                  rf"end cause sessions connections 2 deeds 1 tuples 1 clients 1 next 2 {BANK}")
    equal(listed(folder), ["store"])
    with Server(store, 0, "--socket", path, "--sessions", 2, "--log") as server:
        one, two = Peer(server.port, 3), Peer(path, 4)
        equal(one.ask(frames.out(1, "b")), "Stored number 1, id 2")
        equal(two.ask(frames.ask(1, True, "b")), 'Offer ticket 1, id 2, tuple ("b")')
        equal(two.ask(frames.accept(1, 1, 2)), 'Taken number 1, id 2, tuple ("b")')
        one.close()
        two.close()
        status, out, err = server.end()
        equal((status, out), (0, ""))
        equal(bool(re.match(rf"{TIME} opened port {server.port} bank .* socket {re.escape(str(path))}\n", err)), True)
    equal(listed(folder), ["store"])


def modes_of_a_socket(folder):
    """Its mode is the one that is asked for, whatever the umask, and 600 if none is."""
    path = folder / "s"
    for umask in (0, 0o22, 0o777):
        for words, mode in (((), 0o600), (("--mode", "660"), 0o660), (("--mode", "666"), 0o666), (("--mode", "020"), 0o020)):
            store = folder / f"store{umask}{mode}"
            store.mkdir()
            with Server(store, None, "--socket", path, *words, "--sessions", 0, before=lambda: os.umask(umask)) as server:
                # (it may end at once, and takes its socket with it)
                try:
                    found = path.lstat().st_mode
                except FileNotFoundError:
                    found = None
                equal(server.end()[0], 0)
            equal((umask, words, found is None or stat.S_IMODE(found) == mode), (umask, words, True))
            equal(path.exists(), False)
    store = folder / "more"
    store.mkdir()
    with Server(store, None, "--socket", path, "--mode", "660", before=lambda: os.umask(0)):
        equal(oct(path.lstat().st_mode), oct(stat.S_IFSOCK | 0o660))
    path.unlink()
    with Server(store, None, "--socket", path, before=lambda: os.umask(0)):
        equal(oct(path.lstat().st_mode), oct(stat.S_IFSOCK | 0o600))
    for words in [["--mode", "8"], ["--mode", "0600"], ["--mode", "689"], ["--mode", "-60"], ["--mode", "+60"], ["--mode", ""], ["--socket", path]]:
        refused_as_words("serve", "--dir", folder, "--socket", path, *words)
    refused_as_words("serve", "--dir", folder, "--port", 0, "--mode", "600")
    refused_as_words("serve", "--dir", folder, "--socket", "")


# Connects again and again, as another user, to these paths, until its input ends; says when it could first, and how often it could.
KNOCKS = """
import os, select, socket, sys
count = 0
os.setgid(65534)
os.setuid(65534)
print("begun", flush=True)
while not select.select([0], [], [], 0)[0]:
    for path in sys.argv[1:]:
        with socket.socket(socket.AF_UNIX) as it:
            it.setblocking(False)
            try:
                it.connect(path)
                count += 1
                if count == 1:
                    print("in", flush=True)
            except OSError:
                pass
print(count)
"""


def knocked(paths, work):
    """How often another user could connect to one of the paths while this is done, which is given the process that tries to."""
    process = subprocess.Popen([sys.executable, "-c", KNOCKS, *map(str, paths)], stdin=subprocess.PIPE, stdout=subprocess.PIPE, text=True)
    equal(process.stdout.readline(), "begun\n")
    work(process)
    out, _ = process.communicate("", timeout=PATIENCE)
    return int(out.split()[-1])


def users_of_a_socket(folder):
    """Another user connects if the mode lets it, and else never, also while the socket is made under a umask that hides nothing. Only root can see to that."""
    if os.geteuid() != 0:
        return
    for place in (folder, folder.parent):
        if place.stat().st_uid == 0 and place != Path("/tmp"):
            place.chmod(0o755)
    path, store = folder / "s", folder / "store"
    store.mkdir()
    paths = [path, *[f"{path}.{number}/s" for number in range(3)]]

    def serve(*words):
        for _ in range(20):
            with Server(store, None, "--socket", path, *words, before=lambda: os.umask(0)):
                time.sleep(0.02)

    def serve_until_in(process):
        with Server(store, None, "--socket", path, "--mode", "606", before=lambda: os.umask(0)):
            select.select([process.stdout], [], [], PATIENCE)

    equal(knocked(paths, lambda _: serve()), 0)
    equal(knocked(paths, serve_until_in) > 0, True)
    equal(knocked(paths, lambda _: serve("--mode", "660")), 0)


def sockets_that_are_left(folder):
    """One that is left of a server that was killed is replaced; one in use is refused, as a port in use is, and stays in use."""
    path, store, other = folder / "s", folder / "store", folder / "other"
    store.mkdir()
    other.mkdir()
    for client in range(1, 4):
        with Server(store, None, "--socket", path) as server:
            Peer(path, client).close()
            for words in ([], ["--port", 0]):
                equal(run("serve", "--dir", other, "--socket", path, *words), (3, "", "io\n"))
            equal(run("serve", "--dir", store, "--socket", path), (3, "", "store: in use\n"))
            equal(again(path, client)[1], "Welcome last 0")
        is_left(path)
    equal(listed(folder), ["other", "s", "store"])
    # Also one in use that takes no connection now: its queue is full.
    path.unlink()
    with socket.socket(socket.AF_UNIX) as full:
        full.bind(str(path))
        full.listen(0)
        waits = []
        for _ in range(3):
            one = socket.socket(socket.AF_UNIX)
            one.setblocking(False)
            try:
                one.connect(str(path))
            except BlockingIOError:
                pass
            waits.append(one)
        equal(run("serve", "--dir", other, "--socket", path), (3, "", "io\n"))
        for one in waits:
            one.close()
    equal(run("serve", "--dir", other, "--socket", path, "--sessions", 0), (0, f"ready {path}\n", ""))
    # Folders that were left while sockets were made.
    for number in range(3):
        (folder / f"s.{number}").mkdir()
    equal(run("serve", "--dir", other, "--socket", path, "--sessions", 0), (0, f"ready {path}\n", ""))
    equal(listed(folder), ["other", "s.0", "s.1", "s.2", "store"])


def paths_that_are_no_sockets(folder):
    """What is at the path and is no socket stays as it is, and the server is refused; so is a path that is too long, or in no folder."""
    store, other = folder / "store", folder / "other"
    store.mkdir()
    serve = "serve", "--dir", store, "--sessions", 0, "--socket"
    live = folder / "live"
    with socket.socket(socket.AF_UNIX) as listening:
        listening.bind(str(live))
        listening.listen()
        for kind in ("file", "folder", "pipe", "link", "link to a socket"):
            path = folder / "path"
            if kind == "file":
                path.write_bytes(b"kept")
            elif kind == "folder":
                path.mkdir()
            elif kind == "pipe":
                os.mkfifo(path)
            elif kind == "link":
                path.symlink_to(folder / "nothing")
            else:
                path.symlink_to(live)
            look = path.lstat()
            equal((kind, run(*serve, path)), (kind, (3, "", "io\n")))
            after = path.lstat()
            equal((kind, after.st_ino, after.st_mode, after.st_size), (kind, look.st_ino, look.st_mode, look.st_size))
            path.rmdir() if kind == "folder" else path.unlink()
    equal(run(*serve, folder / "none" / "s"), (3, "", "io\n"))
    equal(run(*serve, folder / ("s" * 104)), (3, "", "io\n"))
    equal(run(*serve, "/dev/null/s"), (3, "", "io\n"))
    equal(listed(folder), ["live", "store"])
    short = os.path.relpath(folder / "s")
    if len(short) < 100:
        equal(run(*serve, short), (0, f"ready {short}\n", ""))


def clients_at_a_socket(folder):
    """Clients over a socket beside others over a port of the same server: each has its answers, and no tuple is taken twice."""
    path = folder / "s"
    with Server(folder, 0, "--socket", path) as server:
        peers = [Peer(path if number % 2 else server.port, number) for number in range(1, 101)]
        for number, peer in enumerate(peers, 1):
            peer.send(*[frames.out(count, "a", number, count) for count in range(1, 21)])
        for number, peer in enumerate(peers, 1):
            equal([peer.hear().partition(",")[0] for _ in range(20)], [f"Stored number {count}" for count in range(1, 21)])
        for peer in peers[:50]:
            peer.close()
        late = Peer(path, 1_000)
        equal(late.ask(frames.ask(1, True, "a", 7, 3)).partition(",")[0], "Offer ticket 1")
        for peer in peers[50:]:
            peer.close()
        late.close()
    equal(len(tuples_in(folder)), 2_000)


def calls_at_a_socket(folder):
    """`call` over a socket: what it prints is what it prints over a port. It goes on past a kill of its server, and a second life of it does past its own."""
    path, store = folder / "s", folder / "store"
    store.mkdir()
    with Server(store, None, "--socket", path) as server:
        equal(run("call", "--client", 1, "--socket", path, given='out ("a", 3)\nsync in ("a", ?i)\nlast\nout ("b"\n'),
              (4, '1 stored 0 1\n1 took 0 1 ("a", 3) binds [3] labels [] raised []\nserver 0 client 1 2 taken 1 ("a", 3)\n', "line 4: not a command\n"))
        equal(run("call", "--client", 1, "--socket", path), (3, "", "server 0: refused 2 2\n"))
        caller = Call(2, f"--socket={path}")
        equal(caller.ask('out ("job", 1)'), "2 stored 0 2")
        server.kill()
        with Server(store, 0, "--socket", path) as later:
            equal(caller.ask('sync in ("job", ?i)'), '2 took 0 2 ("job", 1) binds [1] labels [] raised []')
            caller.process.kill()
            caller.end()
            wait_until(lambda: run("call", "--client", 2, "--again", "--socket", path, given="last\n"), (0, 'server 0 client 2 2 taken 2 ("job", 1)\n', ""))
            # The same server at its port.
            wait_until(lambda: run("call", "--client", 2, "--again", later.port, given="last\n"), (0, 'server 0 client 2 2 taken 2 ("job", 1)\n', ""))


def calls_at_two_sockets(folder):
    """Servers are numbered by the order of their sockets."""
    for name in ("a", "b"):
        (folder / name).mkdir()
    one, two = folder / "s", folder / "t"
    with Server(folder / "a", None, "--socket", one), Server(folder / "b", None, "--socket", two):
        caller = Call(7, "--socket", one, "--socket", two)
        equal(caller.ask('out ("a", 1)'), "7 stored 1 1")
        equal(caller.ask('out ("b", 2)'), "7 stored 0 1")
        equal(caller.ask('sync choose [nack 1 wrap 5 in ("b", ?i), nack 2 rd ("c"), alarm 60000]'),
              '7 took 0 1 ("b", 2) binds [2] labels [5] raised [2]')
        equal(caller.ask('sync rd ("a", ?i)'), '7 read 1 1 ("a", 1) binds [1] labels [] raised []')
        equal(caller.end(), (0, "", ""))
    equal([len(tuples_in(folder / name)) for name in ("a", "b")], [0, 1])


def calls_at_no_socket(folder):
    """If nobody listens `call` ends as at a port: at no file, a file, a folder, a socket that is left, a path that is too long. Command lines with
    wrong sockets are refused."""
    served, left, plain, store, other = (folder / name for name in ("served", "left", "plain", "store", "other"))
    store.mkdir()
    other.mkdir()
    plain.write_bytes(b"kept")
    with Server(other, None, "--socket", left):
        pass
    is_left(left)
    with Server(store, None, "--socket", served):
        paths = [folder / "none", folder / "none" / "s", left, plain, store, folder / ("s" * 110)]
        begun = [Call(1, "--socket", path) for path in paths] + [Call(2, "--socket", served, "--socket", left)]
        for path, caller in zip(paths, begun):
            equal((path, caller.end()), (path, (3, "", "server 0: no connection\n")))
        equal(begun[-1].end(), (3, "", "server 1: no connection\n"))
        equal(run("call", "--client", 3, "--socket", served, given='out ("a")\n'), (0, "3 stored 0 1\n", ""))
    equal(plain.read_bytes(), b"kept")
    for words in [["--socket"], ["--socket", ""], ["--socket", served, 7000], ["--socket", served, "--mode", "600"], [f"--socket={served}", "--", 7000],
                  ["--socket", served] * 17]:
        refused_as_words("call", "--client", 1, *words)
    refused_as_words("call", "--socket", served)
