"""Checks of leases: clients that hold a tuple and say nothing."""

import contextlib
import select
import signal
import subprocess
import sys
import time
from pathlib import Path

import client as frames
from played.peers import Peer, again, keys_that_are_free
from played.program import PATIENCE, TOP, Late, equal, run, wait_until
from played.servers import Server, many_files

# The seconds of a server's lease, and those until a connection must have ended.
LEASE, LATE = 1, 10
# The seconds after its lease in which a client is ended, at most: as docs/COMMANDS.md says.
MORE = 3


def ends_after(peer, began):
    """Checks that the server ends the connection within LATE seconds, and sends nothing before that; returns how long after `began` it was, which is before the lease began."""
    peer.stream.settimeout(LATE)
    peer.end_comes()
    return time.monotonic() - began


@contextlib.contextmanager
def within(lease):
    """What is done in this block is well if it takes no longer than a lease."""
    began = time.monotonic()
    try:
        yield
    except (AssertionError, OSError) as fault:
        if (took := time.monotonic() - began) > 0.9 * lease:
            raise Late(f"what is to be done within {lease} s took {took:.2f} s ({fault})") from fault
        raise


class Renewing:
    """A client that says something each 0.1 s, as it is told to. What is done in its block is well if it was never silent for as long as a lease."""

    def __init__(self, peer):
        self.peer, self.said = peer, [time.monotonic()]

    def renew(self, seconds):
        for _ in range(round(seconds * 10)):
            self.said.append(time.monotonic())
            # (a Cancel of what is not open is answered by nothing, and says that the client is at work)
            self.peer.send(frames.cancel(99))
            time.sleep(0.1)

    def renew_until(self, peer):
        """Until something comes to another peer, or its end."""
        until = time.monotonic() + PATIENCE
        while not select.select([peer.stream], [], [], 0)[0] and time.monotonic() < until:
            self.renew(0.1)

    def __enter__(self):
        return self

    def __exit__(self, _, fault, __):
        silence = max(later - earlier for earlier, later in zip(self.said, self.said[1:] + [time.monotonic()]))
        if isinstance(fault, (AssertionError, OSError)) and silence > 0.8 * LEASE:
            raise Late(f"the client that says something each 0.1 s was silent for {silence:.2f} s ({fault})") from fault


def leases(folder):
    """A client that holds a tuple and says nothing is ended, and its tuple is offered to another, which says something and keeps it. Nobody else is ended."""
    with Server(folder, 0, "--lease", LEASE) as server:
        with keys_that_are_free(server.port):
            putter, holder, second, waiting = (Peer(server.port, client) for client in (1, 2, 3, 4))
        equal(putter.ask(frames.out(1, "job", 5)), "Stored number 1, id 1")
        began = time.monotonic()
        equal(holder.ask(frames.ask(1, True, "job", frames.INT)), 'Offer ticket 1, id 1, tuple ("job", 5)')
        with Renewing(second) as renewing:
            second.send(frames.ask(1, True, "job", frames.INT))
            waiting.send(frames.ask(1, True, "other"))
            # (half of a message is no message)
            holder.send(frames.accept(1, 1, 1)[:-1])
            renewing.renew_until(holder)
            took = ends_after(holder, began)
            equal(LEASE < took < LATE, True)
            equal(second.hear(), 'Offer ticket 1, id 1, tuple ("job", 5)')
            late, reply = again(server.port, 2)
            equal(reply, "Welcome last 0")
            equal(late.ask(frames.accept(1, 1, 1)), "Gone number 1")
            renewing.renew(4 * LEASE)
            equal(second.ask(frames.accept(1, 1, 1)), 'Taken number 1, id 1, tuple ("job", 5)')
        # Nothing is held: a client that waits, or only listens, is not late.
        equal([putter.ask(frames.out(2, "other")), waiting.hear()], ["Stored number 2, id 2", 'Offer ticket 1, id 2, tuple ("other")'])
        equal(late.ask(frames.out(2, "x")), "Stored number 2, id 3")


def leases_end_in_time(folder):
    """A client that says nothing is ended after its lease, and no more than three seconds later; the first of three is looked at, as a slow machine may end one
    late."""
    took = []
    with Server(folder, 0, "--lease", LEASE) as server:
        for client in range(1, 4):
            holder = Peer(server.port, client)
            equal(holder.ask(frames.out(1, "job", client)), f"Stored number 1, id {client}")
            began = time.monotonic()
            equal(holder.ask(frames.ask(1, True, "job", client)).split(",")[0], "Offer ticket 1")
            took.append(ends_after(holder, began))
            if took[-1] <= LEASE + MORE:
                break
    equal((min(took) > LEASE, min(took) <= LEASE + MORE), (True, True))


def a_lease_of_many(folder):
    """Of a crowd that two loops serve, some hold a tuple and stop reading and sending, in every state of their connections: all of their tuples come to others."""
    many_files()
    with Server(folder, 0, "--lease", 3) as server:
        crowd = [Peer(server.port, client) for client in range(1, 101)]
        for place, peer in enumerate(crowd):
            equal(peer.ask(frames.out(1, "job", place)).split(",")[0], "Stored number 1")
        for place, peer in enumerate(crowd):
            equal(peer.ask(frames.ask(1, True, "job", place)).split(",")[0], "Offer ticket 1")
            # (on a slow machine a hundred of these take longer than a lease)
            if place % 10 == 9:
                for earlier in crowd[1:place:2]:
                    earlier.send(frames.cancel(99))
        others = [Peer(server.port, client) for client in range(201, 251)]
        for place, peer in zip(range(0, 100, 2), others):
            peer.send(frames.ask(1, True, "job", place))
        until = time.monotonic() + LATE
        waiting = list(others)
        while waiting and time.monotonic() < until:
            for peer in crowd[1::2]:
                peer.send(frames.cancel(99))
            waiting = [peer for peer in waiting if not select.select([peer.stream], [], [], 0)[0]]
            time.sleep(0.3)
        equal(len(waiting), 0)
        for place, peer in zip(range(0, 100, 2), others):
            equal(peer.hear().split(",")[0], "Offer ticket 1")
        for peer in crowd[::2]:
            peer.end_comes()
        for peer in crowd[1::2]:
            equal(peer.ask(frames.accept(2, 1, crowd.index(peer) + 1)).split(",")[0], "Taken number 2")


def a_wait_longer_than_a_lease(folder):
    """One that waited for a job for longer than a lease has all of the lease once it is offered one."""
    with Server(folder, 0, "--lease", 3) as server:
        worker, client = Peer(server.port, 1), Peer(server.port, 2)
        worker.send(frames.ask(1, True, "job"))
        time.sleep(5)
        with within(3):
            equal(client.ask(frames.out(1, "job")), "Stored number 1, id 1")
            equal(worker.hear(), 'Offer ticket 1, id 1, tuple ("job")')
            # (a server that counts the wait ends it within a second)
            time.sleep(2)
            equal(worker.ask(frames.accept(1, 1, 1)).split(",")[0], "Taken number 1")


def a_lease_beside_others(folder):
    """A lease does not take longer while another client says something in a rhythm of just below a second."""
    lease = 8
    with Server(folder, 0, "--lease", lease) as server:
        holder, other = Peer(server.port, 1), Peer(server.port, 2)
        equal(other.ask(frames.out(1, "job")), "Stored number 1, id 1")
        began = time.monotonic()
        equal(holder.ask(frames.ask(1, True, "job")), 'Offer ticket 1, id 1, tuple ("job")')
        while not select.select([holder.stream], [], [], 0.95)[0] and time.monotonic() < began + PATIENCE:
            other.send(frames.cancel(99))
        took = time.monotonic() - began
        holder.end_comes()
        # (a loop that counted only whole seconds since it last looked would take 17)
        equal(lease < took < 14, True)


def a_lease_of_a_stopped_server(folder):
    """A server that is stopped for more than a second ends no client before the seconds of its lease are over, and none that says something in time."""
    with Server(folder, 0, "--lease", LEASE) as server:
        own = Peer(server.port, 100)
        equal(own.ask(frames.out(1, "own")), "Stored number 1, id 1")
        with Renewing(own) as renewing:
            equal(own.ask(frames.ask(1, True, "own")), 'Offer ticket 1, id 1, tuple ("own")')
            for turn in range(1, 6):
                holder = Peer(server.port, turn)
                equal(holder.ask(frames.out(1, "job", turn)), f"Stored number 1, id {turn + 1}")
                # (at another place of the server's second each time)
                renewing.renew(0.2 * turn)
                began = time.monotonic()
                equal(holder.ask(frames.ask(1, True, "job", turn)), f'Offer ticket 1, id {turn + 1}, tuple ("job", {turn})')
                server.process.send_signal(signal.SIGSTOP)
                renewing.renew(1.3 + 0.1 * turn)
                server.process.send_signal(signal.SIGCONT)
                renewing.renew_until(holder)
                equal(ends_after(holder, began) >= LEASE, True)
            equal(own.ask(frames.accept(2, 1, 1)), 'Taken number 2, id 1, tuple ("own")')


def a_worker_that_is_stopped(folder):
    """A worker that is stopped while it has a job: another one gets the job, and the first finds out when it goes on."""
    worker = '''
import os, signal, sys
sys.path.insert(0, sys.argv[1])
from linda_space import Gone, INT, Space
with Space([int(sys.argv[2])], 7) as space, space.hold("job", INT) as offer:
    print(offer.tuple, flush=True)
    os.kill(os.getpid(), signal.SIGSTOP)
    try:
        print(offer.accept())
    except Gone:
        print("gone")
'''
    with Server(folder, 0, "--lease", LEASE) as server:
        equal(run("call", "--client", 1, server.port, given='out ("job", 5)\n')[0], 0)
        stopped = subprocess.Popen([sys.executable, "-c", worker, TOP / "clients/python", str(server.port)], stdout=subprocess.PIPE, text=True)
        try:
            equal(stopped.stdout.readline(), "('job', 5)\n")
            # (it goes on by a signal that comes after it has stopped)
            wait_until(lambda: Path(f"/proc/{stopped.pid}/stat").read_text().rpartition(")")[2].split()[0], "T")
            equal(run("call", "--client", 2, server.port, given='sync in ("job", ?i)\n'),
                  (0, '2 took 0 1 ("job", 5) binds [5] labels [] raised []\n', ""))
            stopped.send_signal(signal.SIGCONT)
            equal(stopped.communicate(timeout=PATIENCE)[0], "gone\n")
        finally:
            stopped.kill()


def refused_leases(folder):
    """A lease is a number of seconds, from 1 on: the command line is refused before a folder is made."""
    for words, why in ((["--lease", "0"], "0"), (["--lease", "1s"], "1s"), (["--lease", "4294967296"], "4294967296")):
        status, out, err = run("serve", "--port", 0, "--dir", folder / "none", *words)
        equal((status, out, why in err), (2, "", True))
    equal((folder / "none").exists(), False)
