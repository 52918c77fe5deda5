"""Checks of sessions: greetings, refusals, offers, leaves, the order of replies, and the ends of connections."""

import socket
import time

import client as frames
from played.peers import Peer, again, connection, ended
from played.program import equal, run, wait_until
from played.servers import Server, free_port, is_refused


def greetings(folder):
    with Server(folder) as server:
        send, receive = connection(server.port)
        send(frames.out(1, "a"))
        equal(receive(), "Refused NoHello, detail 0")
        for version in (1, 3):
            send(frames.frame(bytes([1, version, 0, 0, 0, 7, 1])))
            equal(receive(), "Refused Version, detail 2")
        send(frames.hello(7, True))
        equal(receive(), "Welcome last 0")
        send(frames.hello(7, True))
        equal(receive(), "Refused Busy, detail 0")
        send(frames.out(1, "a", 3) + frames.out(1, "a", 3) + frames.out(3, "a", 3))
        equal([receive() for _ in range(3)], ["Stored number 1, id 1"] * 2 + ["Refused Gap, detail 1"])
        other, hear = connection(server.port)
        other(frames.hello(7, True))
        equal(hear(), "Refused Busy, detail 0")
        other(frames.hello(8, True))
        equal(hear(), "Welcome last 0")
        other(frames.frame(bytes([2]) + bytes(7) + bytes([1, 3, 2, 0])))
        equal(hear(), "Refused Malformed, detail 14")
        ended(hear)
        other, hear = connection(server.port)
        other(frames.frame(bytes([2]) + bytes(7) + bytes([1, 2, 0x10, 0])))
        equal(hear(), "Refused Malformed, detail 14")
        ended(hear)
        equal(run("call", "--client", 7, server.port, given='out ("b")\n'), (3, "", "server 0: refused 3 0\n"))
        send(frames.frame(b""))
        equal(receive(), "Refused Malformed, detail 0")
        ended(receive)
        wait_until(lambda: run("call", "--client", 7, server.port, given=""), (3, "", "server 0: refused 2 1\n"))


def offers_to_others(folder):
    with Server(folder) as server:
        first, hear_first = connection(server.port)
        second, hear_second = connection(server.port)
        first(frames.hello(1, True))
        second(frames.hello(2, True))
        equal([hear_first(), hear_second()], ["Welcome last 0"] * 2)
        second(frames.ask(5, True, "a", frames.INT))
        second(frames.out(0, "a"))
        equal(hear_second(), "Refused Old, detail 0")
        first(frames.out(1, "a", 9))
        equal(hear_first(), "Stored number 1, id 1")
        equal(hear_second(), 'Offer ticket 5, id 1, tuple ("a", 9)')
        second(frames.accept(1, 5, 1))
        equal(hear_second(), 'Taken number 1, id 1, tuple ("a", 9)')


def a_client_leaves(folder):
    """It holds a tuple for which another client waits, and waits for one itself. What it said is there after a kill."""
    with Server(folder) as server:
        first, hear_first = connection(server.port)
        second, hear_second = connection(server.port)
        first(frames.hello(7, True) + frames.out(1, "a", 3) + frames.ask(1, True, "a", frames.INT) + frames.ask(2, True, "b"))
        equal([hear_first() for _ in range(3)], ["Welcome last 0", "Stored number 1, id 1", 'Offer ticket 1, id 1, tuple ("a", 3)'])
        second(frames.hello(8, True) + frames.ask(5, True, "a", frames.INT) + frames.out(0, "a"))
        equal([hear_second() for _ in range(2)], ["Welcome last 0", "Refused Old, detail 0"])
        first(frames.leave(3))
        equal(hear_first(), "Refused Gap, detail 1")
        first(frames.leave(2) * 2)
        equal([hear_first() for _ in range(2)], ["Left number 2"] * 2)
        equal(hear_second(), 'Offer ticket 5, id 1, tuple ("a", 3)')
        first(frames.out(3, "b") + frames.ask(1, False, "a", frames.INT) + frames.accept(1, 1, 1) + frames.accept(2, 1, 1) + frames.leave(3) + frames.leave(0))
        refused, old = "Refused Left, detail 2", "Refused Old, detail 2"
        equal([hear_first() for _ in range(6)], [refused, refused, old, "Left number 2", refused, old])
        first(frames.cancel(1) + frames.hello(7, False))
        equal(hear_first(), "Refused Busy, detail 0")
        second(frames.out(1, "b"))
        equal(hear_second(), "Stored number 1, id 2")
        server.kill()
        with Server(folder, server.port):
            equal(run("call", "--client", 7, server.port, given=""), (3, "", "server 0: refused 2 2\n"))
            send, receive = connection(server.port)
            send(frames.hello(7, False) + frames.leave(2) + frames.out(3, "b"))
            equal([receive() for _ in range(3)], ["Welcome last 2", "Left number 2", "Refused Left, detail 2"])
    equal(run("inspect", folder, "--clients")[1].splitlines()[-2:], ["client 7 2 left", "client 8 1 stored 2"])


def ends_of_connections(folder):
    """However a connection ends, its client leaves: what it held is free, what it waited for is over, and it may come again."""
    def closed(peer):
        peer.close()

    def shut(peer):
        peer.stream.shutdown(socket.SHUT_WR)
        peer.end_comes()

    def cut_short(peer):
        peer.send(frames.out(9, "a")[:7])
        shut(peer)

    def malformed(peer):
        peer.send(frames.out(0, "a"), frames.frame(b""))
        equal([peer.hear(), peer.hear()], ["Refused Old, detail 1", "Refused Malformed, detail 0"])
        peer.end_comes()

    with Server(folder) as server:
        other = Peer(server.port, 100)
        for number, way in enumerate((closed, shut, cut_short, malformed), 1):
            held = 2 * number - 1
            peer = Peer(server.port, number)
            equal(peer.ask(frames.out(1, "held", number)), f"Stored number 1, id {held}")
            equal(peer.ask(frames.ask(1, True, "held", number)), f'Offer ticket 1, id {held}, tuple ("held", {number})')
            other.send(frames.ask(number, True, "held", number), frames.out(0, "a"))
            equal((way.__name__, other.hear()), (way.__name__, "Refused Old, detail 0"))
            peer.send(frames.ask(2, True, "wanted", number))
            way(peer)
            equal((way.__name__, other.hear()), (way.__name__, f'Offer ticket {number}, id {held}, tuple ("held", {number})'))
            peer, reply = again(server.port, number)
            equal((way.__name__, reply), (way.__name__, "Welcome last 1"))
            equal((way.__name__, peer.ask(frames.accept(1, 0, 0))), (way.__name__, f"Stored number 1, id {held}"))
            other.send(frames.cancel(number))
            equal(run("call", "--client", 200 + number, server.port, given=f'out ("wanted", {number})\nsync in ("wanted", {number})\n')[0], 0)
            equal((way.__name__, peer.ask(frames.out(0, "a"))), (way.__name__, "Refused Old, detail 1"))
            peer.close()


def replies_of_a_batch(folder):
    """What comes at once is answered in its order: deeds, refusals, offers and greetings, and a malformed frame after them."""
    with Server(folder) as server:
        peer = Peer(server.port)
        peer.send(frames.out(1, "a"), frames.hello(7, True), frames.out(1, "a"), frames.out(2, "b"), frames.ask(4, True, "b"), frames.ask(5, False, "a"), frames.hello(8, True),
                  frames.out(4, "c"), frames.accept(3, 4, 2), frames.accept(4, 4, 2), frames.leave(5), frames.frame(b"\7"), frames.leave(5))
        equal([peer.hear() for _ in range(11)],
              ["Refused NoHello, detail 0", "Welcome last 0", "Stored number 1, id 1", "Stored number 2, id 2", 'Offer ticket 4, id 2, tuple ("b")', 'Read ticket 5, id 1, tuple ("a")',
               "Refused Busy, detail 0", "Refused Gap, detail 2", 'Taken number 3, id 2, tuple ("b")', "Gone number 4", "Left number 5"])
        equal(peer.hear(), "Refused Malformed, detail 4")
        peer.end_comes()


def news_before_the_last_word(folder):
    """What another's message sent goes out before the word with which a connection ends, however close together both come."""
    with Server(folder) as server:
        other = Peer(server.port, 100)
        for number in range(1, 13):
            peers = [Peer(server.port, 1000 * number + at) for at in range(20)]
            for peer in peers:
                equal(peer.ask(frames.ask(1, False, "a", number), frames.out(0, "a")), "Refused Old, detail 0")
            # (what a put sends is on its way before the put is answered)
            equal(other.ask(frames.out(number, "a", number)), f"Stored number {number}, id {number}")
            for peer in peers:
                peer.send(frames.frame(b""))
            for peer in peers:
                equal(peer.hear(), f'Read ticket 1, id {number}, tuple ("a", {number})')
                equal(peer.hear(), "Refused Malformed, detail 0")
                peer.end_comes()
                peer.close()


def sessions_of_a_server(folder):
    """So many connections are served and no more, each to its end, with a log and without one."""
    for words in ([], ["--log"]):
        own = folder / f"store{len(words)}"
        own.mkdir()
        with Server(own, free_port(), "--sessions", "2", *words) as server:
            first, second = Peer(server.port, 1), Peer(server.port, 2)
            first.close()
            equal((words, second.ask(frames.out(1, "a"))), (words, "Stored number 1, id 1"))
            time.sleep(0.5)
            equal((words, server.process.poll()), (words, None))
            second.close()
            status, out, err = server.end()
            equal((words, status, out, bool(err)), (words, 0, "", bool(words)))
            is_refused(server.port)


def only_this_machine(folder):
    """The port is that of 127.0.0.1, and of no other address of this machine."""
    with Server(folder) as server:
        Peer(server.port, 1).close()
        is_refused(server.port, "127.0.0.2")
    port = free_port()
    with Server(folder, port) as server:
        equal(server.port, port)
        Peer(port, 2).close()


def peers_that_stop_reading(folder):
    with Server(folder) as server:
        stuck = socket.create_connection(("127.0.0.1", server.port))
        stuck.setsockopt(socket.SOL_SOCKET, socket.SO_RCVBUF, 4096)
        stuck.sendall(frames.hello(3, True) + frames.out(1, "big", "x" * 4095))
        stuck.settimeout(1)
        try:
            for ticket in range(1, 200000):
                stuck.sendall(frames.ask(ticket, False, "big", frames.TEXT))
        except socket.timeout:
            pass
        half = socket.create_connection(("127.0.0.1", server.port))
        half.sendall(frames.hello(4, True) + frames.out(1, "half")[:9])
        equal(run("call", "--client", 5, server.port, given='out ("a")\nsync in ("a")\n'),
              (0, '5 stored 0 2\n5 took 0 2 ("a") binds [] labels [] raised []\n', ""))
        stuck.close()
        half.close()
