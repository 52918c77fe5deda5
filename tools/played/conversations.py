"""Checks of what a call sends, each message once, and of what it does at each reply, at bytes that are no reply, and at a connection that is lost."""

import re
import signal
import time

import client as frames
from played.calls import GONE, LEFT, OFFER, REFUSED, STORED, TAKEN, WELCOME, Call, Proxy, Script, stop
from played.inspection import tuples_in
from played.peers import connection
from played.program import PATIENCE, equal, run
from played.servers import Server, free_port

IN_USE = (3, "", "server 0: number in use\n")


def last_over_a_lost_connection(folder):
    """The reply that is kept is asked for again if the connection is lost before it comes."""
    with Script() as server:
        caller = Call(7, "--again", server.port)
        equal(server.meet(), "Hello version 2, client 7, fresh false")
        server.say(WELCOME, 4)
        caller.say("last")
        equal(server.hear(), "Accept number 4, ticket 0, id 0")
        equal(server.meet(), "Hello version 2, client 7, fresh false")
        server.say(WELCOME, 4)
        equal(server.hear(), "Accept number 4, ticket 0, id 0")
        server.say(STORED, 4, 9)
        equal(caller.hear(), "server 0 client 7 4 stored 9")
        equal(caller.end(), (0, "", ""))


def what_a_call_sends(folder):
    """Each message once, and none before the welcome; after a lost connection what is pending again, by a Hello that is not fresh."""
    with Script() as server:
        caller = Call(7, server.port)
        equal(server.meet(), "Hello version 2, client 7, fresh true")
        server.say(WELCOME, 0)
        caller.say('out ("a", 3)')
        equal(server.hear(), 'Out number 1, tuple ("a", 3)')
        server.is_silent()
        equal(server.meet(), "Hello version 2, client 7, fresh false")
        server.say(WELCOME, 0)
        equal(server.hear(), 'Out number 1, tuple ("a", 3)')
        server.is_silent()
        server.say(STORED, 1, 5)
        equal(caller.hear(), "7 stored 0 5")
        caller.say('sync in ("a", ?i)')
        equal(server.hear(), 'Ask ticket 1, remove true, template ("a", ?i)')
        server.is_silent()
        server.say(OFFER, 1, 5, frames.spell_items("a", (3,)))
        equal(server.hear(), "Accept number 2, ticket 1, id 5")
        server.is_silent()
        equal(server.meet(), "Hello version 2, client 7, fresh false")
        server.say(WELCOME, 1)
        again = {server.hear(), server.hear()}
        equal(again, {'Ask ticket 1, remove true, template ("a", ?i)', "Accept number 2, ticket 1, id 5"})
        server.is_silent()
        server.say(TAKEN, 2, 5, frames.spell_items("a", (3,)))
        equal(caller.hear(), '7 took 0 5 ("a", 3) binds [3] labels [] raised []')
        equal(server.hear(), "Cancel ticket 1")
        equal(server.meet(), "Hello version 2, client 7, fresh false")
        caller.say("leave")
        server.is_silent()
        server.say(WELCOME, 2)
        equal(server.hear(), "Leave number 3")
        server.is_silent()
        server.say(LEFT, 3)
        equal(caller.hear(), "7 left")
        equal(caller.end(), (0, "", ""))


def a_server_that_is_busy(folder):
    """Busy ends a first greeting, and is greeted again by a client that goes on and after a connection that is lost. Any other refusal ends a call."""
    busy, full = (REFUSED, b"\3", 0), (REFUSED, b"\6", 1)
    with Script() as server:
        caller = Call(7, server.port)
        equal(server.meet(), "Hello version 2, client 7, fresh true")
        server.say(*busy)
        equal(caller.end(), (3, "", "server 0: refused 3 0\n"))
    with Script() as server:
        caller = Call(7, "--again", server.port)
        for _ in range(3):
            equal(server.meet(), "Hello version 2, client 7, fresh false")
            server.say(*busy)
        equal(server.meet(), "Hello version 2, client 7, fresh false")
        server.say(WELCOME, 4)
        caller.say('out ("a")')
        equal(server.hear(), 'Out number 5, tuple ("a")')
        for _ in range(3):
            equal(server.meet(), "Hello version 2, client 7, fresh false")
            server.say(*busy)
        equal(server.meet(), "Hello version 2, client 7, fresh false")
        server.say(WELCOME, 5)
        equal(server.hear(), 'Out number 5, tuple ("a")')
        server.say(STORED, 5, 8)
        equal(caller.hear(), "7 stored 0 8")
        equal(server.meet(), "Hello version 2, client 7, fresh false")
        server.say(*full)
        caller.say('out ("b")')
        equal(caller.end(), (3, "", "server 0: refused 6 1\n"))


def bytes_that_are_no_reply(folder):
    """A connection on which no reply comes is ended, and made again; replies to others' numbers change nothing."""
    with Script() as server:
        caller = Call(7, server.port)
        equal(server.meet(), "Hello version 2, client 7, fresh true")
        server.say(WELCOME, 0)
        caller.say('out ("a", 3)')
        equal(server.hear(), 'Out number 1, tuple ("a", 3)')
        for strange in (b"\x7f", b"\2" + bytes(8), b"\x12" + bytes(15), b"\x12" + bytes(17)):
            server.stream.sendall(frames.frame(strange))
            server.is_over()
            equal(server.meet(), "Hello version 2, client 7, fresh false")
            server.say(WELCOME, 0)
            equal(server.hear(), 'Out number 1, tuple ("a", 3)')
        server.say(STORED, 2, 9)
        server.say(STORED, 1, 5)
        equal(caller.hear(), "7 stored 0 5")
        equal(caller.end(), (0, "", ""))


def a_number_that_another_uses(folder):
    """A call that is stopped while its server is killed, and another one takes its number: it notices, and what it held is free again."""
    with Server(folder) as server:
        caller = Call(7, server.port)
        equal(caller.ask('out ("a")'), "7 stored 0 1")
        caller.say('sync in ("job", ?i)')
        time.sleep(0.3)
        stop(caller.process)
        server.kill()
        with Server(folder, server.port) as again:
            equal(run("call", "--client", 7, "--again", again.port, given='out ("job", 1)\n'), (0, "7 stored 0 2\n", ""))
            caller.process.send_signal(signal.SIGCONT)
            equal(caller.end(), IN_USE)
            equal(run("call", "--client", 9, again.port, given='sync in ("job", ?i)\n'), (0, '9 took 0 2 ("job", 1) binds [1] labels [] raised []\n', ""))


def numbers_that_another_uses(folder):
    """A Welcome with a higher number than can be, and each reply that cannot answer the unanswered message, ends a call; all others do not."""
    def begun(server, line, *heard):
        caller = Call(7, "--again", server.port)
        equal(server.meet(), "Hello version 2, client 7, fresh false")
        server.say(WELCOME, 4)
        caller.say(line)
        for words in heard:
            equal(server.hear(), words)
        return caller

    def accepting(server):
        caller = begun(server, 'sync in ("a", ?i)', 'Ask ticket 1, remove true, template ("a", ?i)')
        server.say(OFFER, 1, 10, frames.spell_items("a", (0,)))
        equal(server.hear(), "Accept number 5, ticket 1, id 10")
        return caller

    out = 'out ("a")', 'Out number 5, tuple ("a")'
    row = frames.spell_items("a", (0,))
    with Script() as server:
        # At a Welcome: nothing is unanswered, and then one message is.
        for line, heard, last in ((*out, 6), ('sync in ("a", ?i)', 'Ask ticket 1, remove true, template ("a", ?i)', 5)):
            caller = begun(server, line, heard)
            equal(server.meet(), "Hello version 2, client 7, fresh false")
            server.say(WELCOME, last)
            equal(caller.end(), IN_USE)
        caller = begun(server, *out)
        equal(server.meet(), "Hello version 2, client 7, fresh false")
        server.say(WELCOME, 3)
        equal(caller.end(), (3, "", "server 0: restored\n"))
        # A reply under the number of the unanswered message, which cannot answer it.
        for reply in ((TAKEN, 5, 10, row), (GONE, 5), (LEFT, 5)):
            caller = begun(server, *out)
            server.say(*reply)
            equal(caller.end(), IN_USE)
        for reply in ((STORED, 5, 10), (TAKEN, 5, 11, row), (LEFT, 5)):
            caller = accepting(server)
            server.say(*reply)
            equal(caller.end(), IN_USE)
        for reply in ((STORED, 5, 10), (TAKEN, 5, 10, row), (GONE, 5)):
            caller = begun(server, "leave", "Leave number 5")
            server.say(*reply)
            equal(caller.end(), IN_USE)
        # Replies under lower numbers, and the right ones after them.
        caller = begun(server, *out)
        for reply in ((GONE, 4), (TAKEN, 3, 2, row), (STORED, 5, 8)):
            server.say(*reply)
        equal(caller.hear(), "7 stored 0 8")
        equal(caller.end(), (0, "", ""))
        caller = accepting(server)
        equal(server.meet(), "Hello version 2, client 7, fresh false")
        server.say(WELCOME, 5)
        equal(server.hear(), "Accept number 5, ticket 1, id 10")
        equal(server.hear(), 'Ask ticket 1, remove true, template ("a", ?i)')
        server.say(TAKEN, 5, 10, row)
        equal(caller.hear(), '7 took 0 10 ("a", 0) binds [0] labels [] raised []')
        equal(caller.end(), (0, "", ""))


def ports_of_no_server(folder):
    """A peer that answers a Hello as no server does is reported to be no server, at once: at the first greeting, and at a later one."""
    no_server = (3, "", "server 0: not a server\n")

    def at_once(caller):
        began = time.monotonic()
        equal(caller.end(), no_server)
        # (a call that tries again does so for ten seconds)
        equal(time.monotonic() - began < 9, True)

    http = b"HTTP/1.1 400 Bad Request\r\nContent-Length: 0\r\n\r\n"
    strange = http, b"\0\0\0\0", b"\0\4\0\1", frames.frame(b"\x7f"), frames.frame(b"\x12" + bytes(16)), frames.frame(b"\x11" + bytes(7))
    with Script() as server:
        for data in strange:
            caller = Call(7, server.port)
            server.meet()
            server.stream.sendall(data)
            at_once(caller)
            caller = Call(7, server.port)
            server.meet()
            server.say(WELCOME, 0)
            server.drop()
            equal(server.meet(), "Hello version 2, client 7, fresh false")
            server.stream.sendall(data)
            caller.say('out ("a")')
            at_once(caller)
    status = free_port()
    with Server(folder, 0, "--status", status):
        at_once(Call(7, status))


def ports_in_their_order(folder):
    """The server of the first port is 0. A client's puts go to the servers in turn; what comes first is printed first."""
    with Script() as first, Script() as second, Script() as third:
        servers = first, second, third
        caller = Call(1, *(server.port for server in servers))
        for server in servers:
            equal(server.meet(), "Hello version 2, client 1, fresh true")
            server.say(WELCOME, 0)
        for number, place in enumerate((1, 2, 0)):
            caller.say(f'out ("a", {number})')
            equal(servers[place].hear(), f'Out number 1, tuple ("a", {number})')
            servers[place].say(STORED, 1, 10 + number)
            equal(caller.hear(), f"1 stored {place} {10 + number}")
        caller.say('sync choose [in ("a", ?i), alarm 5000]')
        for server in servers:
            equal(server.hear(), 'Ask ticket 1, remove true, template ("a", ?i)')
        second.say(OFFER, 1, 10, frames.spell_items("a", (0,)))
        equal(second.hear(), "Accept number 2, ticket 1, id 10")
        first.say(REFUSED, b"\6", 7)
        equal(caller.end(), (3, "", "server 0: refused 6 7\n"))


def a_put_whose_reply_is_lost(folder):
    """The server stores it and is killed before the caller hears so: once it is back, the put goes again and is one record."""
    with Server(folder) as server:
        proxy = Proxy(server.port)
        caller = Call(9, proxy.port)
        equal(caller.ask("sync always 1"), "9 always 1 labels [] raised []")
        proxy.cut, proxy.at_cut = "Stored", server.kill
        caller.say('out ("job", 1)')
        server.process.wait(PATIENCE)
        with Server(folder, server.port):
            equal(caller.hear(), "9 stored 0 1")
            equal(caller.ask('out ("job", 2)'), "9 stored 0 2")
            equal(caller.end(), (0, "", ""))
        proxy.listener.close()
    equal(re.findall("records (\\d+) ", run("inspect", folder)[1]), ["2"])
    equal(tuples_in(folder), ['tuple 1 ("job", 1) free', 'tuple 2 ("job", 2) free'])


def a_lost_taken(folder):
    """The reply to an Accept is lost with its connection. What was asked for again meanwhile is not kept from others while the caller waits for a line."""
    with Server(folder) as server:
        proxy = Proxy(server.port)
        other, hear = connection(server.port)
        other(frames.hello(8, True) + frames.out(1, "job", 1))
        equal([hear(), hear()], ["Welcome last 0", "Stored number 1, id 1"])
        caller = Call(9, proxy.port)
        equal(caller.ask("sync always 1"), "9 always 1 labels [] raised []")
        proxy.cut = "Taken"
        equal(caller.ask('sync in ("job", ?i)'), '9 took 0 1 ("job", 1) binds [1] labels [] raised []')
        equal(proxy.cuts, 1)
        time.sleep(0.5)
        other(frames.out(2, "job", 2))
        equal(hear(), "Stored number 2, id 2")
        other(frames.ask(5, True, "job", frames.INT) + frames.out(0, "a"))
        equal(hear(), 'Offer ticket 5, id 2, tuple ("job", 2)')
        other(frames.cancel(5))
        equal(caller.ask('sync in ("job", ?i)'), '9 took 0 2 ("job", 2) binds [2] labels [] raised []')
        equal(caller.end(), (0, "", ""))
        proxy.listener.close()
