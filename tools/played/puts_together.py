"""Checks of `call --together`: many puts that are sent before their outcomes come."""

import time

import client as frames
from played.calls import REFUSED, STORED, WELCOME, Call, Script
from played.program import equal, run
from played.servers import Server


def puts_together(folder):
    """Up to 64 puts of one read go out before their outcomes, in turn to the servers; all else waits for them; outcomes keep the order of the lines."""
    def put(number, i):
        return f'Out number {number}, tuple ("a", {i})'

    def puts(first, count):
        return "\n".join(f'out ("a", {i})' for i in range(first, first + count))

    # One server: the 65th waits for the first, and the alarm for all of them.
    with Script() as server:
        caller = Call(7, "--together", server.port)
        equal(server.meet(), "Hello version 2, client 7, fresh true")
        server.say(WELCOME, 0)
        caller.say(puts(1, 66) + "\nsync alarm 0")
        for i in range(1, 65):
            equal(server.hear(), put(i, i))
        server.is_silent()
        server.say(STORED, 1, 11)
        equal(caller.hear(), "7 stored 0 11")
        equal(server.hear(), put(65, 65))
        server.is_silent()
        for i in range(2, 66):
            server.say(STORED, i, 10 + i)
            equal(caller.hear(), f"7 stored 0 {10 + i}")
        equal(server.hear(), put(66, 66))
        server.say(STORED, 66, 76)
        equal([caller.hear(), caller.hear()], ["7 stored 0 76", "7 alarm labels [] raised []"])
        equal(caller.end(), (0, "", ""))
    # Two servers: client 1 begins with server 1. The first outcome is printed first, and a line that is no command is reported after all before it.
    with Script() as left, Script() as right:
        caller = Call(1, "--together", "--again", left.port, right.port)
        for server, last in ((left, 3), (right, 8)):
            equal(server.meet(), "Hello version 2, client 1, fresh false")
            server.say(WELCOME, last)
        caller.say(puts(1, 3) + "\nnothing")
        equal([right.hear(), left.hear(), right.hear()], [put(9, 1), put(4, 2), put(10, 3)])
        left.say(STORED, 4, 20)
        right.say(STORED, 9, 30)
        equal([caller.hear(), caller.hear()], ["1 stored 1 30", "1 stored 0 20"])
        right.say(STORED, 10, 31)
        equal(caller.hear(), "1 stored 1 31")
        equal(caller.end(), (4, "", "line 4: not a command\n"))
    # Numbers go on after them, and a second life finds the last one.
    with Server(folder) as server:
        equal(run("call", "--client", 7, "--together", server.port, given=puts(1, 3) + '\nsync in ("a", ?i)\nlast\nout ("b")\nleave\nout ("c")\n'),
              (0, '7 stored 0 1\n7 stored 0 2\n7 stored 0 3\n7 took 0 1 ("a", 1) binds [1] labels [] raised []\nserver 0 client 7 4 taken 1 ("a", 1)\n'
                  "7 stored 0 4\n7 left\n7 refused left\n", ""))


def puts_together_over_a_loss(folder):
    """After a lost connection what is done is not done again: those below the number that is kept have lost their ids, and the others go out again."""
    def put(number, i):
        return f'Out number {number}, tuple ("a", {i})'

    lines = "\n".join(f'out ("a", {i})' for i in range(1, 6))
    for last, lost in ((4, 0), (5, 0), (6, 1), (9, 4)):
        with Script() as server:
            caller = Call(7, "--together", "--again", server.port)
            equal(server.meet(), "Hello version 2, client 7, fresh false")
            server.say(WELCOME, 4)
            caller.say(lines)
            for i in range(1, 6):
                equal(server.hear(), put(4 + i, i))
            equal(server.meet(), "Hello version 2, client 7, fresh false")
            # A put may go out over the new connection before its Welcome is heard: it is refused Gap, and comes again.
            server.say(WELCOME, last)
            server.say(REFUSED, b"\5", last)
            for i in range(1 + lost, 6):
                equal(server.hear(), put(4 + i, i))
                server.say(STORED, 4 + i, 20 + i)
            for i in range(1, 6):
                equal(caller.hear(), "7 stored 0 none" if i <= lost else f"7 stored 0 {20 + i}")
            equal(caller.end(), (0, "", ""))
    for last, line in ((3, "restored"), (10, "number in use")):
        with Script() as server:
            caller = Call(7, "--together", "--again", server.port)
            server.meet()
            server.say(WELCOME, 4)
            caller.say(lines)
            for i in range(1, 6):
                equal(server.hear(), put(4 + i, i))
            server.meet()
            server.say(WELCOME, last)
            equal(caller.end(), (3, "", f"server 0: {line}\n"))


def puts_together_that_are_refused(folder):
    """A refusal is reported after the outcomes of the lines before it, also those of another server; those after it are not done."""
    def put(number, i):
        return f'Out number {number}, tuple ("a", {i})'

    lines = "\n".join(f'out ("a", {i})' for i in range(1, 6))
    with Script() as left, Script() as right:
        caller = Call(2, "--together", left.port, right.port)
        for server in left, right:
            server.meet()
            server.say(WELCOME, 0)
        caller.say(lines)
        for number, (server, i) in enumerate(((left, 1), (right, 2), (left, 3), (right, 4), (left, 5))):
            equal(server.hear(), put(1 + number // 2, i))
        right.say(STORED, 1, 30)
        right.say(REFUSED, b"\6", 7)
        time.sleep(0.2)
        left.say(STORED, 1, 20)
        equal([caller.hear(), caller.hear()], ["2 stored 0 20", "2 stored 1 30"])
        left.say(STORED, 2, 21)
        equal(caller.end(), (3, "2 stored 0 21\n", "server 1: refused 6 7\n"))
    with Script() as server:
        caller = Call(2, "--together", server.port)
        server.meet()
        server.say(WELCOME, 0)
        caller.say(lines)
        for i in range(1, 6):
            equal(server.hear(), put(i, i))
        replies = [bytes([STORED]) + frames.spell_number(1) + frames.spell_number(30), bytes([REFUSED, 6]) + frames.spell_number(2)]
        replies += [bytes([REFUSED, 5]) + frames.spell_number(1)] * 3
        server.stream.sendall(b"".join(map(frames.frame, replies)))
        equal(caller.end(), (3, "2 stored 0 30\n", "server 0: refused 6 2\n"))
