"""Checks of what users run: `call` with one server and with two, over kills of servers and of itself; its lines, its clock, and how long it tries."""

import socket
import subprocess
import time

import blocks
import clocks
import client as frames
from played.calls import Call
from played.peers import connection
from played.program import PATIENCE, PROGRAM, TOP, equal, run, wait_until
from played.servers import Server


def one_client(folder):
    with Server(folder, 0, "--sessions", "1") as server:
        equal(run("call", "--client", 7, server.port, given='out ("a", 3)\nsync in ("a", ?i)\n'),
              (0, '7 stored 0 1\n7 took 0 1 ("a", 3) binds [3] labels [] raised []\n', ""))
        equal(server.end()[0], 0)
    with Server(folder) as server:
        send, receive = connection(server.port)
        send(frames.hello(7, False))
        equal(receive(), "Welcome last 2")
        send(frames.accept(2, 1, 1))
        equal(receive(), 'Taken number 2, id 1, tuple ("a", 3)')
        send(frames.out(3, "b"))
        equal(receive(), "Stored number 3, id 2")


def jobs_over_a_kill(folder):
    with Server(folder) as server:
        boss = Call(1, server.port)
        for job in range(3):
            equal(boss.ask(f'out ("job", {job})'), f"1 stored 0 {job + 1}")
        worker = Call(2, server.port)
        equal(worker.ask('sync in ("job", ?i)'), '2 took 0 1 ("job", 0) binds [0] labels [] raised []')
        server.kill()
        with Server(folder, server.port):
            equal(worker.ask('sync in ("job", ?i)'), '2 took 0 2 ("job", 1) binds [1] labels [] raised []')
            equal(boss.ask('sync rd ("job", ?i)'), '1 read 0 3 ("job", 2) binds [2] labels [] raised []')
            equal(boss.end(), (0, "", ""))
            equal(worker.end(), (0, "", ""))


def waits_over_three_seconds(folder):
    """A call goes on over a server that is away for three seconds, whether it waits or puts."""
    with Server(folder) as server:
        worker, putter = Call(2, server.port), Call(1, server.port)
        equal(putter.ask('out ("job", 1)'), "1 stored 0 1")
        equal(worker.ask('sync in ("job", ?i)'), '2 took 0 1 ("job", 1) binds [1] labels [] raised []')
        worker.say('sync in ("job", ?i)')
        time.sleep(0.3)
        server.kill()
        putter.say('out ("job", 2)')
        time.sleep(3)
        equal((worker.process.poll(), putter.process.poll()), (None, None))
        with Server(folder, server.port):
            equal(putter.hear(), "1 stored 0 2")
            equal(worker.hear(), '2 took 0 2 ("job", 2) binds [2] labels [] raised []')
            equal((putter.end(), worker.end()), ((0, "", ""), (0, "", "")))


def waits_over_a_kill(folder):
    with Server(folder) as server:
        worker = Call(2, server.port)
        equal(worker.ask('sync choose [in ("job", ?i), alarm 0]'), "2 alarm labels [] raised []")
        worker.say('sync in ("job", ?i)')
        time.sleep(0.3)
        server.kill()
        with Server(folder, server.port):
            equal(run("call", "--client", 1, server.port, given='out ("job", 5)\n'), (0, "1 stored 0 1\n", ""))
            equal(worker.hear(), '2 took 0 1 ("job", 5) binds [5] labels [] raised []')
            equal(worker.end(), (0, "", ""))


def two_servers(folder):
    (folder / "a").mkdir()
    (folder / "b").mkdir()
    with Server(folder / "a") as left, Server(folder / "b") as right:
        caller = Call(7, left.port, right.port)
        equal(caller.ask('out ("a", 1)'), "7 stored 1 1")
        equal(caller.ask('out ("b", 2)'), "7 stored 0 1")
        equal(caller.ask('sync choose [nack 1 wrap 5 in ("b", ?i), nack 2 rd ("c"), alarm 60000]'),
              '7 took 0 1 ("b", 2) binds [2] labels [5] raised [2]')
        equal(caller.ask('sync choose [nack 1 in ("b", _), wrap 3 rd ("a", ?i)]'),
              '7 read 1 1 ("a", 1) binds [1] labels [3] raised [1]')
        equal(caller.ask('sync choose [nack 1 in ("b", _), wrap 8 alarm 1]'), "7 alarm labels [8] raised [1]")
        equal(caller.ask("sync always 4"), "7 always 4 labels [] raised []")
        equal(caller.end(), (0, "", ""))


def calls_that_leave(folder):
    (folder / "a").mkdir()
    (folder / "b").mkdir()
    with Server(folder / "a") as left, Server(folder / "b") as right:
        equal(run("call", "--client", 7, left.port, right.port, given='out ("a", 3)\nleave\nleave\nsync rd ("a", _)\nout ("b")\n'),
              (0, "7 stored 1 1\n7 left\n7 refused left\n7 refused left\n7 refused left\n", ""))
        equal(run("call", "--client", 8, left.port, given="leave"), (0, "8 left\n", ""))
        equal(run("call", "--client", 9, left.port, given="leave now\n"), (4, "", "line 1: not a command\n"))
        caller = Call(10, left.port, right.port)
        equal(caller.ask("sync always 1"), "10 always 1 labels [] raised []")
        right.kill()
        caller.say("leave")
        time.sleep(0.3)
        with Server(folder / "b", right.port):
            equal(caller.hear(), "10 left")
            equal(caller.end(), (0, "", ""))
    equal([run("inspect", folder / name, "--clients")[1].splitlines()[5:] for name in "ab"],
          [["client 7 1 left", "client 8 1 left", "client 10 1 left"], ["client 7 2 left", "client 10 1 left"]])


def last_lines(folder):
    with Server(folder) as server:
        equal(run("call", "--client", 1, server.port, given='# a comment\r\n\r\nout ("a")\r\nsync rd ("a")'),
              (0, '1 stored 0 1\n1 read 0 1 ("a") binds [] labels [] raised []\n', ""))


def calls_again(folder):
    """A killed client goes on under its number, and finds what became of its last line."""
    with Server(folder) as server:
        caller = Call(7, server.port)
        equal(caller.ask('out ("job", 1)'), "7 stored 0 1")
        equal(caller.ask('out ("job", 2)'), "7 stored 0 2")
        equal(caller.ask('sync in ("job", ?i)'), '7 took 0 1 ("job", 1) binds [1] labels [] raised []')
        caller.process.kill()
        caller.end()
        wait_until(lambda: run("call", "--client", 7, "--again", server.port, given="last\n"), (0, 'server 0 client 7 3 taken 1 ("job", 1)\n', ""))
        equal(run("call", "--client", 7, server.port, given="last\n"), (3, "", "server 0: refused 2 3\n"))
        wait_until(lambda: run("call", "--client", 7, "--again", server.port, given='last\nout ("done", 1)\nlast\nsync in ("job", ?i)\nlast\n'),
                   (0, 'server 0 client 7 3 taken 1 ("job", 1)\n7 stored 0 3\nserver 0 client 7 4 stored 3\n'
                       '7 took 0 2 ("job", 2) binds [2] labels [] raised []\nserver 0 client 7 5 taken 2 ("job", 2)\n', ""))
        equal(run("call", "--client", 8, "--again", server.port, given='last\nout ("a")\nlast\n'),
              (0, "server 0 client 8 none\n8 stored 0 4\nserver 0 client 8 1 stored 4\n", ""))
        send, receive = connection(server.port)
        send(frames.hello(9, True) + frames.accept(1, 1, 1))
        equal([receive(), receive()], ["Welcome last 0", "Gone number 1"])
        send(frames.frame(b""))
        receive()
        wait_until(lambda: run("call", "--client", 9, "--again", server.port, given="last\nleave\nlast\n"),
                   (0, "server 0 client 9 1 gone\n9 left\nserver 0 client 9 2 left\n", ""))
        server.kill()
        with Server(folder, server.port):
            equal(run("call", "--client", 7, "--again", server.port, given='last\nout ("b")\n'),
                  (0, 'server 0 client 7 5 taken 2 ("job", 2)\n7 stored 0 5\n', ""))


def a_worker_in_a_shell(folder):
    """The call of square.sh, in docs/GUIDE.md, ends with a shell that is killed: it takes nothing more, and its number is free. A worker whose server is gone
    ends with 1."""
    lines = next(block.lines for block in blocks.blocks(TOP / "docs/GUIDE.md") if block.file() == "square.sh")
    with Server(folder) as server:
        script, said = folder / "square.sh", folder / "said"
        script.write_text("\n".join(lines).replace("./linda", str(PROGRAM)).replace("7000", str(server.port)) + "\n")
        boss = Call(1, server.port)

        def worker(number, place):
            life = subprocess.Popen(["bash", script, "14"], stdin=subprocess.DEVNULL, stderr=said.open("w"))
            equal(boss.ask(f'out ("sum", {number})'), f"1 stored 0 {place}")
            equal(boss.ask(f'sync in ("summed", {number}, ?i)'),
                  f'1 took 0 {place + 1} ("summed", {number}, {number ** 2}) binds [{number ** 2}] labels [] raised []')
            return life

        first = worker(3, 1)
        time.sleep(0.3)
        first.kill()
        first.wait()
        equal(run("call", "--client", 14, "--again", server.port, given="last\n"), (0, "server 0 client 14 2 stored 2\n", ""))
        second = worker(4, 3)
        server.kill()
        equal((second.wait(PATIENCE), said.read_text()), (1, "server 0: no connection\n"))
        boss.process.kill()
        boss.end()


def last_of_two_servers(folder):
    (folder / "a").mkdir()
    (folder / "b").mkdir()
    with Server(folder / "a") as left, Server(folder / "b") as right:
        ports = left.port, right.port
        equal(run("call", "--client", 7, *ports, given='last\nout ("a", 1)\nlast\nout ("b", 2)\nsync in ("a", ?i)\nlast\n'),
              (0, "server 0 client 7 none\nserver 1 client 7 none\n7 stored 1 1\nserver 0 client 7 none\nserver 1 client 7 1 stored 1\n7 stored 0 1\n"
                  '7 took 1 1 ("a", 1) binds [1] labels [] raised []\nserver 0 client 7 1 stored 1\nserver 1 client 7 2 taken 1 ("a", 1)\n', ""))
        wait_until(lambda: run("call", "--client", 7, "--again", *ports, given='last\nsync in ("b", ?i)\nlast\n'),
                   (0, 'server 0 client 7 1 stored 1\nserver 1 client 7 2 taken 1 ("a", 1)\n7 took 0 1 ("b", 2) binds [2] labels [] raised []\n'
                       'server 0 client 7 2 taken 1 ("b", 2)\nserver 1 client 7 2 taken 1 ("a", 1)\n', ""))


def a_server_that_never_answers(folder):
    """Something listens and says nothing: after ten seconds, here of a clock that goes five times as fast, the call gives it up."""
    times = 5
    with Server(folder) as server, socket.create_server(("127.0.0.1", 0)) as silent:
        for number, ports in ((1, [silent.getsockname()[1]]), (2, [server.port, silent.getsockname()[1]])):
            began = time.monotonic()
            equal(run("call", "--client", number, *ports, given='out ("a")\n', around=clocks.faster(folder, times)),
                  (3, "", f"server {len(ports) - 1}: no connection\n"))
            equal(9.5 < times * (time.monotonic() - began) < 9.5 + times * PATIENCE, True)


def numbers_of_lines(folder):
    """Each line counts, and one that says nothing too; the fault of a line has its number."""
    with Server(folder) as server:
        equal(run("call", "--client", 1, server.port, given='out ("a")\n\n# no\nsync always 1\r\nout (\n'),
              (4, "1 stored 0 1\n1 always 1 labels [] raised []\n", "line 5: not a command\n"))
        equal(run("call", "--client", 2, server.port, given="last x"), (4, "", "line 1: not a command\n"))


def ticks_of_the_clock(folder):
    """A tick is a millisecond since the call began, and a line knows what the clock says when it is read."""
    with Server(folder) as server:
        caller = Call(1, server.port)
        equal(caller.ask("sync always 5"), "1 always 5 labels [] raised []")
        time.sleep(0.5)
        equal(caller.ask("sync choose [alarm 400, always 7]"), "1 alarm labels [] raised []")
        equal(caller.end(), (0, "", ""))
        # (ten times as long would be 15 s)
        for ticks, least, most in ((1, 0, 14), (1500, 1.4, 14)):
            began = time.monotonic()
            equal(run("call", "--client", 1 + ticks, server.port, given=f"sync alarm {ticks}\n"), (0, f"{1 + ticks} alarm labels [] raised []\n", ""))
            equal(least < time.monotonic() - began < most, True)


def an_idle_call_without_its_server(folder):
    """The server is away for longer than the tries of a line, and nothing is asked meanwhile."""
    with Server(folder) as server:
        caller = Call(9, server.port, around=clocks.faster(folder, 10))
        equal(caller.ask('out ("a", 1)'), "9 stored 0 1")
        server.kill()
        time.sleep(25 / 10)
        equal(caller.process.poll(), None)
        with Server(folder, server.port):
            equal(caller.ask('sync in ("a", ?i)'), '9 took 0 1 ("a", 1) binds [1] labels [] raised []')
            equal(caller.end(), (0, "", ""))
