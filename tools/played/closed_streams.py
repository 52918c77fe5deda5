"""Checks of standard streams that are closed: each command without each set of them."""

import re
import socket

from played.inspection import JOBS, banks_in, tuples_in
from played.program import TOP, equal, run
from played.servers import Server
from played.streams import begin_closed, end_closed

SETS_OF_STREAMS = [{0}, {1}, {2}, {0, 1}, {0, 2}, {1, 2}, {0, 1, 2}]


def a_served_store_without(closed, folder, is_new, *words):
    """`serve` without these streams, over a store with three jobs or a new folder: it either serves, and then changes only what it is given, or ends and has
    changed nothing."""
    what = (sorted(closed), "a new folder" if is_new else "an old one", *words)
    if not is_new:
        with Server(folder) as server:
            equal(run("call", "--client", 1, server.port, given="".join(f'out ("job", {job})\n' for job in (1, 2, 3)))[0], 0)
    before = banks_in(folder)
    process = begin_closed(closed, "serve", "--port", 0, "--dir", folder, *words)
    if 1 in closed:
        equal((what, end_closed(process), banks_in(folder)), (what, (3, "", "" if 2 in closed else "io\n"), before))
        return
    line = process.stdout.readline()
    try:
        equal((what, bool(re.fullmatch(rb"ready \d+\n", line))), (what, True))
        equal((what, run("call", "--client", 2, int(line.split()[1]), given='out ("job", 4)\n')), (what, (0, f"2 stored 0 {1 if is_new else 4}\n", "")))
    finally:
        process.terminate()
        _, _, err = end_closed(process)
    equal((what, bool(err)), (what, bool(words) and 2 not in closed))
    equal((what, tuples_in(folder)), (what, ['tuple 1 ("job", 4) free'] if is_new else JOBS))
    with Server(folder) as server:
        equal((what, run("call", "--client", 3, server.port, given='out ("job", 5)\n')), (what, (0, f"3 stored 0 {2 if is_new else 5}\n", "")))


def serve_without_streams(folder):
    for at, closed in enumerate(SETS_OF_STREAMS):
        for is_new in (False, True):
            for words in ([], ["--log"]):
                own = folder / f"{at}{is_new}{len(words)}"
                own.mkdir()
                a_served_store_without(closed, own, is_new, *words)


def inspect_without_streams(folder):
    with Server(folder) as server:
        equal(run("call", "--client", 1, server.port, given="".join(f'out ("job", {job})\n' for job in (1, 2, 3, 4)))[0], 0)
    before = banks_in(folder)
    wanted = run("inspect", folder, "--tuples")
    equal([line for line in wanted[1].splitlines() if line.startswith("tuple ")], JOBS)
    for closed in SETS_OF_STREAMS:
        found = end_closed(begin_closed(closed, "inspect", folder, "--tuples"))
        equal((closed, found), (closed, (3, "", "" if 2 in closed else "io\n") if 1 in closed else wanted))
        equal((closed, banks_in(folder)), (closed, before))


def traces_without_streams(folder):
    """The file has the trace, as far as the run went, and nothing else; if nothing can be printed it may be as it was."""
    script = (TOP / "examples/handout.linda").read_bytes()
    whole = (TOP / "examples/handout.trace").read_text()
    printed = "".join(line.removeprefix("print ") for line in whole.splitlines(True) if line.startswith("print "))
    for closed in SETS_OF_STREAMS:
        file = folder / "trace"
        file.write_text("old\n")
        status, out, err = end_closed(begin_closed(closed, "run", "--servers", 2, "--trace", file, given=script))
        trace = file.read_text()
        equal((closed, whole.startswith(trace) or (1 in closed and trace == "old\n")), (closed, True))
        if 0 in closed:
            # (a standard input that is closed ends, or fails)
            equal((closed, (status, err) in ((0, ""), (3, "" if 2 in closed else "io\n"))), (closed, True))
            equal((closed, out, trace in ("old\n", whole.splitlines(True)[0])), (closed, "", True))
        elif 1 in closed:
            equal((closed, status, err), (closed, 3, "" if 2 in closed else "io\n"))
        else:
            equal((closed, status, out, trace, err), (closed, 0, printed, whole, ""))


def calls_without_streams(folder):
    """Without a standard output a call greets no server and puts nothing, over a port and over a socket; without another stream it does its lines, or reads none."""
    put = b'out ("job", 1)\n'
    with Server(folder) as server:
        for client, closed in enumerate(SETS_OF_STREAMS, 1):
            before = run("inspect", folder, "--tuples", "--clients")
            status, out, err = end_closed(begin_closed(closed, "call", "--client", client, server.port, given=put))
            if 1 in closed:
                equal((closed, status, out, err), (closed, 3, "", "" if 2 in closed else "io\n"))
                equal((closed, run("inspect", folder, "--tuples", "--clients")), (closed, before))
            elif 0 in closed:
                equal((closed, (status, err) in ((0, ""), (3, "" if 2 in closed else "io\n")), out), (closed, True, ""))
            else:
                equal((closed, status, out, err), (closed, 0, f"{client} stored 0 1\n", ""))
    with socket.socket() as port, socket.socket(socket.AF_UNIX) as place:
        port.bind(("127.0.0.1", 0))
        place.bind(str(folder / "s"))
        for listener, words in ((port, [port.getsockname()[1]]), (place, ["--socket", folder / "s"])):
            listener.listen()
            listener.setblocking(False)
            equal(end_closed(begin_closed({1}, "call", "--client", 1, *words, given=put)), (3, "", "io\n"))
            try:
                listener.accept()
                raise AssertionError(f"it connected: {words}")
            except BlockingIOError:
                pass
