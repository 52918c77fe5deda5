"""Checks of the statuses of all commands, of words that are refused, and of the second line of `--explain`."""

import contextlib
import os
import re
import socket
import subprocess

import client as frames
from played.peers import Peer
from played.program import PATIENCE, PROGRAM, equal, refused_as_words, run
from played.servers import Server, free_port
from played.streams import fails_at_streams, status_of

# Both forms of a usage.
SERVES = "Usage: linda serve [OPTIONS] --port <P> --dir <D>\n", "       linda serve [OPTIONS] --socket <PATH> --dir <D>\n"
CALLS = "Usage: linda call [OPTIONS] --client <C> <PORT>...\n", "       linda call [OPTIONS] --client <C> --socket <PATH>...\n"


def refused_words(folder):
    for words in [["serve"], ["serve", "--port", 1], ["serve", "--dir", folder], ["serve", "--port", 65536, "--dir", folder], ["call", 1], ["call", "--client", 1],
                  ["call", "--client", -1, 5], ["call", "--client", 1, 0], ["call", "--client", 1, 65536], ["call", "--client", 1, *range(1, 18)],
                  ["serve", "--port", 0, "--dir", folder, "--sessions", "x"], ["serve", "--port", 0, "--dir", folder, "more"]]:
        status, out, err = run(*words)
        equal((status, out, bool(err)), (2, "", True))
    # A server needs a port or a socket, and servers of a call are named by either: help says both, and so does what is said if neither is there.
    for words in [["serve", "--dir", folder], ["serve", "--help"]]:
        equal((words, [form for form in SERVES if form not in "".join(run(*words)[1:])]), (words, []))
    for words in [["call", "--client", 1], ["call", "--help"]]:
        equal((words, [form for form in CALLS if form not in "".join(run(*words)[1:])]), (words, []))
    equal([line.split()[:2] for line in run("call", "--help")[1].splitlines() if line.startswith("      --socket")], [["--socket", "<PATH>"]])
    # What is refused has the usage of its own command.
    serve, call = ["serve", "--port", 0, "--dir", folder], ["call", "--client", 1]
    for forms, words in ((SERVES, [*serve, "--socket", "s", "--mode", 608]), (SERVES, [*serve, "--mode", 600]), (SERVES, [*serve, "--status", "q"]),
                         (SERVES, [*serve, "--status", 0]), (SERVES, [*serve, "--metric", "job"]), (CALLS, [*call, "--socket", "s", 7000]),
                         (CALLS, [*call, *(it for _ in range(17) for it in ("--socket", "s"))])):
        status, out, err = run(*words)
        equal((words, status, out, "".join(forms) in err), (words, 2, "", True))
    # The help has the bounds of each number.
    for command, option, bounds in (("serve", "--lease", "from 1 to 4294967295"), ("serve", "--sessions", "from 0 to 4294967295"), ("call", "--client", "from 0 to 4294967295"),
                                    ("serve", "--mode", "three octal digits"), ("serve", "--status", "from 1 to 65535")):
        equal((option, [bounds in line for line in run(command, "--help")[1].splitlines() if line.startswith(f"      {option} ")]), (option, [True]))


def refused_calls(folder):
    with socket.socket() as taken:
        taken.bind(("127.0.0.1", 0))
        equal(run("serve", "--port", taken.getsockname()[1], "--dir", folder), (3, "", "io\n"))
    free = free_port()
    equal(run("call", "--client", 1, free, given='out ("a")\n'), (3, "", "server 0: no connection\n"))
    with Server(folder) as server:
        equal(run("call", "--client", 1, server.port, given='out ("a")\nout (a)\n'), (4, "1 stored 0 1\n", "line 2: not a command\n"))
        equal(run("call", "--client", 2, server.port, free, given=""), (3, "", "server 1: no connection\n"))


def statuses_of_the_program(folder):
    for words in [[], ["store"], ["--servers", 2], ["--version", "more"], ["--versions"], ["-V", "more"], ["version", "more"], ["versions"]]:
        refused_as_words(*words)
    for words in [["--help"], ["pipe", "--help"], ["run", "--help"], ["serve", "--help"], ["call", "--help"], ["inspect", "--help"]]:
        status, out, err = run(*words)
        equal((status, err), (0, ""))
        equal([command for command in ("pipe", "run", "serve", "call", "inspect") if len(words) == 1 and command not in out], [])
        equal(len(words) == 1 or words[0] in out, True)
    status, out, err = run("--version")
    for word in ("-V", "version"):
        equal(run(word), (status, out, err))
    lines = out.splitlines()
    equal((status, lines[1:], err, bool(re.fullmatch(r"linda \d+\.\d+\.\d+", lines[0]))), (0, ["bank LND2", "frame 2"], "", True))
    fails_at_streams("--version", reads=False)


def statuses_of_pipe(folder):
    hello = frames.hello(7, True).hex()
    welcome = "00000009110000000000000000\n"
    equal(run("pipe"), (0, "", ""))
    equal(run("pipe", given=f"{hello}\n"), (0, welcome, ""))
    equal(run("pipe", given=f"{hello}\n\n00000000\nzz\n"), (0, welcome + "0000000a17090000000000000000\n", ""))
    equal(run("pipe", given=f"{hello}\n0\n"), (4, welcome, "line 2: not hexadecimal\n"))
    equal(run("pipe", given="\nzz"), (4, "", "line 2: not hexadecimal\n"))
    for words in [["more"], ["--port", 1], ["--servers", 1]]:
        refused_as_words("pipe", *words)
    fails_at_streams("pipe", given=f"{hello}\n".encode())
    fails_at_streams("pipe", "--help", reads=False)


def statuses_of_run(folder):
    script = '7 out ("a", 3)\n'
    play = "run", "--servers", 2
    equal(run(*play), (0, "", ""))
    equal(run(*play, given="# nothing\n\n" + script), (0, "7 stored 1 1\n", ""))
    for words in [[], ["--servers"], ["--servers", 0], ["--servers", 17], ["--servers", "x"], ["--servers", 1, "more"], ["--servers", 1, "--trace"]]:
        refused_as_words("run", *words)
    faults = {"7 out (a)": "not a command", "state 2": "no such server", "tick": "not a command", "stop 0 1": "not a command", f"64 {script[2:]}": "too many clients"}
    for line, fault in faults.items():
        before = "".join(f"{client} {script[2:]}" for client in range(64)) if fault == "too many clients" else script
        status, out, err = run(*play, given=f"{before}{line}\n{script}")
        equal((status, len(out.splitlines()), err), (4, before.count("\n"), f"line {1 + before.count(chr(10))}: {fault}\n"))
    equal(run(*play, "--trace", folder / "none/trace", given=script)[0::2], (3, "io\n"))
    equal(run(*play, "--trace", folder, given=script)[0::2], (3, "io\n"))
    fails_at_streams(*play, given=script.encode())


def statuses_of_serve(folder):
    """Those that are not here are in refused_stores, refused_calls and refused_words."""
    serve = "serve", "--port", 0, "--dir", folder
    status, out, err = run(*serve, "--sessions", 0)
    equal((status, bool(re.fullmatch(r"ready \d+\n", out)), err), (0, True, ""))
    equal(run("serve", "--port", 0, "--dir", folder / "none"), (3, "", "store: disk\n"))
    equal(run("serve", "--port", 0, "--dir", folder / "left.bank"), (3, "", "store: disk\n"))
    for words in [["--sessions", -1], ["--sessions", 2**32], ["--log", 1], ["--logs"]]:
        refused_as_words(*serve, *words)
    fails_at_streams(*serve, "--sessions", 0, reads=False)


def statuses_of_inspect(folder):
    equal(run("inspect", folder), (0, "left empty bytes 0\nright empty bytes 0\nstands neither a server makes a new store\n", ""))
    for words in [[], [folder, "more"], [folder, "--tuple"], ["--tuples"]]:
        refused_as_words("inspect", *words)
    equal(run("inspect", folder / "none"), (3, "", "store: disk\n"))
    (folder / "left.bank").write_bytes(b"\0\0")
    equal(run("inspect", folder), (3, "left closed bytes 2\nright empty bytes 0\nstands neither no bank\n", "store: no store\n"))
    (folder / "left.bank").write_bytes(b"\1LND3" + bytes(29))
    status, out, err = run("inspect", folder)
    equal((status, out.splitlines()[0], err), (3, "left foreign bytes 34", "store: damaged left 1\n"))
    (folder / "left.bank").unlink()
    fails_at_streams("inspect", folder, reads=False)


def statuses_of_call(folder):
    """Those that are not here are in refused_calls, refused_words, greetings and calls_that_leave."""
    with Server(folder) as server:
        equal(run("call", "--client", 1, server.port), (0, "", ""))
        equal(run("call", "--client", 1, server.port, given='sync always 1\nout ("a"\n'), (4, "1 always 1 labels [] raised []\n", "line 2: not a command\n"))
        with open("/dev/full", "wb") as full:
            equal(status_of("call", "--client", 2, server.port, given=b"sync always 1\n", out=full), (3, "io\n"))
        at = os.open("/", os.O_RDONLY)
        equal(status_of("call", "--client", 3, server.port, given=at), (3, "io\n"))
        os.close(at)
        equal(run("call", "--client", 4, server.port, given='out ("a")\n'), (0, "4 stored 0 1\n", ""))
        equal(run("call", "--client", 4, server.port, given='out ("a")\n'), (3, "", "server 0: refused 2 1\n"))


@contextlib.contextmanager
def listened():
    """A port that is listened on until the end."""
    with socket.create_server(("127.0.0.1", 0)) as listener:
        yield listener.getsockname()[1]


def explained_faults(folder):
    """With --explain a second line says at which place a line is no command and what was expected there, or what the system says; without it there is only the
    first."""
    def said(words, text=""):
        done = subprocess.run([PROGRAM, *map(str, words)], input=text, capture_output=True, text=True, errors="surrogateescape", timeout=PATIENCE)
        return done.returncode, done.stderr

    anything = "a text in double quotes, a number, true or false"
    events = "in or rd, alarm, always, choose, wrap or nack, never"
    for line, byte, words in (
            ("out ('job', 1)", 6, f"expected {anything}, found \"'\""),
            ('out("job" 1)', 11, 'expected ")", ",", found "1"'),
            ('take ("job", ?i)', 1, 'expected out, sync, abandon or leave, found "take"'),
            ('out ("job", 1.5)', 14, 'expected ")", ",", found "."'),
            ('out ("job", 99999999999999999999)', 5, "an integer of more than 64 bits"),
            ('sync in ("job", ?x)', 18, 'expected i, s or b, found "x"'),
            ('out ("job", ?i)', 13, f'expected {anything}, found "?"'),
            ("out", 4, 'expected "(", found the end of the line'),
            ("sync", 5, "expected in or rd, alarm, always, choose, wrap or nack, never, found the end of the line"),
            ('out ("job', 10, "expected a closing double quote, found the end of the line"),
            ('out ("a\\q")', 9, 'expected ", \\, n, r or t, found "q"'),
            (f'out ("{"x" * 4096}")', 5, "a text of more than 4,095 bytes"),
            ('out ("job", foo)', 13, f'expected {anything}, found "foo"'),
            ('out ("job", tru', 13, f'expected {anything}, found "tru"'),
            ("sync chose [alarm 1]", 6, 'expected in or rd, alarm, always, choose, wrap or nack, never, found "chose"'),
            ('out ("caf\udce9", 1)', 10, "expected UTF-8, found byte 233"),
            ("sync alarm", 11, "expected a number, found the end of the line"),
            ("sync wrap", 10, "expected a number, found the end of the line"),
            ("sync always", 12, "expected a text in double quotes, a number, true or false, found the end of the line"),
            ("sync nack 3", 12, f"expected {events}, found the end of the line"),
            ("sync nack 3x", 12, f'expected {events}, found "x"'),
            ("sync alarm5", 11, 'expected a blank, found "5"'),
            ("sync alarms 5", 6, f'expected {events}, found "alarms"'),
            ("sync never1", 11, 'expected the end of the line, found "1"'),
            ("sync choose [never", 19, 'expected ",", "]", found the end of the line'),
            ("leave now", 7, 'expected the end of the line, found "now"')):
        fault = "line 3: not a command\n"
        script = f'# a comment\n1 out ("a")\n1 {line}\n'
        equal(said(["run", "--servers", 1], script), (4, fault))
        equal(said(["run", "--servers", 1, "--explain"], script), (4, f"{fault}line 3, byte {byte + 2}: {words}\n"))
    for line, byte, words in (
            ("step 3", 1, "expected a client's number, tick, snapshot, stop, repeat or state, found \"step\""),
            ("4294967296 leave", 1, "a client's number of more than 32 bits"),
            ("99999999999999999999 leave", 1, "a client's number of more than 32 bits"),
            ("00 leave", 2, 'expected a blank, found "0"'),
            ("1leave", 2, 'expected a blank, found "leave"'),
            ("1 ", 3, "expected out, sync, abandon or leave, found the end of the line"),
            ("tick", 5, "expected a number, found the end of the line"),
            ("tick 18446744073709551616", 6, "a number of more than 64 bits"),
            ("tick 1x", 7, 'expected the end of the line, found "x"'),
            ("snapshot x", 10, 'expected a number, found "x"'),
            ("state 0 1", 9, 'expected the end of the line, found "1"'),
            ("stop", 5, "expected a number, found the end of the line"),
            ("stop 0 x", 8, 'expected a number or the end of the line, found "x"'),
            ("stop 0 3", 9, "expected a byte, from 0 to 255, found the end of the line"),
            ("stop 0 3 256", 10, "a byte above 255"),
            ("stop 0 3 255 1", 14, 'expected the end of the line, found "1"'),
            (" repeat x", 9, 'expected the end of the line, found "x"')):
        equal(said(["run", "--servers", 1, "--explain"], line), (4, f"line 1: not a command\nline 1, byte {byte}: {words}\n"))
    gone = folder / "gone" / "trace"
    for path, shown in ((gone, gone), ("", '""')):
        words = ["run", "--servers", 1, "--trace", path]
        equal(said(words), (3, "io\n"))
        equal(said([*words, "--explain"]), (3, f"io\n{shown}: No such file or directory (os error 2)\n"))
    port = free_port()
    equal(said(["call", "--client", 7, port]), (3, "server 0: no connection\n"))
    equal(said(["call", "--client", 7, "--explain", port]), (3, f"server 0: no connection\n{port}: Connection refused (os error 111)\n"))
    served = folder / "served"
    served.mkdir()
    with Server(served) as server:
        for _ in range(2):
            known = said(["call", "--client", 7, "--explain", server.port], 'out ("a")\n')
        equal(known, (3, f"server 0: refused 2 1\n{server.port}: the client number was used before: give --again, or another number\n"))
        holder = Peer(server.port, 8)
        equal(said(["call", "--client", 8, "--explain", server.port]),
              (3, f"server 0: refused 3 0\n{server.port}: another program has the client number now\n"))
        holder.close()
        equal(said(["serve", "--port", 0, "--dir", served, "--explain"]),
              (3, f"store: in use\n{served}: another server has it open; --wait waits for it\n"))
    path = folder / "none"
    for words in (["serve", "--port", 0, "--dir", path], ["inspect", path]):
        equal(said(words), (3, "store: disk\n"))
        equal(said([*words, "--explain"]), (3, f"store: disk\n{path}: No such file or directory (os error 2)\n"))
    twins = folder / "twins"
    twins.mkdir()
    (twins / "left.bank").touch()
    (twins / "right.bank").symlink_to("left.bank")
    for words in (["serve", "--port", 0, "--dir", twins], ["inspect", twins]):
        equal(said([*words, "--explain"]), (3, f"store: disk\n{twins}: left.bank and right.bank are one file\n"))
    port = free_port()
    for words, place in ((["--port", port, "--status", port], port), (["--socket", folder / "both", "--status", folder / "both"], folder / "both")):
        equal(said(["serve", *words, "--dir", folder, "--explain"]), (3, f"io\n{place}: given for clients and for the status\n"))
    with listened() as port:
        equal(said(["serve", "--port", port, "--dir", folder, "--explain"]), (3, f"io\n{port}: Address already in use (os error 98)\n"))
