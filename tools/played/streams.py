"""The program with other standard streams than pipes: files, /dev/full, and streams that are closed."""

import os
import subprocess

from played.program import BUILT, PATIENCE, PROGRAM, SOON, equal


def status_of(*words, given=b"", out=None):
    """The status of the program and what it prints on standard error, with these bytes or this file as standard input, and this file as standard output."""
    is_bytes = isinstance(given, bytes)
    done = subprocess.run([PROGRAM, *map(str, words)], input=given if is_bytes else None, stdin=None if is_bytes else given, stdout=out or subprocess.DEVNULL,
                          stderr=subprocess.PIPE, timeout=PATIENCE)
    return done.returncode, done.stderr.decode()


def fails_at_streams(*words, reads=True, given=b""):
    """A standard input that cannot be read and a standard output that takes nothing both end it with 3 and `io`."""
    with open("/dev/full", "wb") as full:
        equal(status_of(*words, given=given, out=full), (3, "io\n"))
    if reads:
        at = os.open("/", os.O_RDONLY)
        try:
            equal(status_of(*words, given=at), (3, "io\n"))
        finally:
            os.close(at)


def begin_closed(closed, *words, given=b""):
    """The program itself, without the script ./linda, and without these of its standard streams; the others are pipes. What it is given is short."""
    def before():
        for stream in closed:
            os.close(stream)

    process = subprocess.Popen([BUILT, *map(str, words)], stdin=subprocess.PIPE, stdout=subprocess.PIPE, stderr=subprocess.PIPE, preexec_fn=before)
    try:
        process.stdin.write(given if 0 not in closed else b"")
        process.stdin.close()
    except BrokenPipeError:
        pass  # it ended before it read anything
    process.stdin = None
    return process


def end_closed(process):
    """Its status, and what came on both streams; if it does not end it is killed, and its status is none."""
    try:
        out, err = process.communicate(timeout=SOON)
        return process.returncode, out.decode(), err.decode()
    except subprocess.TimeoutExpired:
        process.kill()
        process.communicate()
        return None, "", ""
