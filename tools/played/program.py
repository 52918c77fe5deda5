"""The program as a process that ends: its status and what it prints. What is found is compared with what is wanted here, and waited for."""

import functools
import os
import resource
import signal
import subprocess
import tempfile
import time
from pathlib import Path

TOP = Path(__file__).resolve().parent.parent.parent
PROGRAM = TOP / "linda"
# What ./linda runs once it is built.
BUILT = TOP / "crates/linda/out/linda"
PATIENCE = 60
# How long what ends at once may take beside other work.
SOON = 15


# Preloaded: a device on which a write beyond so many bytes of a file fails. Room, which is closed gates, is there.
FAILING = """#define _GNU_SOURCE
#include <errno.h>
#include <stdlib.h>
#include <string.h>
#include <sys/syscall.h>
#include <unistd.h>
ssize_t pwrite64(int file, const void *data, size_t size, off_t at) {
    const char *bytes = data;
    int is_room = size > 1 && bytes[0] == 0 && memcmp(bytes, bytes + 1, size - 1) == 0;
    if (!is_room && at + (long)size > atol(getenv("FAILS_BEYOND"))) {
        errno = EFBIG;
        return -1;
    }
    return syscall(SYS_pwrite64, file, data, size, at);
}
__typeof__(pwrite64) pwrite __attribute__((alias("pwrite64")));
"""


class Late(Exception):
    """The machine was too slow for a check."""


def run(*words, given="", around=None):
    """The status of the program, and what it printed on standard output and standard error."""
    done = subprocess.run([PROGRAM, *map(str, words)], input=given, capture_output=True, text=True, timeout=PATIENCE, env=around)
    return done.returncode, done.stdout, done.stderr


def refused_as_words(*words):
    """The command line is no command: status 2, the parser's text on standard error, and nothing else."""
    status, out, err = run(*words)
    equal((status, out, bool(err)), (2, "", True))


def equal(found, wanted):
    if found != wanted:
        raise AssertionError(f"found {found!r}, wanted {wanted!r}")


def wait_until(look, wanted):
    for _ in range(100 * SOON):
        found = look()
        if found == wanted:
            return
        time.sleep(0.01)
    equal(found, wanted)


def most(kind, count):
    """Lets a process have no more of it. One that writes past the size of a file gets an error, not a signal."""
    signal.signal(signal.SIGXFSZ, signal.SIG_IGN)
    resource.setrlimit(kind, (count, count))


@functools.lru_cache
def failing_library():
    """The library of FAILING."""
    folder = Path(tempfile.mkdtemp(prefix="failing-"))
    (folder / "failing.c").write_text(FAILING)
    subprocess.run(["cc", "-shared", "-fPIC", "-O1", "-o", folder / "failing.so", folder / "failing.c"], check=True)
    return folder / "failing.so"


def writes_fail_beyond(count):
    """What a process does before it becomes the program: from then on its device fails in a write beyond so many bytes of a file."""
    library = failing_library()

    def before():
        os.environ.update(LD_PRELOAD=str(library), FAILS_BEYOND=str(count))
    return before
