#!/usr/bin/env python3
"""Times `linda pipe` on streams of 50,000, 100,000 and 200,000 puts.

For each it prints the frames answered in a second, the microseconds a frame, the greatest memory in use, and how many
times longer it took than `xxd -r -p` does to read the same digits. Times are processor times, the best of ten runs.
It fails if twice the frames take more than 2.3 times as long, or if a reply is missing.
"""

import os
import subprocess
import sys
import tempfile

COUNTS = [50_000, 100_000, 200_000]
ROUNDS = 10
MOST_GROWTH = 2.3
HERE = os.path.dirname(os.path.abspath(__file__))
LINDA = os.path.join(HERE, "..", "..", "crates", "linda", "out", "linda")


def run_once(words, source, target):
    """Runs a program from a file to a file, and returns its processor seconds and its peak memory in bytes."""
    with open(source, "rb") as stdin, open(target, "wb") as stdout:
        child = subprocess.Popen(words, stdin=stdin, stdout=stdout)
        _, status, usage = os.wait4(child.pid, 0)
    child.returncode = os.waitstatus_to_exitcode(status)
    if child.returncode != 0:
        sys.exit(f"{words[0]} ended with status {child.returncode}")
    return usage.ru_utime + usage.ru_stime, usage.ru_maxrss * 1024


def generate(folder, count):
    """Writes the stream of `count` puts, and returns its file."""
    source = os.path.join(folder, f"stream{count}")
    with open(source, "wb") as stream:
        subprocess.run([sys.executable, os.path.join(HERE, "generate.py"), str(count)], stdout=stream, check=True)
    return source


def best_of_rounds(words, sources, target):
    """For each stream the best time of all rounds, and the greatest memory. A round runs each stream once, so that
    whatever else the machine does slows down all of them."""
    runs = {count: [] for count in sources}
    for _ in range(ROUNDS):
        for count, source in sources.items():
            runs[count].append(run_once(words, source, target))
    return {count: (min(run[0] for run in all), max(run[1] for run in all)) for count, all in runs.items()}


def check_replies(folder, source, count):
    """Checks that one line answers the Hello and one each put; the last put's number is its id."""
    target = os.path.join(folder, "replies")
    run_once([LINDA, "pipe"], source, target)
    lines, line = 0, ""
    with open(target) as replies:
        for line in replies:
            lines += 1
    last = (b"\x00\x00\x00\x11\x12" + count.to_bytes(8, "big") * 2).hex() + "\n"
    if lines != count + 1 or line != last:
        sys.exit(f"{count} frames: a reply is missing or wrong")


def main():
    if not os.path.exists(LINDA):
        sys.exit("build the program first: ./linda --help")
    with tempfile.TemporaryDirectory() as folder:
        sources = {count: generate(folder, count) for count in COUNTS}
        for count, source in sources.items():
            check_replies(folder, source, count)
        target = os.path.join(folder, "replies")
        others = best_of_rounds(["xxd", "-r", "-p"], sources, target)
        ours = best_of_rounds([LINDA, "pipe"], sources, target)
    for count in COUNTS:
        seconds, memory = ours[count]
        other = others[count][0]
        print(
            f"{count} frames: {seconds:.3f} s, {count / seconds:,.0f} a second, {1e6 * seconds / count:.2f} us each,"
            f" {memory / 2**20:.1f} MiB at most, {seconds / other:.1f} times xxd ({other:.3f} s)"
        )
    times = [ours[count][0] for count in COUNTS]
    grows = [later / earlier for earlier, later in zip(times, times[1:])]
    print("twice the frames take " + ", ".join(f"{growth:.2f}" for growth in grows) + " times as long")
    if max(grows) > MOST_GROWTH:
        sys.exit(f"more than {MOST_GROWTH} times")


main()
