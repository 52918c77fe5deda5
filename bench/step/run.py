#!/usr/bin/env python3
"""Times single steps of a store that has many tuples and many open asks of other clients, and beside many clients that left.

It proves and builds `main.rt.txt` (so named since CI reads each `.rt` file) over the crates of this repository, in a folder of its own, and runs it for each
act (`key`, `any`, `out`, `last`, `ask`, `held`, `freed`: see there) at 1,000, 10,000 and 100,000 tuples and at 0, 64, 4,096 and 65,536 open asks. A time is the
least of four runs, each the mean of some rounds. It prints the table, and the growth from the first size to the last, and fails if a take by key or a take of
any grows more than twice from 1,000 to 100,000 tuples, any act but `last`, `held` and `freed` more than twice from no open ask to 65,536 asks for another tag,
`last` more than twice from 64 asks for its own tag, each with another key, to 65,536, or `held` or `freed` more than one and a half times from no held tuple of
the tag to 4,096.

Then the acts `key`, `any`, `out`, `ask` and `left` at 1,000 tuples and no open ask, beside no client that left (1,000 for `left`) and beside 65,534, which with the
two at work are all that a server keeps; and `leave`, 20,000 clients one after another, the first of all and the last of all. It fails if one of these grows
more than twice, `left` more than four times. Finally it prints the memory in use among 100,000 tuples: of a process in which 65,534 clients left, less that of
one in which none did, for each of them.

`run.py PROGRAM` runs a program that is built already.
"""

import os
import shutil
import subprocess
import sys
import tempfile

ACTS = ["key", "any", "out", "ask", "held", "freed", "last"]
BESIDE_HELD = ["held", "freed"]
TUPLES = [1_000, 10_000, 100_000]
ASKS = [0, 64, 4_096, 65_536]
RUNS = 4
# Many rounds, so that a store is timed that has been at work for a while.
ROUNDS = 20_000
BESIDE_LEFT = ["key", "any", "out", "ask", "left", "leave"]
# All clients that a server keeps, except the two at work.
MOST_LEFT = 65_534
# The few that left: enough that finding one of them takes some levels of the map of all.
FEW_LEFT = 1_000
MOST_GROWTH = 2.0
MOST_BESIDE_HELD = 1.5
# A client that left is found among all that did, whose entries are more than the nearer caches hold; a walk over them would take 65 times as long.
MOST_AS_LEFT = 4.0
HERE = os.path.dirname(os.path.abspath(__file__))
TOP = os.path.join(HERE, "..", "..")
NEEDED = ["linda_map_laws", "linda_rising", "linda_tuple", "linda_codec", "linda_wire", "linda_bag", "linda_hold", "linda_book", "linda_store_state", "linda_store_step"]


def build(folder):
    """Lays out a repository of the crates that are needed and of the program, builds it, and returns the program's file."""
    crates = os.path.join(folder, "crates")
    for name in NEEDED:
        shutil.copytree(os.path.join(TOP, "crates", name), os.path.join(crates, name))
    program = os.path.join(crates, "bench_step")
    os.makedirs(os.path.join(program, "src"))
    shutil.copy(os.path.join(HERE, "main.rt.txt"), os.path.join(program, "src", "main.rt"))
    with open(os.path.join(TOP, "crates.txt")) as lines, open(os.path.join(folder, "crates.txt"), "w") as kept:
        kept.writelines(line for line in lines if line.split(":")[0] in NEEDED)
        kept.write("bench_step: linda_tuple linda_wire linda_bag linda_store_step anyhow\n")
    subprocess.run(["rt", "run", "--", "ask", "1", "0", "0", "1"], cwd=program, check=True, stdout=subprocess.DEVNULL)
    return os.path.join(program, "out", "bench_step")


def time_once(program, act, tuples, asks, left=0):
    words = [program, act, str(tuples), str(asks), str(left), str(ROUNDS)]
    done = subprocess.run(words, check=True, stdout=subprocess.PIPE, text=True)
    return int(done.stdout) / 1000


def memory_once(program, left):
    """The greatest memory in use, in bytes, of a process in which so many clients left. There are many tuples besides, so that it is more than that of this
    script, which the process is when it starts."""
    child = subprocess.Popen([program, "ask", str(TUPLES[-1]), "0", str(left), "1"], stdout=subprocess.DEVNULL)
    _, status, usage = os.wait4(child.pid, 0)
    child.returncode = os.waitstatus_to_exitcode(status)
    if child.returncode != 0:
        sys.exit(f"{left} clients leave: ended with status {child.returncode}")
    return usage.ru_maxrss * 1024


def beside_left(program):
    """Prints the times of the acts beside clients that left, and the memory of each such client; returns the growth of each act."""
    growths = {}
    print("| act | few clients that left | many | growth |")
    print("|---|---|---|---|")
    for act in BESIDE_LEFT:
        few = FEW_LEFT if act == "left" else 0
        many = MOST_LEFT - ROUNDS if act == "leave" else MOST_LEFT
        times = [min(time_once(program, act, TUPLES[0], 0, left) for _ in range(RUNS)) for left in (few, many)]
        growths[act] = times[1] / times[0]
        print(f"| {act} | {few:,}: {times[0]:.2f} us | {many:,}: {times[1]:.2f} us | {growths[act]:.2f} |")
    none, all_left = (min(memory_once(program, left) for _ in range(RUNS)) for left in (0, MOST_LEFT))
    print(f"{MOST_LEFT:,} clients that left: {(all_left - none) / 2**20:.1f} MiB, {(all_left - none) / MOST_LEFT:.0f} bytes each")
    return growths


def main():
    with tempfile.TemporaryDirectory() as folder:
        program = sys.argv[1] if len(sys.argv) > 1 else build(folder)
        times = {}
        for act in ACTS:
            for tuples in TUPLES:
                for asks in ASKS:
                    if act == "last" and asks == 0:
                        continue
                    times[act, tuples, asks] = min(time_once(program, act, tuples, asks) for _ in range(RUNS))
        growths_left = beside_left(program)
    worst = worst_held = 0.0
    print("| act | open asks | " + " | ".join(f"{tuples:,} tuples" for tuples in TUPLES) + " | growth |")
    print("|---|---|" + "---|" * (len(TUPLES) + 1))
    for act in ACTS:
        for asks in ASKS:
            row = [times.get((act, tuples, asks)) for tuples in TUPLES]
            if None in row:
                continue
            growth = row[-1] / row[0]
            if act in ("key", "any"):
                worst = max(worst, growth)
            print(f"| {act} | {asks:,} | " + " | ".join(f"{time:.2f} us" for time in row) + f" | {growth:.2f} |")
        if act in BESIDE_HELD:
            growths = [times[act, tuples, 4_096] / times[act, tuples, 0] for tuples in TUPLES]
            worst_held = max([worst_held, *growths])
            print(f"| {act} | 0 to 4,096 | " + " | ".join(f"{growth:.2f}" for growth in growths) + " | |")
        else:
            first = ASKS[1] if act == "last" else ASKS[0]
            growths = [times[act, tuples, ASKS[-1]] / times[act, tuples, first] for tuples in TUPLES]
            worst = max([worst, *growths])
            print(f"| {act} | {first} to 65,536 | " + " | ".join(f"{growth:.2f}" for growth in growths) + " | |")
    for act, growth in growths_left.items():
        most = MOST_AS_LEFT if act == "left" else MOST_GROWTH
        if growth > most:
            sys.exit(f"{act}: a growth of {growth:.2f} beside clients that left, more than {most}")
    if worst_held > MOST_BESIDE_HELD:
        sys.exit(f"a growth of {worst_held:.2f} beside 4,096 held tuples, more than {MOST_BESIDE_HELD}")
    if worst > MOST_GROWTH:
        sys.exit(f"a growth of {worst:.2f}, more than {MOST_GROWTH}")


main()
