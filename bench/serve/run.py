#!/usr/bin/env python3
"""Measures `linda serve` under load, against what the same disk can sync, and what the server uses for it.

    bench/serve/run.py [ROUNDS] [SECONDS]     rounds (3) over all cells, SECONDS seconds each (1)
        --program 'FILE [WORD..]'   the program, and further words for its `serve`; ./linda if none is given.
                                    Each further one is a further column
        --against FILE              FILE, the program of another version, as a further column; how many times as many requests as
                                    it this one takes, and that as the line of its version in bench/RESULTS.md
        --beside redis              Redis as a further column, if redis-server is here: it appends each write to its
                                    log and syncs that before it answers (`appendfsync always`). A put is RPUSH, a
                                    take LPOP, and a client that waits says BLPOP. Only loads and idle connections are played
        --only TEXT                 the cells with this text in their names, and those of each further one
        --realtime                  all in a real-time class

The driver, drive.c, is built with cc; it speaks frames over sockets as docs/PROTOCOL.md defines them, from one thread. The
stores lie in new folders below this repository, so on its disk, and each cell has a new server. In a round each cell is
measured with each program in turn; in the next round the programs come in the other order. Before and after each cell a
plain loop appends 64 bytes and syncs them, on the same disk.

A request is a put or a take that was acknowledged; the Ask of a take does not count as one. What is printed of a cell:
- Its requests a second (of 50 ms slices the 80th percentile, and the mean) over the turns of the loop, the mean of both
  times; the median, the least and the greatest of the rounds. A deed needs two syncs, so one client that waits for each
  reply can have 0.5 at most.
- The latency that 50, 99 and 99.9 in 100 did not exceed: of a put, or of a put with the Ask and the take that follow;
  the medians of the rounds. The time in the driver counts. With fewer than 1,000 the last figure is the greatest.
- The server's processor time and the voluntary and involuntary context switches of all its threads, from the first
  message to the last reply, for each request. Then the part of one processor that the driver used in that time: if it
  is near 1, the driver limits the cell and not the server.
- For `scraped` how often another process had /metrics in a second meanwhile: a thousand times, if it gets them.
- For `wake` the time from the moment that a put is sent until a waiting client has the offer, and until it has the
  tuple, the median of all; and how many appends and syncs of the loop fit into the latter.

The other cells, with each program:
- Idle connections, which are greeted and do nothing, in the first round: the server's memory (PSS) with and without
  them, and its threads. What the kernel has for sockets and threads is not counted.
- A start with 1,000,000 tuples `("job", i)` in a snapshot, which the system still has in memory: the time until
  `ready`, and the most memory in use. `tools/large` measures large tuples.
- A snapshot of 1,000,000 such tuples while 16 clients put: the greatest time between two acknowledgements of any
  clients, and the time that the log says. Then the same with replies that are kept for 60,000 clients more, while another
  process asks for `/tags` each second.

With --realtime server, driver and loop run in a real-time class (which takes root), ahead of all else on the machine.
If others use the processors, a thread that wakes waits for them otherwise, and the figures say little about the server.

It ends with 1 if a cell could not be measured. A cell that needs more open files than a process may have here is left
out, with a line that says so.
"""

import argparse
import contextlib
import multiprocessing
import os
import re
import resource
import socket
import statistics
import subprocess
import sys
import tempfile
import time
from collections import defaultdict
from dataclasses import dataclass, field
from datetime import date
from multiprocessing.sharedctypes import Synchronized
from pathlib import Path
from typing import Callable, Iterator

HERE = Path(__file__).resolve().parent
TOP = HERE.parent.parent
sys.dont_write_bytecode = True
sys.path.insert(0, str(TOP / "tools"))
import banks  # noqa: E402
import redis  # noqa: E402
from served import PROGRAM, Server  # noqa: E402

# The driver's words between the server and the seconds: the clients; for all but `wake` the connections that are idle
# beside them; for puts how many are under way.
LOADS = {
    "put, 1 client": ["put", "1", "0", "1"],
    "put, 64 clients": ["put", "64", "0", "1"],
    "put, 1 client with 64 under way": ["put", "1", "0", "64"],
    "put and take, 1 client": ["pair", "1", "0"],
    "put and take, 4 clients": ["pair", "4", "0"],
    "put and take, 16 clients": ["pair", "16", "0"],
    "put and take, 64 clients": ["pair", "64", "0"],
    "put and take, 256 clients": ["pair", "256", "0"],
    "put and take, 1,000 clients": ["pair", "1000", "0"],
    "put and take, 64 clients of 10,000": ["pair", "64", "9936"],
    "put and take, 64 clients, scraped": ["pair", "64", "0"],
    "wake, 1 waits": ["wake", "1"],
    "wake, 64 wait": ["wake", "64"],
}
# The load during which the numbers of the server are asked for over HTTP, and how many times a second.
SCRAPED, SCRAPES = "put and take, 64 clients, scraped", 1_000
REDIS = "redis"
IDLE = {"idle connections, 1,000": 1_000, "idle connections, 10,000": 10_000}
START, PAUSE = "start with 1,000,000 tuples", "snapshot of 1,000,000 tuples"
CROWD = "snapshot of 1,000,000 tuples and 60,000 clients"
STARTED = SAVED = 1_000_000
CROWDED = 60_000
PROBE_SECONDS, PAUSE_SECONDS = "0.5", "6"
# The log looks for events ten times a second.
LOG_SECONDS = 0.5
# The most open files of a process that are no connections.
OTHER_FILES = 64
# A client without a connection, which put what is in a store at first; those with the numbers after it took a tuple.
EARLIER = 1_000_000
DEEDS_OF_A_RECORD = 64
SNAPSHOT_TAKEN = re.compile(r" snapshot result taken milliseconds (\d+)")
PRIORITY = 5


# The page of results, the cells of its table of versions, and the last line of its head.
RESULTS = TOP / "bench/RESULTS.md"
AGAINST = ("put, 1 client", "put, 64 clients", "put, 1 client with 64 under way", "put and take, 4 clients", "put and take, 16 clients", "put and take, 64 clients")
AGAINST_HEAD = "|---|---|---|---|---|---|---|---|---|\n"


class Missing(Exception):
    """The reason why a cell was not measured."""


class Forbidden(Missing):
    """A limit of the machine is the reason."""


@dataclass(frozen=True)
class Way:
    """A program with further words for its `serve`, and its name as a column."""

    name: str
    program: Path
    words: tuple[str, ...]


Lines = dict[str, list[list[int]]]
Measures = dict[str, float]
Found = dict[str, list[float]]


@dataclass
class Bench:
    """The driver, a folder for stores, and what the probes found; the last one is the one before the next cell."""

    driver: str
    folder: Path
    seconds: str
    before: tuple[float, float] = (0.0, 0.0)
    probes: list[float] = field(default_factory=list)
    loads: list[float] = field(default_factory=list)

    def run(self, *words: object) -> Lines:
        """The lines that the driver prints, by their first words."""
        done = subprocess.run([self.driver, *map(str, words)], capture_output=True, text=True)
        if done.returncode:
            raise Missing(done.stderr.strip() or f"the driver ended with {done.returncode}")
        lines: Lines = defaultdict(list)
        for line in done.stdout.splitlines():
            word, *numbers = line.split()
            lines[word].append([int(number) for number in numbers])
        return lines

    def probe(self) -> None:
        """Appends and syncs a second: by the 80th percentile of slices, and the mean."""
        path = self.folder / "plain"
        self.before = rates_of(self.run("sync", path, PROBE_SECONDS))
        path.unlink()
        self.probes.append(self.before[0])
        self.loads.append(os.getloadavg()[0])

    def store(self) -> "tempfile.TemporaryDirectory[str]":
        return tempfile.TemporaryDirectory(dir=self.folder)

    def measure(self, name: str, way: Way, bank: bytes) -> Measures:
        with self.store() as folder:
            if way.name == REDIS:
                with redis.Redis(Path(folder), free_port()) as server:
                    if name in IDLE:
                        return self.hold(server, IDLE[name], "redis-hold")
                    kind, *words = LOADS[name]
                    return self.load(server, f"redis-{kind}", *words)
            if bank:
                (Path(folder) / "left.bank").write_bytes(bank)
                (Path(folder) / "right.bank").write_bytes(b"")
            words = (*way.words, "--log") if name in (PAUSE, CROWD) else way.words
            status = free_port()
            words = (*words, "--status", str(status)) if name in (SCRAPED, CROWD) else words
            began = time.monotonic()
            with Server(Path(folder), program=way.program, words=words) as server:
                if name == START:
                    return {"seconds": time.monotonic() - began, "peak": server.use().most / 1024}
                if name == PAUSE:
                    return self.pause(server)
                if name == CROWD:
                    return self.crowd(server, status)
                if name == SCRAPED:
                    return self.scraped(server, status, *LOADS[name])
                return self.hold(server, IDLE[name]) if name in IDLE else self.load(server, *LOADS[name])

    def scraped(self, server: Server, status: int, kind: str, *words: str) -> Measures:
        """As load, while another process asks for the numbers; and how often it had them in a second."""
        with asking(status, "/metrics", SCRAPES) as count:
            began = time.monotonic()
            found = self.load(server, kind, *words)
            found["scrapes"] = count.value / (time.monotonic() - began)
        return found

    def crowd(self, server: Server, status: int) -> Measures:
        """As pause, while another process asks for the tags each second."""
        with asking(status, "/tags", 1) as count:
            found = self.pause(server)
            if not count.value:
                raise Missing("nobody had the tags")
        return found

    def load(self, server: Server | redis.Redis, kind: str, *words: str) -> Measures:
        need(sum(map(int, words[:2])))
        (fast, mean), lines = self.before, self.run(kind, server.port, server.process.pid, *words, self.seconds)
        self.probe()
        fast, mean = (fast + self.before[0]) / 2, (mean + self.before[1]) / 2
        requests, processor, voluntary, involuntary = lines["server"][0]
        found = dict(zip(("half", "99", "99.9"), (time / 1e3 for time in lines["latency"][0])))
        found |= {"processor": processor / 1e3 / requests}
        found |= {"voluntary": voluntary / requests, "involuntary": involuntary / requests}
        found |= {"driver": lines["driver"][0][0] / lines["driver"][0][1]}
        if kind.endswith("wake"):
            offer, take = (statistics.median(times) / 1e3 for times in zip(*lines["wake"]))
            return found | {"offer": offer, "take": take, "syncs": take * fast / 1e6}
        rates = rates_of(lines)
        if not fast or not mean:
            raise Missing("the loop had no sync: the disk stood still")
        return found | {"rate": rates[0], "fast": rates[0] / fast, "mean": rates[1] / mean}

    def hold(self, server: Server | redis.Redis, count: int, kind: str = "hold") -> Measures:
        """The server's memory for each of `count` connections, beyond that without connections, and its threads."""
        need(count)
        without = memory_of(server)
        with subprocess.Popen([self.driver, kind, str(server.port), str(count)], stdin=subprocess.PIPE,
                              stdout=subprocess.PIPE, stderr=subprocess.PIPE, text=True) as driver:
            assert driver.stdout and driver.stderr
            if driver.stdout.readline() != f"held {count}\n":
                raise Missing(driver.stderr.read().strip())
            memory, threads = memory_of(server), server.use().threads
            driver.communicate("\n")
        return {"each": (memory - without) / count, "without": without / 1024, "with": memory / 1024,
                "threads": threads}

    def pause(self, server: Server) -> Measures:
        """The greatest time between two acknowledgements around a snapshot, the time in the log, in ms, and the most memory."""
        lines = self.run("put", server.port, server.process.pid, "16", "0", "1", PAUSE_SECONDS)
        time.sleep(LOG_SECONDS)
        most = server.use().most
        server.process.kill()
        assert server.process.stderr
        taken = SNAPSHOT_TAKEN.findall(server.process.stderr.read())
        if len(taken) != 1:
            raise Missing(f"{len(taken)} snapshots in {PAUSE_SECONDS} s")
        return {"gap": lines["gap"][0][0] / 1e6, "log": float(taken[0]), "most": most / 1024}


def free_port() -> int:
    with socket.create_server(("127.0.0.1", 0)) as probe:
        return probe.getsockname()[1]


@contextlib.contextmanager
def asking(port: int, path: str, often: int) -> Iterator[Synchronized]:
    """The counter of another process that asks for the page `often` times a second: how often it had it."""
    count = multiprocessing.Value("L", 0)
    other = multiprocessing.Process(target=scrape, args=(port, path, often, count), daemon=True)
    other.start()
    try:
        yield count
    finally:
        other.terminate()
        other.join()


def scrape(port: int, path: str, often: int, count: Synchronized) -> None:
    """Asks for the page until it is ended, each time over a connection of its own, at an even pace."""
    began = time.monotonic()
    while True:
        with socket.create_connection(("127.0.0.1", port)) as stream:
            stream.sendall(f"GET {path} HTTP/1.1\r\nHost: 127.0.0.1\r\n\r\n".encode())
            while stream.recv(65_536):
                pass
        count.value += 1
        time.sleep(max(0.0, began + count.value / often - time.monotonic()))


def need(connections: int) -> None:
    """Raises Forbidden if a process may not have this number of connections here."""
    limit = resource.getrlimit(resource.RLIMIT_NOFILE)[0]
    if connections + OTHER_FILES > limit:
        raise Forbidden(f"{connections:,} connections, and a process may have {limit:,} open files here")


def is_played(name: str, way: Way) -> bool:
    """Whether the program has what this cell asks for."""
    return way.name != REDIS or (name in {**LOADS, **IDLE} and name != SCRAPED)


def memory_of(server: Server | redis.Redis) -> float:
    """The memory of a server in KiB; what it shares with other processes is counted in part (PSS)."""
    text = Path(f"/proc/{server.process.pid}/smaps_rollup").read_text()
    return float(text.split("\nPss:")[1].split()[0])


def job(number: int) -> bytes:
    return b"\2\0\3job\1\1" + number.to_bytes(8, "big")


def saved_bank() -> bytes:
    """A bank with its tuples in the snapshot."""
    bag = {place: job(place) for place in range(1, STARTED + 1)}
    return banks.spell_bank(1, banks.State(STARTED + 1, bag, {EARLIER: (STARTED, ("Stored", STARTED))}))


def recorded_bank(clients: int = 0) -> bytes:
    """A bank with its tuples in records after a snapshot that only keeps replies for `clients` clients: 1,024 records later its server takes a snapshot."""
    def deed(number: int) -> bytes:
        return b"\1" + EARLIER.to_bytes(4, "big") + number.to_bytes(8, "big") + job(number)

    book = {EARLIER + number: (1, ("Taken", number, job(number))) for number in range(1, clients + 1)}
    parts = [banks.spell_bank(1, banks.State(clients + 1, {}, book))[:-1]]
    for first in range(1, SAVED + 1, DEEDS_OF_A_RECORD):
        deeds = b"".join(map(deed, range(first, min(first + DEEDS_OF_A_RECORD, SAVED + 1))))
        parts.append(b"\1" + len(deeds).to_bytes(4, "big") + deeds)
    return b"".join(parts) + b"\0"


def rates_of(lines: Lines) -> tuple[float, float]:
    counts = sorted(line[0] for line in lines["slice"])
    return counts[len(counts) * 80 // 100] * 20.0, sum(counts) / len(counts) * 20.0


def spread(values: list[float]) -> str:
    return f"{statistics.median(values):.2f} ({min(values):.2f} to {max(values):.2f})"


def middle(values: list[float]) -> str:
    value = statistics.median(values)
    return f"{value:,.0f}" if value >= 100 else f"{value:.1f}" if value >= 10 else f"{value:.2f}"


def limits(values: list[float]) -> str:
    return f"{min(values):,.0f} to {max(values):,.0f}"


def wake(found: Found) -> str:
    offer, take = (f"{middle(found[name])} ({limits(found[name])})" for name in ("offer", "take"))
    return f"{offer}; {take}; {spread(found['syncs'])}"


def idle(found: Found) -> str:
    each, without, with_them = (middle(found[name]) for name in ("each", "without", "with"))
    return f"{each} KiB; {without} and {with_them} MiB; {found['threads'][0]:,.0f}"


# The tables: the title, a measure that the cells of the table have, and what is printed of a cell.
TABLES: list[tuple[str, str, Callable[[Found], str]]] = [
    ("requests for each append and sync, by the best fifth", "fast", lambda found: spread(found["fast"])),
    ("requests for each append and sync, by the mean", "mean", lambda found: spread(found["mean"])),
    ("requests a second by the best fifth, least and most", "rate", lambda found: limits(found["rate"])),
    ("latency in us: 50, 99 and 99.9 in 100", "half",
     lambda found: ", ".join(middle(found[name]) for name in ("half", "99", "99.9"))),
    ("the server, a request: us of processor; voluntary; involuntary switches; the driver's part of one", "processor",
     lambda found: "; ".join(middle(found[name]) for name in ("processor", "voluntary", "involuntary", "driver"))),
    ("answers to /metrics a second", "scrapes", lambda found: limits(found["scrapes"])),
    ("us until the offer; until the tuple; appends and syncs in that time", "offer", wake),
    ("memory of a connection; of the server without and with all; its threads", "each", idle),
    ("seconds until it is ready; most memory in MiB", "seconds",
     lambda found: f"{spread(found['seconds'])}; {middle(found['peak'])}"),
    ("ms between two acknowledgements at most; of the snapshot by the log; most memory in MiB", "gap",
     lambda found: f"{limits(found['gap'])}; {limits(found['log'])}; {middle(found['most'])}"),
]


def ways_of(programs: list[str], beside: list[str]) -> list[Way]:
    ways = [Way(REDIS, Path(redis.PROGRAM), ())] if beside else []
    for text in programs or [os.path.relpath(PROGRAM)]:
        name, *words = text.split()
        ways.append(Way(text, Path(name).resolve(), tuple(words)))
    return ways


def version_of(program: Path) -> str:
    said = subprocess.run([program, "--version"], capture_output=True, text=True, check=True).stdout
    return re.findall(r"\d+\.\d+\.\d+", said)[0]


def against(own: Way, other: Way, found: dict[tuple[str, str], Found]) -> dict[str, float]:
    """By cell how many times as many requests the first takes as the other one, for an append and sync: of each round, and the median of these."""
    pairs = {name: (found[name, own.name]["fast"], found[name, other.name]["fast"]) for name in LOADS if (name, own.name) in found and (name, other.name) in found}
    return {name: statistics.median(mine / theirs for mine, theirs in zip(*pair)) for name, pair in pairs.items() if all(pair)}


def keep_line(line: str, page: str) -> str:
    """The page with this line of a version in its table, in the place of one that the version has there."""
    before, head, after = page.partition(AGAINST_HEAD)
    if not head:
        raise ValueError(f"bench/RESULTS.md has no table of versions: {AGAINST_HEAD!r}")
    table, gap, rest = after.partition("\n\n")
    version = line.split("|")[1]
    rows = [row for row in table.splitlines() if row and row.split("|")[1] != version]
    return before + head + "\n".join(["", *rows, line]).replace("\n", "", 1) + (gap + rest if gap else "\n")


def raise_limit() -> None:
    """Lets processes have as many open files as the cells need, or else as many as this user may have."""
    _, hard = resource.getrlimit(resource.RLIMIT_NOFILE)
    for most in (max(hard, 2 * max(IDLE.values())), hard):
        try:
            return resource.setrlimit(resource.RLIMIT_NOFILE, (most, most))
        except (ValueError, OSError):
            continue


def main() -> int:
    options = argparse.ArgumentParser(description=__doc__, formatter_class=argparse.RawDescriptionHelpFormatter)
    options.add_argument("rounds", type=int, nargs="?", default=3)
    options.add_argument("seconds", type=float, nargs="?", default=1.0)
    options.add_argument("--program", action="append", default=[])
    options.add_argument("--against", type=Path)
    options.add_argument("--beside", action="append", choices=[REDIS], default=[])
    options.add_argument("--only", action="append", default=[])
    options.add_argument("--realtime", action="store_true")
    given = options.parse_args()
    if given.beside and not redis.is_here():
        options.error(f"there is no {redis.PROGRAM}")
    if given.against and (given.program or given.beside):
        options.error("--against is for this program and another one")
    ways = ways_of([os.path.relpath(PROGRAM), str(given.against)] if given.against else given.program, given.beside)
    names = [name for name in (*LOADS, *IDLE, START, PAUSE, CROWD) if any(text in name for text in given.only or [""])]
    if given.rounds < 1 or given.seconds < 0.05 or not names:
        options.error("no round, no slice of 50 ms, or no cell")
    raise_limit()
    makers = {START: saved_bank, PAUSE: recorded_bank, CROWD: lambda: recorded_bank(CROWDED)}
    stored = {name: make() for name, make in makers.items() if name in names}
    found: dict[tuple[str, str], Found] = defaultdict(lambda: defaultdict(list))
    missing: dict[tuple[str, str], Missing] = {}
    with tempfile.TemporaryDirectory() as built, tempfile.TemporaryDirectory(dir=TOP) as folder:
        driver = f"{built}/drive"
        subprocess.run(["cc", "-O2", "-Wall", "-o", driver, HERE / "drive.c"], check=True)
        if given.realtime:
            os.sched_setscheduler(0, os.SCHED_RR, os.sched_param(PRIORITY))
        bench = Bench(driver, Path(folder), str(given.seconds))
        bench.probe()
        for turn in range(given.rounds):
            cells = [name for name in names if turn == 0 or name not in IDLE]
            for cell in [(name, way) for name in cells for way in (ways[::-1] if turn % 2 else ways)]:
                name, way = cell
                if (name, way.name) in missing or not is_played(name, way):
                    continue
                try:
                    for measure, value in bench.measure(name, way, stored.get(name, b"")).items():
                        found[name, way.name][measure].append(value)
                except Missing as why:
                    missing[name, way.name] = why
    head = f"{given.rounds} rounds of {given.seconds:g} s a cell{', real-time' if given.realtime else ''}"
    busy = f"processes that ran or waited to: {min(bench.loads):.1f} to {max(bench.loads):.1f}"
    loop = f"the loop: {limits(bench.probes)} appends and syncs a second, median {middle(bench.probes)}"
    print(f"{head}; {busy}; {loop}")
    for title, measure, shown in TABLES:
        rows = {name: [found[name, way.name] for way in ways] for name in names}
        rows = {name: row for name, row in rows.items() if any(measure in cell for cell in row)}
        if rows:
            print(f"\n| {title} | {' | '.join(way.name for way in ways)} |\n|---|{'---|' * len(ways)}")
        for name, row in rows.items():
            print(f"| {name} | {' | '.join(shown(cell) if measure in cell else '' for cell in row)} |")
    for (name, way_name), why in missing.items():
        print(f"\nnot measured: {name}, {way_name}: {why}")
    if given.against:
        times, versions = against(*ways, found), [version_of(way.program) for way in ways]
        print(f"\n{versions[0]} takes so many times as many requests as {versions[1]}: {', '.join(f'{name}: {value:.2f}' for name, value in times.items())}")
        if all(name in times for name in AGAINST):
            line = f"| {versions[0]} | {versions[1]} | {date.today()} | {' | '.join(f'{times[name]:.2f}' for name in AGAINST)} |"
            RESULTS.write_text(keep_line(line, RESULTS.read_text()))
    return int(any(not isinstance(why, Forbidden) for why in missing.values()))


if __name__ == "__main__":
    sys.exit(main())
