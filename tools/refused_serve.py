"""`linda serve` under two clients, with one growth of memory refused after another: `tools/refused-growth serve` runs it.

    python3 tools/refused_serve.py MALLOC [FROM] [STEP] [large]     MALLOC: the library that refuses growths; FROM: the first one (1), STEP: to the next (1);
                                                                    large: over a large bank, of which a snapshot in steps is taken meanwhile; FROM counts
                                                                    from the first growth of a program that is ready

The clients put, take, wait for each other's tuple, send 64 messages at once, greet again, and leave. At each growth that is refused a request gets its answer,
or a refusal (Busy, Down), or its connection ends, or the program ends with status 3 and `memory` or `store: down`; a client that waits ten seconds for
anything else is reported as a hang. A client that lost its connection greets again and sends what is unanswered; if the program has ended it is started
again over the same folder, with no growth refused; if it ended before it was ready, the folder may have no store, and is emptied. Then:

- the server's last number of each client is that of its last answered message, or of the one that was unanswered;
- the last answered message gets the same reply again;
- at the end the tuples and their ids are those of the run in which nothing was refused, and so are all replies, but for the Gones of Accepts whose hold
  was given up when a connection or the program ended, and the numbers after them;
- the snapshot of a large bank is taken in the end, and has all of its tuples.

The sweep ends when three runs in a row had no growth left to refuse. The first difference is printed, and ends it with 1.
"""

import os
import shutil
import subprocess
import sys
import tempfile
import time
from pathlib import Path

import banks
from served import TOP, Frame, Peer, frames, listing

# The program itself: ./linda is a shell script, whose growths would count too.
PROGRAM = TOP / "crates" / "linda" / "out" / "linda"
PATIENCE = 60
TRIES = 200
BUSY, DOWN = 3, 8
LAST_WORDS = ("memory\n", "store: down\n")
LOOKERS = 100
# More growths than a start over a large bank makes.
MOST_GROWTHS = 100_000
# How many tuples are left at the end of the day.
LEFT = 64
# A large bank has tuples that nobody asks for, in more than 256 KiB: how many, the letters of each, and the client that put them.
PADS, LETTERS, PADDER = 1_200, 250, 9


class Difference(Exception):
    """What is not as it must be."""


class Lost(Exception):
    """A connection that has ended, or a refusal after which it does."""


class Program:
    """The server, started again if it has ended; in its first life a growth of memory is refused."""

    def __init__(self, folder: Path, malloc: str, growth: int) -> None:
        self.folder, self.mark = folder, folder / "refused"
        self.environment = dict(os.environ, LD_PRELOAD=malloc, REFUSE=str(growth), REFUSED=str(self.mark))
        self.process: subprocess.Popen[str] | None = None
        self.port, self.starts, self.was_ready = 0, 0, False

    def start(self) -> None:
        """Starts it until it is ready: twice at most, since a growth is refused only in its first life, and once more if that life left no store."""
        while self.process is None:
            environment = self.environment if self.starts == 0 else None
            self.starts += 1
            self.process = subprocess.Popen([PROGRAM, "serve", "--port", "0", "--dir", str(self.folder / "store")], env=environment,
                                            stdin=subprocess.DEVNULL, stdout=subprocess.PIPE, stderr=subprocess.PIPE, text=True)
            assert self.process.stdout
            line = self.process.stdout.readline()
            if line.startswith("ready "):
                self.port, self.was_ready = int(line.split()[1]), True
            else:
                self.end()

    def end(self) -> None:
        """Checks that it ended by itself with a status and words with which it may end."""
        assert self.process
        _, said = self.process.communicate(timeout=PATIENCE)
        status = self.process.returncode
        if not self.was_ready and self.starts == 2 and (status, said) == (3, "store: no store\n"):
            for file in (self.folder / "store").iterdir():
                file.unlink()
        elif self.starts > 1 or (status, said) not in [(3, words) for words in LAST_WORDS]:
            raise Difference(f"start {self.starts} ended with status {status} and {said!r}")
        self.process = None

    def has_ended(self) -> bool:
        return self.process is None or self.process.poll() is not None

    def kill(self) -> None:
        if self.process:
            self.process.kill()
            self.process.communicate()
            self.process = None


class Client:
    """A client with what it was answered, in order, and the numbered messages that are unanswered."""

    def __init__(self, program: Program, number: int) -> None:
        self.program, self.number = program, number
        self.peer: Peer | None = None
        self.ticket, self.last = 0, 0
        self.pending: list[bytes] = []
        self.answered: list[tuple[bytes, Frame] | None] = []
        self.busy = 0

    def connect(self) -> None:
        """Greets until it is welcome, and checks what the server keeps of it."""
        for _ in range(TRIES):
            if self.program.process and self.program.has_ended():
                self.program.end()
            self.program.start()
            try:
                self.peer = Peer(self.program.port, PATIENCE)
                self.check(self.expect(frames.hello(self.number, False), ("Welcome",)))
                return
            except (Lost, ConnectionError):
                self.hang_up()
                time.sleep(0.005)
        raise Difference(f"client {self.number} was not welcome in {TRIES} tries")

    def check(self, welcome: Frame) -> None:
        last = welcome[1]["last"]
        if not self.last <= last <= self.last + len(self.pending):
            raise Difference(f"client {self.number}: the server's last number is {last}, {self.last} was answered, {len(self.pending)} more were sent")
        if self.answered and self.answered[-1] and last == self.last:
            message, reply = self.answered[-1]
            again = self.expect(message, (reply[0],))
            if again != reply:
                raise Difference(f"client {self.number} got {frames.words_of(*reply)}, and again {frames.words_of(*again)}")
        while self.last + 1 < last:
            # done, and its reply is kept no more: this client sends several messages at once, which one that wants each reply does not
            self.pending.pop(0)
            self.answered.append(None)
            self.last += 1

    def hang_up(self) -> None:
        if self.peer:
            self.peer.close()
        self.peer = None

    def send(self, data: bytes) -> None:
        if self.peer is None:
            raise Lost
        try:
            self.peer.send(data)
        except ConnectionError:
            raise Lost from None

    def receive(self, names: tuple[str, ...]) -> Frame:
        """The next reply, which must be one of these, or a refusal after which the connection is of no use."""
        if self.peer is None:
            raise Lost
        while True:
            try:
                name, parts = self.peer.receive()
            except ConnectionError:
                raise Lost from None
            except TimeoutError:
                raise Difference(f"client {self.number} waits for {' or '.join(names)} in vain") from None
            if name in names:
                return name, parts
            if name == "Refused" and parts["code"] in (BUSY, DOWN):
                self.busy += 1
                raise Lost
            raise Difference(f"client {self.number} wants {' or '.join(names)} and got {frames.words_of(name, parts)}")

    def expect(self, data: bytes, names: tuple[str, ...]) -> Frame:
        self.send(data)
        return self.receive(names)

    def held(self, work) -> None:  # noqa: ANN001
        """Does this over a connection, and again over a new one if that one ended."""
        for _ in range(TRIES):
            try:
                if self.peer is None:
                    self.connect()
                work()
                return
            except Lost:
                self.hang_up()
        raise Difference(f"client {self.number} lost {TRIES} connections")

    def finish_pending(self) -> None:
        """Sends all that is unanswered, and takes the answers."""
        if self.pending:
            self.send(b"".join(self.pending))
        while self.pending:
            reply = self.receive(("Stored", "Taken", "Gone", "Left"))
            if reply[1]["number"] != self.last + 1:
                raise Difference(f"client {self.number} wants number {self.last + 1} and got {frames.words_of(*reply)}")
            self.answered.append((self.pending.pop(0), reply))
            self.last += 1

    def put(self, *rows: tuple) -> None:
        self.pending = [frames.out(self.last + 1 + at, *row) for at, row in enumerate(rows)]
        self.held(self.finish_pending)

    def leave(self) -> None:
        self.pending = [frames.leave(self.last + 1)]
        self.held(self.finish_pending)
        self.hang_up()

    def ask(self, tag: str) -> None:
        """Asks, and does not wait."""
        self.held(lambda: self.ask_now(tag))

    def ask_now(self, tag: str) -> None:
        self.ticket += 1
        self.send(frames.ask(self.ticket, True, tag, frames.INT))

    def take(self, tag: str, has_asked: bool = False) -> None:
        """Takes the tuple that is offered; asks anew if the connection of the Ask has ended, or the hold was given up meanwhile."""
        asked = has_asked and self.peer is not None

        def work() -> None:
            nonlocal asked
            if not self.pending:
                if not asked:
                    self.ask_now(tag)
                asked = False
                _, parts = self.receive(("Offer",))
                self.pending = [frames.accept(self.last + 1, self.ticket, parts["id"])]
            self.finish_pending()

        self.held(work)
        while self.answered[-1] and self.answered[-1][1][0] == "Gone":
            self.held(work)


def play(program: Program) -> tuple[list, dict[int, tuple], int]:
    """The whole day of two clients: all replies of both, the tuples at the end, and how often a connection was refused."""
    one, two = Client(program, 7), Client(program, 8)
    one.put(("a", 1))
    one.put(("a", 2))
    two.take("a")
    two.ask("b")
    one.put(("b", 5))
    two.take("b", has_asked=True)
    two.put(*[("job", at) for at in range(64)])
    one.hang_up()
    one.take("job")
    one.put(("c", 9))
    two.take("c")
    one.ask("c")
    one.leave()
    two.leave()
    told = [entry and entry[1] for client in (one, two) for entry in client.answered]
    replies = [reply and (reply[0], reply[1].get("id"), reply[1].get("tuple")) for reply in told if not reply or reply[0] != "Gone"]
    return replies, left_over(program), one.busy + two.busy


def left_over(program: Program) -> dict[int, tuple]:
    """The tuples that nobody took, by their ids; asked for again if the growth that is refused is one of this asking, until all are free again."""
    tuples: dict[int, tuple] = {}
    for _ in range(TRIES):
        if program.process and program.has_ended():
            program.end()
        program.start()
        try:
            tuples = listing(program.port, frames.spell_items("job", (frames.INT,)), LOOKERS)
            tuples |= listing(program.port, frames.spell_items("a", (frames.INT,)), LOOKERS)
            if len(tuples) == LEFT:
                break
        except ConnectionError:
            pass
        except ValueError as fault:
            if not str(fault).startswith("Refused Down"):
                raise Difference(str(fault)) from None
        time.sleep(0.005)
    return tuples


def are_alike(came: list, wanted: list) -> bool:
    """Whether these replies came, but for those that were lost with a connection."""
    return len(came) == len(wanted) and all(one is None or one == other for one, other in zip(came, wanted))


def fill(folder: Path) -> None:
    """A large bank of so many records that a snapshot is taken as soon as the program serves, in steps."""
    data = banks.spell_bank(1, banks.State())[:-1]
    for number in range(1, PADS + 1):
        deed = b"\1" + frames.spell_number(PADDER, 4) + frames.spell_number(number) + frames.spell_items("pad", (number, "p" * LETTERS))
        data += b"\1" + frames.spell_number(len(deed), 4) + deed
    data += b"\0"
    if len(data) < 262_144:
        raise ValueError(f"a bank of {len(data)} bytes is written at once")
    (folder / "left.bank").write_bytes(data)
    (folder / "right.bank").write_bytes(b"\0")


def check_pads(program: Program) -> None:
    """The snapshot is taken, at the latest by a program that was started again, and all that was in the bank is there."""
    until = time.monotonic() + PATIENCE
    while (found := banks.verdict(*banks.folder_bytes(program.folder / "store"))).generation < 2:
        if time.monotonic() > until:
            raise Difference("no snapshot was taken")
        if program.process and program.has_ended():
            program.end()
        program.start()
        time.sleep(0.005)
    bag = found.state.bag if found.state else {}
    here = sum(1 for number in range(1, PADS + 1) if number in bag)
    if (here, len(bag)) != (PADS, PADS + LEFT):
        raise Difference(f"{here} of {PADS} tuples of the bank are there, and {len(bag) - here} of {LEFT} that were put since")


def run(malloc: str, growth: int, is_large: bool) -> tuple[tuple[list, dict[int, tuple]], bool, int, int]:
    """One day with this growth refused: what came of it, whether there was such a growth, how often the program was started, and the refusals."""
    folder = Path(tempfile.mkdtemp())
    (folder / "store").mkdir()
    if is_large:
        fill(folder / "store")
    program = Program(folder, malloc, growth)
    try:
        replies, tuples, busy = play(program)
        if is_large:
            check_pads(program)
        return (replies, tuples), program.mark.exists(), program.starts, busy
    finally:
        program.kill()
        shutil.rmtree(folder)


def first_when_ready(malloc: str) -> int:
    """The first growth of a program that is ready, over a large bank, by bisection: the growths before it are made at the start."""
    low, high = 1, MOST_GROWTHS
    while low < high:
        middle, folder = (low + high) // 2, Path(tempfile.mkdtemp())
        (folder / "store").mkdir()
        fill(folder / "store")
        program = Program(folder, malloc, middle)
        try:
            program.start()
            low, high = (low, middle) if program.starts == 1 else (middle + 1, high)
        finally:
            program.kill()
            shutil.rmtree(folder)
    return low


def main() -> None:
    words, is_large = [word for word in sys.argv[1:] if word != "large"], "large" in sys.argv
    if not 1 <= len(words) <= 3:
        sys.exit(__doc__)
    malloc = words[0]
    growth, step = (int(word) for word in [*words[1:], *["1", "1"][len(words) - 1:]])
    if is_large:
        growth += first_when_ready(malloc) - 1
    wanted, _, starts, _ = run(malloc, 0, is_large)
    if starts != 1 or len(wanted[0]) != 3 + 1 + 1 + 64 + 1 + 1 + 1 + 2 or len(wanted[1]) != LEFT:
        sys.exit(f"with nothing refused: {wanted}, {starts} starts")
    refused = ended = turned_away = none_left = 0
    while none_left < 3:
        try:
            came, was_refused, starts, busy = run(malloc, growth, is_large)
            if came[1] != wanted[1] or not are_alike(came[0], wanted[0]):
                raise Difference(f"{came}\nis not\n{wanted}")
        except Exception as fault:  # noqa: BLE001
            sys.exit(f"growth {growth} refused: {type(fault).__name__}: {fault}")
        none_left = 0 if was_refused else none_left + 1
        refused += was_refused
        ended += starts > 1
        turned_away += busy > 0
        growth += step
    if not refused:
        sys.exit("no growth was refused, so nothing was tried: the program has a malloc of its own")
    print(f"serve under two clients{', over a large bank' if is_large else ''}: each of {refused} growths refused, as it must be; {ended} times the program ended and was started again,"
          f" {turned_away} times a connection was refused")


main()
