"""The fenced blocks of pages, and a shell that plays them. The head of tools/docs says what a page must look like.

It is no tool by itself. tools/docs plays the pages of the repository, tools/release those of a release.
"""

import os
import re
import select
import signal
import subprocess
import tempfile
import time
from pathlib import Path
from typing import Callable, Iterator, Mapping, NamedTuple

SECONDS = 300
# How long after its command the output of a background process may come.
LATE_SECONDS = 60.0
# The most lines of a difference that are shown.
MOST_LINES = 12
NEWLINE = "\n"
LIKE_COMMAND = re.compile(r"\$ |(?:\./linda|rt|cd|python3|(?:examples|tools|bench)/\S+) ")
NAME = re.compile(r"(?:#|//) ([\w.-]+\.\w+)(?:: .*)?")
REASON = re.compile(r"<!-- not run: (.+) -->")
# What the shell itself prints of a child that a signal ended; an interactive shell prints other words, or nothing.
CHILD_ENDED = re.compile(r"\S+: line \d+: +\d+ (?:Killed|Terminated)\b.*\n")
OWN_NETWORK = ["unshare", "--user", "--map-root-user", "--net", "sh", "-c", 'ip link set lo up && exec "$@"', "sh"]
RUN_EACH = 'while read -r _file; do (exit "${_status:-0}"); . "$_file" </dev/null; _status=$?; echo "$_status" >&9; done'


class Command(NamedTuple):
    """A command, the line of the page at which it begins, and the lines that it must print."""

    line: int
    text: str
    wanted: list[str]


class Block(NamedTuple):
    """A fenced block: the line after its fence, its language, its lines, and why it is not run, if the page says so."""

    line: int
    language: str
    lines: list[str]
    reason: str | None

    def is_text(self) -> bool:
        return self.language in ("", "text")

    def file(self) -> str | None:
        """The name of the file that it is."""
        found = NAME.fullmatch(self.lines[0]) if self.lines and self.language != "sh" and not self.is_text() else None
        return found.group(1) if found else None

    def commands(self) -> list[Command]:
        """The commands of a block of them."""
        found: list[Command] = []
        open_line = False
        for at, line in enumerate(self.lines, self.line):
            if line.startswith("$ "):
                found.append(Command(at, line[2:], []))
                open_line = True
            elif line.startswith("> ") and open_line:
                found[-1] = found[-1]._replace(text=found[-1].text + "\n" + line[2:])
            elif found:
                found[-1].wanted.append(line)
                open_line = False
        return found

    def fault(self) -> str | None:
        """What is wrong with its form."""
        if self.reason is not None:
            return None
        if self.is_text():
            return "a block to be read with a line like a command" if any(map(LIKE_COMMAND.match, self.lines)) else None
        if self.language == "sh" and not (self.lines and self.lines[0].startswith("$ ")):
            return 'a block of commands that does not begin with "$ "'
        if self.language != "sh" and not self.file():
            return "a block of a file without its name in the first line"
        return None


def blocks(page: Path) -> Iterator[Block]:
    """The fenced blocks of a page."""
    lines = page.read_text().splitlines()
    begin: int | None = None
    for at, line in enumerate(lines):
        if not line.startswith("```"):
            continue
        if begin is None:
            begin = at
        else:
            why = REASON.fullmatch(lines[begin - 1].strip()) if begin else None
            yield Block(begin + 2, lines[begin][3:].strip(), lines[begin + 1:at], why.group(1) if why else None)
            begin = None
    if begin is not None:
        raise ValueError(f"{page}:{begin + 1}: a block that is never closed")


# ---- playing a page

def pattern_of(wanted: list[str]) -> re.Pattern[str]:
    return re.compile("".join("(?:.*\n)*" if line == "..." else re.escape(line) + "\n" for line in wanted))


def lines_of(raw: bytes) -> str:
    """What was printed as lines, a last one without its end too, but for what the shell prints of a child's end."""
    text = raw.decode(errors="replace")
    return CHILD_ENDED.sub("", text if not text or text.endswith("\n") else text + "\n")


class Shell:
    """A shell in a new folder with links to all in `top`, which is given one command after another."""

    def __init__(self, folder: Path, top: Path, prefix: list[str], environment: Mapping[str, str]) -> None:
        self.folder, self.seen, self.count = folder, 0, 0
        self.work = folder / "work"
        self.work.mkdir()
        for path in top.iterdir():
            if not path.name.startswith("."):
                (self.work / path.name).symlink_to(path)
        self.printed = folder / "printed"
        self.statuses, told = os.pipe()
        # With it Python writes a line and its end apart, and lines of several programs run into each other.
        around = {name: value for name, value in environment.items() if name != "PYTHONUNBUFFERED"}
        with open(self.printed, "ab") as out:
            # (it may be the ninth itself)
            moved = "" if told == 9 else f"exec 9>&{told} {told}>&-\n"
            words = [*prefix, "bash", "--noprofile", "--norc", "-c", moved + RUN_EACH]
            self.process = subprocess.Popen(words, cwd=self.work, env=around, stdin=subprocess.PIPE, stdout=out, stderr=out, pass_fds=[told],
                                            start_new_session=True)
        os.close(told)

    def raw(self) -> bytes:
        return self.printed.read_bytes()[self.seen:]

    def news(self) -> str:
        """What was printed since the last call of `shown`."""
        return lines_of(self.raw())

    def shown(self) -> str:
        raw = self.raw()
        self.seen += len(raw)
        return lines_of(raw)

    def run(self, command: Command) -> tuple[str, int | None]:
        """What the command printed, and its status, which is none if it did not end in time."""
        self.count += 1
        file = self.folder / f"command{self.count}"
        file.write_text(command.text + "\n")
        assert self.process.stdin
        self.process.stdin.write(f"{file}\n".encode())
        self.process.stdin.flush()
        if not select.select([self.statuses], [], [], SECONDS)[0]:
            return self.shown(), None
        status = int(os.read(self.statuses, 16) or b"1")
        wanted, late = pattern_of(command.wanted), time.monotonic() + LATE_SECONDS
        while not wanted.fullmatch(self.news()) and time.monotonic() < late:
            time.sleep(0.01)
        return self.shown(), status

    def end(self) -> None:
        """Kills what it started."""
        os.killpg(self.process.pid, signal.SIGKILL)
        self.process.wait()
        os.close(self.statuses)


def difference(page: str, command: Command, got: str) -> str:
    """The place at which the page differs from what came, and both texts, without what is alike at the front and at the end."""
    found, wanted = got.splitlines(), command.wanted
    same = len(os.path.commonprefix([found, wanted]))
    found, wanted = found[same:], wanted[same:]
    behind = len(os.path.commonprefix([found[::-1], wanted[::-1]]))
    told = [f"{page}:{command.line + command.text.count(NEWLINE) + 1 + same}: {command.text.splitlines()[0]}"]
    for word, lines in (("wanted", wanted), ("got   ", found)):
        part = lines[:len(lines) - behind] or ["(nothing)"]
        told += [f"    {word} {line}" for line in part[:MOST_LINES]]
        told += [f"    {word} .. and {len(part) - MOST_LINES} lines more"] if len(part) > MOST_LINES else []
    return NEWLINE.join(told)


def network_of_its_own() -> list[str]:
    """The words before a command that give it a network of its own, so that all ports are free; none if the system does not let it."""
    return OWN_NETWORK if subprocess.run([*OWN_NETWORK, "true"], capture_output=True, check=False).returncode == 0 else []


def is_played(block: Block) -> bool:
    return block.reason is None and (block.file() is not None or block.language == "sh")


def play(page: Path, name: str, top: Path, prefix: list[str], environment: Mapping[str, str] = os.environ,
         plays: Callable[[Block], bool] = is_played) -> tuple[int, list[str]]:
    """How many commands of a page were run, and what differs. Of the blocks that are played at all, it plays those for which `plays` holds."""
    wrong: list[str] = []
    count = 0
    to_do = [block for block in blocks(page) if is_played(block) and plays(block)]
    if not to_do:
        return 0, []
    with tempfile.TemporaryDirectory() as folder:
        shell = Shell(Path(folder), top, prefix, environment)
        try:
            for block in to_do:
                file = block.file()
                if file:
                    (shell.work / file).write_text("\n".join(block.lines) + "\n")
                    continue
                for command in block.commands():
                    got, status = shell.run(command)
                    count += 1
                    if not pattern_of(command.wanted).fullmatch(got):
                        wrong.append(difference(name, command, got))
                    elif status is None:
                        wrong.append(f"{name}:{command.line}: not at its end after {SECONDS} s: {command.text}")
                    elif status != 0 and not command.wanted:
                        wrong.append(f"{name}:{command.line}: ends with status {status} and prints nothing: {command.text}")
                    if status is None:
                        return count, wrong
            if shell.news():
                wrong.append(f"{name}: printed behind the last command\n    got    " + shell.news().rstrip("\n"))
        finally:
            shell.end()
    return count, wrong
