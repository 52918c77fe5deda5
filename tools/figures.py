#!/usr/bin/env python3
"""Prints the figures of bench/RESULTS.md into the pages that have them, so that each figure comes from one place.

    tools/figures.py                  writes the marked tables of docs/OPERATING.md
    tools/figures.py --check          writes nothing, says which of them are others, and which file says another time for a build; ends with 1 if any

A marked table is between the lines `<!-- figures: NAME -->` and `<!-- end of figures -->`. Its rows are rows of RESULTS.md, named here as they are named
there: what is renamed there, or gone, is a fault. The rows of builds are sentences, in words: each file that says how long a build takes has these words.
`tools/docs` checks all of that before it plays a page.
"""

import re
import sys
from pathlib import Path
from typing import NamedTuple

TOP = Path(__file__).resolve().parent.parent
RESULTS = TOP / "bench/RESULTS.md"
BLOCK = re.compile(r"(?<=^<!-- figures: )(?P<name>[a-z]+)(?P<head> -->\n)(?P<rows>.*?)(?=^<!-- end of figures -->$)", re.S | re.M)


class Row(NamedTuple):
    """A row of a page's table: what it says, and the row of RESULTS.md whose figure it has."""

    said: str
    named: str


def of_clients(count: str) -> Row:
    return Row(count, f"put and take, {count} client{'s' if count != '1' else ''}")


# The tables of each page: the head of each, and its rows.
TABLES = {
    "throughput": ("| clients | requests for each append and sync | latency in us: half, 99 in 100 |\n|---|---|---|", [of_clients(it) for it in ("1", "16", "64", "1,000")]),
    "costs": ("| what | cost |\n|---|---|", [
        Row('a tuple `("job", i)`', "a tuple `(\"job\", i)`"),
        Row("a wait", "an open ask with a key of its own"),
        Row("a client that left; one that connected and went", "a client that left; one that connected and went"),
        Row("an idle connection", "an idle connection, of 10,000; threads"),
        Row("a start with 1,000,000 of these tuples", "a start with 1,000,000 tuples"),
        Row("a snapshot of these: the longest pause; memory", "a snapshot of 1,000,000 tuples: the longest pause of 16 clients; memory"),
    ]),
}
PAGES = {"docs/OPERATING.md": ("costs", "throughput")}
# The builds, as RESULTS.md names them, and the files that say how long each takes.
BUILDS = {
    "the first `./linda`": ("README.md", "CONTRIBUTING.md", "linda", "tools/quick"),
    "`./linda --proved`": ("README.md", "linda"),
}


def figures() -> dict[str, list[str]]:
    """The cells after its name of each row of RESULTS.md."""
    found: dict[str, list[str]] = {}
    for line in RESULTS.read_text().splitlines():
        if not line.startswith("| ") or line.startswith("|---"):
            continue
        cells = [it.strip() for it in line.strip("|").split("|")]
        # A table that names the bench has that first, if it is another one than in the row before.
        is_first = len(cells) == 5
        name = cells[1] if is_first else cells[0]
        if name in found:
            found[name].append("")
        found.setdefault(name, cells[2:] if is_first else cells[1:])
    return found


def figure_of(row: Row, table: str, known: dict[str, list[str]]) -> str:
    if row.named not in known:
        sys.exit(f"tools/figures.py: {RESULTS.name} has no row {row.named!r}")
    cells = known[row.named]
    # The part before a semicolon: in a cell of throughput it is that of `linda serve`; the threads come after an idle connection.
    first = [it.split(";")[0].strip() for it in cells]
    if table == "throughput":
        return " | ".join(first[:2])
    return first[0] if row.named.endswith("; threads") else cells[0]


def table_of(name: str, known: dict[str, list[str]]) -> str:
    head, rows = TABLES[name]
    return "\n".join([head, *(f"| {row.said} | {figure_of(row, name, known)} |" for row in rows)]) + "\n"


def made(page: str, known: dict[str, list[str]]) -> str:
    text = (TOP / page).read_text()
    names = tuple(it["name"] for it in BLOCK.finditer(text))
    if names != PAGES[page]:
        sys.exit(f"tools/figures.py: {page} has the tables {', '.join(names) or 'none'}, and not {', '.join(PAGES[page])}")
    return BLOCK.sub(lambda it: it["name"] + it["head"] + table_of(it["name"], known), text)


def differing() -> list[str]:
    """The pages whose tables are others, and the files that say another time for a build."""
    known = figures()
    wrong = [f"{page}: a table is not what tools/figures.py prints" for page in PAGES if made(page, known) != (TOP / page).read_text()]
    for build, files in BUILDS.items():
        if build not in known:
            wrong.append(f"bench/RESULTS.md: no row {build}")
            continue
        words = known[build][0]
        for file in files:
            text = re.sub(r"\n#? ?", " ", (TOP / file).read_text())
            if words not in text:
                wrong.append(f"{file}: does not say that {build} takes {words}")
    return wrong


def main() -> None:
    if sys.argv[1:] not in ([], ["--check"]):
        sys.exit(__doc__)
    if sys.argv[1:]:
        wrong = differing()
        print("\n".join([*wrong, f"{len(wrong)} figures are others"]))
        sys.exit(1 if wrong else 0)
    known = figures()
    for page in PAGES:
        (TOP / page).write_text(made(page, known))


if __name__ == "__main__":
    main()
