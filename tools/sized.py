"""The bound of each crate: lines of code, contracts, specs and proofs, and words of its README, in `sizes.txt`.

It is no tool by itself: `tools/words` fails if a crate has more than its bound, and `tools/words --write` writes the file. Lines are those that are neither
blank nor only a comment. `code` and `contracts` are those of src: a contract's lines are those that only the prover reads (clauses, ghost items, tactics).
"""

import re
from pathlib import Path

import rattle
from rattle import TOP

FILE = TOP / "sizes.txt"
KINDS = ("code", "contracts", "specs", "proofs", "words")
HEAD = """# The bound of each crate: lines that are neither blank nor comments, and words of its README. `tools/words` holds it; `tools/words --write` lowers a
# number, and raises one only if the newest entry of CHANGELOG.md has a line `- Larger: CRATE, ..: REASON` with that crate.
"""
# What only the prover reads: clauses, ghost items, and how a function is proved.
FOR_PROVER = re.compile(r"\b(?:ensures|requires)\b|\bghost\b|#\[(?:tactic|cycle)\b")
Sizes = dict[str, tuple[int, ...]]


def lines_in(folder: Path) -> int:
    """The lines of definitions or proofs."""
    return sum(bool(line.strip()) and not line.lstrip().startswith("--") for path in folder.rglob("*.antt") for line in path.read_text().splitlines())


def end_for_prover(text: str, found: re.Match[str]) -> int:
    """The place after the clause, the ghost item or the attribute that begins here."""
    if found.group(0).startswith("#"):
        return rattle.end_of_block(text, found.start())
    if found.group(0) != "ghost":
        named = rattle.CLAUSE.match(text, found.end())
        return rattle.end_of_block(text, named.end()) if named else found.end()
    at = found.end()
    while mark := re.compile(r"[({\[\]});,]").search(text, at):
        if mark.group(0) in ";,":
            return mark.end()
        if mark.group(0) in ")}]":
            return mark.start()
        at = rattle.end_of_block(text, mark.start())
    return len(text)


def lines_of(whole: str) -> tuple[int, int]:
    """How many lines of a source are code, and how many only the prover reads; blank ones and comments are neither."""
    text = rattle.blanked(whole, "x")
    code, at = list(text), 0
    while found := FOR_PROVER.search(text, at):
        at = end_for_prover(text, found)
        code[found.start():at] = [it if it == "\n" else " " for it in text[found.start():at]]
    all_lines, of_code = (sum(bool(line.strip()) for line in lines.split("\n")) for lines in (text, "".join(code)))
    return of_code, all_lines - of_code


def size_of(crate: str) -> tuple[int, ...]:
    """What the crate has of each kind."""
    top = TOP / "crates" / crate
    counts = [lines_of(path.read_text()) for path in (top / "src").rglob("*.rt")]
    code, contracts = (sum(count) for count in zip(*counts)) if counts else (0, 0)
    readme = top / "README.md"
    return code, contracts, lines_in(top / "specs"), lines_in(top / "proofs"), len(readme.read_text().split()) if readme.is_file() else 0


def sums_of(sizes: Sizes) -> tuple[int, ...]:
    return tuple(map(sum, zip(*sizes.values())))


def bounds() -> Sizes:
    """The rows of the file, with that of the sums, `all`."""
    if not FILE.is_file():
        return {}
    rows = [line.split() for line in FILE.read_text().splitlines() if line and not line.startswith(("#", "crate "))]
    return {name: tuple(int(number.replace(",", "")) for number in numbers) for name, *numbers in rows}


def may_grow() -> set[str]:
    """The crates that the newest entry of CHANGELOG.md says are larger."""
    newest = (TOP / "CHANGELOG.md").read_text().split("\n## ")[1]
    return {name for names in re.findall(r"^- Larger: ([\w`, ]+): \S", newest, re.M) for name in re.findall(r"\w+", names)}


def above(sizes: Sizes, bound: Sizes) -> list[tuple[str, str]]:
    """The crates that have more than their bound, each with what it has more."""
    return [(crate, f"{crate}: {have:,} {'' if kind == 'words' else 'lines of '}{kind}, and {most:,} at most") for crate, counts in sizes.items()
            for kind, have, most in zip(KINDS, counts, bound.get(crate, (0,) * len(KINDS))) if have > most]


def faults() -> tuple[list[str], str]:
    """Where crates are above their bounds, or the file is not one that was written; and a line of the sums."""
    sizes, bound = {crate: size_of(crate) for crate in rattle.crates()}, bounds()
    total = bound.pop("all", ())
    found = [fault for _, fault in above(sizes, bound)]
    found += [f"sizes.txt: {crate} is no crate now: tools/words --write" for crate in bound if crate not in sizes]
    found += ["sizes.txt: the last row is not the sums: tools/words --write has not written it"] if total != sums_of(bound) else []
    sums = ", ".join(f"{kind} {have:,} of {most:,}" for kind, have, most in zip(KINDS, sums_of(sizes), sums_of(bound) if bound else (0,) * len(KINDS)))
    return found, f"in crates: {sums}"


def write() -> list[str]:
    """Writes what the crates have now, but for bounds that would rise without a line in CHANGELOG.md: these stay, and are returned."""
    sizes, bound, larger = {crate: size_of(crate) for crate in rattle.crates()}, bounds(), may_grow()
    new = {crate: counts if crate in larger else tuple(map(min, counts, bound[crate])) for crate, counts in sizes.items() if crate in {*larger, *bound}}
    rows = [("crate", KINDS), *((name, tuple(f"{number:,}" for number in counts)) for name, counts in {**new, "all": sums_of(new)}.items())]
    width = max(len(name) for name, _ in rows)
    FILE.write_text(HEAD + "".join(f"{name:{width}}{''.join(f'{cell:>11}' for cell in cells)}\n" for name, cells in rows))
    return [f"{fault}: CHANGELOG.md has no line `- Larger: {crate}: REASON` in its newest entry" for crate, fault in above(sizes, new)]
