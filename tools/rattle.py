"""Reads the functions of sources of Rattle, with their clauses.

It is no tool by itself: `tools/promises` prints what it finds, and `tools/words` counts lines by it.
"""

import re
from pathlib import Path
from typing import Iterator, NamedTuple

TOP = Path(__file__).resolve().parent.parent
COMMENT = r"//[^\n]*"
QUOTED = r'b?r(#+)".*?"\1|b?"(?:\\.|[^"\\])*"|b?\'(?:\\[^\n]{1,8}?|[^\\\'\n])\''
SKIPPED = re.compile(f"{COMMENT}|{QUOTED}", re.S)
WORD = re.compile(r"[A-Za-z_]\w*|[{};]")
BRACKET = re.compile(r"[({\[\]})]")
ITEM = re.compile(r"\b(pub(?:\s*\([^)]*\))?\s+)?(?:unsafe\s+)?(?:const\s+)?(fn|trait|impl|struct|enum|mod|macro_rules|ghost\s+invariant\s*=)(?!\w)")
CLAUSE = re.compile(r"\s*\*?\s*(?:some\s+(?=\w+\s*\{))?([A-Za-z_]\w*)?\s*(?=\{)")


class Clause(NamedTuple):
    """A clause of a contract: `keyword` is `ensures`, `requires` or `invariant`, and its name is empty if it has none."""

    keyword: str
    name: str
    text: str


class Function(NamedTuple):
    """A function with its clauses, what its comment says first, and whether the crate shows it; or the invariant of a type."""

    crate: str
    file: Path
    line: int
    name: str
    said: str
    clauses: list[Clause]
    public: bool


def crates() -> list[str]:
    """The crates of crates.txt, lowest first."""
    return [line.split(":")[0] for line in (TOP / "crates.txt").read_text().splitlines() if line and not line.startswith("#")]


def blanked(text: str, quotes: str = " ") -> str:
    """The text with nothing in place of comments, and `quotes` in place of each character between quotes, line by line as before."""
    return SKIPPED.sub(lambda found: re.sub(r"[^\n]", " " if found.group(0).startswith("//") else quotes, found.group(0)), text)


def end_of_block(text: str, at: int) -> int:
    """The place after the bracket that closes the first one from here on."""
    depth = 0
    for found in BRACKET.finditer(text, at):
        depth += 1 if found.group(0) in "({[" else -1
        if depth == 0:
            return found.end()
    return len(text)


def type_of(head: str) -> tuple[str, bool]:
    """The type that the head of an impl is for, and whether it is of a trait."""
    bare = re.sub(r"\bwhere\b.*", "", head, flags=re.S)
    while (less := re.sub(r"<[^<>]*>", " ", bare.replace("->", " "))) != bare:
        bare = less
    trait, _, kind = bare.partition(" for ")
    words = re.findall(r"[A-Za-z_]\w*", kind or trait)
    return (words[-1] if words else "?"), bool(kind)


def clause_of(keyword: str, name: str, whole: str) -> Clause:
    """The clause whose text is between braces in `whole`."""
    return Clause(keyword, name, " ".join(re.sub(COMMENT, "", whole.strip()[1:-1]).split()))


def clauses_at(text: str, whole: str, at: int) -> tuple[list[Clause], int]:
    """The clauses of a function whose name ends here, and the place of its body or its end."""
    clauses: list[Clause] = []
    while found := WORD.search(text, at):
        word = found.group(0)
        at = found.end()
        if word in ("ensures", "requires"):
            if named := CLAUSE.match(text, at):
                at = end_of_block(text, named.end())
                clauses.append(clause_of(word, named.group(1) or "", whole[named.end():at]))
        elif word in "{;":
            return clauses, found.start()
    return clauses, len(text)


def comment_over(whole: str, at: int) -> str:
    """The first sentence of the comment over the item that begins here."""
    said: list[str] = []
    for line in reversed(whole[:whole.rfind("\n", 0, at) + 1].splitlines()):
        if line.strip().startswith("///"):
            said.insert(0, line.strip()[3:].strip())
        elif said or not line.strip().startswith("#["):
            break
    return re.split(r"(?<=\.)\s", " ".join(said) + " ")[0].strip()


def functions_of(path: Path) -> Iterator[Function]:
    """The functions and invariants of a file, except those inside of bodies."""
    crate = path.relative_to(TOP / "crates").parts[0]
    whole = path.read_text()
    text = blanked(whole)
    stack: list[tuple[int, str, bool, bool]] = []
    shown_types = set(re.findall(r"^\s*pub (?:struct|enum) (\w+)", text, re.M))
    at = 0
    while found := ITEM.search(text, at):
        while stack and stack[-1][0] <= found.start():
            stack.pop()
        shown, kind = (found.group(1) or "").strip() == "pub", found.group(2)
        line = text.count("\n", 0, found.start()) + 1
        around = next((entry for entry in reversed(stack) if entry[1]), None)
        at = found.end()
        if kind == "fn":
            name = re.compile(r"\s*(\w+)").match(text, at)
            if not name:
                continue
            clauses, end = clauses_at(text, whole, name.end())
            full = f"{around[1]}::{name.group(1)}" if around else name.group(1)
            is_public = shown or (around is not None and (around[2] or (around[3] and bool(clauses))))
            yield Function(crate, path, line, full, comment_over(whole, found.start()), clauses, is_public)
            at = end_of_block(text, end) if text[end:end + 1] == "{" else end + 1
        elif kind.startswith("ghost"):
            begins = text.find("{", at)
            at = end_of_block(text, begins)
            of = around[1] if around else "?"
            yield Function(crate, path, line, of, "", [clause_of("invariant", "", whole[begins:at])], of in shown_types)
        else:
            start, stop = text.find("{", at), text.find(";", at)
            if start < 0 or (0 <= stop < start):
                at = stop + 1 if stop >= 0 else len(text)
            elif kind in ("struct", "enum", "macro_rules"):
                at = end_of_block(text, start)
            else:
                head = text[at:start]
                of, of_trait = type_of(head) if kind == "impl" else ("", False)
                named = re.match(r"\s*(\w+)", head)
                label = of if kind == "impl" else (named.group(1) if named and kind == "trait" else "")
                stack.append((end_of_block(text, start), label, kind == "trait" and shown, of_trait))
                at = start + 1


def all_functions() -> list[Function]:
    """The functions of all crates, but for those of tests."""
    sources = [path for crate in crates() for path in sorted((TOP / "crates" / crate / "src").rglob("*.rt"))]
    return [function for path in sources if "tests" not in path.parts for function in functions_of(path)]
