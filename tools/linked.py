"""What the pages of a folder point to, and whether it is there. The head of tools/links says what is looked at.

It is no tool by itself. tools/links looks at the pages of the repository, tools/release at those of a release. There † after a path says that it is
of the sources and not there.
"""

import re
from pathlib import Path
from typing import Iterator

LINK = re.compile(r"\[[^\]]*\]\(([^)\s]+)\)")
SPAN = re.compile(r"`([^`]+)`")
MARK = "†"
NAMED = re.compile(r'`([\w/]+\.md)`, "([^"]+)"')
FOLDERS = ("docs", "tools", "examples", "crates", "bench", "clients", "audit", "packaging", "src", "specs", "proofs", ".ci")
CRATES = tuple(path.name for path in (Path(__file__).resolve().parent.parent / "crates").iterdir())
PATH = re.compile(rf"(?:{'|'.join(map(re.escape, (*FOLDERS, *CRATES)))})/[\w./*-]*|[A-Z]+\.md|\./test_\w+(?:\.\w+)?|test_\w+\.(?:py|mjs)")
ENDINGS = ("", ".rt", ".antt")


def headings(page: Path) -> list[str]:
    fenced, found = False, []
    for line in page.read_text().splitlines():
        fenced ^= line.startswith("```")
        if not fenced and line.startswith("#"):
            found.append(line.lstrip("# ").strip())
    return found


def anchor_of(heading: str) -> str:
    return re.sub(r"[^\w\- ]", "", heading.lower()).replace(" ", "-")


def is_there(name: str, page: Path, top: Path) -> bool:
    bases = (top, top / "crates", top / "docs", page.parent, page.parent / "src")
    clean = name.rstrip("/.").replace("NAME", "*")
    if clean in ("specs", "proofs", "src") or clean.startswith(("specs/", "proofs/", "src/")):
        clean, bases = f"*/{clean}", (top / "crates",)
    return any(next(base.glob(clean + ending), None) is not None for base in bases for ending in ENDINGS)


def lacks(span: str, page: Path, top: Path) -> str | None:
    """The path that these words between back quotes begin with, after values of the environment, if there is no such file."""
    path = next((word for word in span.split(" ") if not re.fullmatch(r"[A-Z]+=\S+", word)), "")
    return path if PATH.fullmatch(path) and ".." not in path and not is_there(path, page, top) else None


def faults_of(page: Path, top: Path) -> Iterator[str]:
    fenced = False
    for at, line in enumerate(page.read_text().splitlines(), 1):
        fenced ^= line.startswith("```")
        if fenced:
            continue
        where = f"{page.relative_to(top)}:{at}"
        # What is between back quotes has no links.
        for target in LINK.findall(SPAN.sub("", line)):
            if "://" in target:
                continue
            file, _, anchor = target.partition("#")
            whole = (page.parent / file) if file else page
            if not whole.exists():
                yield f"{where}: there is no {target}"
            elif anchor and anchor not in map(anchor_of, headings(whole)):
                yield f"{where}: {file or page.name} has no heading for #{anchor}"
        if page.name == "NOTES.md":
            continue
        for found in SPAN.finditer(line):
            is_marked = line.startswith(MARK, found.end())
            if (path := lacks(found.group(1), page, top)) and not is_marked:
                yield f"{where}: there is no {path}"
            if is_marked and not path:
                yield f"{where}: {found.group()} is marked, but it is no path that is not there"
        for name, heading in NAMED.findall(line):
            whole = next((base / name for base in (top, top / "docs", page.parent) if (base / name).is_file()), None)
            if whole and heading not in headings(whole):
                yield f'{where}: {name} has no heading "{heading}"'
