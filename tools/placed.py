"""Finds files of proofs and definitions that are not at the place that the names in them say: so a rename that missed one is found at once, and not by a
proof."""

import re
from pathlib import Path

NAMED = re.compile(r"\buse Rattle\.(\w+)\.proofs\.(\S+)\.(?:Goals|Given)\b")
DECLARED = re.compile(r"\bRattle\.(linda\w*)\.specs\.declared\.([a-z_.]+?)\.([A-Z]\w*)")
MODULE = re.compile(r"\bmod (\w+)")


def misplaced_answers(top: Path) -> list[str]:
    """Answers and invariants in a folder that is not that of the goals that they name."""
    wrong = []
    for kind in ("Answers", "Invariants"):
        for file in sorted((top / "crates").glob(f"*/proofs/**/{kind}.antt")):
            crate, _, *folders, _ = file.relative_to(top / "crates").parts
            named = {place.replace("«", "").replace("»", "") for name, place in NAMED.findall(file.read_text()) if name == crate}
            if ".".join(folders) not in named:
                wrong.append(f"{file.relative_to(top)}: it names goals of {', '.join(sorted(named)) or 'nothing'}")
    return wrong


def misplaced_modules(top: Path) -> list[str]:
    """Modules of definitions and shared lemmas without a file, and files that are no module."""
    wrong = []
    for lib in sorted((top / "crates").glob("*/*/Lib.antt")):
        modules = set(MODULE.findall(lib.read_text()))
        files = {file.stem for file in lib.parent.glob("*.antt")} - {"Lib"}
        wrong += [f"{lib.relative_to(top)}: there is no file {name}.antt" for name in sorted(modules - files)]
        wrong += [f"{lib.relative_to(top)}: it does not have {name}.antt" for name in sorted(files - modules)]
    return wrong


def missing_types(top: Path) -> list[str]:
    """Types and constants that definitions, proofs and clauses import from a module of sources that does not have them."""
    wrong, texts = [], {}
    files = [file for kind in ("specs/**/*.antt", "proofs/**/*.antt", "src/**/*.rt") for file in (top / "crates").glob(f"*/{kind}")]
    for file in sorted(files):
        for crate, module, name in sorted(set(DECLARED.findall(file.read_text()))):
            source = top / "crates" / crate / "src" / f"{module.replace('.', '/')}.rt"
            if source not in texts:
                texts[source] = source.read_text() if source.is_file() else ""
            kinds = r"\bconst\b" if name == "TheConstants" else rf"\b(?:struct|enum|trait|type) {name}\b"
            if not re.search(kinds, texts[source]):
                wrong.append(f"{file.relative_to(top)}: {source.relative_to(top)} has no {name}")
    return wrong


def misplaced(top: Path) -> list[str]:
    return misplaced_answers(top) + misplaced_modules(top) + missing_types(top)
