"""The mutants of audit/, and what can be said of them without a prover."""

import hashlib
import subprocess
from pathlib import Path

TOP = Path(__file__).resolve().parent.parent
PAGE = TOP / "audit/README.md"
HEAD = "| crate | mutants | in CI |"
# The commit at which all mutants of audit/ci were tried.
TRIED = TOP / "audit/tried"


class Mutant:
    """One mutant: its changes by file, the functions that it changes, and the place at which it must be refused, or the compiler's error."""

    def __init__(self, path):
        self.crate, self.label = path.parent.name, f"{path.parent.name}/{path.stem}"
        self.changes, self.refused, self.error, self.only = [], None, None, None
        file = old = None
        for line in path.read_text().splitlines():
            word, _, rest = line.partition(":")
            rest = rest.removeprefix(" ")
            if word == "file":
                file = rest
            elif word == "old":
                old = rest
            elif word == "new":
                self.changes.append((file, old, rest))
            elif word == "refused":
                function, goal = rest.split()
                self.refused = (function, goal)
            elif word == "error":
                self.error = rest
            elif word == "only":
                self.only = rest

    def faults(self, crate):
        """What of it does not apply to the crate in this folder: each old text has to be in its file exactly once."""
        for file, old, _ in self.changes:
            path = crate / file
            count = path.read_text().count(old) if path.is_file() else 0
            if count != 1:
                yield f"audit/{self.label}.edit: {crate.name}/{file} has its old text {count} times: {old.strip()}"
        if not self.changes:
            yield f"audit/{self.label}.edit: it changes nothing"

    def places(self, crate):
        """The places of its old texts, each as (file, place, old text, new text)."""
        for file, old, new in self.changes:
            yield file, (crate / file).read_text().find(old), old, new


def of_crate(name, label="*"):
    """The mutants of a crate, or the one of this label."""
    return [Mutant(path) for path in sorted((TOP / "audit" / name).glob(f"{label}.edit"))]


def crates():
    """The crates that have mutants, in the order of crates.txt."""
    rows = [line.partition(":")[0].strip() for line in (TOP / "crates.txt").read_text().splitlines()]
    found = {it.name for it in (TOP / "audit").iterdir() if it.is_dir() and any(it.glob("*.edit"))}
    return [*(it for it in rows if it in found), *sorted(found.difference(rows))]


def listed(text=None):
    """The labels that audit/ci has, or a text of it."""
    lines = ((TOP / "audit/ci").read_text() if text is None else text).splitlines()
    return [line.split()[0] for line in lines if line.strip() and not line.startswith("#")]


def table():
    """The table of audit/README.md: how many mutants each crate has, and of how many of them CI tries a part."""
    chosen = [label.partition("/")[0] for label in listed()]
    rows = [(name, len(of_crate(name)), chosen.count(name)) for name in crates()]
    rows.append(("all", sum(row[1] for row in rows), len(chosen)))
    return "\n".join([HEAD, "|---|---|---|", *(f"| {name} | {count} | {drawn} |" for name, count, drawn in rows)]) + "\n"


def write_table():
    """Puts the table in the place of the one that the page has."""
    before, _, rest = PAGE.read_text().partition(HEAD)
    _, _, after = rest.partition("\n\n")
    PAGE.write_text(f"{before}{table()}\n{after}")


def misplaced():
    """The mutants that do not apply to the sources, the lines of audit/ci that name none, and a table that is another."""
    wrong = [fault for name in crates() for mutant in of_crate(name) for fault in mutant.faults(TOP / "crates" / name)]
    wrong += [f"audit/ci: there is no audit/{label}.edit" for label in listed() if not (TOP / f"audit/{label}.edit").is_file()]
    return wrong + [f"{PAGE.relative_to(TOP)}: its table is another (tools/audit --table)"] * (table() not in PAGE.read_text())


# ---- what a run of CI tries


def git(*words):
    """What git prints here, or nothing if it fails."""
    return subprocess.run(["git", "-C", str(TOP), *words], capture_output=True, text=True, check=False).stdout


def changed_since(revision):
    """The crates whose code, definitions, proofs or mutants are not those of a revision, comments apart, or None if it is not here."""
    if not git("rev-parse", "--verify", "--quiet", f"{revision}^{{commit}}"):
        return None
    parts = [f":(glob)crates/*/{part}/**" for part in ("src", "specs", "proofs")]
    told = git("diff", "--numstat", "--no-renames", r"-I^\s*(//|--|$)", revision, "--", *parts)
    told += git("diff", "--numstat", "--no-renames", "--diff-filter=d", revision, "--", ":(glob)audit/*/*.edit")
    added = set(listed()) - set(listed(git("show", f"{revision}:audit/ci")))
    return {line.split("/")[1] for line in told.splitlines()} | {label.partition("/")[0] for label in added}


def drawn(found, part, since):
    """Of mutants by crate, those of the crates that changed since a revision, and of the others a part: the commit's name draws crates until they have so
    many mutants, since each crate's libraries are read once for all its mutants. All, if there is no commit."""
    commit = git("rev-parse", "HEAD").strip()
    changed = changed_since(since) if since else None
    if not commit:
        print("no commit to draw by: all are tried", flush=True)
        return found
    others = sorted(set(found) - (changed or set()), key=lambda name: hashlib.sha256(f"{commit} {name}".encode()).digest())
    wanted, taken = sum(len(found[name]) for name in others) / part, []
    while others and sum(len(found[name]) for name in taken) < wanted:
        taken.append(others.pop(0))
    kept = {name: its for name, its in found.items() if name not in others}
    print(f"drawn by {commit[:12]}: {' '.join(taken) or 'none'}; changed since {since}: "
          f"{'it is not here' if changed is None else ' '.join(name for name in kept if name in changed) or 'none'}", flush=True)
    return kept
