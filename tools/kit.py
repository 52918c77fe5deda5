"""The kit's command `rt` as a module, for the tools that need what it knows of crates.

    tools/kit.py check [NAME] ..    `rt check ..`, and each other command of rt, with each crate's stamp computed once

rt asks for the stamp of a crate by asking all crates below it, again and again: as often as there are ways through crates.txt, a hundred thousand here.
"""

import importlib.machinery
import importlib.util
import os
import shutil
import sys

# The last bytes of a program of tools/quick, after everything that runs.
UNPROVED = b"\nlinda: unproved\n"


def with_stamps_once(rt):
    """Has each crate's stamp computed once: sources do not change while one command runs."""
    own, kept = rt.rtlib.Crate.stamp, {}

    def stamp(crate):
        if crate.folder not in kept:
            kept[crate.folder] = own(crate)
        return kept[crate.folder]

    rt.rtlib.Crate.stamp = stamp


def module():
    """The command as a module."""
    at = os.path.realpath(shutil.which("rt") or sys.exit("there is no rt on the path"))
    words, sys.argv = sys.argv, ["rt"]
    sys.path.insert(0, os.path.dirname(at))
    loader = importlib.machinery.SourceFileLoader("rt", at)
    rt = importlib.util.module_from_spec(importlib.util.spec_from_loader("rt", loader))
    sys.modules["rt"] = rt
    loader.exec_module(rt)
    sys.argv = words
    with_stamps_once(rt)
    return rt


def loaded(top):
    """The module, and the crates of the repository at `top` by name, lowest first. It goes to that folder."""
    rt = module()
    os.chdir(top)
    rt.Crate.allowed = rt.handles_of(str(top))
    # (what `rt ci` calls for the list may put aside what is built)
    rt.rtlib.Crate = rt.Crate
    crates = sorted(rt.rtlib.crates_below(str(top)), key=lambda it: len(it.below()))
    return rt, {it.name: it for it in crates}


if __name__ == "__main__":
    sys.exit(module().main(sys.argv[1:]))
