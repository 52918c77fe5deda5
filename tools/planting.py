"""A plant: a bug of the kind that people make, and the part of tools/check that has to see it.

It is no tool by itself: tools/plants.py plants those of its own list and those of tools/planted.py.
"""

from __future__ import annotations

from typing import NamedTuple

# Commands that build what they play: a minute or two for each plant.
BUILDING = ("tools/tests", "tools/refused-growth quick", "tools/simulate 60 --inside 1")


class Plant(NamedTuple):
    """`edits`: a file, its text, which is there once, and what it becomes; or the calls of the system that are preloaded, in C."""

    name: str
    part: str
    command: str
    says: str
    edits: tuple[tuple[str, str, str], ...] | str
    build: str = ""

    def is_dear(self) -> bool:
        """Whether something is built for it, which takes a minute or more."""
        return bool(self.build) or self.command.startswith(BUILDING)


def edit(name: str, part: str, command: str, says: str, *edits: str, build: str = "") -> Plant:
    """A plant in files: of each its name, old text and new text."""
    return Plant(name, part, command, says, tuple(zip(edits[::3], edits[1::3], edits[2::3])), build)


# What preloaded calls are made of.
HEAD = """#define _GNU_SOURCE
#include <dlfcn.h>
#include <fcntl.h>
#include <malloc.h>
#include <netinet/in.h>
#include <netinet/tcp.h>
#include <stdlib.h>
#include <string.h>
#include <sys/socket.h>
#include <sys/stat.h>
#include <sys/types.h>
#include <time.h>
#include <unistd.h>
#define NEXT(name) ((typeof(&name))dlsym(RTLD_NEXT, #name))
"""
