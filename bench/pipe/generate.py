#!/usr/bin/env python3
"""Prints a Hello and N puts of small tuples, numbered 1 to N, as lines of hexadecimal digits."""

import sys
from pathlib import Path

sys.path.insert(0, str(Path(__file__).resolve().parents[2] / "examples"))
import client  # noqa: E402


def main() -> None:
    count = int(sys.argv[1])
    write = sys.stdout.write
    write(client.hello(7, False).hex() + "\n")
    for n in range(1, count + 1):
        write(client.out(n, "job", n).hex() + "\n")


main()
