"""The content of a folder of banks: their bytes, and what `linda inspect` prints of them."""

import re
import subprocess

from played.program import PROGRAM, equal, run

JOBS = [f'tuple {job} ("job", {job}) free' for job in range(1, 5)]


def banks_in(folder):
    return {path.name: path.read_bytes() for path in sorted(folder.iterdir())}


def tuples_in(folder):
    status, out, err = run("inspect", folder, "--tuples")
    equal((status, err), (0, ""))
    return [line for line in out.splitlines() if line.startswith("tuple ")]


def records_in(folder):
    """The generation of the bank in use, and how many records it has since its snapshot."""
    status, out, err = run("inspect", folder)
    equal((status, err), (0, ""))
    generation, records = re.search(r"^bank LND2 generation (\d+) records (\d+) ", out, re.MULTILINE).groups()
    return int(generation), int(records)


def bank_of(folder, side):
    """The bytes of a bank's file, and how many are used, as `linda inspect` reads it."""
    said = subprocess.run([PROGRAM, "inspect", folder], capture_output=True, text=True, check=True).stdout
    equal(re.search(r"^stands (\w+)", said, re.M)[1], side)
    return (folder / f"{side}.bank").read_bytes(), int(re.search(r"^bank .* used (\d+) of", said, re.M)[1])
