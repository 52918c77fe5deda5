"""A wheel of a Python package without compiled parts, written by hand: a zip of its files and of what `pip` must know of them.

It is no tool by itself: tools/release makes the wheel of clients/python with it. Nothing is built, so it needs no network. Two wheels of the same
files and the same time are equal to the byte.
"""

import base64
import hashlib
import io
import tomllib
import zipfile
from datetime import datetime, timezone
from pathlib import Path

TAG = "py3-none-any"


def project_of(folder: Path) -> dict[str, str]:
    """The part `project` of the folder's pyproject.toml."""
    return tomllib.loads((folder / "pyproject.toml").read_text())["project"]


def name_of(folder: Path) -> str:
    project = project_of(folder)
    return f"{project['name']}-{project['version']}-{TAG}.whl"


def info_of(folder: Path) -> tuple[str, bytes]:
    """The name and the content of its METADATA."""
    project = project_of(folder)
    words = (("Name", "name"), ("Version", "version"), ("Summary", "description"), ("Requires-Python", "requires-python"))
    lines = ["Metadata-Version: 2.1", *(f"{word}: {project[key]}" for word, key in words), "Description-Content-Type: text/markdown", ""]
    return f"{project['name']}-{project['version']}.dist-info/METADATA", "\n".join(lines + [(folder / project["readme"]).read_text()]).encode()


def wheel_of(folder: Path, files: dict[str, bytes], seconds: int) -> bytes:
    """The wheel of the project in this folder: these files, with names as below a folder of packages, and this time for all."""
    name, info = info_of(folder)
    folder_of_info = name.rpartition("/")[0]
    kind = f"Wheel-Version: 1.0\nGenerator: tools/wheel.py\nRoot-Is-Purelib: true\nTag: {TAG}\n"
    members = {**dict(sorted(files.items())), name: info, f"{folder_of_info}/WHEEL": kind.encode()}
    record = f"{folder_of_info}/RECORD"
    rows = [f"{it},sha256={digest_of(data)},{len(data)}" for it, data in members.items()] + [f"{record},,"]
    members[record] = "".join(f"{row}\n" for row in rows).encode()
    out = io.BytesIO()
    with zipfile.ZipFile(out, "w") as archive:
        for it, data in members.items():
            member = zipfile.ZipInfo(it, datetime.fromtimestamp(seconds, timezone.utc).timetuple()[:6])
            member.external_attr, member.create_system, member.compress_type = 0o100644 << 16, 3, zipfile.ZIP_DEFLATED
            archive.writestr(member, data)
    return out.getvalue()


def digest_of(data: bytes) -> str:
    return base64.urlsafe_b64encode(hashlib.sha256(data).digest()).rstrip(b"=").decode()
