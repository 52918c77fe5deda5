"""Checks a release as users unpack or install it: whether it is whole, and does what its pages say.

It is no tool by itself: tools/release --check uses it. The archive is unpacked into a new folder, and the package is installed, upgraded and removed
below a folder in place of the system's. The commands of their pages are run as tools/docs runs those of the repository. If the machine lacks what a
part needs (npm, namespaces, dpkg ..), the part is left out, which is printed; in CI that is a fault.
"""

import base64
import hashlib
import os
import re
import shutil
import subprocess
import sys
import tarfile
import zipfile
from concurrent.futures import ThreadPoolExecutor
from pathlib import Path

import blocks
import confined
import linked

# A user's own root, with mounts that nobody else sees.
AS_ROOT = ["unshare", "--user", "--map-root-user", "--mount"]
NO_SYSTEMD = [*AS_ROOT, "sh", "-c", 'mount -t tmpfs none /run && exec "$@"', "sh"]
SYSTEMD = [*AS_ROOT, "sh", "-c", 'mount -t tmpfs none /run && mkdir -p /run/systemd/system && exec "$@"', "sh"]
# As on a machine where the package is installed: the files below the folder $0 are in /usr too.
INSTALLED = [*AS_ROOT, "--net", "sh", "-c", 'ip link set lo up && mount -t overlay overlay -o "lowerdir=$0/usr:/usr" /usr && exec "$@"']
# Words that commands of pages begin with and that not every machine has, each with a command that shows whether it is there.
NEEDS = {
    "npm ": ["npm", "--version"],
    # (what it runs was installed by npm)
    "node ": ["npm", "--version"],
    "env/bin/": ["python3", "-c", "import ensurepip, venv"],
    "/usr/bin/python3 ": ["/usr/bin/python3", "--version"],
}
# The pages of a release as they are in the tree. Their commands are played in its archive.
PAGES = ("CHANGELOG.md", "SECURITY.md", *(f"docs/{name}.md" for name in ("GUIDE", "COMMANDS", "OPERATING", "PROTOCOL")))
RELOAD = "systemctl --system daemon-reload"
SERVERS = "linda.service linda@*.service linda-gate*.service"
# The calls of each script of the package: its words, its calls if systemd is at work, and its calls if it is not.
SCRIPTS = (
    ("postinst configure", ["systemd-sysusers linda.conf", RELOAD], ["systemd-sysusers linda.conf"]),
    ("postinst configure 0.1.0", ["systemd-sysusers linda.conf", RELOAD, f"deb-systemd-invoke try-restart {SERVERS}"],
     ["systemd-sysusers linda.conf"]),
    ("postinst abort-upgrade 0.1.0", [RELOAD], []),
    ("prerm upgrade 9.9.9", [], []),
    ("prerm remove", [f"deb-systemd-invoke stop {SERVERS}"], []),
    ("postrm upgrade 9.9.9", [RELOAD], []),
    ("postrm remove", [RELOAD], []),
)
# The versions of a wheel's METADATA that have its fields.
METADATA = ("2.1", "2.2", "2.3", "2.4")
# The exposure, in tenths, that systemd may see in a unit.
EXPOSURE = "15"


def is_possible(*words: str | Path) -> bool:
    """Whether this command is here, and ends well."""
    return shutil.which(words[0]) is not None and subprocess.run(words, capture_output=True).returncode == 0


class Installed:
    """What was found: `wrong` has the faults, `left_out` what could not be tried, and `commands` counts those of pages that were run."""

    def __init__(self, version: str, room: Path) -> None:
        self.version, self.room = version, room
        self.wrong: list[str] = []
        self.left_out: list[str] = []
        self.commands = 0
        self.lacking = {begin: words[0] for begin, words in NEEDS.items() if not is_possible(*words)}
        self.left_out += [f"commands of pages with {begin.strip()}" for begin in self.lacking]

    # ---- the wheel

    def look_at_wheel(self, wheel: Path) -> None:
        """Its RECORD has the sum and the length of each other member, and no more. (pip does not look at these.)"""
        with zipfile.ZipFile(wheel) as archive:
            members = {name: archive.read(name) for name in archive.namelist()}
        record = next(name for name in members if name.endswith(".dist-info/RECORD"))
        rows = dict(line.split(",", 1) for line in members.pop(record).decode().splitlines())
        sums = {name: base64.urlsafe_b64encode(hashlib.sha256(data).digest()).decode().rstrip("=") for name, data in members.items()}
        if rows != {**{name: f"sha256={sums[name]},{len(data)}" for name, data in members.items()}, record: ","}:
            self.wrong.append(f"{wheel.name}: its RECORD does not have its members")
        told = re.findall(r"^Metadata-Version: (.*)$", members[record.replace("RECORD", "METADATA")].decode(), re.M)
        if len(told) != 1 or told[0] not in METADATA:
            self.wrong.append(f"{wheel.name}: its Metadata-Version is {told}, and those with its fields are {', '.join(METADATA)}")

    # ---- the archive

    def look_at_sums(self, sums: Path) -> None:
        for line in sums.read_text().splitlines():
            digest, _, name = line.partition("  ")
            if hashlib.sha256((sums.parent / name).read_bytes()).hexdigest() != digest:
                self.wrong.append(f"{sums.name}: another sum of {name}")

    def look_at_archive(self, archive: Path) -> None:
        with tarfile.open(archive) as tar:
            members = tar.getmembers()
        subprocess.run(["tar", "--extract", "--file", archive, "--directory", self.room, "--no-same-owner"], check=True)
        if any(it.uid or it.gid or it.mtime != members[0].mtime for it in members):
            self.wrong.append(f"{archive.name}: another owner or time")
        top = self.room / members[0].name
        self.look_at_sums(top / "SHA256SUMS")
        self.look_at_program(top / "bin/linda")
        self.look_at_gate(top / "bin/linda_gate")
        self.look_at_links(top)
        self.look_at_units(top, top / "lib/systemd/system", "/usr/local/bin/linda", top / "README.md")
        self.play_units(top / "lib/systemd/system", top / "packaging/beyond", top / "bin")
        network = blocks.network_of_its_own()
        self.left_out += [] if network else ["a network of their own for the commands of pages"]
        plain = {name: it for name, it in os.environ.items() if name not in ("LINDA", "PYTHONPATH")}
        with_bin = {**plain, "PATH": f"{top / 'bin'}:{plain['PATH']}"}
        # Pages with networks of their own are played side by side; else they would have the same ports.
        with ThreadPoolExecutor(4 if network else 1) as lanes:
            begun = [lanes.submit(self.play, top / "README.md", top, network, plain)]
            begun += [lanes.submit(self.play, page, top, network, with_bin) for page in sorted((top / "docs").glob("*.md"))]
        for it in begun:
            it.result()

    def look_at_program(self, program: Path) -> None:
        try:
            said = subprocess.run([program, "--version"], capture_output=True, text=True).stdout.strip()
        except OSError as fault:
            said = str(fault)
        if said != self.version:
            self.wrong.append(f"{program}: says {said!r} of its version")

    def look_at_gate(self, gate: Path) -> None:
        run = subprocess.run([gate], capture_output=True, text=True)
        if run.returncode != 2 or not run.stderr.startswith("usage: linda_gate"):
            self.wrong.append(f"{gate}: without words it ends with {run.returncode} and {run.stderr!r}")

    def look_at_links(self, top: Path) -> None:
        for page in sorted(top.rglob("*.md")):
            name = page.relative_to(top)
            self.wrong += [f"of the release, {fault}" for fault in linked.faults_of(page, top)]
            if "./linda" in page.read_text() and name.parts[0] in ("README.md", "docs"):
                self.wrong.append(f"of the release, {name}: ./linda is not there")

    def look_at_units(self, top: Path, folder: Path, program: str, page: Path) -> None:
        """Each unit starts the program that the page names, and systemd finds it safe."""
        if f"`{program}`" not in page.read_text():
            self.wrong.append(f"of the release, {page.name} does not name {program}")
        for unit in sorted(folder.iterdir()):
            started = re.findall(r"^ExecStart=(\S+)", unit.read_text(), re.M)
            if started != [program]:
                self.wrong.append(f"{unit.relative_to(top)}: starts {started}")
            # (systemd asks for the name of an instance)
            named = self.room / unit.name.replace("@.", "@work.")
            named.write_text(unit.read_text().replace(program, "/bin/true").replace("Documentation=man:linda(1)\n", ""))
            if not is_possible("systemd-analyze", "security", "--offline=true", "--help"):
                self.left_out.append(f"what systemd says of {unit.name}")
                continue
            for words in (["verify"], ["security", "--offline=true", f"--threshold={EXPOSURE}"]):
                run = subprocess.run(["systemd-analyze", *words, "--no-pager", named], capture_output=True, text=True)
                if run.returncode != 0 or (words == ["verify"] and run.stderr):
                    self.wrong.append(f"{unit.relative_to(top)}: systemd-analyze {words[0]}: {(run.stderr or run.stdout).splitlines()[-1]}")

    def play_units(self, folder: Path, beyond: Path, programs: Path) -> None:
        """A server of each unit is at work by its own lines, and so is the gate before one."""
        if not is_possible(*confined.OWN, "true"):
            self.left_out.append("what units do, for which namespaces of users are needed")
            return
        units = [*sorted(folder.glob("*.service")), beyond / "linda-gate.service"]
        run = subprocess.run([*confined.OWN, sys.executable, confined.__file__, programs / "linda", programs / "linda_gate", *units], capture_output=True, text=True)
        *wrong, last = [*run.stdout.splitlines(), *run.stderr.splitlines()] or [""]
        if run.returncode != 0 or last != "8 conversations":
            self.wrong += [f"of the release, {it}" for it in [*wrong, last]]

    def play(self, page: Path, top: Path, prefix: list[str], environment: dict[str, str]) -> None:
        name = f"of the release, {page.name}"
        self.wrong += [f"{name}:{it.line - 1}: {it.fault()}" for it in blocks.blocks(page) if it.fault()]
        count, wrong = blocks.play(page, name, top, prefix, environment, self.is_playable)
        self.commands += count
        self.wrong += wrong

    def is_playable(self, block: blocks.Block) -> bool:
        return block.language != "sh" or not any(begin in it.text for begin in self.lacking for it in block.commands())

    # ---- the package

    def look_at_package(self, package: Path, later: Path) -> None:
        """Installs the package below a folder, follows its page, upgrades it to the later one, and removes it."""
        if not shutil.which("dpkg") or not is_possible(*NO_SYSTEMD, "true"):
            self.left_out.append("the package, for which dpkg and namespaces of users are needed")
            return
        self.look_at_needs(package)
        self.look_at_scripts(package)
        self.look_at_bare_root(package)
        root = self.new_root("root")
        if not self.dpkg(root, "--install", package):
            return
        users = root / "etc/passwd"
        if not users.is_file() or not re.search("^linda:", users.read_text(), re.M):
            self.wrong.append(f"{package.name}: installed below a folder, it makes no user linda")
        self.look_at_program(root / "usr/bin/linda")
        self.look_at_gate(root / "usr/bin/linda_gate")
        doc = root / "usr/share/doc/cml-linda"
        self.look_at_links(doc)
        self.look_at_units(root, root / "usr/lib/systemd/system", "/usr/bin/linda", self.page_with_program(doc / "README.Debian"))
        self.play_units(root / "usr/lib/systemd/system", doc / "packaging/beyond", root / "usr/bin")
        prefix = [*INSTALLED, str(root)]
        if is_possible(*prefix, "true"):
            self.play(doc / "README.Debian", doc, prefix, {name: it for name, it in os.environ.items() if name not in ("LINDA", "PYTHONPATH")})
        else:
            self.left_out.append("the page of the package, for which a mount over /usr is needed")
        kept, link = root / "var/lib/linda/left.bank", root / "etc/systemd/system/multi-user.target.wants/linda.service"
        library = root / "usr/lib/python3/dist-packages/linda_space"
        compiled = library / "__pycache__/space.cpython-311.pyc"
        for path in (kept, link, compiled):
            path.parent.mkdir(parents=True, exist_ok=True)
        kept.write_text("a bank")
        compiled.write_text("what Python keeps when root imports the library")
        link.symlink_to("/usr/lib/systemd/system/linda.service")
        self.dpkg(root, "--install", later)
        self.dpkg(root, "--remove", "cml-linda")
        self.dpkg(root, "--purge", "cml-linda")
        if (root / "usr/bin/linda").exists() or link.is_symlink() or not kept.is_file():
            self.wrong.append(f"{package.name}: a purge leaves the program or the link of its unit, or removes a space")
        if library.exists():
            self.wrong.append(f"{package.name}: a purge leaves {library.relative_to(root)}, which Python still imports")

    def look_at_needs(self, package: Path) -> None:
        """It is installed only beside a C library that has all that its programs call."""
        needs = subprocess.run(["dpkg-deb", "--field", package, "Depends"], capture_output=True, text=True, check=True).stdout
        with subprocess.Popen(["dpkg-deb", "--fsys-tarfile", package], stdout=subprocess.PIPE) as tar, tarfile.open(fileobj=tar.stdout, mode="r|") as archive:
            programs = {it.name: archive.extractfile(it).read() for it in archive if "/bin/" in it.name and it.isfile()}        # type: ignore[union-attr]
        called = [tuple(map(int, it.split(b"."))) for data in programs.values() for it in re.findall(rb"GLIBC_(\d+\.\d+)", data)]
        told = re.findall(r"libc6 \(>= ([\d.]+)\)", needs)
        if not called or len(told) != 1 or tuple(map(int, told[0].split("."))) < max(called):
            self.wrong.append(f"{package.name}: {', '.join(programs)} need libc6 {'.'.join(map(str, max(called, default=())))}, and it depends on {needs.strip()}")

    def page_with_program(self, page: Path) -> Path:
        """The page of the package, which names the folder of the program."""
        shown = self.room / "README.Debian"
        shown.write_text(page.read_text().replace("`linda` is in `/usr/bin`", "`/usr/bin/linda`"))
        return shown

    def new_root(self, name: str) -> Path:
        root = self.room / name
        for folder in ("var/lib/dpkg/info", "var/lib/dpkg/updates", "etc"):
            (root / folder).mkdir(parents=True)
        for file in ("status", "available"):
            (root / "var/lib/dpkg" / file).touch()
        return root

    def dpkg(self, root: Path, *words: str | Path, how: str = "--force-script-chrootless") -> bool:
        whole = [*NO_SYSTEMD, "dpkg", f"--root={root}", how, "--force-depends", f"--log={self.room / 'dpkg.log'}", *words]
        run = subprocess.run(whole, capture_output=True, text=True)
        if run.returncode != 0:
            self.wrong.append(f"dpkg {words[0]}: status {run.returncode}\n{run.stdout}{run.stderr}")
        return run.returncode == 0

    def look_at_scripts(self, package: Path) -> None:
        """Each script calls what it must, beside a systemd that is at work and beside none. What it calls writes down how it was called."""
        control, fakes, log = self.room / "control", self.room / "fakes", self.room / "calls"
        subprocess.run(["dpkg-deb", "--control", package, control], check=True)
        fakes.mkdir()
        for name in ("systemctl", "systemd-sysusers", "deb-systemd-invoke", "useradd"):
            (fakes / name).write_text(f'#!/bin/sh\necho "{name} $*" >> {log}\n')
            (fakes / name).chmod(0o755)
        around = {**os.environ, "PATH": f"{fakes}:/usr/sbin:/usr/bin:/sbin:/bin", "DPKG_ROOT": ""}
        for words, with_systemd, without in SCRIPTS:
            script, *rest = words.split()
            for prefix, wanted in ((SYSTEMD, with_systemd), (NO_SYSTEMD, without)):
                log.write_text("")
                run = subprocess.run([*prefix, control / script, *rest], env=around, capture_output=True, text=True)
                called = log.read_text().splitlines()
                if run.returncode != 0 or called != wanted:
                    self.wrong.append(f"{words}: status {run.returncode}, and calls {called}; wanted {wanted}\n{run.stderr}".rstrip())

    def look_at_bare_root(self, package: Path) -> None:
        """Installed below a folder with a shell and nothing else, into which dpkg goes: no systemd, and nothing that makes users."""
        root = self.new_root("bare")
        shell = Path("/bin/sh").resolve()
        needed = re.findall(r"(/\S+) \(0x", subprocess.run(["ldd", shell], capture_output=True, text=True).stdout)
        for source, target in [(shell, "/bin/sh"), *((Path(it), it) for it in needed)]:
            (root / target[1:]).parent.mkdir(parents=True, exist_ok=True)
            shutil.copy2(source, root / target[1:])
        self.dpkg(root, "--install", package, how="--force-not-root")
        if not (root / "usr/bin/linda").is_file():
            self.wrong.append(f"{package.name}: it is not there in a folder without systemd")
