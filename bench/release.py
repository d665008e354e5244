#!/usr/bin/env python3
"""Tries a release on a clean Debian: in a root that debootstrap makes, with nodejs and nothing else, without the kit and without a
network. The package is installed, used and purged, and nothing of it is left; then the archive is unpacked, used, installed below a
prefix and taken away. Each draws fifty stations of a folder. It needs root, debootstrap, and a mirror while the root is made. With
`--short` the archive alone is tried, with three stations, in a folder on this system, where no command is found but Node and those of
a shell. With `--beside OTHER` the bytes of two releases are compared first. It ends with 1 where something isn't as it is to be."""
from __future__ import annotations

import argparse
import shutil
import subprocess
import sys
import tempfile
from pathlib import Path

from made_stations import EVERYDAY

TOP = Path(__file__).resolve().parent.parent
STATIONS = ["station", "one", "station_signals"]
MADE = 47
SHELL = ["sh", "env", "grep", "tail", "ls", "wc", "test", "tar", "gzip", "rm", "mkdir", "mv", "cat", "uname"]
# what is run with the command that is tried as $R, in an empty folder; each line is to end with 0
USED = """
$R --version | grep -q '^program: proved'
$R draw station.xml --svg s.svg --log s.log > s.sheet
tail -n 1 s.sheet | grep -qx 'end best'
$R verify station.xml s.sheet | grep -q '^lawful '
$R check station.xml s.sheet s.log | grep -q '^certified '
$R --html s.html draw station.xml > /dev/null
$R check-page s.html | grep -q '^right the drawing is lawful'
$R browser desk.html
$R prepare station.xml prepared.xml
$R stations station.xml stations
$R folder in out --certify --width 64 --height 12
test -s out/index.html
test "$(ls out/*.hints | wc -l)" = "$(ls in | wc -l)"
"""
OF_PACKAGE = """
test -s /usr/share/man/man1/railplan.1.gz
gzip -dc /usr/share/man/man1/railplan.1.gz | grep -q '^.TH RAILPLAN'
bash -c '. /usr/share/bash-completion/completions/railplan; COMP_WORDS=(railplan ver); COMP_CWORD=1; _railplan; echo "${COMPREPLY[@]}"' | grep -q version
grep -q '#compdef railplan' /usr/share/zsh/vendor-completions/_railplan
"""
NATIVE = "crates/railplan_main/out/railplan_main"


def asked() -> argparse.Namespace:
    parser = argparse.ArgumentParser(description=__doc__)
    parser.add_argument("release", type=Path, help="the folder that `railplan release` made")
    parser.add_argument("--root", type=Path, help="a root that is kept, and made where it isn't there")
    parser.add_argument("--suite", default="bookworm", help="which Debian (bookworm)")
    parser.add_argument("--short", action="store_true", help="the archive alone, on this system, with three stations")
    parser.add_argument("--beside", type=Path, metavar="OTHER", help="another release, of another clone, that is to have the same bytes")
    return parser.parse_args()


def write_stations(folder: Path, made: int) -> None:
    """writes the examples into a folder, and as many made stations"""
    for name in STATIONS:
        shutil.copy(TOP / "examples" / f"{name}.xml", folder)
    for at in range(made):
        name, station = EVERYDAY[at % len(EVERYDAY)]
        (folder / f"{at:02} {name}.xml").write_text(station.text(), encoding="utf-8")


class Place:
    """A folder in which a release is tried, and what is run in it."""

    made = 0

    def __init__(self, path: Path) -> None:
        self.path = path
        self.faults = 0

    def inside(self) -> list[str]:
        """the words behind which a shell runs a line in the place"""
        raise NotImplementedError

    def name(self, path: str) -> str:
        """a path of the place as what runs in it names it"""
        raise NotImplementedError

    def run(self, line: str, command: str = "") -> str:
        """runs a line, and counts it where it doesn't end with 0; what it printed"""
        work = self.name("/root/work")
        ran = subprocess.run([*self.inside(), f"R={command}", "sh", "-c", f"cd {work} 2>/dev/null; {line}"], capture_output=True, text=True,
                             check=False)
        if ran.returncode:
            self.faults += 1
            print(f"ended with {ran.returncode}: {line}\n{ran.stdout}{ran.stderr}", flush=True)
        return ran.stdout

    def use(self, title: str, command: str, lines: str) -> None:
        """runs each line with a command, in a folder with stations"""
        before, work = self.faults, self.path / "root/work"
        shutil.rmtree(work, ignore_errors=True)
        (work / "in").mkdir(parents=True)
        write_stations(work / "in", self.made)
        shutil.copy(TOP / "examples/station.xml", work)
        for line in lines.strip().split("\n"):
            self.run(line, command)
        shutil.rmtree(work)
        print(f"{title}: {'all as it is to be' if self.faults == before else f'{self.faults - before} lines are otherwise'}", flush=True)


class Here(Place):
    """A folder on this system, with Node and the commands of a shell alone."""

    def __init__(self, path: Path) -> None:
        super().__init__(path)
        for name in ("bin", "opt", "tmp", "root"):
            (path / name).mkdir()
        for name in [*SHELL, "node"]:
            (path / "bin" / name).symlink_to(Path(shutil.which(name) or sys.exit(f"{name} isn't there")).resolve())

    def inside(self) -> list[str]:
        return ["env", "-i", f"PATH={self.path}/bin", f"HOME={self.path}/root", f"TMPDIR={self.path}/tmp", "LC_ALL=C.UTF-8"]

    def name(self, path: str) -> str:
        return f"{self.path}{path}"


class Root(Place):
    """A clean Debian in a folder."""

    made = MADE

    def __init__(self, path: Path, suite: str) -> None:
        super().__init__(path)
        if not (path / "usr/bin/node").exists():
            command = shutil.which("debootstrap") or sys.exit("debootstrap isn't there. Install it: apt install debootstrap")
            subprocess.run([command, "--variant=minbase", "--include=nodejs", suite, str(path)], check=True, stdout=subprocess.DEVNULL)
        (path / "etc/resolv.conf").unlink(missing_ok=True)

    def inside(self) -> list[str]:
        # without a network
        return ["unshare", "-n", "-m", "-p", "--fork", f"--mount-proc={self.path}/proc", "chroot", str(self.path), "/usr/bin/env", "-i",
                "PATH=/usr/sbin:/usr/bin:/sbin:/bin", "HOME=/root", "LC_ALL=C.UTF-8"]

    def name(self, path: str) -> str:
        return path

    def files(self) -> set[str]:
        """all files but those in which the package manager and the system keep their own"""
        found = self.run("find / -xdev ! -path '/var/lib/dpkg/*' ! -path '/var/log/*' ! -path '/proc/*' ! -path '/tmp/node-*'")
        return set(found.split("\n"))

    def compare(self, title: str, before: set[str]) -> None:
        """counts what is left of something that was taken away, and what it took along"""
        left = sorted(self.files() ^ before)
        self.faults += bool(left)
        print(f"{title}: {'nothing is left' if not left else 'left or lost: ' + ' '.join(left[:10])}", flush=True)


def try_package(root: Root, package: Path) -> None:
    before = root.files()
    shutil.copy(package, root.path / "tmp/railplan.deb")
    root.run("dpkg -i /tmp/railplan.deb && rm /tmp/railplan.deb")
    root.use("the package", "railplan", USED + OF_PACKAGE)
    root.run("dpkg --purge railplan")
    root.compare("the package, purged", before)


def try_archive(root: Root, archive: Path) -> None:
    before = root.files()
    shutil.copy(archive, root.path / "tmp/railplan.tar.gz")
    root.run("cd /opt && tar xzf /tmp/railplan.tar.gz && mv railplan-* railplan && rm /tmp/railplan.tar.gz")
    root.use("the archive", "/opt/railplan/railplan", USED)
    root.run("/opt/railplan/railplan install /opt/prefix")
    root.use("the archive, installed", "/opt/prefix/bin/railplan", USED)
    root.run("/opt/prefix/bin/railplan uninstall /opt/prefix && test ! -e /opt/prefix")
    root.run(f"mv /opt/railplan/{NATIVE} /opt/railplan/moved")
    root.use("the archive without its native program", "node /opt/railplan/railplan", USED)
    root.run("rm -r /opt/railplan")
    root.compare("the archive, taken away", before)


def try_short(room: Path, archive: Path) -> int:
    place = Here(room)
    with tempfile.TemporaryDirectory() as unpacked:
        subprocess.run(["tar", "xzf", str(archive.absolute()), "-C", unpacked], check=True)
        shutil.move(next(Path(unpacked).iterdir()), room / "opt/railplan")
    place.use("the archive", f"{room}/opt/railplan/railplan", USED)
    (room / "opt/railplan" / NATIVE).rename(room / "opt/railplan/moved")
    place.use("the archive without its native program", f"node {room}/opt/railplan/railplan", USED)
    return place.faults


def differing(release: Path, other: Path) -> list[str]:
    """the names whose bytes two releases don't share"""
    names = {it.name for folder in (release, other) for it in folder.iterdir()}
    return sorted(name for name in names
                  if not all((folder / name).is_file() for folder in (release, other)) or (release / name).read_bytes() != (other / name).read_bytes())


def main() -> int:
    words = asked()
    differ = differing(words.release, words.beside) if words.beside else []
    if words.beside:
        print(f"beside the other release: {'the same bytes' if not differ else 'other bytes: ' + ' '.join(differ)}", flush=True)
    with tempfile.TemporaryDirectory() as room:
        archive = next(words.release.glob("railplan-*.tar.gz"))
        if words.short:
            return int(try_short(Path(room), archive) > 0 or bool(differ))
        root = Root((words.root or Path(room) / "root").absolute(), words.suite)
        print(f"Node {root.run('node --version').strip()}, and rt {'is there' if root.run('command -v rt || true').strip() else 'is not there'}")
        try_package(root, next(words.release.glob("railplan_*.deb")))
        try_archive(root, archive)
    return int(root.faults > 0 or bool(differ))


if __name__ == "__main__":
    sys.exit(main())
