#!/usr/bin/env python3
"""Does what README says first, on a clean Debian: in a root that debootstrap makes, with git, Node and what pages need, and with the
Rattle kit at its place. There the clone's last commit is cloned; README's first line draws, and its second line is the gate. It says
how long each took, by the clock and of the processors. It needs root, debootstrap, and Debian's mirror, which the gate asks too.
What `rt ci` has passed on this machine counts, unless `--from-nothing` is given. It ends with 1 where a line doesn't end with 0."""
from __future__ import annotations

import argparse
import os
import resource
import shutil
import subprocess
import sys
import tempfile
import time
from pathlib import Path

TOP = Path(__file__).resolve().parent.parent
PACKAGES = "nodejs,git,python3,esbuild,node-sax"
KEPT = Path("/opt/rattle-kept")
ENVIRONMENT = ["HOME=/root", "LC_ALL=C.UTF-8", "LANG=C.UTF-8"]


def asked() -> argparse.Namespace:
    parser = argparse.ArgumentParser(description=__doc__)
    parser.add_argument("--root", type=Path, help="a root that is kept, and made where it isn't there")
    parser.add_argument("--suite", default="bookworm", help="which Debian (bookworm)")
    parser.add_argument("--first-line", action="store_true", help="README's first line alone, without the gate")
    parser.add_argument("--from-nothing", action="store_true", help="without what passed on this machine")
    return parser.parse_args()


def mounted(words: argparse.Namespace, root: Path, kit: Path) -> list[tuple[str, Path]]:
    """what of this machine is seen in the root: how it is mounted, and where"""
    seen = [kit, *([KEPT] if KEPT.is_dir() and not words.from_nothing else [])]
    return [("--bind", it) for it in [*seen, Path("/dev")]]


class Fresh:
    """A clean Debian in a folder, with a clone and the kit."""

    def __init__(self, words: argparse.Namespace, path: Path) -> None:
        self.path = path
        self.kit = Path(shutil.which("rt") or sys.exit("rt isn't on the PATH")).resolve().parent.parent
        if not (path / "usr/bin/git").exists():
            command = shutil.which("debootstrap") or sys.exit("debootstrap isn't there. Install it: apt install debootstrap")
            subprocess.run([command, "--variant=minbase", f"--include={PACKAGES}", words.suite, str(path)], check=True,
                           stdout=subprocess.DEVNULL)
        self.mounts = mounted(words, path, self.kit)
        shutil.copy("/etc/resolv.conf", path / "etc/resolv.conf")
        shutil.rmtree(path / "root/railplan", ignore_errors=True)
        subprocess.run(["git", "clone", "-q", "--no-hardlinks", str(TOP), str(path / "root/railplan")], check=True)

    def run(self, line: str) -> int:
        """runs a line in the clone, and says how long it took"""
        mounts = "".join(f"mkdir -p {self.path}{place} && mount {how} {place} {self.path}{place} && " for how, place in self.mounts)
        inside = (f"{mounts} mount -t tmpfs tmpfs {self.path}/tmp && mount -t proc proc {self.path}/proc && exec chroot {self.path} "
                  f"/usr/bin/env -i PATH={self.kit}/bin:/usr/sbin:/usr/bin:/sbin:/bin {' '.join(ENVIRONMENT)} sh -c 'cd /root/railplan && {line}'")
        began, before = time.monotonic(), resource.getrusage(resource.RUSAGE_CHILDREN)
        status = subprocess.run(["unshare", "-m", "-p", "--fork", "sh", "-c", inside], check=False, stdin=subprocess.DEVNULL).returncode
        used = resource.getrusage(resource.RUSAGE_CHILDREN)
        processors = used.ru_utime + used.ru_stime - before.ru_utime - before.ru_stime
        print(f"{line}: status {status}, {time.monotonic() - began:.0f} s by the clock, {processors:.0f} s of the processors "
              f"({os.cpu_count()} of them)", flush=True)
        return status


def main() -> int:
    words = asked()
    with tempfile.TemporaryDirectory() as room:
        fresh = Fresh(words, (words.root or Path(room) / "root").absolute())
        lines = ["./railplan --html station.html draw examples/station.xml", *([] if words.first_line else [".ci/run"])]
        ends = [fresh.run(line) for line in lines]
    return int(any(ends))


if __name__ == "__main__":
    sys.exit(main())
