#!/usr/bin/env python3
"""Draws a folder of everyday stations on a cluster: Slurm with one controller and two nodes, all on this machine, started for this
and stopped behind it. Four parts are drawn by a job array, and a job that waits for them makes the index, as docs/use/folders.md has it.
Then this is done again, and one node is killed in the midst, with all that runs on it: the index names what no part has drawn, the
part is given again, and the index is whole. At last the same folder is drawn by one run with `-j`. It needs root and Debian's
packages slurm-wlm and munge, and nothing else should run meanwhile. It ends with 1 where something isn't as it is to be."""
from __future__ import annotations

import os
import re
import shutil
import signal
import socket
import subprocess
import sys
import tempfile
import time
from argparse import Namespace
from pathlib import Path
from typing import Callable

from launcher import Launcher
from made_stations import EVERYDAY
from measuring import read_words, reader_of_program

GRID = ["--width", "64", "--height", "12"]
NODES = ["one", "two"]
PARTS = 4
CONTROLLER, FIRST_NODE = 16817, 16821
# how long something may take that is waited for
PATIENCE = 1800.0


def asked() -> Namespace:
    parser = reader_of_program(__doc__)
    parser.add_argument("--count", type=int, default=200, help="how many stations (200): the everyday ones again and again")
    words = read_words(parser)
    missing = [name for name in ("slurmctld", "slurmd", "sbatch", "munged", "mungekey") if not shutil.which(name)]
    if missing or os.geteuid():
        parser.error(f"{'root' if os.geteuid() else ', '.join(missing)} is missing. Install them as root: apt install slurm-wlm munge")
    return words


def wait_until(what: str, holds: Callable[[], bool]) -> None:
    began = time.monotonic()
    while not holds():
        if time.monotonic() - began > PATIENCE:
            sys.exit(f"{what}: not within {PATIENCE:.0f} s")
        time.sleep(0.1)


def descendants(pid: int) -> list[int]:
    """a process and all that it started"""
    children: dict[int, list[int]] = {}
    for entry in Path("/proc").glob("[0-9]*/stat"):
        try:
            behind = entry.read_text(encoding="utf-8", errors="replace").rpartition(")")[2].split()
        except OSError:
            continue
        children.setdefault(int(behind[1]), []).append(int(entry.parent.name))
    found = [pid]
    for one in found:
        found += children.get(one, [])
    return found


def of_jobs(name: str) -> list[int]:
    """the processes of jobs on this node, by their environment, behind those of Slurm that watch over them"""
    watching, found = set(), []
    for entry in Path("/proc").glob("[0-9]*/environ"):
        try:
            if f"SLURMD_NODENAME={name}".encode() not in entry.read_bytes().split(b"\0"):
                continue
            found.append(int(entry.parent.name))
            parent = re.search(r"^PPid:\s*(\d+)", (entry.parent / "status").read_text(encoding="utf-8"), re.MULTILINE)
            if parent and "slurmstepd" in Path(f"/proc/{parent[1]}/comm").read_text(encoding="utf-8"):
                watching.add(int(parent[1]))
        except OSError:
            pass
    return [*watching, *found]


class Cluster:
    """Slurm in a folder, with a key, a controller and nodes of its own."""

    def __init__(self, room: Path) -> None:
        self.room = room
        self.processors = max(1, (os.cpu_count() or 2) // len(NODES))
        self.running: dict[str, subprocess.Popen[bytes]] = {}
        for name in ("state", "keys"):
            (room / name).mkdir(mode=0o700)
        (room / "slurm.conf").write_text(self.settings(), encoding="utf-8")
        self.environment = {**os.environ, "SLURM_CONF": str(room / "slurm.conf")}

    def settings(self) -> str:
        host = socket.gethostname()
        nodes = [f"NodeName={name} NodeHostname={host} NodeAddr=127.0.0.1 Port={FIRST_NODE + at} CPUs={self.processors} State=UNKNOWN"
                 for at, name in enumerate(NODES)]
        return "\n".join([
            "ClusterName=bench", f"SlurmctldHost={host}(127.0.0.1)", f"SlurmctldPort={CONTROLLER}", "SlurmUser=root", "SlurmdUser=root",
            "AuthType=auth/munge", f"AuthInfo=socket={self.room}/munge.socket", "CredType=cred/munge", "MpiDefault=none",
            f"StateSaveLocation={self.room}/state", f"SlurmdSpoolDir={self.room}/spool.%n",
            f"SlurmctldPidFile={self.room}/controller.pid", f"SlurmdPidFile={self.room}/%n.pid",
            f"SlurmctldLogFile={self.room}/controller.log", f"SlurmdLogFile={self.room}/%n.log",
            "ProctrackType=proctrack/linuxproc", "TaskPlugin=task/none", "SelectType=select/cons_tres", "SelectTypeParameters=CR_CPU",
            "SlurmdParameters=config_overrides", "SlurmdTimeout=10", "ReturnToService=2", "JobRequeue=0", "MinJobAge=3600",
            "SchedulerParameters=batch_sched_delay=0,sched_interval=1", *nodes,
            f"PartitionName=all Nodes={','.join(NODES)} Default=YES State=UP", ""])

    def start(self, name: str, *command: str) -> None:
        with (self.room / f"{name}.printed").open("ab") as printed:
            self.running[name] = subprocess.Popen(command, env=self.environment, stdin=subprocess.DEVNULL, stdout=printed, stderr=printed)

    def start_node(self, name: str) -> None:
        (self.room / f"spool.{name}").mkdir(exist_ok=True)
        self.start(name, "slurmd", "-D", "-N", name, "-f", str(self.room / "slurm.conf"))

    def begin(self) -> None:
        """starts all of it, and waits until both nodes are idle"""
        keys = self.room / "keys"
        subprocess.run(["mungekey", "--create", f"--keyfile={keys}/key"], check=True)
        self.start("munge", "munged", "--foreground", "--force", f"--key-file={keys}/key", f"--socket={self.room}/munge.socket",
                   f"--pid-file={self.room}/munge.pid", f"--log-file={self.room}/munge.log", f"--seed-file={keys}/seed")
        wait_until("munge", (self.room / "munge.socket").exists)
        self.start("controller", "slurmctld", "-D", "-i", "-f", str(self.room / "slurm.conf"))
        for name in NODES:
            self.start_node(name)
        wait_until("idle nodes", lambda: self.said("sinfo", "-h", "-N", "-o", "%t").split() == ["idle"] * len(NODES))

    def end(self) -> None:
        for name in [*NODES, "controller", "munge"]:
            if name in self.running:
                self.running[name].terminate()
                self.running[name].wait(30)

    def kill(self, name: str) -> None:
        """a node's end in the midst: all that runs on it ends at once, and nothing of it is tidied up"""
        for pid in [*of_jobs(name), *descendants(self.running.pop(name).pid)]:
            try:
                os.kill(pid, signal.SIGKILL)
            except ProcessLookupError:
                pass

    def said(self, *command: str) -> str:
        return subprocess.run(command, env=self.environment, capture_output=True, text=True, check=False).stdout.strip()

    def give(self, folder: Path, *words: str) -> str:
        """gives a job; its number"""
        ran = subprocess.run(["sbatch", "--parsable", *words], cwd=folder, env=self.environment, capture_output=True, text=True, check=False)
        if ran.returncode:
            sys.exit(f"sbatch: {ran.stderr}")
        return ran.stdout.strip().split(";")[0]

    def wait(self, job: str) -> list[str]:
        """waits until no part of a job is to be run; how each ended, sorted"""
        wait_until(f"job {job}", lambda: not self.said("squeue", "-h", "-j", job, "-t", "PD,R,CG,CF,S,ST", "-o", "%T"))
        return sorted(re.findall(r"JobState=(\S+)", self.said("scontrol", "show", "job", job)))


class Trial(Launcher):
    """a folder of stations beside the launcher, drawn by a cluster, and what isn't as it is to be"""

    def __init__(self, program: Path, room: Path, count: int) -> None:
        super().__init__(program, room)
        self.faults, self.count = 0, count
        self.cluster = Cluster(room)
        self.cluster.environment = {**self.environment, "SLURM_CONF": str(room / "slurm.conf"), "PATH": os.environ["PATH"]}
        (self.clone / "IN").mkdir()
        for at in range(count):
            name, station = EVERYDAY[at % len(EVERYDAY)]
            (self.clone / "IN" / f"{at:03} {name}.xml").write_text(station.text(), encoding="utf-8")

    def hold(self, what: str, holds: bool) -> None:
        self.faults += not holds
        print(f"{'as it is to be' if holds else 'OTHERWISE'}: {what}", flush=True)

    def give_parts(self, out: str, parts: str) -> str:
        # the two lines of docs/use/folders.md, with the grid of these stations
        line = f"./railplan folder IN {out} -j {self.cluster.processors} --shard \"$SLURM_ARRAY_TASK_ID/{PARTS}\" {' '.join(GRID)}"
        return self.cluster.give(self.clone, f"--array={parts}", f"--cpus-per-task={self.cluster.processors}", f"--job-name={out}",
                                 "--output=part-%a.said", "--wrap", line)

    def give_index(self, out: str) -> str:
        return self.cluster.give(self.clone, "--dependency=singleton", f"--job-name={out}", f"--output={out}.said", "--wrap",
                                 f"./railplan folder --join IN {out} {' '.join(GRID)}")

    def index(self, out: str) -> str:
        """what the job that makes the index said at its end"""
        return (self.clone / f"{out}.said").read_text(encoding="utf-8").strip().split("\n")[-1]

    def drawn(self, out: str) -> int:
        return len(list((self.clone / out).glob("*.sheet")))

    def draw_whole(self) -> float:
        """all parts and the index; how many seconds they took by the clock"""
        began = time.monotonic()
        parts, index = self.give_parts("whole", f"1-{PARTS}"), self.give_index("whole")
        ends = self.cluster.wait(parts)
        self.hold(f"all parts end with 0: {' '.join(ends)}", ends == ["COMPLETED"] * PARTS)
        ends = self.cluster.wait(index)
        took = time.monotonic() - began
        self.hold(f"the index is whole: {self.index('whole')}", ends == ["COMPLETED"] and self.drawn("whole") == self.count)
        return took

    def draw_killed(self) -> None:
        """the same, with a node that is killed while it draws"""
        parts, index = self.give_parts("killed", f"1-{PARTS}"), self.give_index("killed")
        wait_until("a part on each node", lambda: len(self.running_parts(parts)) == len(NODES) and self.drawn("killed") >= self.count // 10)
        part = self.running_parts(parts)["two"]
        self.cluster.kill("two")
        ends = self.cluster.wait(parts)
        self.hold(f"the part of the killed node failed, the others end with 0: {' '.join(ends)}",
                  ends == ["COMPLETED"] * (PARTS - 1) + ["NODE_FAIL"])
        ends = self.cluster.wait(index)
        drawn = self.drawn("killed")
        self.hold(f"{self.count - drawn} stations aren't drawn, and the index says so: {self.index('killed')}",
                  ends == ["FAILED"] and drawn < self.count and f"{self.count - drawn} " in self.index("killed"))
        left = [it.name for it in (self.clone / "killed").rglob("[!.]*") if it.is_file() and it.stat().st_size == 0]
        self.hold(f"no file that was left is empty: {' '.join(left) or 'none is'}", not left)
        self.cluster.start_node("two")
        ends = self.cluster.wait(self.give_parts("killed", part))
        self.hold(f"part {part}, given again, ends with 0: {' '.join(ends)}", ends == ["COMPLETED"])
        ends = self.cluster.wait(self.give_index("killed"))
        self.hold(f"then the index is whole: {self.index('killed')}", ends == ["COMPLETED"] and self.drawn("killed") == self.count)
        self.hold("it has the same sheets as the folder without a fault", all(
            it.read_bytes() == (self.clone / "whole" / it.name).read_bytes() for it in (self.clone / "killed").glob("*.sheet")))

    def running_parts(self, job: str) -> dict[str, str]:
        """by node the part that it draws"""
        lines = self.cluster.said("squeue", "-h", "-r", "-j", job, "-t", "R", "-o", "%N %K").split("\n")
        return {line.split()[0]: line.split()[1] for line in lines if line}

    def draw_here(self) -> float:
        """the same folder by one run; how many seconds it took by the clock"""
        began = time.monotonic()
        folders = [str(self.clone / name) for name in ("IN", "here")]
        status, _, said = self.run("folder", *folders, "-j", str(os.cpu_count()), *GRID)
        took = time.monotonic() - began
        self.hold(f"one run draws the folder: {said.strip().split(chr(10))[-1]}", status == 0 and self.drawn("here") == self.count)
        return took


def main() -> int:
    words = asked()
    with tempfile.TemporaryDirectory() as room:
        trial = Trial(words.program, Path(room), words.count)
        try:
            trial.cluster.begin()
            whole = trial.draw_whole()
            trial.draw_killed()
        finally:
            trial.cluster.end()
        here = trial.draw_here()
    print(f"{words.count} stations, {len(NODES)} nodes of {trial.cluster.processors} processors: {PARTS} parts and the index {whole:.1f} s, "
          f"one run with -j {os.cpu_count()} {here:.1f} s")
    return int(trial.faults > 0)


if __name__ == "__main__":
    sys.exit(main())
