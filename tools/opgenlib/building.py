"""A part of `bin/opgen prove`: proves and builds the libraries of the program side by side, and then the program.

    python3 tools/opgenlib/building.py TOP KIT LINE

TOP is the checkout, KIT the folder of Rattle's kit, LINE what `rt version` says of it. Each crate takes one `rattle build`. A
library holds what other crates can cite of it, without its proofs, as in `rt ci`: each crate above reads it. The libraries stay in
crates/opgen/out/libraries. Beside each is a digest of what it was made from, and a later build keeps those of the same.

The next library is the one with the longest way to the program: its own processor seconds, as they were last measured, and
those of the crates above it along the longest chain. The measured seconds are in seconds.txt beside this file; a crate that
is not there counts by its lines of code and proofs. Processors for which no other library is ready become further jobs of
one. A library that would still run when all that does not wait for it is done has further jobs from its start. The first job of a
crate is left 4 GiB of memory, each further one 2 GiB. RT_JOBS, as for `rt ci`, is the number of processors, whatever memory is
free.
"""
from __future__ import annotations

import hashlib
import os
import signal
import subprocess
import sys
from dataclasses import dataclass, field
from math import ceil
from pathlib import Path

PROGRAM = "opgen"
MEASURED = "tools/opgenlib/seconds.txt"
LIBRARIES = "crates/opgen/out/libraries"
PARTS = ("src", "specs", "proofs")
FIRST_JOB, FURTHER_JOB = 4 << 20, 2 << 20  # KiB of memory: twice what was seen
# The signals that end a build, and the one that says that a process has ended. They are waited for and so have no handlers.
ENDING = {signal.SIGHUP, signal.SIGINT, signal.SIGQUIT, signal.SIGTERM}
AWAITED = {*ENDING, signal.SIGCHLD}


def named(top: Path) -> dict[str, list[str]]:
    """The crates of a checkout, each with the crates that it names, those of the kit among them."""
    lines = [line.partition("#")[0] for line in (top / "crates.txt").read_text().splitlines()]
    return {line.split(":")[0].split()[0]: line.split(":")[1].split() for line in lines if ":" in line}


def dependencies(top: Path) -> dict[str, list[str]]:
    """The crates of a checkout, each with the crates of the checkout that it names."""
    crates = named(top)
    return {name: [other for other in others if other in crates] for name, others in crates.items()}


def below(name: str, crates: dict[str, list[str]]) -> set[str]:
    """The crates that one depends on, directly or not."""
    found, left = set(), [name]
    while left:
        new = set(crates[left.pop()]) - found
        found |= new
        left += new
    return found


def files_of(crate: Path, parts: tuple[str, ...]) -> list[Path]:
    """The files of some parts of a crate, by their names."""
    return sorted(path for part in parts for path in (crate / part).rglob("*") if path.is_file())


def lines_of(crate: Path) -> int:
    """The lines of a crate's code and proofs."""
    return sum(path.read_bytes().count(b"\n") for path in files_of(crate, ("src", "proofs")))


def weights_of(top: Path, names: set[str]) -> dict[str, float]:
    """The processor seconds that proving and building each crate takes: as measured, or else by its lines, at the mean rate."""
    text = (top / MEASURED).read_text() if (top / MEASURED).exists() else ""
    rows = [line.split() for line in text.splitlines() if line and not line.startswith("#")]
    measured = {name: float(seconds) for name, seconds in rows if name in names}
    lines = {name: lines_of(top / "crates" / name) for name in names}
    rate = sum(measured.values()) / sum(lines[name] for name in measured) if measured else 1
    return {name: measured.get(name, lines[name] * rate) for name in names}


def ways(crates: dict[str, list[str]], weights: dict[str, float]) -> dict[str, float]:
    """The weight from each crate to the program: its own and those of the crates above it, along the heaviest chain."""
    known: dict[str, float] = {}

    def way(name: str) -> float:
        if name not in known:
            known[name] = weights[name] + max((way(other) for other in weights if name in crates[other]), default=0)
        return known[name]

    return {name: way(name) for name in weights}


@dataclass
class Schedule:
    """Which crate starts next, and with how many jobs. It has no clock and no processes."""

    crates: dict[str, list[str]]
    weights: dict[str, float]
    processors: int
    memory: int  # KiB
    running: dict[str, int] = field(default_factory=dict)
    built: set[str] = field(default_factory=set)

    def __post_init__(self) -> None:
        way = ways(self.crates, self.weights)
        self.waiting = sorted(self.weights.keys() - self.built, key=lambda name: (-way[name], name))

    def share(self, name: str) -> int:
        """The processors with which a crate ends no later than what is left to do beside it."""
        weight, left = self.weights[name], set(self.weights) - self.built - {name}
        beside = sum(self.weights[other] for other in left if name not in below(other, self.crates))
        return ceil(self.processors * weight / (weight + beside))

    def begin(self) -> tuple[str, int] | None:
        """Starts the next crate, if one is ready and has a processor and memory: its name and number of jobs."""
        ready = [name for name in self.waiting if self.built.issuperset(self.crates[name])]
        idle = self.processors - sum(self.running.values())
        room = self.memory - sum(FIRST_JOB + (jobs - 1) * FURTHER_JOB for jobs in self.running.values())
        if not ready or idle < 1 or (self.running and room < FIRST_JOB):
            return None
        # What is idle is shared by the crates that can start now.
        sharing = max(1, min(len(ready), idle, room // FIRST_JOB))
        wanted = max(idle // sharing, self.share(ready[0]))
        jobs = max(1, min(wanted, 1 + (room // sharing - FIRST_JOB) // FURTHER_JOB))
        self.waiting.remove(ready[0])
        self.running[ready[0]] = jobs
        return ready[0], jobs

    def end(self, name: str) -> None:
        """Notes that a crate is built."""
        del self.running[name]
        self.built.add(name)


def digest_of(crate: Path) -> str:
    """The SHA-256 of the names and contents of a crate's files."""
    total = hashlib.sha256()
    for path in files_of(crate, PARTS):
        total.update(f"{path.relative_to(crate)} {hashlib.sha256(path.read_bytes()).hexdigest()}\n".encode())
    return total.hexdigest()


class Sources:
    """What each library is made from: its own files, the libraries that it names, and the kit."""

    def __init__(self, top: Path, kit: Path, line: str) -> None:
        self.top, self.kit, self.line = top, kit, line
        self.named, self.crates = named(top), dependencies(top)
        self.known: dict[str, str] = {}

    def digest(self, name: str) -> str:
        """The digest of a library, as its files were when it was first asked for."""
        if name not in self.known:
            others = [f"{other} {self.digest(other)}" for other in self.crates[name]]
            text = "\n".join([self.line, *self.named[name], *others, digest_of(self.top / "crates" / name)])
            self.known[name] = hashlib.sha256(text.encode()).hexdigest()
        return self.known[name]

    def are_same(self, name: str) -> bool:
        """Whether the files that a library is made from are still those of its digest."""
        return Sources(self.top, self.kit, self.line).digest(name) == self.digest(name)

    def library(self, name: str) -> Path:
        return self.top / LIBRARIES / f"{name}.rlib"

    def record(self, name: str) -> Path:
        """The file with the digest of a library that is built."""
        return self.top / LIBRARIES / f"{name}.made"

    def kept(self) -> set[str]:
        """The libraries that were made from the sources of now, if those below them were too."""
        made = {name for name in below(PROGRAM, self.crates) if self.library(name).is_dir() and self.record(name).is_file()
                and self.record(name).read_text() == self.digest(name)}
        return {name for name in made if below(name, self.crates) <= made}

    def commands(self, name: str, jobs: int) -> list[list[str]]:
        """The commands that prove and build a crate, in their order."""
        known, others = self.kit / "rlibs", self.crates[name]
        of_kit = ["std", *(other for other in self.named[name] if other not in others)]
        words = ["--antt-project", f"{self.kit}/rattle/logic/antt-project.json", "--logic-built", f"{self.kit}/logic_built"]
        for folder, libraries in ((known, of_kit), (self.top / LIBRARIES, others)):
            words += [word for other in libraries for word in ("--extern", f"{other}={folder}/{other}.rlib")]
            words += ["-L", f"dependency={folder}"]
        words += ["--links", f"{name}=", "--jobs", str(jobs)]
        if name == PROGRAM:
            return [self.build(name, "src/main.rt", [*words, *self.toolchain(), "-o", str(self.object())]), self.link()]
        return [self.build(name, "src/lib.rt", [*words, "--statements", "-o", str(self.library(name))])]

    def build(self, name: str, root: str, words: list[str]) -> list[str]:
        return [f"{self.kit}/bin/rattle", "build", "--crate-name", name, root, *words]

    def toolchain(self) -> list[str]:
        return ["--target", "x86_64-unknown-linux-gnu", "--toolchain", f"{self.kit}/toolchain"]

    def object(self) -> Path:
        return self.top / LIBRARIES / f"{PROGRAM}.o"

    def link(self) -> list[str]:
        """The command that links the program."""
        of_c = [f"{self.kit}/c/{name}" for name in ("libos_c.a", "liblibc_c.a")]
        return [f"{self.kit}/bin/rattle-link", *self.toolchain(), "-o", f"out/{PROGRAM}", str(self.object()), *of_c]


class Group:
    """Processes that end with this one, whatever ends it."""

    def __init__(self) -> None:
        # All are in the process group of a shell, which ends it when the pipe closes: at the end of this process.
        ends, self.held = os.pipe()
        self.guard = subprocess.Popen(["sh", "-c", "read _; kill -9 0"], stdin=ends, preexec_fn=os.setpgrp)
        os.close(ends)

    def join(self) -> None:
        """Has a new process end with this one, and take signals as they come."""
        os.setpgid(0, self.guard.pid)
        signal.pthread_sigmask(signal.SIG_UNBLOCK, AWAITED)

    def end(self) -> None:
        os.killpg(self.guard.pid, signal.SIGKILL)


class Builder:
    """Builds each crate as a schedule says."""

    def __init__(self, sources: Sources, schedule: Schedule) -> None:
        self.sources, self.schedule = sources, schedule
        self.processes: dict[str, subprocess.Popen] = {}
        self.left: dict[str, list[list[str]]] = {}  # the further commands of a crate
        self.group = Group()

    def log(self, name: str) -> Path:
        return self.sources.top / LIBRARIES / f"{name}.log"

    def launch(self, name: str) -> None:
        """Starts the next command of a crate."""
        how = {"stdin": subprocess.DEVNULL, "stderr": subprocess.STDOUT, "preexec_fn": self.group.join}
        with open(self.log(name), "ab") as log:
            place = self.sources.top / "crates" / name
            self.processes[name] = subprocess.Popen(self.left[name].pop(0), cwd=place, stdout=log, **how)

    def start(self, name: str, jobs: int) -> None:
        """Starts to build a crate."""
        told = f" with {jobs} jobs" if jobs > 1 else ""
        print(f"opgen: building {name}{told}, {len(self.schedule.waiting)} left", file=sys.stderr, flush=True)
        for path in (self.sources.record(name), self.log(name)):
            path.unlink(missing_ok=True)
        self.left[name] = self.sources.commands(name, jobs)
        self.launch(name)

    def fail(self, name: str, lines: list[str]) -> bool:
        print(f"opgen: {name} failed:", *lines, sep="\n", file=sys.stderr, flush=True)
        return False

    def finish(self, name: str) -> bool:
        """Takes the end of a crate's command, and returns whether all went well."""
        if self.processes.pop(name).returncode != 0:
            return self.fail(name, self.log(name).read_text(errors="replace").splitlines()[-20:])
        if self.left[name]:
            self.launch(name)
            return True
        if not self.sources.are_same(name):
            return self.fail(name, ["its sources changed while it was built"])
        self.sources.record(name).write_text(self.sources.digest(name))
        self.schedule.end(name)
        return True

    def run(self) -> bool:
        """Builds all, and returns whether all was built. What still runs at a failure or a signal is ended."""
        try:
            while True:
                while begun := self.schedule.begin():
                    self.start(*begun)
                if not self.processes:
                    return not self.schedule.waiting
                if signal.sigwait(AWAITED) in ENDING:
                    return False
                ended = [name for name, process in self.processes.items() if process.poll() is not None]
                if not all([self.finish(name) for name in ended]):
                    return False
        finally:
            self.group.end()
            for process in self.processes.values():
                process.wait()


def machine() -> tuple[int, int]:
    """The processors and the KiB of memory that a build may use."""
    fixed = os.environ.get("RT_JOBS", "")
    if fixed.isdigit() and int(fixed):
        return int(fixed), int(fixed) * FIRST_JOB
    lines = Path("/proc/meminfo").read_text().splitlines()
    free = next((int(line.split()[1]) for line in lines if line.startswith("MemAvailable:")), FIRST_JOB)
    return len(os.sched_getaffinity(0)), free


def await_signals() -> None:
    """Holds the awaited signals back until they are asked for."""
    signal.pthread_sigmask(signal.SIG_BLOCK, AWAITED)
    # A shell has commands in the background ignore some of them.
    for number in ENDING:
        signal.signal(number, signal.SIG_DFL)


def main() -> int:
    await_signals()
    sources = Sources(Path(sys.argv[1]), Path(sys.argv[2]), sys.argv[3])
    (sources.top / LIBRARIES).mkdir(parents=True, exist_ok=True)
    weights = weights_of(sources.top, {PROGRAM, *below(PROGRAM, sources.crates)})
    schedule = Schedule(sources.crates, weights, *machine(), built=sources.kept())
    return 0 if Builder(sources, schedule).run() else 1


if __name__ == "__main__":
    sys.exit(main())
