#!/usr/bin/env python3
"""Builds the libraries below the program side by side, so that `rt run` in crates/tabletop has the program alone left to prove.

    .ci/build_libraries.py [ROOT]

A crate starts once those below it are done, and of those that can start the one behind which the longest chain of crates waits. As many are
built at once as there are processors, and 2 GB of memory for each. One that was killed, most likely for memory, is tried again with fewer
beside it; one that fails ends the build, and its log is shown.

`rt lib` holds the folder of its crate and those of all crates below while it works, so that two of them in one checkout would wait for each
other. Each therefore works in a small checkout of its own, made of second names (hard links) for the files here; the crate's folder
`out` goes there as it is and comes home when the work ends, however it ends. So a break loses no crate that is done, nor what was kept of
the others.
"""

from __future__ import annotations

import contextlib
import fcntl
import os
import shutil
import signal
import subprocess
import sys
import time
from dataclasses import dataclass, field
from pathlib import Path
from typing import Iterator

PROGRAM = "tabletop"
MEMORY_FOR_ONE = 2_000_000_000  # bytes
LINES_IN_A_SECOND = 10  # of sources, about as many as one processor proves; corrected by what is measured
LEAST_PROOF = 5.0  # seconds; what ends sooner was proved before and tells nothing of the pace
MOMENT = 0.05  # seconds between two looks at those that work
KILLED = {-signal.SIGKILL, 128 + signal.SIGKILL, 256 - signal.SIGKILL}  # as a shell and as Python tell it


class Failed(Exception):
    """A crate wasn't built; the text is its log."""


# ---- what there is to build
@dataclass(frozen=True)
class Crate:
    """A crate of the repository, with those of the repository that it names and about how long its proof takes one processor."""

    name: str
    needs: tuple[str, ...]
    seconds: float = 1.0


def lines_in(text: str) -> dict[str, str]:
    """The lines of a crates.txt, by the crates that they name."""
    lines = [line.partition("#")[0] for line in text.splitlines()]
    return {line.partition(":")[0].split()[0]: line for line in lines if ":" in line}


def listed(text: str) -> dict[str, tuple[str, ...]]:
    """The crates of a crates.txt, each with those that it names and that the list has too."""
    named = {name: line.partition(":")[2].split() for name, line in lines_in(text).items()}
    return {name: tuple(need for need in needs if need in named) for name, needs in named.items()}


def lines_of(folder: Path) -> int:
    """How many lines of sources a crate has, without its tests, which `rt lib` doesn't prove."""
    sources = [path for path in folder.rglob("*") if path.suffix in (".rt", ".antt")]
    within = [path for path in sources if not {"out", "tests"} & set(path.relative_to(folder).parts)]
    return sum(path.read_bytes().count(b"\n") for path in within)


def below(name: str, needs: dict[str, tuple[str, ...]]) -> list[str]:
    """The crates below a crate, each after those that it needs."""
    found: list[str] = []

    def visit(above: str) -> None:
        for need in needs[above]:
            if need not in found:
                visit(need)
                found.append(need)

    visit(name)
    return found


def crates_of(root: Path) -> list[Crate]:
    """The program and the crates below it, the program last."""
    needs = listed((root / "crates.txt").read_text(encoding="utf-8"))
    names = [*below(PROGRAM, needs), PROGRAM]
    return [Crate(name, needs[name], 1 + lines_of(root / "crates" / name) / LINES_IN_A_SECOND) for name in names]


# ---- which crate is next, and how long it all takes
@dataclass
class Plan:
    """Which crates are done, which are worked at, and which can start."""

    crates: dict[str, Crate]
    done: set[str] = field(default_factory=set)
    running: set[str] = field(default_factory=set)

    def __post_init__(self) -> None:
        self.chains: dict[str, float] = {}
        for crate in reversed(self.crates.values()):  # those above a crate stand behind it
            above = [self.chains[other.name] for other in self.crates.values() if crate.name in other.needs]
            self.chains[crate.name] = crate.seconds + max(above, default=0.0)

    def ready(self) -> list[Crate]:
        """The crates that can start, the one with the longest chain of crates behind it first."""
        waiting = [crate for crate in self.crates.values() if crate.name not in self.done | self.running]
        free = [crate for crate in waiting if self.done.issuperset(crate.needs)]
        return sorted(free, key=lambda crate: -self.chains[crate.name])

    def jobs(self, slots: int) -> int:
        """How many processors a crate that starts now may use: where fewer crates than slots can work, each gets more."""
        return max(1, slots // (len(self.running) + len(self.ready())))

    def seconds_left(self, ages: dict[str, float], slots: int, pace: float) -> float:
        """How long all takes from now on, as it would be built, where a crate takes `pace` times what its size says. `ages` are the seconds
        that the running ones have taken."""
        ends = {name: max(1.0, self.crates[name].seconds * pace - age) for name, age in ages.items()}
        later, now = Plan(self.crates, set(self.done), set(ends)), 0.0
        while len(later.done) < len(self.crates):
            for crate in later.ready()[: slots - len(later.running)]:
                later.running.add(crate.name)
                ends[crate.name] = now + crate.seconds * pace
            first = min(later.running, key=lambda name: ends[name])
            now = ends[first]
            later.running.remove(first)
            later.done.add(first)
        return now


def slots_here() -> int:
    """How many crates may be worked at at once: as many as there are processors, and memory for each."""
    processors = len(os.sched_getaffinity(0))
    with contextlib.suppress(OSError), open("/proc/meminfo", encoding="ascii") as told:
        free = next((int(line.split()[1]) * 1024 for line in told if line.startswith("MemAvailable:")), processors * MEMORY_FOR_ONE)
        return max(1, min(processors, free // MEMORY_FOR_ONE))
    return processors


# ---- the small checkouts
def link_or_copy(source: str, target: str) -> None:
    """Gives a file a second name. `rt` removes what it makes anew, and never writes into a file that is there."""
    try:
        os.link(source, target)
    except OSError:
        shutil.copyfile(source, target)


@contextlib.contextmanager
def held(folders: list[Path]) -> Iterator[None]:
    """Keeps every `rt` out of these folders, by the locks that it takes itself."""
    with contextlib.ExitStack() as stack:
        for folder in sorted(folders):
            handle = os.open(folder, os.O_RDONLY)
            stack.callback(os.close, handle)
            try:
                fcntl.flock(handle, fcntl.LOCK_EX | fcntl.LOCK_NB)
            except BlockingIOError:
                print(f"waiting for another rt to finish in {folder}", file=sys.stderr)
                fcntl.flock(handle, fcntl.LOCK_EX)
            except OSError:  # some file systems have no locks
                pass
        yield


class Workshop:
    """The folder of the small checkouts. It lies on the disk of the repository, and in its .git, if there is one, where `rt ci` looks for
    no sources."""

    def __init__(self, root: Path) -> None:
        self.root = root
        self.place = root / (".git" if (root / ".git").is_dir() else "out") / "tabletop-build"

    def checkout(self, name: str, others: list[str]) -> Path:
        """A checkout of a crate and the libraries below it; gives the crate's folder there, to which `out` has moved."""
        top, here = self.place / name, self.root / "crates"
        for other in [*others, name]:
            parts = [part.name for part in (here / other).iterdir() if part.is_dir() and part.name != "out"]
            parts += ["out/rlib"] if other != name else []
            for part in parts:
                shutil.copytree(here / other / part, top / "crates" / other / part, copy_function=link_or_copy)
        lines = lines_in((self.root / "crates.txt").read_text(encoding="utf-8"))
        (top / "crates.txt").write_text("".join(f"{lines[each]}\n" for each in [*others, name]), encoding="utf-8")
        folder = top / "crates" / name
        if (here / name / "out").is_dir():
            (here / name / "out").rename(folder / "out")
        return folder

    def bring_home(self, name: str) -> None:
        """Takes a crate's `out` back, and clears its checkout away."""
        folder, home = self.place / name / "crates" / name, self.root / "crates" / name / "out"
        if (folder / "out").is_dir() and not home.exists():
            (folder / "out").rename(home)
        shutil.rmtree(self.place / name, ignore_errors=True)

    def clear(self) -> None:
        """Brings home what is there: all that an earlier build left that was killed, and all that a broken one worked at."""
        for top in sorted(self.place.iterdir()) if self.place.is_dir() else []:
            folder = top / "crates" / top.name
            with held([folder] if folder.is_dir() else []):  # an `rt` may have outlived its build
                self.bring_home(top.name)
        shutil.rmtree(self.place, ignore_errors=True)


# ---- what is shown
def minutes(seconds: float) -> str:
    return "less than a minute" if seconds < 60 else "a minute" if seconds < 90 else f"{seconds / 60:.0f} minutes"


class Display:
    """On a terminal one line that is kept up to date, and elsewhere a line a crate."""

    def __init__(self, count: int) -> None:
        self.count, self.is_terminal, self.shown = count, sys.stderr.isatty(), ""

    def progress(self, done: int, gone: float, left: float, names: list[str]) -> None:
        about = "about " if left >= 60 else ""
        text = f"{done} of {self.count} crates, {minutes(gone)} so far, {about}{minutes(left)} left: {', '.join(names)}"
        text = text[: shutil.get_terminal_size().columns - 1]
        if text != self.shown:
            print(f"\r{text}\033[K", end="", file=sys.stderr, flush=True)
            self.shown = text

    def crate(self, name: str, done: int, took: float) -> None:
        if not self.is_terminal:
            print(f"{done} of {self.count} crates: {name}, {took:.0f} seconds", file=sys.stderr, flush=True)

    def end(self, words: str) -> None:
        """Words on a line of their own, behind the line that was kept up to date."""
        print(("\n" if self.shown else "") + words, file=sys.stderr, flush=True)
        self.shown = ""


# ---- the build
@dataclass
class Job:
    """A crate that is worked at."""

    crate: Crate
    process: subprocess.Popen[bytes]
    log: Path
    started: float


class Build:
    def __init__(self, root: Path, slots: int) -> None:
        self.crates = {crate.name: crate for crate in crates_of(root)}
        self.needs = {crate.name: crate.needs for crate in self.crates.values()}
        self.plan, self.slots = Plan(self.crates), slots
        self.workshop, self.display = Workshop(root), Display(len(self.crates))
        self.jobs: list[Job] = []
        self.begun = self.shown = time.monotonic()
        self.took: dict[str, float] = {}

    def run(self) -> None:
        """Builds all but the program."""
        self.workshop.clear()
        try:
            while len(self.plan.done) < len(self.crates) - 1:
                for crate in self.plan.ready()[: self.slots - len(self.jobs)]:
                    self.start(crate)
                for job in [job for job in self.jobs if job.process.poll() is not None]:
                    self.collect(job)
                self.show()
                time.sleep(MOMENT)
        finally:
            self.stop()

    def start(self, crate: Crate) -> None:
        jobs = self.plan.jobs(self.slots)
        words = ["rt", "lib", "--jobs", str(jobs)]
        if 1 < jobs == self.slots:  # it works alone, and chooses by its size how many processors it takes
            words = words[:2]
        folder = self.workshop.checkout(crate.name, below(crate.name, self.needs))
        log = self.workshop.place / crate.name / "log"
        with open(log, "wb") as out:
            process = subprocess.Popen(words, cwd=folder, stdin=subprocess.DEVNULL, stdout=out, stderr=subprocess.STDOUT)
        self.jobs.append(Job(crate, process, log, time.monotonic()))
        self.plan.running.add(crate.name)

    def collect(self, job: Job) -> None:
        """Takes in how a crate ended."""
        name, status = job.crate.name, job.process.returncode
        self.jobs.remove(job)
        self.plan.running.remove(name)
        said = job.log.read_text(encoding="utf-8", errors="replace")
        self.workshop.bring_home(name)
        if status == -signal.SIGINT:  # a break reaches all, and may be met here first
            raise KeyboardInterrupt
        if status in KILLED and self.slots > 1:
            self.slots -= 1
            self.display.end(f"{name} was killed, most likely for memory: it is tried again, with at most {self.slots} at once")
        elif status:
            raise Failed(f"{said}{name} wasn't built (status {status}); its log stands above")
        else:
            self.plan.done.add(name)
            self.took[name] = time.monotonic() - job.started
            self.display.crate(name, len(self.plan.done), self.took[name])

    def show(self) -> None:
        """Keeps the line up to date, each second."""
        now = time.monotonic()
        if not self.display.is_terminal or now < self.shown + 1:
            return
        self.shown = now
        ages = {job.crate.name: now - job.started for job in self.jobs}
        left = self.plan.seconds_left(ages, self.slots, self.pace())
        self.display.progress(len(self.plan.done), now - self.begun, left, sorted(ages))

    def pace(self) -> float:
        """How many times as long as their sizes say those crates took that were proved in this run."""
        proved = {name: took for name, took in self.took.items() if took >= LEAST_PROOF}
        return sum(proved.values()) / sum(self.crates[name].seconds for name in proved) if proved else 1.0

    def stop(self) -> None:
        """Ends what still works, and brings home what it made."""
        for number in (signal.SIGINT, signal.SIGTERM, signal.SIGHUP):
            signal.signal(number, signal.SIG_IGN)
        for job in self.jobs:
            job.process.terminate()
        for job in self.jobs:
            job.process.wait()
        self.workshop.clear()


def main(words: list[str]) -> int:
    root = Path(words[0]) if words else Path(__file__).resolve().parent.parent
    for number in (signal.SIGTERM, signal.SIGHUP):
        signal.signal(number, signal.default_int_handler)
    build = Build(root.resolve(), slots_here())
    try:
        with held([root.resolve() / "crates" / name for name in build.crates]):
            build.run()
    except Failed as fault:
        build.display.end(str(fault))
        return 1
    except KeyboardInterrupt:
        build.display.end(f"{len(build.plan.done)} of {len(build.crates)} crates are done and stay; the next start goes on with the others")
        return 130
    build.display.end(f"all but the program itself, in {minutes(time.monotonic() - build.begun)}")
    return 0


if __name__ == "__main__":
    sys.exit(main(sys.argv[1:]))
