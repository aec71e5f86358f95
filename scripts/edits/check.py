"""Checks of a crate's copy by the kit, as many at once as processors and memory allow."""
import dataclasses
import os
import pathlib
import re
import shutil
import signal
import subprocess
import tempfile
import threading
from typing import Dict, List, Optional, Set, Tuple

import build
from edits.edit import PARTS


class Stopped(Exception):
    """The run is being ended."""


@dataclasses.dataclass
class Ended:
    """How a check ended."""

    said: str
    status: int
    seconds: float  # of a processor


def kit_folder() -> pathlib.Path:
    said = subprocess.run(["rt", "doc"], capture_output=True, text=True, check=True).stdout
    return pathlib.Path(said.strip()).parent


def memory(crate: str) -> int:
    """The most bytes that a check of a crate is likely to take by one job, with a third to spare:
    measured were 0.7 GB for the smallest crate and 1.3 for the solver."""
    folder, lines = build.TOP / "crates" / crate, {".rt": 0, ".antt": 0}
    for part in PARTS:
        for path in (folder / part).rglob("*"):
            if path.suffix in lines:
                lines[path.suffix] += path.read_bytes().count(b"\n")
    return 10**9 + 600_000 * lines[".rt"] + 30_000 * lines[".antt"]


def free_memory() -> int:
    """The bytes of memory that are free, by the machine and by the group of processes."""
    text = pathlib.Path("/proc/meminfo").read_text()
    found = [1024 * int(it) for it in re.findall(r"^MemAvailable:\s+(\d+)", text, re.M)]
    try:
        top = pathlib.Path("/sys/fs/cgroup")
        found.append(
            int((top / "memory.max").read_text()) - int((top / "memory.current").read_text())
        )
    except (OSError, ValueError):
        pass
    return max(min(found), 0)


class Lanes:
    """Lets checks run side by side, and ends them all where the run is ended."""

    def __init__(self, most: Optional[int] = None):
        self.lanes = most or len(os.sched_getaffinity(0))
        self.memory = 0.85 * free_memory()
        self.changed = threading.Condition()
        self.held: Dict[int, Tuple[int, float]] = {}
        self.running: Set["subprocess.Popen[bytes]"] = set()
        self.is_stopped = False

    def enter(self, needs: float, waiting: int) -> int:
        """Waits for a lane and for memory; how many jobs the check may use, where so many crates
        are waiting or at work."""
        me = threading.get_ident()
        with self.changed:
            while not self.is_stopped:
                idle = self.lanes - sum(jobs for jobs, _ in self.held.values())
                room = self.memory - sum(taken for _, taken in self.held.values())
                if idle > 0 and (needs <= room or not self.held):
                    fair = max(1, min(idle, self.lanes // max(waiting, 1), 4))
                    jobs = fair if needs * (1 + 0.6 * (fair - 1)) <= room else 1
                    self.held[me] = jobs, needs * (1 + 0.6 * (jobs - 1))
                    return jobs
                self.changed.wait()
        raise Stopped

    def leave(self) -> None:
        with self.changed:
            del self.held[threading.get_ident()]
            self.changed.notify_all()

    def alone(self) -> None:
        """Waits until no other check runs, and lets none begin until it leaves."""
        with self.changed:
            while self.held and not self.is_stopped:
                self.changed.wait()
            self.held[threading.get_ident()] = self.lanes, self.memory

    def call(self, words: List[str], folder: pathlib.Path) -> Ended:
        """Runs a command in a folder."""
        with tempfile.TemporaryFile("w+", errors="replace") as said:
            with self.changed:
                if self.is_stopped:
                    raise Stopped
                process = subprocess.Popen(
                    words,
                    cwd=folder,
                    stdin=subprocess.DEVNULL,
                    stdout=said,
                    stderr=subprocess.STDOUT,
                    start_new_session=True,
                )
                self.running.add(process)
            _, status, used = os.wait4(process.pid, 0)
            with self.changed:
                self.running.remove(process)
            if self.is_stopped:
                raise Stopped
            ended = -os.WTERMSIG(status) if os.WIFSIGNALED(status) else os.WEXITSTATUS(status)
            process.returncode = ended
            said.seek(0)
            return Ended(said.read(), ended, used.ru_utime + used.ru_stime)

    def stop(self) -> None:
        """Ends all that runs."""
        with self.changed:
            self.is_stopped = True
            for process in self.running:
                os.killpg(process.pid, signal.SIGKILL)
            self.changed.notify_all()


class Room:
    """A copy of a crate to be checked with other texts, over a folder that checks share."""

    def __init__(self, crate: str, kit: pathlib.Path, lanes: Lanes):
        self.crate, self.kit, self.lanes = crate, kit, lanes
        self.folder = pathlib.Path(tempfile.mkdtemp(prefix=f"edits-{crate}-"))
        self.source = build.TOP / "crates" / crate
        self.needs = memory(crate)
        for part in PARTS:
            if (self.source / part).is_dir():
                shutil.copytree(self.source / part, self.folder / "crate" / part)

    def __enter__(self) -> "Room":
        return self

    def __exit__(self, *_: object) -> None:
        shutil.rmtree(self.folder, ignore_errors=True)

    def words(self, jobs: int) -> List[str]:
        """The command of a check."""
        kinds, below = build.declared()[self.crate]
        main = "main" if (self.source / "src" / "main.rt").exists() else "lib"
        words = [f"{self.kit}/bin/rattle", "check", "--crate-name", self.crate, f"src/{main}.rt"]
        for name in ["std", *below]:
            of_kit = self.kit / "rlibs" / f"{name}.rlib"
            library = of_kit if of_kit.is_dir() else build.LIBRARIES / f"{name}.rlib"
            words += ["--extern", f"{name}={library}"]
        words += ["-L", f"dependency={self.kit}/rlibs", "-L", f"dependency={build.LIBRARIES}"]
        words += ["--antt-project", f"{self.kit}/rattle/logic/antt-project.json"]
        words += ["--logic-built", f"{self.kit}/logic_built", "--links", f"{self.crate}="]
        words += ["--crate-type", "staticlib"] if "staticlib" in kinds else []
        return words + ["--jobs", str(jobs), "--incremental", str(self.folder / "kept")]

    def check(self, texts: Dict[str, str], waiting: int) -> Ended:
        """Checks the crate with other texts of some files. A check that was killed is tried once
        more, while nothing else runs."""
        for path, text in texts.items():
            (self.folder / "crate" / path).write_text(text)
        try:
            jobs = self.lanes.enter(self.needs, waiting)
            try:
                ended = self.lanes.call(self.words(jobs), self.folder / "crate")
            finally:
                self.lanes.leave()
            if ended.status == -signal.SIGKILL:
                self.lanes.alone()
                try:
                    ended = self.lanes.call(self.words(1), self.folder / "crate")
                finally:
                    self.lanes.leave()
            return ended
        finally:
            for path in texts:
                (self.folder / "crate" / path).write_text((self.source / path).read_text())
