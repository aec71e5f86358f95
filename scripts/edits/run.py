"""Tries the edits of crates, and tells what came of each."""
import concurrent.futures
import hashlib
import json
import pathlib
import threading
from typing import Dict, List

import build
from edits import edit, groups, log
from edits.check import Ended, Lanes, Room, kit_folder, memory
from edits.edit import Edit
from edits.log import GOAL, SHAPE, UNDECIDED, Log, Spot, Verdict, worst
from edits.source import functions

KEPT = build.BIN / "edits"
# the most edits of a group, in turn, until each is decided
SIZES = (20, 6, 1)


class Kept:
    """What came of edits before, by all that it rests on."""

    def __init__(self, crate: str, below: Dict[str, List[str]]):
        self.file = KEPT / f"{crate}.json"
        judge = pathlib.Path(log.__file__).read_bytes()
        rests = build.stamp(build.closure(below, [crate])).encode()
        self.rests = hashlib.sha256(judge + rests).digest()
        try:
            self.known: Dict[str, str] = dict(json.loads(self.file.read_text()))
        except (OSError, ValueError, TypeError):
            self.known = {}
        self.now: Dict[str, str] = {}

    def key(self, of: Edit) -> str:
        return hashlib.sha256(self.rests + of.words.encode()).hexdigest()

    def find(self, of: Edit) -> str:
        """Where it was refused before, if it was."""
        why = self.known.get(self.key(of), "")
        if why:
            self.now[self.key(of)] = why
        return why

    def add(self, of: Edit, why: str) -> None:
        """Keeps that an edit was refused at a goal."""
        self.now[self.key(of)] = why
        self.write({**self.known, **self.now})

    def write(self, known: Dict[str, str]) -> None:
        KEPT.mkdir(parents=True, exist_ok=True)
        new = self.file.with_suffix(".new")
        new.write_text(json.dumps(known, indent=0, sort_keys=True))
        new.replace(self.file)


class Run:
    """What all crates of a run share, and what it has found."""

    def __init__(self, lanes: Lanes):
        self.lanes, self.kit, self.below = lanes, kit_folder(), build.crates()
        self.verdicts: Dict[str, Verdict] = {}
        self.kept = 0
        self.open_crates = 0
        self.printing = threading.Lock()

    def say(self, text: str) -> None:
        with self.printing:
            print(text, flush=True)

    def decide(self, label: str, verdict: Verdict) -> None:
        self.verdicts[label] = verdict
        self.say(f"{label}: {verdict}"[:400])


class Trial:
    """The edits of one crate, tried in groups over one folder."""

    def __init__(self, run: Run, crate: str):
        self.run, self.crate = run, crate
        self.folder = build.TOP / "crates" / crate
        self.kept = Kept(crate, run.below)
        self.calls = groups.Calls(self.folder)
        self.checks, self.seconds = 0, 0.0

    def edits(self) -> List[Edit]:
        """The edits that are to be tried."""
        found, wrong = edit.read_all(self.folder)
        for label, why in wrong.items():
            self.run.decide(label, Verdict("BAD EDIT", why))
        left = []
        for each in found:
            why = self.kept.find(each)
            if why:
                self.run.verdicts[each.label] = Verdict(GOAL, why)
                self.run.kept += 1
            else:
                left.append(each)
        edit.lay_out(left, self.folder, self.run.kit / "bin" / "rattle")
        for each in [it for it in left if it.unread]:
            self.run.decide(each.label, Verdict(SHAPE, each.unread))
        return [it for it in left if not it.unread]

    def all(self) -> None:
        """Tries all edits of the crate."""
        left = self.edits()
        tried = len(left)
        if left:
            (KEPT / f"{self.crate}.log").parent.mkdir(parents=True, exist_ok=True)
            (KEPT / f"{self.crate}.log").write_text("")
            with Room(self.crate, self.run.kit, self.run.lanes) as room:
                for most in SIZES:
                    left = self.round(room, left, most)
            self.run.say(
                f"{self.crate}: {tried} edits by {self.checks} checks,"
                f" {self.seconds / 60:.1f} minutes of a processor"
            )
        self.kept.write(self.kept.now)

    def round(self, room: Room, left: List[Edit], most: int) -> List[Edit]:
        """Tries edits in groups of at most so many; those that are left undecided."""
        now = [it for it in left if most == 1 or not it.is_alone]
        later = [it for it in left if most > 1 and it.is_alone]
        for group in groups.grouped(now, self.calls, most):
            if most > 1 and len(group) == 1:
                later += group
                continue
            for each, verdict in zip(group, self.judged(room, group)):
                if verdict.what == GOAL or most == 1:
                    self.decide(each, verdict)
                else:
                    each.is_alone = verdict.what != UNDECIDED
                    later.append(each)
        return later

    def decide(self, of: Edit, verdict: Verdict) -> None:
        if verdict.what == GOAL:
            self.kept.add(of, verdict.why)
        self.run.decide(of.label, verdict)

    def judged(self, room: Room, group: List[Edit]) -> List[Verdict]:
        """What one check tells of each edit of a group."""
        texts = groups.texts(group, self.folder)
        ended = room.check(texts, self.run.open_crates)
        self.checks, self.seconds = self.checks + 1, self.seconds + ended.seconds
        with open(KEPT / f"{self.crate}.log", "a") as said:
            said.write(f"== {' '.join(it.name for it in group)}\n{ended.said}\n")
        found = verdicts(self.crate, group, texts, ended)
        if len(group) > 1:
            goals = sum(it.what == GOAL for it in found)
            self.run.say(
                f"{self.crate}: a group of {len(group)}, {goals} refused at a goal,"
                f" {ended.seconds:.0f} s"
            )
        return found


def verdicts(crate: str, group: List[Edit], texts: Dict[str, str], ended: Ended) -> List[Verdict]:
    """What a check tells of each edit of a group; an edit that waits for others is kept from them
    later."""
    told = Log(ended.said, ended.status)
    if len(group) == 1:
        return [told.of_all()]
    spots = {
        each.name: [Spot(path, functions(texts[path])[key]) for path, key in each.places]
        for each in group
    }
    paths = {
        name: {path for spot in of for path in told.paths(crate, spot)}
        for name, of in spots.items()
    }
    found = []
    for each in group:
        verdict = worst([told.of_function(crate, spot) for spot in spots[each.name]])
        if verdict.what == UNDECIDED:
            over = {name for path in paths[each.name] for name in told.reachable(path)}
            each.avoids |= {it for it, theirs in paths.items() if theirs & over} - {each.name}
        found.append(verdict)
    return found


def weight(run: Run, crate: str) -> int:
    """By what a crate comes before others: about how long its checks take."""
    return memory(crate) * (1 + len(list((build.TOP / "crates" / crate / "edits").iterdir())) // 8)


def try_all(crates: List[str], lanes: Lanes) -> int:
    """Tries the edits of crates; the status of the whole."""
    run = Run(lanes)
    crates = sorted(crates, key=lambda it: -weight(run, it))
    run.open_crates = len(crates)

    def one(crate: str) -> None:
        try:
            Trial(run, crate).all()
        finally:
            run.open_crates -= 1

    with concurrent.futures.ThreadPoolExecutor(lanes.lanes) as pool:
        trials = [pool.submit(one, it) for it in crates]
        try:
            for trial in concurrent.futures.as_completed(trials):
                trial.result()
        except BaseException:
            for trial in trials:
                trial.cancel()
            lanes.stop()
            raise
    return close(run)


def close(run: Run) -> int:
    """Prints the closing lines; the status."""
    wrong = {label: it for label, it in sorted(run.verdicts.items()) if it.what != GOAL}
    for label, verdict in wrong.items():
        print(f"FAILED: {label}: {verdict}"[:400])
    good = len(run.verdicts) - len(wrong)
    print(f"{good} refused at a goal, {len(wrong)} not; {run.kept} kept from before")
    print(f"{good} passed, {len(wrong)} failed")
    return 1 if wrong else 0
