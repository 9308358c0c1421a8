"""What the prover says of a crate with edits, over what is proved of it without them."""

import hashlib
import os
import queue
import re
import shutil
import signal
import subprocess
import sys
import threading
import time
from contextlib import contextmanager
from dataclasses import dataclass

from edits import ROOT, crates, files, folder, functions, text_of

LONGEST = 900  # seconds that a check may take
LONGEST_ABOVE = 3600  # the same, where crates between are proved anew, too


# ---- verdicts


@dataclass
class Verdict:
    word: str  # refused, accepted, no program, or untold
    by: str = ""  # a contract, a theorem, safety, or the proof's text alone
    what: str = ""
    crate: str = ""  # where
    seconds: float = 0


ERROR = re.compile(r"^(?:\./)?(\S+?):\d+:\d+: error: (?:`([^`]+)`: )?(.*)$", re.M)
# a goal that the prover leaves open, and the line on a function after its goals
NOTE = re.compile(r"^note: \S+?:\d+:\d+: .*\(`([^`]+)`\)|^fn \w+::(\S+): (?:not proved|no proof)\b(.*)$", re.M)
PROVED, NOT_PROVED = re.compile(r"^logic=proved", re.M), re.compile(r"^logic=not-proved", re.M)
# an error that only follows from another
FOLLOWS = re.compile(r"was not admitted|cannot be checked")
# the proof names what is no longer there, and nothing is said of a fact
NAMES = re.compile(r"has no `|has no field|not in scope|is no name|not defined|too many|too few|unknown|not a function|this pattern needs")
# a text of src/ or specs/ that can't be read: no program
UNREAD = re.compile(r"not in scope|has no field|is no name|operand is missing|expected the end|cannot continue")
SAFETY = re.compile(r"(overflow|nonzero|\w*bounds)\w*-|\w+-\w+-(in_)?bounds|.*-(requires|smaller)(-|$)")
# of a proof by hand
BY_HAND = re.compile(r"proofs/\+?(.*)/(?:Proof|Answers|Invariants)\.antt")
STRONGEST = ("contract", "theorem", "safety", "text")


def is_rejected(status, said):
    """The compiler rejects the crate, and the prover is not asked."""
    return status == 1 and not NOT_PROVED.search(said)


def kind_of(need):
    return "safety" if SAFETY.match(need) else "contract"


def faults(said):
    """What does not hold, the strongest first: the function or the file, the need or the theorem, and of what kind it is."""
    found = []
    for path, need, message in ERROR.findall(said):
        m = BY_HAND.fullmatch(path)
        if not FOLLOWS.search(message):
            kind = "text" if NAMES.search(message) else kind_of(need) if m else "theorem"
            found.append((m[1].replace("/", "::") if m else path, need, kind))
    left = []
    for need, name, more in NOTE.findall(said):
        if need:
            left.append(need)
        else:
            left += re.findall(r"`([^`]+)`", more.partition("`search` did not prove ")[2])
            found += ((name, need, kind_of(need)) for need in left)
            left = []
    return sorted(found, key=lambda fault: STRONGEST.index(fault[2]))


def refused(found):
    name, need, kind = found[0]
    return Verdict("refused", kind, f"{name}, {need}" if need else name)


def last_line(said):
    lines = [line for line in said.splitlines() if line.strip() and not line.startswith("rt: rt ")]
    return lines[-1][:200] if lines else ""


def verdict(edit, status, said):
    if status == 0 and PROVED.search(said):
        return Verdict("accepted")
    if is_rejected(status, said):
        return Verdict("no program", what=(re.search(r"error.*", said) or [""])[0][:160])
    for path, name, message in ERROR.findall(said):
        is_text = path.startswith(("src/", "specs/")) and (not name or UNREAD.search(re.sub(r"`[^`]*`", "", message)))
        if is_text or path.startswith("specs/") and name in edit.declared():
            return Verdict("no program", what=f"{path}, {name}: {message[:120]}")
    found = faults(said)
    return refused(found) if status == 1 and found else Verdict("untold", what=last_line(said))


def verdict_among(edit, status, said):
    """The verdict on one of several functions that were changed at once, or None if it can't be told: the goals of one that calls another are not
    tried where that other is not proved."""
    name = edit.function()
    if re.search(rf"^fn {edit.crate}::{re.escape(name)}: proved$", said, re.M):
        return Verdict("accepted")
    found = [fault for fault in faults(said) if fault[0] == name and fault[2] != "text"]
    return refused(found) if status == 1 and found else None


# ---- checks


def below(order, crate):
    """The crates of the repository that a crate reaches."""
    found, todo = set(), [crate]
    while todo:
        more = [dep for dep in order[todo.pop()] if dep in order and dep not in found]
        found.update(more)
        todo += more
    return found


def mentions(text, names):
    return any(re.search(rf"(?<![\w-]){re.escape(name)}(?![\w-])", text) for name in names)


def linked(one, other):
    """Gives a file a second name: rt makes what it keeps anew, and writes into none."""
    try:
        os.link(one, other)
    except OSError:
        shutil.copy2(one, other)


def end(started):
    """Ends a command and what it started."""
    if started.poll() is None:
        os.killpg(started.pid, signal.SIGKILL)
        started.wait()


class Prover:
    """Checks in scratch copies of the repository: `base` is as it stands, and holds what is proved of it; a room is one of a few, and holds the
    crates that one check needs."""

    def __init__(self, work, logs, jobs):
        self.work, self.logs, self.jobs, self.order = work, logs, jobs, crates()
        self.base, self.proved, self.proving = work / "base", set(), threading.Lock()
        self.running, self.is_stopped = set(), False
        self.rooms = queue.SimpleQueue()
        for number in range(jobs):
            self.rooms.put(work / f"room-{number}")

    def copy(self, top, names, edits=()):
        """A copy of these crates, with edits."""
        for name in names:
            for part in ("src", "specs", "proofs"):
                if (folder(name) / part).is_dir():
                    shutil.copytree((self.base if top != self.base else ROOT) / "crates" / name / part, top / "crates" / name / part)
        # from the last place to the first, so that no change moves another
        for file, start, end, new, name in sorted(((*change, edit.crate) for edit in edits for change in edit.changes), reverse=True):
            path = top / "crates" / name / file
            text = path.read_text()
            path.write_text(text[:start] + new + text[end:])

    def listed(self, top, names):
        """Lists these crates in a copy, as the repository does."""
        lines = (ROOT / "crates.txt").read_text().splitlines(keepends=True)
        (top / "crates.txt").write_text("".join(line for line in lines if line.split("#")[0].split(":")[0].split()[:1] in ([name] for name in names)))
        if (ROOT / "HANDLES").exists():
            shutil.copy2(ROOT / "HANDLES", top / "HANDLES")

    def rt(self, words, where, longest=None):
        """What a command of the kit says, and its status; 3 if it doesn't end."""
        how = {"cwd": where, "stdin": subprocess.DEVNULL, "stdout": subprocess.PIPE, "stderr": subprocess.STDOUT, "text": True, "errors": "replace"}
        try:
            started = subprocess.Popen(["rt", *words], start_new_session=True, **how)
        except FileNotFoundError:
            sys.exit("mutants: there is no command rt: the Rattle kit is needed")
        self.running.add(started)
        try:
            if self.is_stopped:
                raise SystemExit("mutants: stopped")
            said = started.communicate(timeout=longest)[0]
            return started.returncode, said
        except subprocess.TimeoutExpired:
            return 3, f"no answer in {longest} s"
        finally:
            self.running.discard(started)
            end(started)

    def stop(self):
        """Ends the checks that run, and lets no other begin."""
        self.is_stopped = True
        for started in list(self.running):
            end(started)

    def prove(self, tried):
        """Has these crates, and those that they stand on, proved as they stand."""
        with self.proving:
            more = set(tried).union(*(below(self.order, crate) for crate in tried)) - self.proved
            if more:
                self.copy(self.base, more)
                self.listed(self.base, more | self.proved)
                status, said = self.rt(["all", "check", "--jobs", str(self.jobs)], self.base)
                if status:
                    raise SystemExit(f"mutants: not proved as it stands:\n{said[-2000:]}")
                self.proved |= more

    @contextmanager
    def room(self, crate, edits):
        """A room with a crate and those below, with edits of one of them, over what is kept of each as it stands."""
        room = self.rooms.get()
        try:
            names = [name for name in self.order if name == crate or name in below(self.order, crate)]
            self.copy(room, names, edits)
            self.listed(room, names)
            for name in names:
                changed = name == crate or any(edit.crate in {name, *below(self.order, name)} for edit in edits)
                kept = "incremental" if changed else "rlib"
                out = self.base / "crates" / name / "out" / kept
                if out.is_dir():
                    shutil.copytree(out, room / "crates" / name / "out" / kept, symlinks=True, copy_function=linked)
            yield room
        finally:
            shutil.rmtree(room, ignore_errors=True)
            self.rooms.put(room)

    def check(self, crate, edits, longest=LONGEST):
        """Checks a crate, where it or one below has edits, over what is proved without them."""
        with self.room(crate, edits) as room:
            status, said = self.rt(["check", "--jobs", "1"], room / "crates" / crate, longest)
            said = said.replace(f"{room}/", "")
        if self.logs:
            titles = "".join(f"# {edit.crate}: {edit.title}\n" for edit in edits)
            (self.logs / f"{crate}-{hashlib.sha256(titles.encode()).hexdigest()[:12]}.log").write_text(f"{titles}{said}status {status}\n")
        return status, said

    # -- tries

    def together(self, edits):
        """Verdicts on edits of one crate, each in a function of its own if they are several."""
        began = time.monotonic()
        found = [None] * len(edits)
        if len(edits) > 1:
            status, said = self.check(edits[0].crate, edits)
            if is_rejected(status, said):
                rejected = [edit for edit in edits if self.is_at_fault(edit, said)]
                if 0 < len(rejected) < len(edits):
                    return [*self.together([edit for edit in edits if edit not in rejected]), *(one for edit in rejected for one in self.together([edit]))]
            found = [verdict_among(edit, status, said) for edit in edits]
        each = (time.monotonic() - began) / len(edits)
        return [(edit, self.completed(edit, one, each)) for edit, one in zip(edits, found)]

    def is_at_fault(self, edit, said):
        """The compiler finds an error in the function that an edit changes. No change moves a line."""
        file = edit.changes[0][0]
        text = text_of(edit.crate, file)
        lines = [int(line) for path, line in re.findall(r"^(\S+?):(\d+):\d+: error", said, re.M) if path == file]
        spans = [(text.count("\n", 0, start), text.count("\n", 0, end) + 2) for name, start, end in functions(file, text) if name == edit.function()]
        return any(start < line <= end for line in lines for start, end in spans)

    def completed(self, edit, one, each):
        """A verdict, by a check of the edit alone where the check of several tells none or accepts it."""
        began = time.monotonic()
        if one is None or one.word == "accepted":
            one = self.alone(edit)
        one.crate = one.crate or edit.crate
        one.seconds = each + time.monotonic() - began
        return one

    def alone(self, edit):
        one = verdict(edit, *self.check(edit.crate, [edit]))
        return self.above(edit) if one.word == "accepted" and (edit.where or not edit.function()) else one

    def above(self, edit):
        """Tries an edit that its own crate does not refuse with the crates above that use what it changes. A crate between may refuse it, too."""
        users = [edit.where] if edit.where else self.users(edit)
        for user in users:
            self.prove([user])
            status, said = self.check(user, [edit], LONGEST_ABOVE)
            one = verdict(edit, status, said)
            one.crate = (re.search(r"^rt: the library (\w+) did not build", said, re.M) or ["", user])[1]
            if one.word != "accepted":
                return one
        return Verdict("accepted", what=f"also with {', '.join(users)}" if users else "nothing uses it")

    def users(self, edit):
        """The crates above that name what an edit changes, or what its crate defines by that; those with the fewest crates between first."""
        blocks = []
        for file in files(edit.crate):
            blocks += re.findall(r"^ *(?:abbrev|unfoldable) (?:pub )?(\S+).* : .*\n((?:.+\n)+)", text_of(edit.crate, file), re.M)
        names, more = set(), edit.declared()
        while more:
            names |= more
            more = {name for name, text in blocks if name not in names and mentions(text, names)}
        found = []
        for place, crate in enumerate(self.order):
            if edit.crate in below(self.order, crate):
                paths = [path for part in ("src", "specs", "proofs") for path in sorted((folder(crate) / part).rglob("*.*t"))]
                if any(mentions(path.read_text(), names) for path in paths):
                    between = [other for other in below(self.order, crate) if edit.crate in below(self.order, other)]
                    found.append((len(between), place, crate))
        return [crate for _, _, crate in sorted(found)]
