"""The edits: those of the lists, and random ones by a seed."""

import collections
import hashlib
import re
from dataclasses import dataclass
from pathlib import Path

import sites

HERE = Path(__file__).resolve().parent
ROOT = HERE.parent
DECLARED = re.compile(r"^(?:\s*(?:pub )?const (\w+):| *(?:abbrev|unfoldable) (?:pub )?(\S+).* :)", re.M)


class BadEdit(Exception):
    pass


@dataclass
class Edit:
    crate: str
    title: str
    changes: list  # of a file, from, to, and the new text
    where: str = ""  # the crate that refuses it, where its own does not
    is_random: bool = False
    reason: str = ""  # why a random one is the same program

    def functions(self):
        """The functions that it changes, and "" where it changes something outside of any."""
        found = set()
        for file, start, end, _ in self.changes:
            names = [name for name, a, b in functions(file, text_of(self.crate, file)) if a < start and end <= b]
            found.add(names[0] if names else "")
        return found

    def function(self):
        """The function that it changes, if that is all."""
        found = self.functions()
        return found.pop() if len(found) == 1 else ""

    def declared(self):
        """The constants and definitions that it changes."""
        found = set()
        for file, start, _, _ in self.changes:
            text = text_of(self.crate, file)
            before = DECLARED.findall(text[: text.find("\n", start)])
            if before:
                found.add("".join(before[-1]))
        return found


def crates():
    """The crates in their order, each with those that it depends on."""
    order = {}
    for line in (ROOT / "crates.txt").read_text().splitlines():
        name, colon, deps = line.split("#")[0].partition(":")
        if colon:
            order[name.split()[0]] = deps.split()
    return order


def folder(crate):
    return ROOT / "crates" / crate


def text_of(crate, file):
    return (folder(crate) / file).read_text()


def functions(file, text):
    """The functions of a file, by the names that the prover gives them, with the place of each."""
    if not file.endswith(".rt"):
        return
    module = "" if Path(file).stem in ("lib", "main") else "::".join(Path(file).with_suffix("").parts[1:]) + "::"
    owner = ""
    for m in re.finditer(r'^(?:impl(?:<[^>]*>)? (?:(\w+) for )?(\w+)(?:<[^>]*>)? \{|\}|( *)(?:pub )?(?:extern "C" )?fn (\w+))', text, re.M):
        if m[4]:
            yield f"{module}{owner}{m[4]}", m.start(), text.find(f"\n{m[3]}}}\n", m.end())
        else:
            owner = f"{m[2]}{m[1] or ''}::" if m[2] else ""


# ---- the lists


def entries(path):
    """The entries of a list, with an empty line between two: a title after '#'; then 'file:', which holds for the 'old:' and 'new:' pairs after it, as in an
    edit that the gate tries; and 'in:', a crate, where the edited crate itself does not refuse it."""
    for block in re.split(r"\n\s*\n", path.read_text()):
        entry = {"title": "", "in": "", "pairs": []}
        for line in block.splitlines():
            key, _, value = line.partition(": ") if ": " in line else line.partition(":")
            if line.startswith("#"):
                entry["title"] = f"{entry['title']} {line[1:].strip()}".strip()
            elif key in ("in", "file", "old"):
                entry[key] = value
            elif key == "new":
                entry["pairs"].append((entry["file"], entry["old"], value))
        if entry["pairs"]:
            yield entry


def listed(crate):
    """The edits of a crate's list, and those that the gate tries. One that no longer fits is a BadEdit in its place."""
    for path in [HERE / f"{crate}.edits", *sorted(folder(crate).glob("must-fail/*.edit"))]:
        for entry in entries(path) if path.exists() else []:
            try:
                yield Edit(crate, entry["title"], [place(crate, *pair) for pair in entry["pairs"]], entry["in"])
            except BadEdit as fault:
                yield BadEdit(f"{crate}: {entry['title']}: {fault}")


def place(crate, file, old, new):
    if not (folder(crate) / file).is_file():
        raise BadEdit(f"there is no file {file}")
    text = text_of(crate, file)
    if text.count(old) != 1:
        raise BadEdit(f"old text {'found more than once' if old in text else 'not found'} in {file}: {old.strip()}")
    return file, text.find(old), text.find(old) + len(old), new


# ---- random edits


def files(crate):
    found = [*folder(crate).glob("src/**/*.rt"), *folder(crate).glob("specs/**/*.antt")]
    return sorted(str(path.relative_to(folder(crate))) for path in found)


def by_seed(crate, count, seed):
    """`count` changes of a crate, of each kind in turn, by the digest of the seed and the change: the same ones on every machine. A program that no contract
    speaks of (docs/EXCEPTIONS.md) has none."""
    kinds = collections.defaultdict(list)
    texts = {file: text_of(crate, file) for file in files(crate)}
    if not any("ensures" in text or file.startswith("specs/") for file, text in texts.items()):
        return
    for file, text in texts.items():
        for kind, start, end, new in sites.changes(file, text):
            digest = hashlib.sha256(f"{seed} {crate} {file} {start} {end} {new}".encode()).hexdigest()
            kinds[file.split("/")[0], kind].append((digest, file, start, end, new))
    queues = sorted(sorted(found) for found in kinds.values())
    picked = []
    while len(picked) < count and any(queues):
        picked += [queue.pop(0)[1:] for queue in queues if queue]
    reasons = equal()
    for change in sorted(picked[:count]):
        file, start, end, new = change
        text = texts[file]
        before, after = text[text.rfind("\n", 0, start) + 1 : start], text[end : text.find("\n", end)]
        old_line, new_line = (" ".join((before + piece + after).split()) for piece in (text[start:end], new))
        title = f"{file}:{text.count(chr(10), 0, start) + 1}: {old_line} -> {new_line}"
        yield Edit(crate, title, [change], is_random=True, reason=reasons.get((f"crates/{crate}/{file}", old_line, new_line), ""))


def equal():
    """The random edits that are known to make no other program, with the reason: by file, old line and new line."""
    path = HERE / "equal"
    return {pair: entry["title"] for entry in (entries(path) if path.exists() else []) for pair in entry["pairs"]}
