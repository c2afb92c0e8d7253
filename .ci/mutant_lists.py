"""The mutants in the lists crates/*/mutants/*.edits, as tools/mutants describes them."""
import fcntl
import functools
import glob
import hashlib
import os
import re

from checker import KIT, PARTS, TOP, below, crates, folder_of, give_up, text_of

RECORD = f"{TOP}/.ci/refused"
RECORD_HEAD = """# The crates all of whose mutants `tools/mutants` saw refused: how many by a goal, how many by names alone, and a checksum of what it
# read: their files, those of the crates below, and the name of the kit; comments are left out.
"""


class Edit:
    """The functions that an edit changes, and the files beneath a folder that it changes, before and after."""

    def __init__(self, at, title, top):
        self.at, self.title, self.top, self.functions, self.files = at, title, top, [], {}
        self.weak = self.required = ""
        self.is_by_goal = False

    def change(self, file, old, new):
        path = f"{self.top}/{file}"
        was = self.files.get(file) or [text_of(path)] * 2 if os.path.isfile(path) else [""] * 2
        if not old or was[1].count(old) != 1:
            give_up(f"{self.at} has an old text that does not stand once in {file}: {old}")
        self.files[file] = was[0], was[1].replace(old, new)

    def lines(self):
        """The lines that it changes, by their file and number. Each stays one line."""
        pairs = [(it, zip(*map(str.splitlines, both))) for it, both in self.files.items()]
        every = [(file, at, *pair) for file, lines in pairs for at, pair in enumerate(lines)]
        return {(file, at): line for file, at, was, line in every if was != line}


def written(edits):
    """The texts of the files that these edits change, with all of them."""
    changed = {key: line for edit in edits for key, line in edit.lines().items()}
    before = {file: both[0] for edit in edits for file, both in edit.files.items()}
    return {file: "\n".join(changed.get((file, at), it) for at, it in enumerate(text.splitlines())) + "\n" for file, text in before.items()}


def edits_of(top, path, keys=("weak", "required"), kind=Edit):
    """The edits of a list of the files beneath a folder, each of which applies. Further lines of theirs have these keys."""
    found, last = [], {}
    for number, line in enumerate(text_of(path).splitlines(), 1):
        key, _, rest = line.partition(": ")
        at = f"{os.path.relpath(path, TOP)}:{number}"
        if line.startswith("# "):
            found.append(kind(at, line[2:], top))
        elif key == "fn":
            found[-1].functions += rest.split()
        elif key in keys:
            setattr(found[-1], key, rest)
        elif key in ("file", "old"):
            last[key] = rest
        elif key in ("new", "new:"):
            found[-1].change(**last, new=rest)
        elif line:
            give_up(f"{at} is a line of no key: {line}")
    return found


def sources(name):
    """The source files of the crate, by the name of the list that is about each."""
    top = f"{folder_of(name)}/src"
    paths = [os.path.relpath(it, top) for it in glob.glob(f"{top}/**/*.rt", recursive=True)]
    return {it[:-3].replace("/", "_"): f"src/{it}" for it in paths}


def see_list(name, path, edits):
    """The list is named after a source file, which each of its edits changes."""
    file = sources(name).get(os.path.basename(path).removesuffix(".edits"))
    for edit in edits if file else []:
        if file not in edit.files:
            give_up(f"{edit.at} does not change {file}, which its list is named after")
    if not file or not edits:
        give_up(f"{os.path.relpath(path, TOP)} is named after no source file of {name}, or is empty")


@functools.cache
def mutants(name):
    """The edits of the crate's lists. Each has to name functions, by words that the sources have."""
    texts = [text_of(f"{folder_of(name)}/{it}") for it in sources(name).values()]
    words, found = set(re.findall(r"\w+", " ".join(texts))), []
    for path in sorted(glob.glob(f"{folder_of(name)}/mutants/*")):
        edits = edits_of(folder_of(name), path)
        see_list(name, path, edits)
        found += edits
    for edit in found:
        unknown = [it for it in edit.functions if it.rpartition("::")[2] not in words]
        if unknown or not edit.functions or not edit.lines():
            give_up(f"{edit.at} changes nothing, or names no function of {name}: {unknown}")
        if edit.required and edit.weak:
            give_up(f"{edit.at} is required, so a goal has to fail, and no name alone")
    return found


def counts():
    """How many mutants each crate has, how many of these are required, and how many must fail."""
    found = {}
    for name in crates():
        found["mutants", name] = len(mutants(name))
        found["required", name] = sum(bool(it.required) for it in mutants(name))
        alone = sorted(glob.glob(f"{folder_of(name)}/must-fail/*.edit"))
        found["must-fail", name] = sum(len(edits_of(folder_of(name), it)) for it in alone)
    return found


def grouped(edits):
    """The edits in lists, each of edits of different functions and different lines."""
    groups = []
    for edit in edits:
        keys = {*edit.functions, *edit.lines()}
        group = next((it for it in groups if it[1].isdisjoint(keys)), None)
        if not group:
            groups.append(group := ([], set()))
        group[0].append(edit)
        group[1].update(keys)
    return [group for group, _ in groups]


def crates_with_mutants():
    return [it for it in crates() if mutants(it)]


def files_of(name, parts):
    """The paths of the crate's files in these folders."""
    walked = [it for part in parts for it in os.walk(f"{folder_of(name)}/{part}")]
    return sorted(f"{at}/{it}" for at, _, files in walked for it in files)


@functools.cache
def sum_of(name, parts):
    """A checksum of the crate's files in these folders, without comments."""
    found = hashlib.sha256()
    for path in files_of(name, parts):
        lines = [it for it in text_of(path).splitlines() if not it.lstrip().startswith(("//", "--"))]
        text = "\n".join(lines).encode()
        found.update(f"{os.path.relpath(path, TOP)} {len(text)}\n".encode() + text)
    return found.hexdigest()


def made_of(name):
    """A checksum of what the refusal of the crate's mutants depends on."""
    sums = [sum_of(it, PARTS) for it in sorted(below([name]))]
    found = [text_of(f"{KIT}/KIT-ID"), sum_of(name, ("mutants",)), *sums]
    return hashlib.sha256("\n".join(found).encode()).hexdigest()[:32]


def recorded():
    """Of each crate in the record how many mutants a goal refused, how many names alone, and the checksum."""
    lines = text_of(RECORD).splitlines() if os.path.exists(RECORD) else []
    rows = [it.split() for it in lines if not it.startswith("#")]
    return {name: (int(goals), int(names), made) for name, goals, names, made in rows}


def is_recorded(name):
    goals, names, made = recorded().get(name, (0, 0, ""))
    return goals + names == len(mutants(name)) and made == made_of(name)


def record(name, goals):
    """Writes into the record that all mutants of the crate were refused, so many by a goal."""
    with open(RECORD, "a", encoding="utf-8") as file:
        fcntl.flock(file, fcntl.LOCK_EX)
        lines = {**recorded(), name: (goals, len(mutants(name)) - goals, made_of(name))}
        text = RECORD_HEAD + "".join(f"{it} {' '.join(map(str, lines[it]))}\n" for it in crates_with_mutants() if it in lines)
        file.truncate(0)
        file.write(text)
