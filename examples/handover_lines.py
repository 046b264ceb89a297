"""The lines that a handover is made of, read and held to each other: the sheet's, a record's, an archive's (archive.h).

Every number stands as the programs print it: digits, no zero in front. A line that is not of its form is refused, and
so is a file that ends within a line, for then it is not whole. So is what cannot be: a log out of its place, drift that
is not the mask's ones, totals that are not the logs' sums, numbers that do not follow one another, held changes that
are not those taken and not undone. What is refused has a file and the number of a line in it."""
import re
from typing import NamedTuple

CLASSES = ("open", "stopped", "invalid", "taken", "undoing", "undone")
DONE = ("Complete", "Aborted", "Canceled", "Failed")
STATUSES = ("None", "Pending", "InProgress", *DONE)
LOGS, KEPT, PATHS, PAIRS, GREATEST = 64, 128, 32, 4, 65535

# The forms of the lines: # is a number, * numbers with : and , between them, @ a status, ! a phase, ~ a sum.
NUMBER = "(0|[1-9][0-9]{0,9})"
MARKS = {"#": NUMBER, "*": "([0-9:,]*)", "@": f"({'|'.join(STATUSES)})", "!": "(Change|Rollback)",
         "~": "([0-9a-f]{16})"}
COUNTS = " ".join(f"{each}=#" for each in CLASSES)
LOG, LOG_REFUSED, TOTALS = f"log=# {COUNTS} mask=# drift=#", "log=# answer=#", COUNTS
CHANGE, FOLDED, HELD = "number=# pairs=* class=# took=# undone=#", "folded=# base=*", "held=*"
ENTRY = ("number=# pairs=* valid=# taken=# undone=# phase=! c_commit=@ c_apply=@ c_ordinal=# "
         "r_commit=@ r_apply=@ r_ordinal=# r_index=# r_values=* sum=~")


class Refused(Exception):
    """A file, the number of a line in it, and what is wrong there."""

    def __str__(self):
        return "{}:{}: {}".format(*self.args)


class At(NamedTuple):
    """A line of a file."""
    file: str
    line: int
    text: str

    def refuse(self, why):
        raise Refused(self.file, self.line, why)

    def read(self, form):
        """What stands at the form's marks, or None where the line is not of it."""
        found = re.fullmatch("".join(MARKS.get(letter, letter) for letter in form), self.text)
        marks = [letter for letter in form if letter in MARKS]
        return found and [int(each) if mark == "#" else each for mark, each in zip(marks, found.groups())]

    def most(self, limit, number, what):
        if number > limit:
            self.refuse(f"{what} is above {limit}: {number}")


class Log(NamedTuple):
    """A line of the sheet. A refused log has no counts and an answer that is not 0."""
    at: At
    place: int
    answer: int
    counts: tuple
    drifting: tuple


class Sheet(NamedTuple):
    logs: list
    totals: tuple


class Change(NamedTuple):
    number: int
    pairs: tuple
    kind: str
    took: int
    undone: int


class Record(NamedTuple):
    """A record's lines. A refused image has none but its answer, which is not 0."""
    answer: int
    changes: list
    folded: int
    base: tuple
    held: list

    def kept(self):
        return [each for each in self.changes if each.number > self.folded]


def lines_of(file):
    """The lines of a file, each of which has its newline."""
    with open(file, "rb") as opened:
        *texts, rest = opened.read().decode("latin-1").split("\n")
    if rest:
        raise Refused(file, len(texts) + 1, "the file ends within this line")
    return [At(file, line, text) for line, text in enumerate(texts, 1)]


def pairs_of(at, text, least):
    """Pairs path:value, paths rising and below 32, values from the least on."""
    pairs = []
    for each in text.split(",") if text else []:
        found = re.fullmatch(f"{NUMBER}:{NUMBER}", each)
        if not found:
            at.refuse(f"a pair is path:value, not {each!r}")
        path, value = map(int, found.groups())
        at.most(PATHS - 1, path, "a path")
        at.most(GREATEST, value, "a value")
        if pairs and path <= pairs[-1][0]:
            at.refuse(f"paths do not rise: {path} after {pairs[-1][0]}")
        if value < least:
            at.refuse(f"path {path} has the value {value}")
        pairs.append((path, value))
    return tuple(pairs)


def change_pairs(at, text):
    pairs = pairs_of(at, text, 0)
    if not 1 <= len(pairs) <= PAIRS:
        at.refuse(f"a change has 1 to {PAIRS} pairs, not {len(pairs)}")
    return pairs


def flag(at, number, what):
    at.most(1, number, what)
    return number


# ---- the sheet


def log_of(at, place):
    """The log on a line of the sheet, which stands at that place."""
    found = at.read(LOG) or at.read(LOG_REFUSED)
    if not found:
        at.refuse("no line of a log")
    if found[0] != place:
        at.refuse(f"log {found[0]} at place {place}")
    if len(found) == 2:
        if found[1] != (1 if place <= LOGS else 2):
            at.refuse(f"log {place} is not refused with {found[1]}")
        return Log(at, place, found[1], (), ())
    at.most(LOGS, place, "a log's place")
    *counts, mask, drift = found[1:]
    at.most(KEPT, sum(counts), "what is kept")
    at.most(2**PATHS - 1, mask, "the mask")
    drifting = tuple(path for path in range(PATHS) if mask >> path & 1)
    if drift != len(drifting):
        at.refuse(f"drift is {drift}, and the mask has {len(drifting)} ones")
    return Log(at, place, 0, tuple(counts), drifting)


def read_sheet(file):
    lines = lines_of(file)
    if not lines:
        raise Refused(file, 1, "no line of totals")
    logs = [log_of(at, place) for place, at in enumerate(lines[:-1], 1)]
    for log in logs[LOGS + 1 :]:
        log.at.refuse(f"no log is read behind the one at place {LOGS + 1}")
    totals = lines[-1].read(TOTALS)
    if not totals:
        lines[-1].refuse("the last line is not that of the totals")
    for at, name in enumerate(CLASSES):
        summed = sum(log.counts[at] for log in logs if not log.answer)
        if totals[at] != summed:
            lines[-1].refuse(f"{name} is {totals[at]}, and the logs have {summed}")
    return Sheet(logs, tuple(totals))


# ---- a record


def change_of(at, found):
    number, pairs, kind, took, undone = found
    at.most(GREATEST, number, "a number")
    if not 1 <= kind <= len(CLASSES):
        at.refuse(f"a class is 1 to {len(CLASSES)}, not {kind}")
    name = CLASSES[kind - 1]
    change = Change(number, change_pairs(at, pairs), name, flag(at, took, "took"), flag(at, undone, "undone"))
    if took != 1 and name == "taken" or took != 0 and name == "stopped":
        at.refuse(f"took is {took}, and the class is {kind}")
    return change


def changes_of(lines):
    """The changes on these lines, whose numbers follow one another."""
    changes = []
    for at in lines:
        found = at.read(CHANGE)
        if not found:
            at.refuse("no line of a change")
        if changes and found[0] != changes[-1].number + 1:
            at.refuse(f"number {found[0]} behind {changes[-1].number}")
        changes.append(change_of(at, found))
    return changes


def held_of(at, kept):
    found = at.read(HELD)
    if not found:
        at.refuse("the last line is not that of the held changes")
    held = [each.number for each in kept if each.took and not each.undone]
    if found[0] != ",".join(map(str, held)):
        at.refuse(f"held is {found[0]}, and the changes say {','.join(map(str, held))}")
    return held


def hold_base(at, folded, base):
    """Refuses a base that the folded changes do not leave: the values of those taken, the later over the earlier."""
    left = {path: value for change in folded if change.kind == "taken" for path, value in change.pairs}
    if base != tuple(sorted((path, value) for path, value in left.items() if value)):
        at.refuse("the base is not what the folded changes leave")


def read_record(file):
    """A record: of the kept changes, or of the folded ones too, from 1 on, as record-with-archive prints it."""
    lines = lines_of(file)
    if [at.text for at in lines] == ["answer=1"]:
        return Record(1, [], 0, (), [])
    if len(lines) < 2:
        raise Refused(file, len(lines) + 1, "a record ends with a line of what is folded and one of what is held")
    changes, found = changes_of(lines[:-2]), lines[-2].read(FOLDED)
    if not found:
        lines[-2].refuse("the last but one is not the line of what is folded")
    folded, base = found[0], pairs_of(lines[-2], found[1], 1)
    lines[-2].most(GREATEST, folded, "folded")
    if changes and changes[0].number not in (1, folded + 1):
        lines[0].refuse(f"the first number is {changes[0].number}, and {folded} are folded")
    if changes and changes[-1].number < folded:
        lines[-3].refuse(f"the last number is {changes[-1].number}, and {folded} are folded")
    record = Record(0, changes, folded, base, [])
    if record.kept() != changes:
        hold_base(lines[-2], changes[:folded], base)
    lines[-2].most(KEPT, len(record.kept()), "what is kept")
    return record._replace(held=held_of(lines[-1], record.kept()))


def hold_together(log, record, file):
    """Refuses a record that is not of the sheet's log."""
    if log.answer != record.answer:
        log.at.refuse(f"answer={log.answer}, and of {file} it is {record.answer}")
    kinds = [each.kind for each in record.kept()]
    for name, count in zip(CLASSES, log.counts):
        if kinds.count(name) != count:
            log.at.refuse(f"{name} is {count}, and {file} has {kinds.count(name)}")


# ---- an archive


def summed(text, before=0xCBF29CE484222325):
    """FNV-1a of 64 bits, behind bytes of that sum."""
    for byte in text.encode("latin-1"):
        before = (before ^ byte) * 0x100000001B3 & 0xFFFFFFFFFFFFFFFF
    return before


def class_of(c_commit, c_apply, r_commit, r_apply):
    """The first rule that fits."""
    if r_apply in ("Complete", "Canceled"):
        return "undone"
    if r_commit != "None":
        return "undoing"
    if c_apply == "Complete":
        return "taken"
    if c_commit == "Failed":
        return "invalid"
    return "stopped" if c_apply in ("Aborted", "Failed") else "open"


def entry_of(at, found):
    """The change of an archived entry. There, undone is a rollback that is through, here one that the switch took."""
    number, pairs, valid, taken, undone, phase, c_commit, c_apply, _, r_commit, r_apply, _, _, values, _ = found
    if [valid, taken, undone] != [c_commit == "Complete", c_apply == "Complete", r_apply in ("Complete", "Canceled")]:
        at.refuse("valid, taken and undone are not what the statuses say")
    if not (c_commit == "Failed" or c_apply == "Complete" and phase == "Change" or r_apply in DONE):
        at.refuse("the entry is not finished, and no fold drops such a one")
    pairs = change_pairs(at, pairs)
    if not re.fullmatch(",".join([NUMBER] * len(pairs)), values):
        at.refuse(f"r_values has not a number for each of the {len(pairs)} pairs")
    kind = class_of(c_commit, c_apply, r_commit, r_apply)
    return Change(number, pairs, kind, int(c_apply == "Complete"), int(r_apply == "Complete"))


def read_archive(file):
    """The changes in an archive, from 1 on."""
    changes, before = [], summed("")
    for at in lines_of(file):
        found = at.read(ENTRY)
        if not found:
            at.refuse("no line of an archived entry")
        if found[0] != at.line:
            at.refuse(f"entry {found[0]} at place {at.line}")
        entry, _, told = at.text.rpartition(" sum=")
        before = summed(entry, before)
        if told != f"{before:016x}":
            at.refuse(f"the sum is {told}, and that of the bytes before it {before:016x}")
        before = summed(f" sum={told}\n", before)
        changes.append(entry_of(at, found))
    return changes


def change_line(change):
    pairs = ",".join(f"{path}:{value}" for path, value in change.pairs)
    kind = CLASSES.index(change.kind) + 1
    return f"number={change.number} pairs={pairs} class={kind} took={change.took} undone={change.undone}\n"
