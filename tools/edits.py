#!/usr/bin/env python3
"""Brings the edits over that port.py leaves: must-fail edits, and those below .ci/, as they stood at the commit OLD.

usage: python3 tools/edits.py TIGHT [--write] [FILE...]     at the top; TIGHT is the kit's script that writes projections tight

An edit is a text and what takes its place. Both are spelled anew in their file: the file as it stood at OLD, without the edit
and with it, goes through TIGHT and a table of tokens, and what differs between the two is the edit as it is spelled now. The
table is learned: each token of a file of specs/ or proofs/ at OLD beside the token that stands for it at PORTED. The new
'old:' has to stand once in today's file, and takes words of its line in until it does; where it does not stand there, or a
line now ends within it, the place is told, and is for a hand. An edit of a .rt file keeps its text where that stands once.
"""

import collections
import difflib
import os
import re
import subprocess
import sys
import tempfile

from respell import snake

OLD, PORTED = "878ee41", "3bc4aba"
TOKEN = re.compile(r'«[^»\n]*»|[^\s(){}.;,@"«»]+|[(){}.;,@"]')
LIBRARY = re.compile(r"use (?:Prim|mathlib|lib)\.")
PRELUDE = "use Rattle.std.specs.Prelude.{"
OPERATORS = "use Operators.{_+_, _-_, _*_, _∷_, _++_, _&&_, _||_, _≤_, _<_, _≡_, _×_}\n"
WORDS = {"the-variants": "TheVariants", "getD": "get_or"}


def git(*words):
    r = subprocess.run(["git", *words], capture_output=True, text=True)
    return r.stdout if r.returncode == 0 else None


SHOWN = {}


def show(commit, path):
    if (commit, path) not in SHOWN:
        SHOWN[commit, path] = git("show", f"{commit}:{path}")
    return SHOWN[commit, path]


def listed(commit):
    return git("ls-tree", "-r", "--name-only", commit).splitlines()


def tight(script, texts):
    """The texts, their projections written tight."""
    with tempfile.TemporaryDirectory() as folder:
        for k, t in enumerate(texts):
            with open(f"{folder}/t{k}.antt", "w", encoding="utf-8") as f:
                f.write(OPERATORS + t)
        r = subprocess.run([sys.executable, script, folder], capture_output=True, text=True)
        if r.returncode not in (0, 1):
            sys.exit("edits: " + r.stdout + r.stderr)
        return [open(f"{folder}/t{k}.antt", encoding="utf-8").read()[len(OPERATORS) :] for k in range(len(texts))]


def body(text):
    return "\n".join(l for l in text.split("\n") if not re.match(r"use | *--", l))


def learned(paths, turned):
    """For each file and for all: what stands for a token."""
    own, every = {}, collections.defaultdict(collections.Counter)
    for path, text in zip(paths, turned):
        after = show(PORTED, path)
        if after is None:
            continue
        a, b = TOKEN.findall(body(text)), TOKEN.findall(body(after))
        found = collections.defaultdict(collections.Counter)
        for tag, i1, i2, j1, j2 in difflib.SequenceMatcher(None, a, b, autojunk=False).get_opcodes():
            if tag == "equal" or tag == "replace" and i2 - i1 == j2 - j1:
                for x, y in zip(a[i1:i2], b[j1:j2]):
                    found[x][y] += 1
                    every[x][y] += 1
        own[path] = {x: c.most_common(1)[0][0] for x, c in found.items()}
    return own, {x: c.most_common(1)[0][0] for x, c in every.items()}


def spelled(text, own, every):
    """The text by the table; and the paths that a use line has."""
    text = re.sub(r"Rattle·(\w+)·(specs|proofs)\.\2\.", r"Rattle.\1.\2.", text)
    text = re.sub(r"Rattle·(\w+)\.", r"Rattle.\1.", text)
    return TOKEN.sub(lambda m: word(m[0], own, every), text)


def word(w, own, every):
    if re.match(r"_[^\w_]+_$", w):
        return "◌" + w[1:-1] + "◌"
    return WORDS.get(w) or own.get(w) or every.get(w) or w.replace("′", "'")


def named(text):
    """The names that a use line or a piece of it has in its braces."""
    return [n.strip() for at in re.findall(r"\{([^{}]*)\}?", text) for n in at.split(",") if n.strip()]


def imported(pair, before, today, own, every):
    """The pair of today's Prelude line for a pair that edits a use line of a library; None where it is none, () where today's
    file has the names."""
    start = before.index(pair.old)
    la, _ = lines_round(before, start, start)
    if not LIBRARY.match(before[la:]) or not all(LIBRARY.match(l) or k == 0 for k, l in enumerate(pair.new.split("\n"))):
        return None
    line = next((l for l in today.split("\n") if l.startswith(PRELUDE)), None)
    if line is None:
        return None
    more = [word(n, own, every) for n in named(pair.new) if n not in named(pair.old)]
    less = [word(n, own, every) for n in named(pair.old) if n not in named(pair.new)]
    more = [n for n in more if n not in named(line)]
    if not more:
        return ()
    if len(more) == len(less) == 1 and not re.search(r"(?<![^\s()])" + re.escape(less[0]) + r"(?![^\s()])", today.replace(line, "")):
        return line, line.replace(less[0], more[0], 1)
    return PRELUDE, PRELUDE + "".join(n + ", " for n in more)


class Pair:
    def __init__(self, where, line, unit, path, old, new):
        self.where, self.line, self.unit, self.path, self.old, self.new = where, line, unit, path, old, new
        self.fault = None


def pairs_of(where, text, fixed=None):
    """The pairs of a file of edits: .edit, mutations.d or wrong-programs.d."""
    found, path, old, unit, at = [], fixed, None, 0, 0
    crate = where.split("/")[-3] if "/must-fail/" in where else where.split("/")[-2] if "/edits.d/" in where else None
    escaped = "/mutations.d/" in where
    for at, line in enumerate(text.splitlines()):
        key, _, rest = line.partition(" ")
        rest = rest.replace("\\n", "\n") if escaped else rest
        if key == "file:":
            path = f"crates/{crate}/{rest}" if crate else rest
        elif key == "#" and escaped:
            unit += 1
        elif key == "old:":
            old, oldline = rest, at
        elif key == "new:":
            found.append(Pair(where, (oldline, at), unit, path, old, rest))
    return found


def boundary(text, at, step):
    """The next place from `at` on, in direction step, that is between tokens."""
    edges = {m.start() for m in TOKEN.finditer(text)} | {m.end() for m in TOKEN.finditer(text)} | {0, len(text)}
    return min(e for e in edges if e >= at) if step > 0 else max(e for e in edges if e <= at)


def carried(before, after, at, step):
    """Where a place of the text before (between tokens) is in the text after."""
    a = [(m.start(), m.end(), m[0]) for m in TOKEN.finditer(before)]
    b = [(m.start(), m.end(), m[0]) for m in TOKEN.finditer(after)]
    for tag, i1, i2, j1, j2 in difflib.SequenceMatcher(None, [x[2] for x in a], [x[2] for x in b], autojunk=False).get_opcodes():
        if step < 0:  # the start: that of the first token from `at` on
            for k in range(i1, i2):
                if a[k][0] >= at:
                    return b[min(j1 + (k - i1 if tag == "equal" or i2 - i1 == j2 - j1 else 0), len(b) - 1)][0]
        else:
            for k in range(i1, i2):
                if a[k][1] >= at:
                    if tag == "equal" or i2 - i1 == j2 - j1:
                        return b[j1 + k - i1][1]
                    return b[max(j2 - 1, 0)][1]
    return len(after) if step > 0 else 0


def common(a, b):
    n = 0
    while n < min(len(a), len(b)) and a[n] == b[n]:
        n += 1
    return n


def lines_round(text, a, b):
    return text.rfind("\n", 0, a) + 1, (text + "\n").find("\n", b)


def respelled(pair, before, after, was, is_):
    """The pair as it is spelled now: before and after are the file at OLD without the edit and with it; was and is_ the same
    in today's spelling."""
    start, end = before.index(pair.old), before.index(pair.old) + len(pair.old)
    la, lb = lines_round(before, start, end)
    n = before.count("\n", 0, la)
    k = before.count("\n", la, lb) + 1
    lines = was.split("\n")
    wa = sum(len(l) + 1 for l in lines[:n])
    wb = wa + len("\n".join(lines[n : n + k]))
    line = was[wa:wb]
    old_line = before[la:lb]
    s = wa + carried(old_line, line, start - la + len(pair.old) - len(pair.old.lstrip()), -1)
    e = wa + carried(old_line, line, end - la - len(pair.old) + len(pair.old.rstrip()), 1)
    left = min(s, boundary(was, common(was, is_), -1))
    tail = common(was[left:][::-1], is_[left:][::-1])
    right = max(e, boundary(was, len(was) - tail, 1), left)
    # brackets that the edit has or has not round it: the whole line's words between the two
    if pair.old != pair.old.lstrip() and not was[wa:left].strip():
        left = max(wa, left - (len(pair.old) - len(pair.old.lstrip(" "))))
    if pair.old.endswith("\n") and pair.new.endswith("\n") and was[right : right + 1] == "\n":
        right += 1
    cut = len(was) - right
    return left, right, was[left:right], is_[left : len(is_) - cut]


def located(today, was, left, right, old, new):
    """(old, new) with old standing once in today's file, or None."""
    la, lb = lines_round(was, left, right)
    for _ in range(200):
        if today.count(old) == 1:
            return old, new
        if today.count(old) == 0:
            return None
        before, after = was[la:left], was[right:lb]
        words = list(re.finditer(r"\S+\s*$", before))
        if words:
            add = words[0][0]
            old, new, left = add + old, add + new, left - len(add)
        elif after:
            add = re.match(r"\s*\S+|\s+$", after)[0]
            old, new, right = old + add, new + add, right + len(add)
        elif was[:la].strip():
            return None
        else:
            return None
    return None


def turned(script, files, write):
    pairs, texts = [], {}
    for where in files:
        texts[where] = show(OLD, where)
        fixed = None
        if "/wrong-programs.d/" in where:
            continue
        pairs += pairs_of(where, texts[where])
    # the files as they stood, without and with each edit
    chains, variants = collections.defaultdict(dict), []
    for p in pairs:
        if not p.path.endswith(".antt"):
            continue
        now = chains[p.where, p.unit].get(p.path, show(OLD, p.path))
        if now.count(p.old) != 1:
            p.fault = f"stood {now.count(p.old)} times"
            continue
        p.before, p.after = now, now.replace(p.old, p.new)
        chains[p.where, p.unit][p.path] = p.after
        p.at = len(variants)
        variants += [p.before, p.after]
    edited = {p.path for p in pairs}
    paths = [n for n in listed(OLD) if re.match(r"crates/\w+/specs/\w+\.antt$", n) or n.endswith(".antt") and n in edited]
    done = tight(script, [show(OLD, n) for n in paths] + variants)
    own, every = learned(paths, done[: len(paths)])
    done = done[len(paths) :]
    todays = collections.defaultdict(dict)
    result = {}
    for p in pairs:
        if not p.path.endswith(".antt"):
            today = todays[p.where, p.unit].get(p.path)
            if today is None:
                today = open(p.path, encoding="utf-8").read()
            if today.count(p.old) == 1:
                p.now = (p.old, p.new)
                todays[p.where, p.unit][p.path] = today.replace(p.old, p.new)
            else:
                p.fault = f"stands {today.count(p.old)} times"
            continue
        if p.fault:
            continue
        was, is_ = (spelled(done[p.at + k], own.get(p.path, {}), every) for k in (0, 1))
        today = todays[p.where, p.unit].get(p.path)
        if today is None:
            today = open(p.path, encoding="utf-8").read() if os.path.exists(p.path) else ""
        library = imported(p, p.before, today, own.get(p.path, {}), every)
        if library is not None:
            p.now = library
            todays[p.where, p.unit][p.path] = today.replace(*library, 1) if library else today
            if library and today.count(library[0]) != 1:
                p.fault = "the use line"
            continue
        left, right, old, new = respelled(p, p.before, p.after, was, is_)
        p.guess = (old, new)
        got = located(today, was, left, right, old, new)
        if got is None:
            p.fault = f"stands {today.count(old)} times"
            continue
        p.now = got
        todays[p.where, p.unit][p.path] = today.replace(*got)
    faults = 0
    for where in files:
        lines = texts[where].splitlines()
        mine = [p for p in pairs if p.where == where]
        escape = (lambda t: t.replace("\n", "\\n")) if "/mutations.d/" in where else (lambda t: t)
        for p in mine:
            if p.fault:
                faults += 1
                print(f"left: {p.where}:{p.line[0] + 1}: {p.path}: {p.fault}\n    old: {p.old}\n    new: {p.new}")
                if hasattr(p, "guess"):
                    print(f"    now: {p.guess[0]}\n    and: {p.guess[1]}")
            if getattr(p, "now", None) == ():
                lines[p.line[0]] = lines[p.line[1]] = None
                continue
            old, new = p.now if hasattr(p, "now") else getattr(p, "guess", (p.old, p.new))
            if "\n" in escape(old) + escape(new):
                print(f"lines: {p.where}")
            lines[p.line[0]], lines[p.line[1]] = "old: " + escape(old), "new: " + escape(new)
        lines = [l for l in lines if l is not None]
        for k, l in enumerate(lines):
            if l.startswith("by: "):
                lines[k] = re.sub(r"\S+$", lambda m: snake(m[0]), l)
            elif l.startswith(("#", "same:")):
                lines[k] = re.sub(r"\S+", lambda m: every.get(m[0], m[0]) if re.search("[a-z][A-Z]", m[0]) else m[0], l)
        if write:
            with open(where, "w", encoding="utf-8") as f:
                f.write("\n".join(lines) + "\n")
    words = {w for n in git("ls-files", "crates").splitlines() if n.endswith(("antt", ".rt")) for w in TOKEN.findall(open(n).read())}
    for p in pairs:
        for w in sorted(set(TOKEN.findall(p.now[1] if getattr(p, "now", None) else "")) - words):
            if re.search(r"[A-Z′_-]", w) and p.path.endswith("antt"):
                print(f"look: {p.where}:{p.line[1] + 1}: {w} stands nowhere in the crates")
    print(f"edits: {len(pairs)} pairs in {len(files)} files, {faults} for a hand")


def main():
    script, words = sys.argv[1], sys.argv[2:]
    write = "--write" in words
    files = [w for w in words if w != "--write"]
    if not files:
        files = [n for n in listed(OLD) if n.endswith(".edit") or n.startswith(".ci/mutations.d/")]
    turned(script, files, write)


if __name__ == "__main__":
    main()
