#!/usr/bin/env python3
"""Respells this repository's own definitions and lemmas in snake case, as port.py left them for a second step.

usage: python3 tools/respell.py [FOLDER]     once, at the top (or in FOLDER), right after port.py

A name that a file of specs/ or a lemma file of proofs/ declares, and that begins in lower case, gets underscores for
its dashes and its humps: 'one-row' and 'planOf' become 'one_row' and 'plan_of'. What Rattle makes (the labels of a
function's goals, behind a dot in a function's own folder) stays, and so does what begins in upper case: types, modules.
A dashed lemma whose plain spelling is a definition's ends in _holds: 'well-formed', of wellFormed, is well_formed_holds;
so do, in the files of MET, lemmas that port.py spelled already as a definition is spelled now.
It turns .antt and .rt below crates/, and code spans in *.md; must-fail edits and .ci/ are another script's.
"""

import collections
import os
import re
import sys

WORD = r'[^\s(){}.;,@"«»]+'
TOKEN = re.compile(WORD)
COMMENT = {".antt": re.compile(r"(?m)(?<![^\s(){}.;,@\"«»])--(?=\s|-).*$"), ".rt": re.compile(r"(?m)(?<!:)//.*$")}
DECLARES = re.compile(r"(?m)^ *(?:(?:pub|abbrev|unfoldable|record|data|ruleset) +)*((?:" + WORD + r" +)*?" + WORD + r")(?: +(?:\{[^{}\n]*\}|\([^()\n]*\)))* :(?=\s)")
RULESET = re.compile(r"(?m)^ *(?:pub +)?ruleset +(?:pub +)?(" + WORD + r")")
# Names of the kit's libraries too, which some files import: these stay.
STAYS = {"zero-add", "or-true", "not-true", "not-false"}
# Types whose names had a dash, and a lemma that meets a table of sessions in no file.
TYPES = {"first-only": "first_only", "Row-at": "RowAt", "Row-there": "RowThere", "None-kept": "NoneKept", "Some-pairs": "SomePairs"}
MET = {
    "promise/proofs/Retried.antt": "all_plain",
    "machine/proofs/Reconnected.antt": "comes_back",
    "lines/proofs/Entering.antt": "entries_from",
    "controller/proofs/Imported.antt": "entry_in",
    "lines/proofs/Edges.antt": "is_digit",
    "history/proofs/Guaranteed.antt": "in_order",
}


def snake(name):
    words = re.sub(r"(?<=[a-z0-9'])[A-Z]", lambda m: "_" + m[0].lower(), name)
    words = re.sub(r"(?<=_[a-z])[A-Z](?![A-Z])", lambda m: "_" + m[0].lower(), words)
    return words.replace("-", "_")


def is_functions(path):
    """Whether path lies in the folder of a function's proof."""
    return "/proofs/" in path and os.path.basename(path) in ("Proof.antt", "Answers.antt", "Invariants.antt")


def files(root):
    for folder, dirs, names in os.walk(os.path.join(root, "crates")):
        dirs[:] = sorted(d for d in dirs if d not in ("out", "must-fail"))
        for name in sorted(names):
            if name.endswith((".rt", ".antt")):
                yield os.path.join(folder, name)


def read(path):
    with open(path, encoding="utf-8") as f:
        return f.read()


def declared(root):
    """The names to respell, and those among them that are fields."""
    found = set()
    for path in files(root):
        if path.endswith(".antt") and not is_functions(path):
            text = read(path)
            found |= {name for m in DECLARES.finditer(text) for name in m[1].split()} | {m[1] for m in RULESET.finditer(text)}
    old = {n for n in found if n[:1].islower() and snake(n) != n and n not in STAYS}
    defined = {snake(n) for n in found if "-" not in n}
    names = {n: snake(n) + ("_holds" if "-" in n and snake(n) in defined else "") for n in old}
    return names | {n: TYPES[n] for n in found if n in TYPES}


def respelled(text, names, path=""):
    keep_after_dot = is_functions(path)

    def turn_at(m, offset):
        word = m[0]
        if word not in names:
            return word
        start = m.start() + offset
        if text[max(0, start - 1) : start] == "." and keep_after_dot:
            head = re.search(r"[\w·.'-]*$", text[: start - 1])[0].split(".")[0]
            if head in ("c", "l", "g", "goal", "tie", "given"):
                return word
        return names[word]

    comment = COMMENT[os.path.splitext(path)[1] or ".antt"]
    out, at = [], 0
    for m in comment.finditer(text):
        out.append(TOKEN.sub(lambda w: turn_at(w, at), text[at : m.start()]))
        out.append(prose(m[0], names))
        at = m.end()
    out.append(TOKEN.sub(lambda w: turn_at(w, at), text[at:]))
    return "".join(out)


def prose(text, names):
    """A comment: code spans turn, and of the bare words those with a hump, which no English word has."""
    return TOKEN.sub(lambda w: names.get(w[0], w[0]) if re.search("[a-z][A-Z]", w[0]) else w[0], spans(text, names))


def spans(text, names):
    return re.sub(r"`[^`\n]+`", lambda m: TOKEN.sub(lambda w: names.get(w[0], w[0]), m[0]), text)


def main():
    root = sys.argv[1] if len(sys.argv) > 1 else "."
    names = declared(root)
    met = collections.defaultdict(set)
    for path in files(root):
        text = read(path)
        words = set(TOKEN.findall(text))
        for w in words & set(names):
            if names[w] in words:
                met[w, names[w]].add(path)
        by_new = collections.defaultdict(set)
        for w in words & set(names):
            by_new[names[w]].add(w)
        for new, olds in by_new.items():
            if len(olds) > 1:
                met[" ".join(sorted(olds)), new].add(path)
    for (old, new), where in sorted(met.items()):
        print(f"meets: {old} -> {new}: {len(where)} files, as {sorted(where)[0]}")
    if "--check" in sys.argv:
        return
    turned = 0
    for path in files(root):
        text = read(path)
        here = os.path.relpath(path, os.path.join(root, "crates"))
        there = {MET[here]: MET[here] + "_holds"} if here in MET else {}
        new = respelled(respelled(text, there, path), names, path)
        if new != text:
            turned += 1
            with open(path, "w", encoding="utf-8") as f:
                f.write(new)
    for folder in (".", "docs", "host", "examples"):
        for name in sorted(os.listdir(os.path.join(root, folder))):
            path = os.path.join(root, folder, name)
            if name.endswith(".md"):
                text = read(path)
                new = spans(text, names)
                if new != text:
                    with open(path, "w", encoding="utf-8") as f:
                        f.write(new)
    print(f"{len(names)} names, {turned} files")


if __name__ == "__main__":
    main()
