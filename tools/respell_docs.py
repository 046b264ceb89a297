#!/usr/bin/env python3
"""Spells the code spans of the pages as the definitions and lemmas that they name are spelled now: run once, after respell.py.

usage: python3 tools/respell_docs.py MAP     MAP is a JSON object, old name to new
"""

import glob
import json
import re
import sys

WORD = r'[^\s(){}.;,@"«»`/:]+'
names = json.load(open(sys.argv[1], encoding="utf-8"))
for path in sorted(glob.glob("*.md") + glob.glob("docs/*.md") + glob.glob("host/*.md") + glob.glob("examples/*.md")):
    if path == "docs/PORT.md":
        continue
    text = open(path, encoding="utf-8").read()
    new = re.sub(r"`[^`\n]+`", lambda m: re.sub(WORD, lambda w: names.get(w[0], w[0]), m[0]), text)
    if new != text:
        open(path, "w", encoding="utf-8").write(new)
        print(path)
