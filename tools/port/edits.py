#!/usr/bin/env python3
"""Brings the must-fail edits to today's spelling: the same lines with the same wrong meaning. Once, behind port.py and respell.py.

usage: python3 tools/port/edits.py LANDED    at the top; LANDED is a checkout of the commit before the port. Prints the edits that it can't bring over.
"""

import glob
import os
import re
import subprocess
import sys

HERE = os.path.dirname(os.path.realpath(__file__))
sys.path.insert(0, HERE)
import respell

# the scripts of the kit stand beside its first page
NOTES = os.path.join(os.path.dirname(subprocess.run(["rt", "doc"], capture_output=True, text=True).stdout.strip()), "port", "notes")
NAME = respell.NAME


def rows(path):
    with open(path, encoding="utf-8") as f:
        for line in f:
            cells = line.rstrip("\n").split("\t")
            if len(cells) >= 2 and not line.startswith("#"):
                yield cells[0], cells[1]


def library():
    found = {}
    for name in ("2026-11-18-names-are-in-snake-case/snake.tsv", "2026-11-16-one-script-upgrades-the-surface/respelled.tsv", "2026-11-18-made-words-have-underscores/made.tsv"):
        for old, new in rows(os.path.join(NOTES, name)):
            found.setdefault(old, new)
    return found


OWN = {old: new for old, (new, _) in respell.table().items()}
LIBRARY = library()


def word(w, text):
    """Today's spelling of a word, one that the text has if there are several."""
    plain = respell.snake(w)
    for candidate in (OWN.get(w), OWN.get(plain), w if re.search(rf"(?<![\w-]){re.escape(w)}(?![\w-])", text) else None, LIBRARY.get(w), plain):
        if candidate and re.search(rf"(?<![\w-]){re.escape(candidate)}(?![\w-])", text):
            return candidate
    return OWN.get(w) or LIBRARY.get(w) or w


def spelled(line, text):
    indent = re.match(r"\s*", line)[0]
    body = line[len(indent) :]
    body = re.sub(r"(?<=[^\s(]) \.(?=\S)", ".", body)
    body = re.sub(r"\)\s+\.(?=[a-z0-9])", ").", body)
    body = re.sub(r"\(((?:[^\s(){},;.]+)(?:\.[^\s(){},;.]+)+)\)", r"\1", body)
    body = re.sub(NAME, lambda m: word(m[0], text), body)
    body = re.sub(r"now \((\w+)\.entry\)", r"\1.now", body)
    return indent + body


def first_line_like(text, line):
    return text.count(line) == 1


def bring(path, landed):
    with open(path, encoding="utf-8") as f:
        lines = f.read().split("\n")
    crate = path.split("/")[1]
    out, file, ok, changed = [], None, True, {}
    for line in lines:
        m = re.match(r"(file|old|new): ?(.*)$", line, re.S)
        if not m:
            out.append(line)
            continue
        kind, rest = m[1], m[2]
        if kind == "file":
            file = rest.strip()
            out.append(line)
            continue
        with open(f"crates/{crate}/{file}", encoding="utf-8") as f:
            text = changed.get(file, f.read())
        if kind == "old":
            old_landed, old_now = rest, rest if first_line_like(text, rest) else spelled(rest, text)
            if not first_line_like(text, old_now):
                ok = False
            out.append(f"old: {old_now}")
        else:
            same = old_now == old_landed
            new_now = rest if same else spelled(rest, text)
            if same and re.search(r"⌜|now \(|\.entry|Rattle·", rest):
                new_now = spelled(rest, text)
            if ok:
                changed[file] = text.replace(old_now, new_now)
            out.append(f"new: {new_now}")
    return ok, "\n".join(out)


def main(argv):
    if len(argv) != 1:
        raise SystemExit(__doc__)
    left = []
    for path in sorted(glob.glob("crates/*/must-fail*/*.edit")):
        ok, text = bring(path, argv[0])
        if ok:
            with open(path, "w", encoding="utf-8") as f:
                f.write(text)
        else:
            left.append(path)
            print("left:", path)
            print(text)
    print(len(left), "left")


if __name__ == "__main__":
    main(sys.argv[1:])
