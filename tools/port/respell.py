#!/usr/bin/env python3
"""Spells the repository's own definitions and lemmas in snake case, by names.tsv beside this file, once, behind port.py: docs/PORT.md.

usage: python3 tools/port/respell.py           at the top of the repository: rewrites crates/*/specs, crates/*/proofs and the clauses of crates/*/src
       python3 tools/port/respell.py --table   writes names.tsv anew from what the crates declare (run once, before the first form)

Functions of src/, exported names, strings, inputs and outputs keep their names, and so do the names that the prover makes. Where a lemma and
a definition would fall together, the lemma gets `_lem`.
"""

import collections
import glob
import os
import re
import sys

HERE = os.path.dirname(os.path.realpath(__file__))
TABLE = os.path.join(HERE, "names.tsv")
NAME = r'[^\s(){}.;,@"«»]+'
WORD = re.compile(NAME)
DECLARED = re.compile(
    r"\s*(?:(?:abbrev|pub|unfoldable|private|rec|data|record|where|let)\s+)*(" + NAME + r")(?:\s+\([^()]*\)|\s+\{[^{}]*\})*\s:(?:\s|$)"
)
# Heads behind which the prover's own names stand, in the form in which port.py leaves a proof of a function.
MADE = ("tie", "goal")


def snake(name):
    name = re.sub(r"(?<=[a-z0-9])[A-Z]", lambda m: "_" + m[0].lower(), name)
    return name.replace("-", "_")


def is_plain(name):
    return name[0].islower()


def of_functions(path):
    return os.path.basename(path) == "Proof.antt"


def files(*endings):
    for ending in endings:
        yield from sorted(p for p in glob.glob("crates/**/*" + ending, recursive=True) if "/out/" not in p)


def declared():
    """The names that specs/ and the lemma files declare, and which of them are fields."""
    names, fields = collections.defaultdict(set), set()
    for path in files(".antt"):
        if of_functions(path):
            continue
        record = None
        with open(path, encoding="utf-8") as f:
            for line in f:
                depth = len(line) - len(line.lstrip())
                if re.match(r"\s*(pub )?record ", line):
                    record = depth
                elif record is not None and line.strip() and depth <= record:
                    record = None
                m = re.match(r"\s+((?:" + NAME + r"\s+)+):\s", line)
                for name in (m[1].split() if m else []):
                    if is_plain(name) and "(" not in name and name not in ("abbrev", "pub", "unfoldable", "private"):
                        names[name].add(path)
                m = DECLARED.match(line)
                if m:
                    names[m[1]].add(path)
                    if record is not None and depth > record:
                        fields.add(m[1])
    return names, fields


def write_table():
    names, fields = declared()
    rows = {}
    for name in names:
        if is_plain(name) and snake(name) != name:
            rows[name] = snake(name)
    taken = collections.defaultdict(set)
    for name in names:
        taken[rows.get(name, name)].add(name)
    for new, olds in taken.items():
        if len(olds) < 2:
            continue
        # the lemma is the one with a dash, or the one that port.py spelled anew
        lemmas = [old for old in olds if "-" in old] or [old for old in olds if old == new]
        for old in lemmas:
            rows[old] = new + "_lem"
    # no file has both of these
    del rows["is_true"]
    with open(TABLE, "w", encoding="utf-8") as f:
        for old in sorted(rows):
            f.write(f"{old}\t{rows[old]}\t{'field' if old in fields else 'name'}\n")


def table():
    rows = {}
    with open(TABLE, encoding="utf-8") as f:
        for line in f:
            old, new, kind = line.rstrip("\n").split("\t")
            rows[old] = (new, kind)
    return rows


def turn_code(text, rows, aliases, rust=False):
    """The text with each name of the table turned that is not one of the prover's own."""
    out, at = [], 0
    for m in WORD.finditer(text):
        word = m[0]
        bare = word.strip("`'⟨⟩") if word not in rows else word
        if bare not in rows:
            continue
        new, kind = rows[bare]
        start = m.start() + word.index(bare)
        before = text[:start]
        if bare == snake(bare) and (rust or before.endswith(".")):
            continue
        if before.endswith("."):
            head = re.search(r"([^\s(){};,@\"«»]+)\.$", before)
            first = head[1].split(".")[0] if head else ""
            module = first == "Rattle" or first in aliases or first[:1].isupper()
            if not module and "-" in bare and kind != "field":
                continue
            if first in MADE:
                continue
        out.append(text[at:start])
        out.append(new)
        at = start + len(bare)
    out.append(text[at:])
    return "".join(out)


def turn_comment(text, rows):
    """A comment: names with a capital inside anywhere, names with a dash between backquotes."""
    text = re.sub(r"\b[a-z][a-z0-9]*(?:[A-Z][a-z0-9]*)+\b", lambda m: rows[m[0]][0] if m[0] in rows else m[0], text)
    return re.sub(r"`[^`\n]*`", lambda m: turn_code(m[0], rows, ()), text)


def turn_antt(text, rows):
    aliases = set(re.findall(r"(?m)^\s*use (Rattle\.\S+?)(?: as (\S+))", text))
    aliases = {alias for path, alias in aliases if ".proofs." not in path or not re.search(r"\.(Tie|Reads|Kinds|Lts\S*|Statement)$", path)}
    lines = []
    for line in text.split("\n"):
        m = re.search(r"(?:^|\s)--(?: |$|-)", line)
        code, comment = (line[: m.start()], line[m.start() :]) if m else (line, "")
        # «name» stands for a name that is also a word of the language
        lines.append(turn_code(code, rows, aliases) + turn_comment(comment, rows))
    return "\n".join(lines)


def turn_rt(text, rows):
    """A ghost item or a clause: every name. Elsewhere only comments change, since no Rust name is spelled so."""
    lines = []
    for line in text.split("\n"):
        stripped = line.lstrip()
        if stripped.startswith("//"):
            lines.append(turn_comment(line, rows))
            continue
        parts = re.split(r'("(?:[^"\\]|\\.)*")', line)
        for k in range(0, len(parts), 2):
            parts[k] = turn_code(parts[k], rows, (), rust=True)
        lines.append("".join(parts))
    return "\n".join(lines)


def respell():
    rows = table()
    changed = 0
    for path in files(".antt", ".rt"):
        with open(path, encoding="utf-8") as f:
            text = f.read()
        new = turn_antt(text, rows) if path.endswith(".antt") else turn_rt(text, rows)
        # what port.py leaves by hand
        new = new.replace("Rattle.std.proofs.Math.Logic.{Iff·trans}", "Rattle.std.proofs.Math.Logic.Iff").replace("Iff·trans", "Iff.trans")
        if new != text:
            changed += 1
            with open(path, "w", encoding="utf-8") as f:
                f.write(new)
    print(f"respell: {changed} files")


def main(argv):
    if not os.path.isdir("crates"):
        raise SystemExit("respell: run it at the top of the repository")
    if argv == ["--table"]:
        write_table()
    elif not argv:
        respell()
    else:
        raise SystemExit(__doc__)


if __name__ == "__main__":
    main(sys.argv[1:])
