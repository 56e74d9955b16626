#!/usr/bin/env python3
"""Turns the proofs of a crate's functions from one Proof.antt each, as port.py leaves them, to Invariants.antt and Answers.antt.

usage: python3 tools/port/answers.py CRATE..    at the top of the repository, with what CRATE stands on proved

It asks the prover for the old and the new name of each goal and place, writes the paths to facts anew (`c.before.before.if1.true` becomes
`c.if-n-m.true`), and leaves out what the prover finds alone. A line that begins 'left:' says what is to be done by hand. The old files go.
"""

import json
import os
import re
import subprocess
import sys
import tempfile

NAME = r'[^\s(){}.;,@"«»]+'
PATH = re.compile(r"(?<![^\s(){};,@⟨⟩])(" + NAME + r")((?:\.(?:" + NAME + r"|«" + NAME + r"»))*)")


def norm(name):
    # port.py took some steps of the prover for names of a library
    return re.sub(r"-lem(?=\d*$)", "", name.strip("«»").replace("_", "-").replace("All-there", "all-there"))


def bare_goal(name):
    return re.sub(r"^(overflow|nonzero|slice-bounds|part|bounds|index)-", "", norm(name))


def requires_names(crate, path, kind="requires"):
    """The names of a function's requires clauses, or its ensures, where it has several."""
    parts = path.split(".")
    for root in ("lib.rt", "main.rt", parts[0] + ".rt"):
        file = f"crates/{crate}/src/{root}"
        if not os.path.exists(file) or (root == parts[0] + ".rt") != (len(parts) > 1):
            continue
        with open(file, encoding="utf-8") as f:
            text = f.read()
        m = re.search(r"\bfn " + parts[-1] + r"\b(?:(?!\n\{).)*", text, re.S)
        names = re.findall(r"\b" + kind + r" (\w+) \{", m[0]) if m else []
        if len(names) > 1:
            return names
    return []


def named(text, names):
    """Paths into the pair of requires clauses, by the clauses' names."""
    heads = ["c.requires"] + [m for m in re.findall(r"let (" + NAME + r") = c\.requires in", text)]
    for head in heads:
        for k, name in enumerate(names):
            last = k == len(names) - 1
            old = ".1" * k + ("" if last else ".0")
            text = re.sub(r"(?<![^\s(){};,])" + re.escape(head + old) + r"(?![\w])", f"{head}.{name}", text)
    return text


def parts_of(tuple_):
    """The parts of a tuple's text, or None."""
    tuple_ = tuple_.strip()
    if not (tuple_.startswith("(") and tuple_.endswith(")")):
        return None
    parts, depth, now = [], 0, ""
    for ch in tuple_[1:-1]:
        depth += ch in "([{"
        depth -= ch in ")]}"
        if depth < 0:
            return None
        if ch == "," and depth == 0:
            parts.append(now.strip())
            now = ""
        else:
            now += ch
    if now.strip():
        parts.append(now.strip())
    return parts if len(parts) > 1 else None


def as_record(text, names, measured):
    """What a call of a function with several requires clauses is given: a record, and no tuple."""
    at = 0
    for m in re.finditer(r"\bin\s+(?=\()", text):
        if parts_of(text[m.end() :]):
            at = m.end()
            break
    tail = text[at:]
    parts = parts_of(tail)
    if not parts:
        return None
    lead = tail[: len(tail) - len(tail.lstrip())]
    if measured:
        rest = parts[1] if len(parts) == 2 else "(" + ", ".join(parts[1:]) + ")"
        made = as_record(rest, names, False)
        return made and text[:at] + lead + f"({parts[0]}, {made.strip()})"
    fields = []
    for k in range(len(names) - 1):
        fields.append(parts[0])
        if len(parts) == 2:
            parts = parts_of(parts[1]) or [parts[1]] if k < len(names) - 2 else [parts[1]]
        else:
            parts = parts[1:]
    fields.append(parts[0] if len(parts) == 1 else "(" + ", ".join(parts) + ")")
    return text[:at] + lead + "record { " + "; ".join(f"{n} = {v}" for n, v in zip(names, fields)) + " }"


class Function:
    def __init__(self, crate, path, told):
        self.crate, self.path, self.told = crate, path, told
        self.requires = requires_names(crate, path)
        self.left, self.negated, self.in_cycle, self.cycle = [], False, False, set()
        self.places = told["places"]
        self.by_old = {norm(p[0]): k for k, p in enumerate(self.places)}
        self.names = told["places_by_name"]
        self.goals = {}
        for k, (old, new) in enumerate(told["needs"]):
            place = self.by_old[norm(told["asked_at"][k][0])]
            self.goals[bare_goal(old)] = (new, place)
        self.loops = {norm(pair[0]): (pair[1], vars_, told["changed"][k]) for k, (pair, vars_) in enumerate(told["loops"])}

    def parent(self, k):
        old = self.places[k][1]
        return None if old is None else self.by_old[norm(old)]

    def grown(self, k):
        """The last place of an arm, where all its names are known."""
        arms = self.told["arms"]
        while arms[k]:
            more = [j for j in range(len(self.places)) if self.parent(j) == k and arms[j] and arms[j][0] == arms[k][0]]
            if not more:
                break
            k = more[0]
        return k

    def line(self, k):
        """The place and those before it."""
        while k is not None:
            yield k
            k = self.parent(k)

    def step(self, goal_place, at, fields):
        """The new path to a fact at a place, seen from the goal's place."""
        label, rest = norm(fields[0]), fields[1:]
        for typed in self.told["typed"][at]:
            if norm(typed[1]) == label and rest[:1] == ["given"]:
                return ["type_inv", typed[0]] + rest[1:]
        for k in self.line(goal_place):
            arm = self.told["arms"][k]
            if arm:
                for new, old, old_fields in arm[2]:
                    if norm(old) == label and [norm(f) for f in rest[: len(old_fields)]] == [norm(f) for f in old_fields]:
                        if old_fields or k == at:
                            return [arm[0], new] + rest[len(old_fields) :]
        if norm(self.places[at][2][0]) == label:
            return [self.places[at][2][1]] + self.inside(at, rest)
        if self.parent(at) is None and label in ("args", "requires", "ranges", "well-formed"):
            return [label.replace("-", "_")] + [it.replace("-", "_") if label == "args" and k == 0 else it for k, it in enumerate(rest)]
        # the prover has fewer places than it had: a step's label tells it, wherever it is on the way
        found = [k for k in self.line(goal_place) if norm(self.places[k][2][0]) == label or any(norm(v[1]) == label for v in self.told["typed"][k])]
        found += [k for k in self.line(goal_place) if self.parent(k) is None and label in ("args", "requires", "ranges", "well-formed")]
        if found and found[0] != at:
            return self.step(goal_place, found[0], fields)
        bare = re.sub(r"\d+$", "", label)
        found = [k for k in self.line(goal_place) if re.sub(r"\d+$", "", norm(self.places[k][2][0])) == bare]
        if bare != label and len(found) == 1:
            return [self.places[found[0]][2][1]] + self.inside(found[0], rest)
        self.left.append(f"no step {fields[0]} at {self.names[at]} ({'.'.join(fields)})")
        return fields

    def inside(self, at, rest):
        called = self.places[at][3]
        if rest[:1] == ["type-inv"]:
            rest = ["type_inv"] + rest[1:]
        if called and rest[:1] == ["ensures"]:
            crate, _, path = called.partition("::")
            names = requires_names(crate, path.replace("::", "."), "ensures")
            for k, name in enumerate(names):
                old = ["1"] * k + ([] if k == len(names) - 1 else ["0"])
                if rest[1 : 1 + len(old)] == old:
                    rest = ["ensures", name] + rest[1 + len(old) :]
                    break
        return [r.strip("«»") if r not in ("«of»", "«as»", "«in»") else r for r in rest]

    def callee(self, goal):
        """The names of the requires clauses of the function that a goal's call calls, and whether it is of the same cycle."""
        m = re.fullmatch(r"(?:" + re.escape(self.path) + r"-)?(.*?)-requires(-.*)?", goal or "")
        if not m:
            return None
        label = m[1] + (m[2] or "")
        for place in self.places:
            if place[3] and place[2][1] in (label, m[1]):
                crate, _, path = place[3].partition("::")
                return requires_names(crate, path.replace("::", ".")), self.in_cycle and path in self.cycle
        return None

    def turn(self, text, place, goal, var="c"):
        """A proof's text at a place, with its paths anew. goal is None in a lemma over a place."""
        aliases = {var: place}
        call = self.callee(goal)

        def walk(head, fields):
            at = aliases[head]
            while fields and fields[0] == "before":
                at = self.parent(at)
                fields = fields[1:]
                if at is None:
                    at = self.by_old["Start"]
                    while fields and fields[0] == "before":
                        fields = fields[1:]
            return at, fields

        def whole(at):
            at = self.grown(at)
            if goal is None:
                return var if at == place else f"(goal.at.{self.names[place]} {var}).{self.names[at]}"
            return f"(goal.at.{goal} {var}).{self.names[at]}"

        # what an arm gives is known by its parts' names
        for m in list(re.finditer(r"let (" + NAME + r") = (" + NAME + r"(?:\.before)*\.[\w-]+\.given) in\s+", text)):
            text = substitute(text.replace(m[0], ""), {m[1]: m[2]})
        let = re.compile(r"let (" + NAME + r") = (" + NAME + r"(?:\.before)*) in\s+")
        # place aliases, in order
        while True:
            found = None
            for m in let.finditer(text):
                head = m[2].split(".")[0]
                if head in aliases:
                    found = m
                    break
            if not found:
                break
            at, fields = walk(found[2].split(".")[0], found[2].split(".")[1:])
            if found[1] in aliases and found[1] != var:
                self.left.append(f"two places are called {found[1]}")
            aliases[found[1]] = at
            text = text[: found.start()] + text[found.end() :]

        def one(m):
            head = m[1]
            # `{f = ..}` names an implicit argument
            if head not in aliases or (m.string[m.start() - 1 : m.start()] == "{" and m.string[m.end() :].startswith(" =")):
                return m[0]
            fields = re.findall(r"\.(«" + NAME + r"»|" + NAME + r")", m[2])
            at, fields = walk(head, fields)
            if not fields:
                return whole(at)
            new = self.step(place, at, fields)
            # a member of a cycle was given its measure beside what it requires
            if self.in_cycle and new[:2] == ["requires", "1"]:
                new = new[:1] + new[2:]
            elif self.in_cycle and new[:2] == ["requires", "0"]:
                return "⟪measure⟫"
            return ".".join([var] + new)

        # what is known of `!x` speaks of x itself now: a lemma that turned it goes, and what took it as it was takes it turned
        text = re.sub(r"⟪measure⟫, |, ⟪measure⟫", "", PATH.sub(one, text))
        text = re.sub(r"\bnot-(?:true|false) (?:_|c\.[^\s()]+) (c\.[^\s()]*)", r"\1⟪direct⟫", text)
        turned = re.sub(r"(?<![^\s(){};,])(c\.(?:if|loop)-not-[^\s(){};,.]*\.(?:true|false))(?!⟪|[^\s(){};,])", r"(ap not \1)", text)
        self.negated = self.negated or turned != text
        turned = named(turned.replace("⟪direct⟫", ""), self.requires)
        for m in list(re.finditer(r"let (" + NAME + r") = c\.([\w-]+)\.ensures in", turned)):
            for place_ in self.places:
                if place_[3] and place_[2][1] == m[2]:
                    of, _, path = place_[3].partition("::")
                    names = requires_names(of, path.replace("::", "."), "ensures")
                    for k, name in enumerate(names):
                        old = m[1] + ".1" * k + ("" if k == len(names) - 1 else ".0")
                        turned = re.sub(r"(?<![^\s(){};,])" + re.escape(old) + r"(?![\w])", f"{m[1]}.{name}", turned)
        # within a cycle they stay a pair
        if call and len(call[0]) > 1 and not call[1]:
            made = as_record(turned, *call)
            if made is None:
                self.left.append(f"{goal} is answered by no tuple")
            return made or turned
        own = requires_names(self.crate, self.path, "ensures")
        if own and re.match(r"(?:" + re.escape(self.path) + r"-)?returns", goal or ""):
            made = as_record(turned, own, False)
            if made is None:
                self.left.append(f"{goal} is answered by no tuple")
            return made or turned
        return turned


def blocks(text):
    """The parts of a file between blank lines."""
    return [b for b in re.split(r"\n\s*\n", text.strip("\n")) if b.strip()]


def substitute(text, names):
    return PATH.sub(lambda m: (names[m[1]] + m[2]) if m[1] in names else m[0], text)


def convert(crate, folder, path, told):
    f = Function(crate, path, told)
    with open(os.path.join(folder, "Proof.antt"), encoding="utf-8") as it:
        parts = blocks(it.read())
    comment, uses, over, invariants, answers = [], [], [], [], []
    head = parts[0].split("\n")
    for line in head:
        if line.startswith("--"):
            comment.append(line)
        else:
            uses.append(line)
    for part in parts[1:]:
        if part.startswith("use "):
            uses += part.split("\n")
            continue
        lines = part.split("\n")
        notes = []
        while lines and lines[0].startswith("--"):
            notes.append(lines.pop(0))
        if not lines:
            answers.append("\n".join(notes))
            continue
        body = "\n".join(lines)
        if "tie.close" in body:
            continue
        m = re.match(r"(?:abbrev )?(?:pub )?(" + NAME + r") : tie\.(\S+)", body)
        if m and m[2].startswith(("invariant-", "decreases-")):
            kind, loop = m[2].split("-", 1)
            new, vars_, changed = f.loops[norm(loop)]
            eq = re.search(r"(?m)^" + re.escape(m[1]) + r" (.*?)\s*=(?=\s)", body)
            params = eq[1].split()
            targets = [f"l.initial.{v}" if c else f"l.{v}" for v, c in zip(vars_, changed)] + [f"l.{v}" for v, c in zip(vars_, changed) if c]
            if len(params) != len(targets):
                f.left.append(f"{m[1]} has {len(params)} arguments, and {len(targets)} are known")
            text = substitute(body[eq.end() :], dict(zip(params, targets)))
            between = body[body.index("\n") + 1 : eq.start()]
            invariants.append("\n".join(notes + [f"abbrev pub {kind}-{new} : goal.{kind}-{new}"]) + "\n" + between + f"{kind}-{new} l =" + text)
            continue
        if m and m[2].startswith("Need-"):
            name = bare_goal(m[2][len("Need-") :])
            if name not in f.goals and re.search(r"=\s*search rules\s*$", body):
                continue
            if name not in f.goals:
                f.left.append(f"no goal {m[2]}; known: {sorted(f.goals)}")
                continue
            new, place = f.goals[name]
            eq = re.search(r"(?m)^" + re.escape(m[1]) + r" (.*?)\s*=(?=\s)", body)
            if not eq:
                f.left.append(f"{m[1]} has no equation")
                continue
            text = body[eq.end() :]
            if re.fullmatch(r"\s*search rules\s*", text):
                continue
            params = [it for it in eq[1].split() if not it.startswith("κ")]
            var = params[0]
            between = body[body.index("\n") + 1 : eq.start()]
            answers.append("\n".join(notes + [f"pub {new} : goal.{new}"]) + "\n" + between + f"{new} {' '.join(params)} =" + f.turn(text, place, new, var))
            continue
        # a lemma or a definition of the file's own
        places = []

        def place_of(m):
            k = f.by_old.get(norm(m[1]))
            if k is None:
                f.left.append(f"no place {m[1]}")
                return m[0]
            k = f.grown(k)
            places.append(k)
            return f.names[k]

        body2 = re.sub(r"tie\.((?:After|Then|Else|In|At|Start)\S*?)(?: (?:invariant|decreases)-[\w-]*)*(?=[\s)])", place_of, body)
        if "tie." in body2:
            f.left.append("a lemma cites tie: " + body2.split("\n")[0])
        if places:
            sig = re.search(r"\((\S+) : " + re.escape(f.names[places[0]]) + r"\)", body2)
            eq = re.search(r"(?m)^" + NAME + r" (.*?)\s*=(?=\s)", body2)
            var = None
            if sig and eq:
                first = eq[1].split()
                # the argument of the equation that stands where the place does
                binders = re.findall(r"\(((?:\S+ )+): ", body2[: eq.start()])
                names = [n for b in binders for n in b.split()]
                var = first[names.index(sig[1])] if sig[1] in names and names.index(sig[1]) < len(first) else sig[1]
                k = places[0]
                signature = f.turn(body2[: eq.start()], k, None, sig[1])
                body2 = signature + body2[eq.start() : eq.end()] + f.turn(body2[eq.end() :], k, None, var)
            elif eq and re.search(r": " + re.escape(f.names[places[0]]) + r" →", body2[: eq.start()]):
                k, var = places[0], eq[1].split()[0]
                body2 = body2[: eq.end()] + f.turn(body2[eq.end() :], k, None, var)
            elif sig and re.match(r"(?:pub )?record ", body2):
                end = body2.index("\n")
                body2 = body2[:end] + f.turn(body2[end:], places[0], None, sig[1])
            else:
                f.left.append("a lemma over a place: " + body2.split("\n")[0])
            over.append(f"use Rattle.{crate}.proofs.{path}.Goals.{{{f.names[places[0]]}}}")
        answers.append("\n".join(notes + [body2]))
    module = f"Rattle.{crate}.proofs.{path}"
    uses = [u for u in uses if not u.startswith((f"use {module}.Statement", f"use {module}.Tie"))]
    seen = []
    for u in uses:
        if u not in seen or not u.startswith("use "):
            seen.append(u)
    uses = seen
    says = [c for c in comment if not re.match(r"-- Assumes nothing", c)]
    own = {}
    for a in answers:
        m = re.search(r"(?m)^(?:abbrev )?(?:pub )?(" + NAME + r")(?: \{[^}]*\})* :", a)
        if m and not re.match(r"pub \S+ : goal\.", a.split("\n")[0]):
            own[m[1]] = a
    text = "\n\n".join(invariants)
    moved = []
    grew = True
    while grew:
        grew = False
        for name, a in own.items():
            if a not in moved and re.search(r"(?<![^\s(){}.;,])" + re.escape(name) + r"(?![^\s(){}.;,])", text + "\n".join(moved)):
                moved.append(a)
                grew = True
    if invariants:
        keep = [a for a in answers if a in moved]
        answers = [a for a in answers if a not in moved]
        keep = [re.sub(r"(?m)^(abbrev )?(?!pub |abbrev |--)(" + NAME + r" :)", lambda m: (m[1] or "") + "pub " + m[2], a, count=1) if not re.search(r"(?m)^(abbrev )?pub ", a) else a for a in keep]
        with open(os.path.join(folder, "Invariants.antt"), "w", encoding="utf-8") as it:
            it.write("\n".join(says + uses + [f"use {module}.Given as goal"]) + "\n\n" + "\n\n".join(keep + invariants) + "\n")
        if keep and answers:
            names = [re.search(r"(?m)^(?:abbrev )?pub (" + NAME + r")", a)[1] for a in keep]
            uses.append(f"use {module}.Invariants.{{{', '.join(names)}}}")
    answers = [a for a in answers if a.strip()]
    uses += [u for k, u in enumerate(over) if u not in over[:k]]
    if f.negated:
        known = set(re.findall(NAME, " ".join(re.findall(r"\{([^}]*)\}", "\n".join(uses)))))
        uses += [f"use Rattle.std.proofs.Common.{{{name}}}" for name in ("ap", "not") if name not in known]
    if answers:
        with open(os.path.join(folder, "Answers.antt"), "w", encoding="utf-8") as it:
            it.write("\n".join(says + uses + [f"use {module}.Goals as goal"]) + "\n\n" + "\n\n".join(answers) + "\n")
    os.remove(os.path.join(folder, "Proof.antt"))
    if not os.listdir(folder):
        os.rmdir(folder)
    for it in f.left:
        print(f"left: {crate} {path}: {it}")


def convert_cycle(crate, folder, cycle, told):
    """A cycle of calls: the goals of all its members stand in one file, over the measure t."""
    with open(os.path.join(folder, "Proof.antt"), encoding="utf-8") as it:
        text = it.read()
    members = {alias: m for m, alias in re.findall(r"(?m)^use \S+\.Lts-(\S+) as (\S+)$", text)}
    functions = {alias: Function(crate, m, told[f"Rattle-{crate}-proofs.{cycle}.Lts-{m}"]) for alias, m in members.items()}
    many = len(members) > 1
    for f in functions.values():
        f.in_cycle, f.cycle = True, set(members.values())
    module = f"Rattle.{crate}.proofs.{cycle}"
    comment, uses, invariants, answers, left = [], [], [], [], []
    for part in blocks(text):
        lines = [line[2:] if line.startswith("  ") else line for line in part.split("\n") if not line.startswith("module _ ")]
        notes = []
        if "\nuse " in part or part.startswith("use "):
            comment += [line for line in lines if line.startswith("--")]
            uses += re.findall(r"(?m)^use [^\n{]*(?:\{[^}]*\}[^\n]*|)$", part)
            continue
        while lines and lines[0].startswith("--"):
            notes.append(lines.pop(0))
        body = "\n".join(lines)
        m = re.match(r"(?:abbrev )?(" + NAME + r") : (" + NAME + r")\.(Need-|invariant-loop|decreases-loop)(\S*)", body)
        if not m or m[2] not in members:
            measure = re.match(r"abbrev μ-?\S* : .*\nμ-?(\S*) κs a = (.*)", body)
            if measure:
                own = next((it for it in members.values() if norm(it) == norm(measure[1])), next(iter(members.values())))
                invariants.append(f"abbrev pub decreases-{own} : goal.decreases-{own}\ndecreases-{own} l = {measure[2]}")
            elif "abbrev" not in body and "close" not in body:
                left.append("not turned: " + body.split("\n")[0])
            continue
        f = functions[m[2]]
        eq = re.search(r"(?m)^" + re.escape(m[1]) + r" (.*?)\s*=(?=\s)", body)
        own = f"{f.path}-" if many else ""
        if m[3] != "Need-":
            kind, loop = (m[3] + m[4]).split("-", 1)
            new, vars_, changed = f.loops[norm(loop)]
            params = eq[1].split()
            targets = [f"l.initial.{v}" if c else f"l.{v}" for v, c in zip(vars_, changed)] + [f"l.{v}" for v, c in zip(vars_, changed) if c]
            invariants.append("\n".join(notes + [f"abbrev pub {own}{kind}-{new} : goal.{own}{kind}-{new}", f"{own}{kind}-{new} l =" + substitute(body[eq.end() :], dict(zip(params, targets)))]))
            continue
        name = bare_goal(m[4])
        if name not in f.goals:
            left.append(f"no goal {m[4]} of {f.path}; known: {sorted(f.goals)}")
            continue
        new, place = f.goals[name]
        text_ = body[eq.end() :]
        if re.fullmatch(r"\s*search rules\s*", text_):
            continue
        params = [it for it in eq[1].split() if not it.startswith("κ")]
        between = body[body.index("\n") + 1 : eq.start()]
        answers.append("\n".join(notes + [f"pub {own}{new} : goal.{own}{new}"]) + "\n" + between + f"{own}{new} t {' '.join(params)} =" + f.turn(text_, place, f"{own}{new}", params[0]))
    uses = [u for u in uses if not re.search(r"\.(Reads|Kinds|Lts-\S+) as |\.Tie\.|\{statement\}|borrow\.Fn\.", u)]
    says = [c for c in comment if not re.match(r"-- Assumes nothing", c)]
    if any(f.negated for f in functions.values()):
        known = set(re.findall(NAME, " ".join(re.findall(r"\{([^}]*)\}", "\n".join(uses)))))
        uses += [f"use Rattle.std.proofs.Common.{{{name}}}" for name in ("ap", "not") if name not in known]
    with open(os.path.join(folder, "Invariants.antt"), "w", encoding="utf-8") as it:
        it.write("\n".join(says + uses + [f"use {module}.Given as goal"]) + "\n\n" + "\n\n".join(invariants) + "\n")
    with open(os.path.join(folder, "Answers.antt"), "w", encoding="utf-8") as it:
        it.write("\n".join(says + uses + [f"use {module}.Goals as goal"]) + "\n\n" + "\n\n".join(answers) + "\n")
    os.remove(os.path.join(folder, "Proof.antt"))
    for f in functions.values():
        left += f.left
    for it in left:
        print(f"left: {crate} {cycle}: {it}")


def turn(crate):
    with tempfile.TemporaryDirectory() as room:
        said = subprocess.run(
            ["rt", "check", "--generated", room, "--old-names"], cwd=f"crates/{crate}", capture_output=True, text=True
        )
        names = os.path.join(room, "names.json")
        if not os.path.exists(names):
            print(f"left: {crate}: the prover told no names: {(said.stdout + said.stderr)[-1500:]}")
            return
        with open(names, encoding="utf-8") as f:
            told = json.load(f)
    done = 0
    for folder, _, found in sorted(os.walk(f"crates/{crate}/proofs")):
        if "Proof.antt" not in found:
            continue
        if "/+" in folder:
            convert_cycle(crate, folder, os.path.basename(folder), told)
            continue
        path = os.path.relpath(folder, f"crates/{crate}/proofs").replace("/", ".")
        key = f"Rattle-{crate}-proofs.{path}.Lts"
        if key not in told:
            print(f"left: {crate} {path}: not among the functions told")
            continue
        try:
            convert(crate, folder, path, told[key])
            done += 1
        except Exception as e:  # the file stays, to be turned by hand
            print(f"left: {crate} {path}: {type(e).__name__} {e}")
    print(f"{crate}: {done} functions turned")


if __name__ == "__main__":
    names = [a for a in sys.argv[1:] if not a.startswith("--")]
    if not names:
        raise SystemExit(__doc__)
    for name in names:
        turn(name)
