#!/usr/bin/env python3
"""Turns a crate's proofs/F/Proof.antt of the older form into Invariants.antt and Answers.antt.

usage: python3 tools/port/answers.py CRATE NAMES.json      NAMES.json: rt check --generated FOLDER --old-names, in the crate's folder

The walk that joined the answers goes; so does an answer that is `search rules`, which the check tries by itself.
"""

import glob
import json
import os
import re
import sys

IDENT = r"[^\s(){}.,;:=λ→\[\]]+"
STEP = re.compile(r"(?<![\w.'-])(%s)((?:\.[^\s(){},;\[\].]+)+)" % r"[a-z]\w*")


def blocks(text):
    """The imports, and each declaration as its lines."""
    imports, decls, comment = [], [], []
    for line in text.split("\n"):
        if line.startswith("use "):
            imports.append(line)
        elif line.startswith("--"):
            comment.append(line)
        elif not line.strip():
            if decls and not comment:
                decls[-1].append(line)
        elif not line[0].isspace() and re.match(r"(?:(?:abbrev|pub|unfoldable)\s+)*(%s)\s+:(\s|$)|module |ruleset |data |record " % IDENT, line):
            decls.append(comment + [line])
            comment = []
        elif decls:
            decls[-1] += comment + [line]
            comment = []
        else:
            imports += comment + [line]
            comment = []
    if comment:
        decls.append(comment)
    return imports, ["\n".join(d).rstrip() for d in decls]


def name_of(decl):
    line = next((l for l in decl.split("\n") if not l.startswith("--")), "")
    m = re.match(r"(?:(?:abbrev|pub|unfoldable)\s+)*(%s)\s+:(\s|$)" % IDENT, line)
    return m.group(1) if m else None


def plain(name):
    return name.replace("-", "_")


def items(text):
    """The arguments of `tie.spec`, at the top level of parentheses."""
    out, depth, current = [], 0, ""
    for ch in text:
        if ch == "(":
            depth += 1
        if ch == ")":
            depth -= 1
            if depth < 0:
                break
        if ch.isspace() and depth == 0:
            if current:
                out.append(current)
            current = ""
        else:
            current += ch
    if current:
        out.append(current)
    return out


def labels():
    """The names of each function's clauses, where it has several: by crate and name, `ensures` and `requires`."""
    found = {}
    for f in glob.glob("crates/*/src/**/*.rt", recursive=True):
        text = open(f, encoding="utf-8").read()
        for m in re.finditer(r"\bfn (\w+)\s*[<(]", text):
            head = text[m.start():m.start() + 4000]
            end = re.search(r"\n\s*\{\n", head)
            head = head[: end.start()] if end else head
            for kind in ("ensures", "requires"):
                names = re.findall(kind + r" (\w+) \{", head)
                if names:
                    found[(f.split("/")[1], m.group(1), kind)] = names
    return found


LABELS = {}


def as_record(body, names):
    """A tuple at the end of an answer as a record of the clauses."""
    text = body.rstrip()
    if not names or not text.endswith(")"):
        return body
    depth, commas, start = 0, [], None
    for i in range(len(text) - 1, -1, -1):
        if text[i] in ")]}":
            depth += 1
        elif text[i] in "([{":
            depth -= 1
            if depth == 0:
                start = i
                break
        elif text[i] == "," and depth == 1:
            commas.insert(0, i)
    if start is None or len(commas) + 1 not in (len(names), len(names) + 1) or not re.search(r"(^|\bin|↦|\.)\s*$", text[:start]):
        return body
    cuts = [start] + commas + [len(text) - 1]
    parts = [text[a + 1 : b].strip() for a, b in zip(cuts, cuts[1:])]
    if len(parts) == len(names) + 1 and not parts[-1]:
        parts = parts[:-1]
    if len(parts) != len(names):
        return body
    return text[:start] + "record { " + "; ".join(f"{n} = {p}" for n, p in zip(names, parts)) + " }"


class Walk:
    def __init__(self, info, crate, own):
        self.crate, self.own = crate, own
        self.args = {tuple(old.split()): new.split() for old, new in info["args"]}
        self.places = {p[0]: p for p in info["places"]}
        self.order = [p[0] for p in info["places"]]

    def up(self, place):
        return self.places[place][1] if place in self.places else None

    def path(self, place, fields):
        """`c.before.before.step.field` at that place, as today's `c.step.field`."""
        here = place
        k = 0
        while k < len(fields) and fields[k] == "before":
            here = self.up(here) if here else None
            k += 1
        rest = fields[k:]
        if not rest:
            return None
        if rest[0] in ("args", "requires", "ranges", "well_formed", "type_inv"):
            turned = self.args.get(("." + rest[0], "." + rest[1])) if len(rest) > 1 else None
            if turned:
                rest = [turned[0][1:], turned[1][1:]] + rest[2:]
            return self.named(rest, 0, self.crate, self.own)
        at = here
        while at:
            old, new = self.places[at][2]
            if old and plain(old).lower() == plain(rest[0]).lower():
                return self.called(at, [new] + rest[1:])
            at = self.up(at)
        for p in self.places.values():
            if p[2][0] and plain(p[2][0]).lower() == plain(rest[0]).lower():
                return self.called(p[0], [p[2][1]] + rest[1:])
        return None

    def named(self, path, at, crate, name):
        """A clause by its name in place of its number."""
        if len(path) > at + 1 and path[at] in ("ensures", "requires") and path[at + 1].isdigit():
            known = LABELS.get((crate, name, path[at]), [])
            if int(path[at + 1]) < len(known):
                return path[: at + 1] + [known[int(path[at + 1])]] + path[at + 2 :]
        return path

    def arm(self, place):
        """What an arm says of the value that it took, in place of what the code was told there."""
        while place:
            step = self.places[place][2][1]
            if step.startswith(("in-", "in_")):
                return [step, "is"]
            place = self.up(place)
        return None

    def called(self, place, path):
        if len(path) == 3 and path[1:] == ["given", "1"] and self.arm(place):
            return self.arm(place)
        function = self.places[place][3]
        if not function:
            return path
        parts = function.split("::")
        return self.named(path, 1, parts[0], parts[-1])

    def turn(self, body, var, place):
        aliases = {var: (place, [])}

        def one(m):
            head, fields = m.group(1), m.group(2)[1:].split(".")
            if head not in aliases:
                return m.group(0)
            at, before = aliases[head]
            path = self.path(at, before + fields)
            return ".".join([var] + path) if path else m.group(0)

        # `let b = c.before.before in`, and `let d = b.before in`
        def alias(m):
            name, head, fields = m.group(1), m.group(2), m.group(3)[1:].split(".")
            if head not in aliases:
                return m.group(0)
            at, before = aliases[head]
            aliases[name] = (at, before + fields)
            return ""

        body = re.sub(r"let (\w+) = (\w+)((?:\.before)+) in\s*", alias, body)
        body = STEP.sub(one, body)
        for (kind, old), new in ((k, v) for k, v in self.args.items() if len(k) == 2):
            if kind == ".args":
                body = re.sub(r"(?<=\w)%s(?![\w'-])" % re.escape(old), new[1], body)
        # the branch of a test `!x` says of x itself what it says
        return re.sub(r"not-(?:true|false) _ (%s\.[^\s(){},;]+\.(?:true|false))(?![\w.-])" % re.escape(var), r"\1", body)


def split_equation(decl, name):
    """The lines between signature and equation, the equation's parameters, its body, and what stands below."""
    lines = decl.split("\n")
    start = next(i for i, l in enumerate(lines) if re.match(re.escape(name) + r"(\s|$)", l) and not re.match(re.escape(name) + r"\s+:(\s|$)", l))
    head = lines[:start]
    text = "\n".join(lines[start:])
    m = re.match(re.escape(name) + r"((?:\s+[^=\s]+)*)\s+=\s?", text)
    if not m:
        return None
    return head, m.group(1).split(), text[m.end():]


def convert(folder, crate, info, left):
    path = os.path.join(folder, "Proof.antt")
    text = open(path, encoding="utf-8").read()
    if "tie.close" not in text:
        left.append(f"{path}: no walk")
        return
    imports, decls = blocks(text)
    imports = [l for l in imports if ".Statement." not in l and not re.search(r"\.Tie as ", l)]
    named = {name_of(d): d for d in decls if name_of(d)}
    spec = next(d for d in decls if "tie.close" in d)
    inner = re.search(r"tie\.close\s*\(\s*tie\.spec\b(.*)", spec, re.S)
    if inner:
        args = items(inner.group(1))
    else:
        args = [] if re.search(r"tie\.close\s+tie\.spec", spec) else None
    if args is None:
        left.append(f"{path}: a walk of another form")
        return
    walk = Walk(info, crate, os.path.basename(folder))
    loops = info["loops"]
    rel = os.path.relpath(folder, os.path.join("crates", crate, "proofs")).replace("/", ".")
    invariants, answers, done = [], [], {name_of(spec)}
    k = 0
    for (old, new), names in ((l[0], l[1]) for l in loops):
        pass
    changed = info["changed"]
    for kind in ("invariant", "decreases"):
        pass
    # per loop an invariant and, but for a `for`, a measure
    for index, ((old, new), names) in enumerate((l[0], l[1]) for l in loops):
        turned = changed[index] if index < len(changed) else [True] * len(names)
        for kind in ("invariant", "decreases"):
            if k < len(args) and args[k] in named and re.search(r"tie\.%s" % kind, named[args[k]].split("\n")[0] + named[args[k]]):
                decl = named[args[k]]
                done.add(args[k])
                eq = split_equation(decl, args[k])
                k += 1
                if not eq:
                    left.append(f"{path}: {args[k - 1]} has no plain equation")
                    continue
                head, params, body = eq
                want = [("l.initial." if t else "l.") + n for n, t in zip(names, turned)] + ["l." + n for n, t in zip(names, turned) if t]
                if len(params) != len(want):
                    left.append(f"{path}: {kind} of {new}: {len(params)} parameters for {names} {turned}")
                for p, w in zip(params, want):
                    body = re.sub(r"(?<![\w.'₀-₉-])%s(?![\w'₀-₉-])" % re.escape(p), lambda m: w, body)
                unf = [l for l in head if l.startswith("unfolding")]
                title = f"{kind}-{new}"
                invariants.append("\n".join([f"abbrev pub {title} : goal.{title}"] + unf + [f"{title} l = {body}"]))
    rest = args[k:]
    needs, asked = info["needs"], info["asked_at"]
    if len(rest) != len(needs):
        left.append(f"{path}: {len(rest)} answers for {len(needs)} goals: {rest} {[n[0] for n in needs]}")
        by_name = {plain(n[0]): i for i, n in enumerate(needs)}
        pairs = []
        for a in rest:
            stem = plain(re.sub(r"^(overflow|shared_slice_read)-", "", a))
            if stem in by_name:
                pairs.append((a, by_name[stem]))
            elif not a.startswith("(λ c. search rules") and not a.startswith("(λ c κs. search rules"):
                left.append(f"{path}: no goal for {a}")
                pairs.append((a, None))
    else:
        pairs = list(zip(rest, range(len(rest))))
    for arg, i in pairs:
        inline = re.match(r"\(λ ([^.]*?)\. (.*)\)$", arg, re.S)
        if inline:
            head, params, body = [], inline.group(1).split(), inline.group(2)
        elif arg in named:
            done.add(arg)
            eq = split_equation(named[arg], arg)
            if not eq:
                left.append(f"{path}: {arg} has no plain equation")
                continue
            head, params, body = eq
        else:
            left.append(f"{path}: {arg} is no answer")
            continue
        if body.strip() == "search rules" and not any(l.startswith("unfolding") for l in head):
            continue
        if not params:
            left.append(f"{path}: {arg} takes no place")
            continue
        title = needs[i][1] if i is not None else arg
        var = params[0]
        if i is not None:
            body = walk.turn(body, var, asked[i][0])
            if title.startswith("returns"):
                body = as_record(body, LABELS.get((crate, os.path.basename(folder), "ensures")))
            callee = re.match(r"(\w+)(?:-.*)?-requires", title)
            if callee:
                asks = {tuple(v) for k, v in LABELS.items() if k[1:] == (callee.group(1), "requires")}
                body = as_record(body, list(asks.pop()) if len(asks) == 1 else None)
        if re.fullmatch(r"rw c\.[\w-]+\.given\.\d+", body.strip()):
            continue
        params = [p for p in params if p != "κs"]
        above = [l for l in head if l.startswith("--")]
        unf = [l for l in head if l.startswith("unfolding") or (l.startswith(" ") and not l.strip().startswith("→"))]
        answers.append("\n".join(above + [f"pub {title} : goal.{title}"] + unf + [f"{title} {' '.join(params)} = {body}"]))
    others = [d for d in decls if name_of(d) not in done]
    if invariants:
        with open(os.path.join(folder, "Invariants.antt"), "w", encoding="utf-8") as f:
            f.write("\n".join(imports + [f"use Rattle.{crate}.proofs.{rel}.Given as goal"]) + "\n\n" + "\n\n".join(invariants) + "\n")
    if answers:
        with open(os.path.join(folder, "Answers.antt"), "w", encoding="utf-8") as f:
            f.write("\n".join(imports + [f"use Rattle.{crate}.proofs.{rel}.Goals as goal"]) + "\n\n" + "\n\n".join(others + answers) + "\n")
    elif others:
        left.append(f"{path}: declarations that no answer cites: {[name_of(o) for o in others]}")
    os.remove(path)
    if not os.listdir(folder):
        os.rmdir(folder)


def main():
    crate, names = sys.argv[1:3]
    LABELS.update(labels())
    infos = json.load(open(names, encoding="utf-8"))
    left = []
    for path in sorted(glob.glob(f"crates/{crate}/proofs/**/Proof.antt", recursive=True)):
        folder = os.path.dirname(path)
        rel = os.path.relpath(folder, f"crates/{crate}/proofs").replace("/", ".")
        info = infos.get(f"Rattle-{crate}-proofs.{rel}.Lts")
        if info is None:
            left.append(f"{path}: not in the names")
            continue
        try:
            convert(folder, crate, info, left)
        except Exception as e:
            left.append(f"{path}: {type(e).__name__} {e}")
    print("\n".join(left))


main()
