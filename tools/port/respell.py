#!/usr/bin/env python3
"""Spells the repository's own definitions, lemmas and variables as today's Rattle does: words in snake case.

usage: python3 tools/port/respell.py [--dry]      once, at the top, right after port.py

A word that begins small and has a capital inside, as `wholeSeconds`, is turned to `whole_seconds`, also as a part of a name with dashes. The words
are those that specs/ and proofs/ use; the same words are then turned in the clauses of src/, in edits, and in pages, tools and tests that name them.
Functions of src/, exported C names and strings have no such word. It stops before it writes where two names would fall together.
"""

import collections
import glob
import os
import re
import sys

WORD = re.compile(r"[A-Za-z_À-ɏͰ-Ͽ₀-₉0-9'′·-]+")
BARE = re.compile(r"(?<![\w.'-])" + WORD.pattern)
HUMP = re.compile(r"(?<=[a-z0-9])(?=[A-Z])|(?<=[A-Z])(?=[A-Z][a-z])")
PROOFS = ["crates/*/specs/**/*.antt", "crates/*/proofs/**/*.antt"]
SOURCES = ["crates/*/src/**/*.rt"]
OTHERS = ["crates/*/must-fail/*.edit", "docs/**/*.md", "README.md", "tools/*/*", "tests/**/*", "lessons/**/*", "bench/**/*", "examples/**/*"]
# Lemmas whose names would fall together with what they speak of: such a lemma is called by its definition's name and _lem.
LEMMAS = {
    "crates/transmission/proofs/BestLaws.antt": ["best_of"],
    "crates/station/proofs/RedialLaws.antt": ["goes_on"],
    "crates/transmission_theorems/proofs/InPlaceLaws.antt": ["in_place"],
    "crates/actions/proofs/Saying.antt": ["no_number"],
    "crates/useless_versions/proofs/Feeds.antt": ["no_text"],
    "crates/transmission_theorems/proofs/NothingElse.antt": ["first_good"],
}
# Names of clauses that are words of other clauses, which they would hide.
LABELS = {"room_after": "room_written", "station_after": "station_kept", "meaning_after": "meaning_written"}


def files(patterns):
    return sorted(f for p in patterns for f in glob.glob(p, recursive=True) if os.path.isfile(f) and "/port/" not in f and "__pycache__" not in f)


def uncommented(text):
    return re.sub(r"--.*", "", text)


def readable(file):
    try:
        with open(file, encoding="utf-8") as it:
            return it.read()
    except UnicodeDecodeError:
        return ""


def snake(part):
    if not re.match(r"[a-z]", part) or not HUMP.search(part):
        return part
    # of `toldBQ` each capital is a word
    return "_".join(p[0].lower() + p[1:] for p in HUMP.split(part))


def respelled(word):
    new = "-".join(snake(p) for p in word.split("-"))
    return new if new == word else respelled(new)


def apart(file, text):
    """The text with those of its names changed that would fall together with others."""
    for lemma in LEMMAS.get(file, []):
        text = re.sub(rf"(?<![\w.'-]){lemma}(?![\w'-])", lemma + "_lem", text)
    if file.endswith(".rt"):
        text = re.sub(r"\b(ensures|requires) (\w+) \{", lambda m: f"{m[1]} {LABELS.get(m[2], m[2])} {{", text)
    for path, alias in re.findall(r"^use Rattle\.\w+\.proofs\.([\w.]+)\.Reads as (\S+)$", text, re.M):
        # a name from Rattle source keeps its spelling
        parts = path.split(".")
        kept = "-".join(parts[-2:] if len(parts) > 1 and parts[-2][0].isupper() else parts[-1:])
        text = re.sub(rf"(?<![\w.'-]){re.escape(alias)}(?=-settled(?![\w'-])|\.Post(?![\w'-])|$)", kept, text, flags=re.M)
    return text


def imported(texts):
    """Words that a file imports from outside the repository: those keep their spelling."""
    found = set()
    for t in texts.values():
        for path, names in re.findall(r"^\s*(?:pub\s+|ghost\s+)*use\s+([^\s{;]+)\.\{([^}]*)\}", t, re.M):
            if not path.startswith("Rattle.") or path.split(".")[1] in ("std", "core", "check", "io", "os", "libc"):
                found |= {n.strip().split(" as ")[0] for n in names.split(",")}
    return found


def main():
    dry = "--dry" in sys.argv[1:]
    texts = {f: apart(f, open(f, encoding="utf-8").read()) for f in files(PROOFS + SOURCES)}
    keep = imported(texts)
    words = collections.Counter()
    for f, t in texts.items():
        words.update(WORD.findall(t))
    turn = {w: respelled(w) for w in words if w not in keep and respelled(w) != w}
    together = [(f, w) for f, t in texts.items() if f.endswith(".antt") for w in sorted(set(BARE.findall(uncommented(t)))) if w in turn and turn[w] in BARE.findall(uncommented(t))]
    for f, w in together:
        print(f"falls together: {f}: {w}, {turn[w]}")
    if together:
        raise SystemExit(1)
    print(f"{len(turn)} words")
    declared = {respelled(w) for t in texts.values() for w in re.findall(r"^\s*(?:(?:abbrev|unfoldable|pub)\s+)*([^\s:(){}]+) :", t, re.M)}
    named = {w for f in files(OTHERS) for w in WORD.findall(readable(f)) if w not in keep and respelled(w) != w and respelled(w) in declared}
    turn |= {w: respelled(w) for w in named}
    count = 0
    for f in files(PROOFS + SOURCES + OTHERS):
        t = readable(f)
        new = WORD.sub(lambda m: turn.get(m.group(0), m.group(0)), apart(f, t))
        if new != t:
            count += 1
            if f.split("/")[0] != "crates" or f.endswith(".edit"):
                print(f"turned: {f}: {', '.join(sorted({w for w in WORD.findall(t) if w in turn}))[:200]}")
            if not dry:
                with open(f, "w", encoding="utf-8") as it:
                    it.write(new)
    print(f"{count} files")


main()
