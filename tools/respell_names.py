#!/usr/bin/env python3
"""Brings the repository's own definitions and lemmas to the spelling of Rattle's library: words in snake case, types in camel case.

usage: python3 tools/respell_names.py [--dry] [ROOT]

A name is one of our own when a file of specs/ or proofs/ declares it: a definition, a lemma, a field of a record, a
constructor, or the name under which a file takes one of these. A name that Rattle makes (a goal, an invariant, a step of a function's proof) keeps its spelling, and so does one
that a file takes from a library. Comments, strings and the functions of src/ are left as they are.
--dry prints the names and what they might fall together with, and writes nothing.
"""
import collections
import glob
import os
import re
import sys

# Where the plain respelling would fall together with another name, or be a field, a type or a parameter of src/.
SPECIAL = {
    # fields of a job
    "rowCode": "row_meaning",
    "columnCode": "column_meaning",
    # functions
    "changes-are-tallies": "changes_are_tallies_lem",
    "counts-stay-low": "counts_stay_low_lem",
    "first-no-refuses": "first_no_refuses_lem",
    "rows-follow": "rows_follow_lem",
    "run-endings": "run_endings_lem",
    "stuck-counts": "stuck_counts_lem",
    "tallies-grow": "tallies_grow_lem",
    "unchanged-means": "unchanged_means_lem",
    "disc-rows": "disc_row_code",
    "disc-columns": "disc_column_code",
    "disc-header": "disc_header_code",
    "error-value": "value_of_error",
    "same-standing": "is_same_standing",
    # a crate
    "reed-solomon": "reed_solomon_code",
    # other definitions
    "Field-laws": "LawsOnElements",
    "answer-of": "answer_in",
    "passAnswer": "answer_of_pass",
    "runAnswer": "answer_of_run",
    "deliveryAnswer": "answer_of_delivery",
}

NAME = r"[^\s(){}\[\].,;:\"`]+"
TOKEN = re.compile(r"(?P<comment>--(?=\s|-|$)[^\n]*)|(?P<string>\"(?:[^\"\\]|\\.)*\")|(?P<name>" + NAME + r")|(?P<other>[\s\S])")
RT_TOKEN = re.compile(r"(?P<comment>//[^\n]*)|(?P<string>b?\"(?:[^\"\\]|\\.)*\")|(?P<name>" + NAME + r")|(?P<other>[\s\S])")
WORDS = {"pub", "abbrev", "unfoldable", "data", "record", "ruleset", "mutual", "package"}


def files(root):
    for folder, dirs, names in os.walk(os.path.join(root, "crates")):
        dirs[:] = sorted(d for d in dirs if d != "out")
        for n in sorted(names):
            if n.endswith((".antt", ".rt")):
                yield os.path.join(folder, n)


def declared(text):
    """The names that a file declares, each with what its signature begins with."""
    # a declaration begins at the margin or, in a record or data, two or more columns in; its names stand before ` : `
    for m in re.finditer(r"^( *)((?:(?:pub|abbrev|unfoldable|data|record|ruleset) )*)((?:" + NAME + r" )+)((?:[({][^\n]*[)}] )?): ?([^\n]*)", text, re.M):
        indent, marks, names, rest = m.group(1), m.group(2), m.group(3), m.group(5)
        if names.split()[0] in ("let", "elim", "λ", "use", "pub", "--", "in", "="):
            continue
        if any(w in ("=", "let", "in", "|", "↦", "λ", "→", "--", "≡", "×", ";", "=", "+", "as") for w in names.split()):
            continue
        for n in names.split():
            if n not in WORDS:
                yield n, rest
    # the names under which a file knows what it takes
    for m in re.finditer(r"^(?:ghost )?use [^\n]*\{([^}]*)\}", text, re.M):
        for w in m.group(1).split(","):
            if " as " in w:
                yield w.split(" as ")[1].strip(), ""


def snake(name):
    tail = ""
    while name.endswith("'"):
        name, tail = name[:-1], tail + "'"
    if re.match(r"[A-Z]", name):
        parts = name.split("-")
        return "".join(p[:1].upper() + p[1:] for p in parts) + tail
    name = name.replace("-", "_")
    name = re.sub(r"(?<=[a-z0-9])([A-Z])(?=[a-z]|$)", lambda m: "_" + m.group(1).lower(), name)
    return name + tail


def wrong(name):
    bare = name.rstrip("'")
    if not re.match(r"[A-Za-z]", bare):
        return False
    return bool(re.search(r".-.", bare)) or bool(re.match(r"[a-z].*[A-Z]", bare))


def imported(text):
    """The names that a file takes from outside the repository's crates."""
    out = set()
    for m in re.finditer(r"use (?:pub )?([^\s{;]+)\.\{([^}]*)\}", text):
        own = m.group(1).startswith("Rattle.") and m.group(1).split(".")[1] != "std"
        if not own:
            for w in m.group(2).split(","):
                w = w.strip()
                out.add(w.split(" as ")[-1].strip())
    return out


def main():
    dry = "--dry" in sys.argv
    rest = [a for a in sys.argv[1:] if a != "--dry"]
    root = rest[0] if rest else "."
    texts = {p: open(p, encoding="utf-8").read() for p in files(root)}
    own = collections.defaultdict(set)
    for p, t in texts.items():
        for n, sig in declared(t):
            # an answer has the name of its goal, which Rattle makes
            if wrong(n) and not sig.startswith("goal.") and (p.endswith(".antt") or not sig):
                own[n].add(os.path.relpath(p, root))
    turn = {n: SPECIAL.get(n, snake(n)) for n in own}
    if dry:
        report(root, texts, own, turn)
        return
    changed = 0
    for p, t in texts.items():
        new = respell(t, turn, p)
        if new != t:
            changed += 1
            with open(p, "w", encoding="utf-8") as f:
                f.write(new)
    print(f"{len(turn)} names, {changed} files")


def respell(text, turn, path_of_file):
    rt = path_of_file.endswith(".rt")
    # in the proof of a function the steps of its code are named by Rattle, as parts of c and w
    made = ("c", "w", "goal") if os.path.basename(path_of_file) in ("Answers.antt", "Invariants.antt") else ("goal",)
    outside = imported(text)
    out = []
    before = ""          # what stands right before this name, back to the last space: a path
    for m in (RT_TOKEN if rt else TOKEN).finditer(text):
        kind, s = m.lastgroup, m.group()
        if kind == "name":
            quoted = s.startswith("«") and s.endswith("»")
            bare = s[1:-1] if quoted else s
            new = turn.get(bare)
            if new is not None:
                path = before
                if path.endswith("."):
                    head = path[:-1]
                    if head in made:
                        new = None
                elif bare in outside:
                    new = None
            if new is not None:
                s = new
            before += s
        elif s == ".":
            before += "."
        elif kind == "other" and s in ")]}":
            before = "?"
        else:
            before = ""
        out.append(s)
    return "".join(out)


def report(root, texts, own, turn):
    tokens = {}
    for p, t in texts.items():
        tokens[p] = {m.group() for m in (RT_TOKEN if p.endswith(".rt") else TOKEN).finditer(t) if m.lastgroup == "name"}
    alldecl = collections.defaultdict(set)
    for p, t in texts.items():
        if p.endswith(".antt"):
            for n, _ in declared(t):
                alldecl[n].add(os.path.relpath(p, root))
    src = set()
    for p, t in texts.items():
        if p.endswith(".rt"):
            code = re.sub(r"//[^\n]*", "", t)
            code = "\n".join(l for l in code.split("\n") if not l.startswith("ghost use"))
            for m in re.finditer(r"\b(?:(?:pub(?:\(\w+\))? )?([a-z_]\w*): |fn (\w+)|const (\w+)|ghost (\w+)[:= ]|type (\w+))", code):
                for g in m.groups():
                    if g:
                        src.add(g)
    back = collections.defaultdict(list)
    for o, n in turn.items():
        back[n].append(o)
    for o in sorted(own):
        n = turn[o]
        say = []
        if n in alldecl:
            say.append("declared: " + " ".join(sorted(alldecl[n])))
        if len(back[n]) > 1:
            say.append("with " + " ".join(back[n]))
        here = [os.path.relpath(p, root) for p in tokens if o in tokens[p] and n in tokens[p]]
        if here:
            say.append("both in: " + " ".join(here))
        if n in src:
            say.append("in src")
        print(o, "->", n, "|", " ; ".join(say), "|", " ".join(sorted(own[o]))[:80])


main()
