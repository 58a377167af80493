#!/usr/bin/env python3
"""Lists the places in src/ at which today's Rattle has a form to weigh against the one that stands there.

    python3 tools/design_places.py [FOLDER] [--list]

FOLDER is a checkout, the one that this file stands in if left out. A line for each kind of place, with its count; with
--list the places too. docs/DESIGN-PASS.md says what came of each. It reads text, not meaning: a place listed here is a
place to look at.
"""
import re
import sys
from collections import Counter, defaultdict
from pathlib import Path


class Function:
    """A function with its signature, its clauses and its body, as text."""

    def __init__(self, path, line, name, head, clauses, body):
        self.path, self.line, self.name = path, line, name
        self.head, self.clauses, self.body = head, clauses, body

    def at(self):
        return f"{self.path}:{self.line} {self.name}"

    def parameters(self):
        inside = self.head[self.head.index("(") + 1 :]
        return [p for p in re.findall(r"(\w+)\s*:", inside.split("->")[0]) if p != "self"]


def without_comments(text):
    return re.sub(r"//[^\n]*", "", text)


def closing(text, start):
    """The place behind the brace that closes the one at `start`."""
    depth = 0
    for i in range(start, len(text)):
        depth += {"{": 1, "}": -1}.get(text[i], 0)
        if depth == 0:
            return i + 1
    return len(text)


def functions(path, text):
    for m in re.finditer(r"^([ \t]*)(?:#\[[^\n]*\]\n[ \t]*)?(pub(?:\([^)]*\))? )?fn (\w+)", text, re.M):
        at, clauses = m.end(), []
        while at < len(text) and text[at] not in "{;":
            word = re.match(r"\s*(requires|ensures)\b[^{]*\{", text[at:])
            if word:
                begin = at + word.end() - 1
                end = closing(text, begin)
                clauses.append((word.group(1), " ".join(text[begin + 1 : end - 1].split())))
                at = end
            elif text[at] == "[":
                at = text.index("]", at)
            else:
                at += 1
        head = re.split(r"\b(?:requires|ensures)\b|\{", text[m.start() : at])[0]
        body = text[at : closing(text, at)] if at < len(text) and text[at] == "{" else ""
        yield Function(path, text[: m.start()].count("\n") + 1, m.group(3), head, clauses, body)


def read(root):
    files = {}
    for path in sorted(root.glob("crates/*/src/**/*.rt")):
        files[path.relative_to(root)] = without_comments(path.read_text())
    return files


def enums(files):
    for path, text in files.items():
        for m in re.finditer(r"^(?:pub )?enum (\w+)[^{]*\{", text, re.M):
            end = closing(text, m.end() - 1)
            variants = re.findall(r"^\s+(\w+)(\([^)]*\)|\s*\{[^}]*\})?\s*(?:=\s*\d+)?,", text[m.end() : end], re.M)
            yield path, text[: m.start()].count("\n") + 1, m.group(1), variants, text[: m.start()].rsplit("\n\n", 1)[-1]


def places(files):
    """The kinds of places, each with its list."""
    out = defaultdict(list)
    every = [f for path, text in files.items() for f in functions(path, text)]
    for path, line, name, variants, _ in enums(files):
        if len(variants) == 2 and any(v[1] for v in variants):
            out["1a own enums of two variants, one or both with a value"].append(f"{path}:{line} {name}")
    for f in every:
        if re.search(r"->\s*bool\b", f.head) and "&mut" in f.head:
            out["1b functions that answer yes or no and write a value beside it"].append(f.at())
        if f.name == "number" or re.search(r"=>\s*\d+,", f.body) and re.search(r"->\s*(Option<)?\[?u", f.head):
            out["1c numbers for kinds and refusals, and answers turned to numbers"].append(f.at())
        if re.search(r"\bOk\((\w+)\) => (?:Ok\()?(?:[\w:]+\()?\1\b|Err\(_\) =>|Err\((\w+)\) => (?:return )?(?:Err\()?[\w:]*\(?\2", f.body):
            out["1d results taken apart by hand, to be put together again or to be turned to another"].append(f.at())

    def shape(f):
        body = re.sub(r"\b\d[\d_]*\b", "0", " ".join(f.body.split()))
        body = re.sub(r"b\"[^\"]*\"", "b", body)
        for one, two in (("column", "row"), ("height", "width"), ("Column", "Row"), ("COLUMNS", "ROWS"), ("header", "row"), ("Columns", "Rows"), ("Header", "Rows")):
            body = body.replace(one, two)
        return body

    groups = defaultdict(list)
    for f in every:
        if len(shape(f)) > 8:
            groups[shape(f)].append(f)
    for body, group in groups.items():
        if len(group) > 1:
            out["2a functions with the same body but for numbers, and for rows and columns"].append(" | ".join(f.at() for f in group))
    for f in every:
        if re.search(r"\bfor (?!_)(\w+) in .*\.\.", f.body):
            for name, body in re.findall(r"\bfor (?!_)(\w+) in [^\n{]*\.\.[^\n{]*\{(.*)", f.body, re.S):
                if re.search(rf"\[[^\]]*\b{name}\b[^\]]*\]|\.get\([^)]*\b{name}\b|\bat\([^)]*\b{name}\b|put\([^)]*\b{name}\b", body) or re.search(rf"\b(at|from) = [^;]*\b{name}\b", body):
                    out["3a loops over an index of a slice or table"].append(f.at())
        if re.search(r"\b(\w+) \+= 1;", f.body) and re.search(r"\b(for|while|loop)\b", f.body):
            out["3b loops that count by hand"].append(f.at())
        if re.search(r"\bfor \w+ in [^\n]*\{\s*if [^\n]*\{\s*return (true|false);\s*\}\s*\}\s*(true|false)", f.body):
            out["3c loops that ask for all or any"].append(f.at())
        if re.search(r"\bfor \w+ in [^\n]*\{\s*\*\w+ = (0|\*\w+);\s*\}", f.body) or re.search(r"\bfor (\w+) in [^\n]*\{\s*\w+\[\1\] = \w+\[\1\];\s*\}", f.body):
            out["3d loops that fill or copy"].append(f.at())
        if f.name in ("number", "same", "same_standing", "differ", "copy", "show_run", "at", "put", "nth", "note"):
            out["4a equality, conversion, copying and printing by hand"].append(f.at())
    for path, line, name, _, above in enums(files):
        if "PartialEq" not in above:
            out["4b enums without derived equality"].append(f"{path}:{line} {name}")
    by_crate = defaultdict(list)
    for f in every:
        by_crate[f.path.parts[1]].append(f)
    for crate, fs in sorted(by_crate.items()):
        facts = Counter((re.sub(r"\.(old|now)\b", "", c)) for f in fs for kind, c in f.clauses if kind == "requires")
        for fact, n in facts.items():
            if n >= 3:
                out["5a facts required in three or more functions of a crate"].append(f"{crate} {n} times: {fact}")
        pairs = Counter()
        for f in fs:
            ps = sorted(set(f.parameters()))
            pairs.update((a, b, c) for i, a in enumerate(ps) for j, b in enumerate(ps[i + 1 :], i + 1) for c in ps[j + 1 :])
        for triple, n in pairs.items():
            if n >= 3:
                out["5b three parameters that travel together through three or more functions"].append(f"{crate} {n} times: {', '.join(triple)}")
    for path, text in files.items():
        for m in re.finditer(r"^\s+(?:pub )?(\w+): \[[\w ]+; \w+\],\n(?:\s+(?:pub )?\w+: \[[\w ]+; \w+\],\n)?\s+(?:pub )?\w+: (usize|u8),", text, re.M):
            out["6a arrays with a length beside them"].append(f"{path}:{text[: m.start()].count(chr(10)) + 2} {m.group(1)}")
    for f in every:
        if re.fullmatch(r"\{\s*\[[^\]]*; \d+\]\s*\}", f.body.strip()):
            out["6b functions that only make room"].append(f.at())
    for f in every:
        if len(re.findall(r"\b(?:Kind|Step|Mode)::\w+ => self\.\w+\(", f.body)) > 1:
            out["7a switches on which step to run"].append(f.at())
    return out


def main():
    arguments = [a for a in sys.argv[1:] if not a.startswith("--")]
    root = Path(arguments[0]) if arguments else Path(__file__).resolve().parent.parent
    for kind, found in sorted(places(read(root)).items()):
        print(f"{len(found):3} {kind}")
        if "--list" in sys.argv:
            for place in found:
                print(f"      {place}")
    proofs = sum(p.read_text().count("\n") for p in root.glob("crates/*/proofs/**/*.antt"))
    answers = sum(1 for _ in root.glob("crates/*/proofs/**/Answers.antt"))
    print(f"{proofs} lines of proofs, {answers} files of answers")


if __name__ == "__main__":
    main()
