#!/usr/bin/env python3
"""Brings the repository's own names in specs/ and proofs/, and where clauses cite them, to one spelling.

    python3 tools/respell.py            rewrites in place, at the top of the repository
    python3 tools/respell.py --list     prints old and new names and what falls together, and writes nothing

A definition, a lemma, a field and a local name are in snake case; a type and a fact are in upper camel case.
A name that a file imports from the library stays, and so does a name that the checker makes for a goal or a step.
Functions of src/, strings, comments, inputs and outputs are left alone.
"""
import pathlib
import re
import sys

ROOT = pathlib.Path(__file__).resolve().parent.parent
OWN = {p.name for p in (ROOT / "crates").iterdir() if p.is_dir()}
# a name of antt; a dot ends it
NAME = re.compile(r"[^\W\d][\w'\u2032\u2080-\u2089\u207a*-]*", re.UNICODE)
USE = re.compile(r"^\s*(?:pub )?(?:ghost )?use ([\w.]+?)(?:\.\{(.*?)\})?(?: as (\S+?))?;?\s*$")
WORDS = r"(?:abbrev|unfoldable|pub|private)"
DECLARED = [
    re.compile(r"^\s*(?:" + WORDS + r"\s+)*(?:(?:data|record|postulate|ruleset)\s+)?([^\s(){}:;,.=\u03bb\u2192\u21a6|]+)(?:\s+[({][^=]*)?\s*(?::\s|$)"),
    re.compile(r"^\s*(?:" + WORDS + r"\s+)*(?:data|record|ruleset)\s+([^\s(){}:;,.]+)"),
    re.compile(r"\blet\s+([^\s(){}:;,.]+)\s*[:=]"),
]
BOUND = re.compile(r"[({\u03bb]\s*((?:[^\s(){}:;,.=\u2192]+\s+)+):\s")
LAMBDA = re.compile(r"\u03bb\s+((?:[^\s(){}:;,.=\u2192]+\s*)+)\.\s")
TUPLE = re.compile(r"\u03bb\s+\(([^():]*)\)\.")


def comment_at(line):
    i = line.find("--")
    while i > 0 and not (line[i - 1].isspace()):
        i = line.find("--", i + 2)
    return i if i >= 0 else len(line)


# would fall together with another name
OTHERWISE = {"queueOf": "queue_of_head"}


def new_name(name):
    if name in OTHERWISE:
        return OTHERWISE[name]
    name = name.replace("\u2032", "'")
    parts = [w for w in name.split("-") if w]
    if not parts:
        return name
    if parts[0][0].isupper():
        return "".join(w[0].upper() + w[1:] for w in parts) if len(parts) > 1 else name
    word = "_".join(parts)
    return re.sub(r"(?<=[a-z0-9])([A-Z])(?=[a-z])", lambda m: "_" + m.group(1).lower(), word)


def antt_files():
    for p in sorted((ROOT / "crates").glob("*/specs/**/*.antt")) + sorted((ROOT / "crates").glob("*/proofs/**/*.antt")):
        yield p


def imported_from_library(text):
    kept = set()
    for line in text.splitlines():
        m = USE.match(line)
        if not m:
            continue
        path = m.group(1).split(".")
        own = path[0] == "Rattle" and len(path) > 1 and path[1] in OWN
        goals = path[-1] in ("Goals", "Given", "Needs")
        if own and not goals:
            continue
        for item in (m.group(2) or "").split(","):
            item = item.strip()
            if item:
                old = item.split(" as ")
                kept.add(old[0].strip())
                if len(old) > 1 and goals:
                    kept.add(old[1].strip())
    return kept


def declared(text, made):
    names = set()
    for line in text.splitlines():
        line = line[:comment_at(line)]
        if USE.match(line):
            m = USE.match(line)
            for item in (m.group(2) or "").split(","):
                if " as " in item:
                    names.add(item.split(" as ")[1].strip())
            continue
        for pattern in DECLARED:
            for m in pattern.finditer(line):
                names.add(m.group(1))
        for m in BOUND.finditer(line):
            names.update(m.group(1).split())
        for m in LAMBDA.finditer(line):
            names.update(m.group(1).split())
        for m in TUPLE.finditer(line):
            names.update(w.strip() for w in m.group(1).split(","))
        # the names on the left of a clause of a definition
        m = re.match(r"^\s*([^\s(){}:;,.=\u03bb]+)((?:\s+[^=:]*?)?)\s=\s", line)
        if m and not line.lstrip().startswith("use "):
            names.update(w for w in NAME.findall(m.group(2)))
            names.add(m.group(1))
        for m in re.finditer(r"([^\s()\[|]+(?:\s+[^()\[|\u21a6]*)?)\s\u21a6", line):
            names.update(NAME.findall(m.group(1))[1:])
    return {n for n in names if NAME.fullmatch(n)} - made


def answers(p):
    """Whether a file answers a function's goals: proofs/F/Answers.antt, and not specs/Invariants.antt."""
    return p.parent.name not in ("specs", "proofs") and p.name in ("Answers.antt", "Invariants.antt", "Proof.antt", "Choices.antt")


def made_names(p, text):
    """Names of goals and steps that the checker makes, in a file that answers them."""
    if not answers(p):
        return set()
    made = set(re.findall(r"\bgoal\.([\w'-]+)", text))
    made |= set(re.findall(r"\bc\.([\w'-]+)", text))
    return made


def rename(text, names, kept, line_filter=None):
    def one(m):
        w = m.group(0)
        if w in kept or w not in names:
            return w
        return names[w]

    out = []
    for line in text.splitlines(keepends=True):
        if line_filter and not line_filter(line):
            out.append(line)
            continue
        k = comment_at(line)
        m = USE.match(line[:k].rstrip("\n"))
        if m:
            path = m.group(1).split(".")
            own = path[0] == "Rattle" and len(path) > 1 and path[1] in OWN
            if not own or path[-1] in ("Goals", "Given", "Needs"):
                out.append(line)
                continue
        out.append(NAME.sub(one, line[:k]) + line[k:])
    return "".join(out)


class Clauses:
    """Which lines of a .rt file are clauses, ghost items or ghost imports."""

    def __init__(self):
        self.depth = 0

    def __call__(self, line):
        s = line.strip()
        if self.depth > 0:
            self.depth += line.count("{") - line.count("}")
            return True
        if re.match(r"(pub )?(ghost|requires|ensures|also_owns|decreases)\b", s) or s.startswith("#[tactic") or s.startswith("#![tactic"):
            self.depth = max(0, line.count("{") - line.count("}"))
            return True
        return False


def main():
    texts = {p: p.read_text(encoding="utf-8") for p in antt_files()}
    shared, local = {}, {}
    for p, t in texts.items():
        made = made_names(p, t)
        kept = imported_from_library(t)
        names = declared(t, made)
        local[p] = {n: new_name(n) for n in names - kept if new_name(n) != n}
        if not answers(p):
            shared.update(local[p])
    # the same new name for two old ones
    back = {}
    for p in texts:
        for n in declared(texts[p], set()):
            back.setdefault(shared.get(n, n), set()).add(n)
    together = {k: v for k, v in back.items() if len(v) > 1}
    if "--list" in sys.argv:
        for n in sorted(shared):
            print(f"{n} -> {shared[n]}")
        for k, v in sorted(together.items()):
            print(f"falls together: {k}: {sorted(v)}")
        left = {}
        for p, t in texts.items():
            kept = imported_from_library(t) | made_names(p, t)
            for line in t.splitlines():
                if USE.match(line):
                    continue
                for m in NAME.finditer(line[:comment_at(line)]):
                    w = m.group(0)
                    if "-" in w and w not in kept and w not in shared and w not in local[p]:
                        left.setdefault(w, set()).add(str(p.relative_to(ROOT)))
        for w in sorted(left):
            print(f"left: {w}: {sorted(left[w])[0]}")
        return
    for p, t in texts.items():
        kept = imported_from_library(t) | made_names(p, t)
        names = dict(shared)
        names.update(local[p])
        new = rename(t, names, kept)
        if new != t:
            p.write_text(new, encoding="utf-8")
    for p in sorted((ROOT / "crates").glob("*/src/**/*.rt")):
        t = p.read_text(encoding="utf-8")
        new = rename(t, shared, imported_from_library(t), Clauses())
        if new != t:
            p.write_text(new, encoding="utf-8")


main()
