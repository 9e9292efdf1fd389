#!/usr/bin/env python3
"""Brings the names of goals and steps in proof files to the checker's: a name of the source keeps its underscores.

    python3 tools/goal_names.py         rewrites the answers of every crate in place, at the top of the repository
"""
import pathlib
import re

ROOT = pathlib.Path(__file__).resolve().parent.parent
FROM_LIBRARY = """saturating_sub saturating_add checked_add checked_sub copy_within rotate_left rotate_right is_empty
to_le_bytes split_at split_at_mut copy_from_slice is_some is_none unwrap_or as_slice as_str wrapping_add from_digit is_ascii_digit
invariant_of overflow_add overflow_sub overflow_mul overflow_cast nonzero_div slice_bounds offset_bounds way_told way_write range_from""".split()
TOKEN = re.compile(r"[^\W\d][\w'\u2032\u2080-\u2089\u207a*+\u00b7-]*", re.UNICODE)


def identifiers():
    names = set(FROM_LIBRARY)
    for p in (ROOT / "crates").glob("*/src/**/*.rt"):
        names.update(w for w in re.findall(r"\b[a-z][a-z0-9]*(?:_[a-z0-9]+)+\b", p.read_text(encoding="utf-8")))
    return sorted(names, key=lambda n: (-n.count("_"), n))


def main():
    names = identifiers()
    joined = [(re.compile(r"(?<![A-Za-z0-9_])" + n.replace("_", "-") + r"(?![A-Za-z0-9_])"), n) for n in names]

    def one(m):
        w = m.group(0)
        if w in kept:
            return w
        w = w.replace("\u00b7", "-")
        w = re.sub(r"\+(then|else|in|after)_([a-z0-9_]+)", lambda k: "+" + k.group(1) + "-" + k.group(2).replace("_", "-"), w)
        if "-" in w:
            for pattern, n in joined:
                if n.replace("_", "-") in w:
                    w = pattern.sub(n, w)
        return w

    for p in sorted((ROOT / "crates").glob("*/proofs/**/*.antt")):
        if p.parent.name == "proofs":
            continue
        text = p.read_text(encoding="utf-8")
        kept = set()
        for line in text.splitlines():
            m = re.match(r"\s*use (Rattle\.std[\w.]*|Prim[\w.]*|mathlib[\w.]*)\.\{(.*)\}", line)
            if m:
                kept.update(w.strip().split(" as ")[0] for w in m.group(2).split(","))
        out = []
        for line in text.splitlines(keepends=True):
            if re.match(r"\s*use (Rattle\.std|Prim|mathlib)", line) or line.lstrip().startswith("--"):
                out.append(line)
            else:
                out.append(TOKEN.sub(one, line))
        new = "".join(out)
        if new != text:
            p.write_text(new, encoding="utf-8")


main()
