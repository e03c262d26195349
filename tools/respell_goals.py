#!/usr/bin/env python3
"""Spells the names that Rattle makes of the source as today's Rattle makes them, in the proofs of this repository.

usage: tools/respell_goals.py CRATE..

A name of the source keeps its underscores in a goal, as in returns-then-is_some for returns-then-is-some, and so does a word of Rattle's own, as in
overflow_add-x and in_ok-y. Turned are the names behind goal. and those right behind a dot of c, w, l and g, in Answers.antt and Invariants.antt.
"""

import os
import re
import sys

OWN = """overflow_add overflow_sub overflow_mul overflow_cast overflow_shl overflow_shr overflow_div overflow_neg slice_bounds in_ok in_err in_default
invariant_of from_residual index_mut into_iter type_inv add_assign sub_assign deref_mut""".split()
WORD = r'[^\s(){}.;,@"«»]+'


def names_of(crate):
    found = set(OWN)
    for folder, _, files in os.walk(os.path.join(crate, "src")):
        for name in files:
            if name.endswith(".rt"):
                with open(os.path.join(folder, name), encoding="utf-8") as f:
                    text = re.sub(r"//[^\n]*|ghost use [^;]*;|^ *(?:requires|ensures|ghost) .*$", "", f.read(), flags=re.M)
                    found |= set(re.findall(r"\b[A-Za-z]\w*_\w+\b", text))
    return sorted(found, key=lambda n: (-n.count("_"), n))


def turner(names):
    by_dashes = {n.replace("_", "-"): n for n in reversed(names)}
    longest = max(n.count("_") for n in names) + 1

    def turn(word):
        parts, out, at = word.split("-"), [], 0
        while at < len(parts):
            for size in range(min(longest, len(parts) - at), 1, -1):
                run = "-".join(parts[at : at + size])
                if run in by_dashes:
                    out.append(by_dashes[run])
                    at += size
                    break
            else:
                out.append(parts[at])
                at += 1
        return "-".join(out)

    return turn


def turned(text, turn):
    renamed = {m[1]: turn(m[1]) for m in re.finditer(rf"\bgoal\.({WORD})", text)}
    text = re.sub(rf"\bgoal\.({WORD})", lambda m: "goal." + renamed[m[1]], text)
    for old, new in renamed.items():
        if old != new:
            text = re.sub(rf"(?<![^\s(){{}};,]){re.escape(old)}(?![^\s(){{}}.;,])", new, text)
    text = re.sub(rf"(?<![\w.'-])([cwlg][0-9']*)\.({WORD})", lambda m: f"{m[1]}.{turn(m[2])}", text)
    return re.sub(rf"(?<![\w.'-])([cwlg][0-9']*)\.(args|initial|fn|new|old|auto|ranges)\.({WORD})", lambda m: f"{m[1]}.{m[2]}.{turn(m[3])}", text)


def main():
    root = os.path.dirname(os.path.dirname(os.path.abspath(__file__)))
    for name in sys.argv[1:]:
        crate = os.path.join(root, "crates", name)
        turn, count = turner(names_of(crate)), 0
        for folder, _, files in os.walk(os.path.join(crate, "proofs")):
            for file in files:
                if file in ("Answers.antt", "Invariants.antt"):
                    path = os.path.join(folder, file)
                    with open(path, encoding="utf-8") as f:
                        text = f.read()
                    new = turned(text, turn)
                    if new != text:
                        count += 1
                        with open(path, "w", encoding="utf-8") as f:
                            f.write(new)
        print(f"{name}: {count} files")


if __name__ == "__main__":
    main()
