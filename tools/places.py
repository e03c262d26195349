#!/usr/bin/env python3
"""Lists the places that docs/DESIGN-PASS.md counts, in the sources of a commit.

usage: tools/places.py COMMIT [POINT]

What it prints are candidates: places of a shape that may be one of the points.
The page says which of them are."""
import collections
import re
import subprocess
import sys


def git(*words):
    return subprocess.run(["git", *words], check=True, capture_output=True, text=True).stdout


def sources(commit):
    for path in git("ls-tree", "-r", "--name-only", commit, "crates").splitlines():
        if re.fullmatch(r"crates/\w+/src/\w+\.rt", path):
            yield path, git("show", f"{commit}:{path}")


def functions(text):
    """Name, line, parameters, clauses and body of each function."""
    for match in re.finditer(r"^( *)(?:pub(?:\(crate\))? )?fn (\w+)", text, re.M):
        indent, name = match.group(1), match.group(2)
        rest = text[match.start():]
        end = re.search(rf"^{indent}\}}$", rest, re.M)
        if not end:
            continue
        whole = rest[: end.end()]
        open_body = re.search(rf"^{indent}\{{$", whole, re.M)
        if not open_body:
            inline = whole.find("{\n")
            head, body = whole[:inline], whole[inline + 1 : -1]
        else:
            head, body = whole[: open_body.start()], whole[open_body.end() : -1]
        depth, start, params = 0, head.find("(", head.find(name)), ""
        for at in range(start, len(head)):
            depth += {"(": 1, ")": -1}.get(head[at], 0)
            if depth == 0:
                params = head[start + 1 : at]
                break
        clauses = re.findall(r"^\s*requires(?: \w+)? \{ (.*) \}$", head, re.M)
        yield name, text[: match.start()].count("\n") + 1, params, clauses, body


def lines(commit, pattern):
    for path, text in sources(commit):
        for number, line in enumerate(text.splitlines(), 1):
            if not line.lstrip().startswith("//") and re.search(pattern, line):
                yield f"{path}:{number}: {line.strip()}"


def enums_flags_numbers(commit):
    yield from lines(commit, r"^\s*(pub(\(crate\))? )?enum ")
    yield from lines(commit, r"(->|\w:) bool\b")
    yield from lines(commit, r"=> \(?(\d+),|(tell|refuse)\([^)]*\b\d+|&\[\d+, code|\bcode: u8|fn code\(self\) -> u8|u8, usize\)")


def twins(commit):
    shapes = collections.defaultdict(list)
    for path, text in sources(commit):
        for name, number, _, _, body in functions(text):
            words = re.findall(r"\"[^\"]*\"|\w+|[^\s\w]", re.sub(r"//.*", "", body))
            if len(words) < 12:
                continue
            seen = {}
            shape = tuple(
                word if not re.match(r"[\w\"]", word) or word in KEYWORDS
                else seen.setdefault(word, f"${len(seen)}")
                for word in words
            )
            shapes[shape].append(f"{path}:{number}: {name}")
    for places in shapes.values():
        if len(places) > 1:
            yield " = ".join(places)


KEYWORDS = set("as break else false for fn if in let loop match mut return self true while Some None Ok Err".split())


def loops(commit):
    yield from lines(commit, r"^\s*('\w+: )?(for \w+ in [\w.]+\.\.|while |loop \{)")


def by_hand(commit):
    yield from lines(
        commit,
        r"[/%*] ?256\b|16777216|65536|Some\(_\) => true|None => false|=> Err\((Failure|Fault)|Ok\(\w+\) => Ok|Err\(\w+\) => (return )?Err\(|fn place\(|fn same_|^impl fmt::Display|^impl From|usize >= ",
    )


def together(commit):
    facts, pairs = collections.defaultdict(list), collections.defaultdict(list)
    for path, text in sources(commit):
        crate = path.split("/")[1]
        for name, number, params, clauses, _ in functions(text):
            place = f"{path}:{number}: {name}"
            for clause in clauses:
                facts[crate, re.sub(r"\.(old|now|new)\b", "", clause)].append(place)
            typed = sorted(set(re.findall(r"(\w+: &?(?:mut )?(?:\[\w+\]|\w+)(?:<[^>]*>)?)", params)))
            for first in range(len(typed)):
                for second in range(first + 1, len(typed)):
                    pairs[crate, typed[first], typed[second]].append(place)
    for (crate, fact), places in facts.items():
        if len(places) >= 3:
            yield f"{crate}: requires {fact}: {len(places)} functions"
    for (crate, one, other), places in pairs.items():
        if len(places) >= 3:
            yield f"{crate}: {one}, {other}: {len(places)} functions"


def buffers(commit):
    yield from lines(commit, r"^\s*(pub(\(crate\))? )?\w+: (\[\w+(<\w+>)?; \w+\]|Vec<u8>),|^\s*(pub(\(crate\))? )?(len|length|count|looked|filled|held): ")


def switches(commit):
    yield from lines(commit, r"\bdyn\b|\bfn\(|(table|stretch|adds|less|newest): (bool|Stretch)\b")


def proofs(commit):
    answers = [p for p in git("ls-tree", "-r", "--name-only", commit, "crates").splitlines() if "/proofs/" in p]
    total = sum(git("show", f"{commit}:{p}").count("\n") for p in answers)
    yield f"{len(answers)} proof files, {total} lines"


POINTS = {
    1: enums_flags_numbers,
    2: twins,
    3: loops,
    4: by_hand,
    5: together,
    6: buffers,
    7: switches,
    8: proofs,
}


def main(words):
    if not words:
        sys.exit(__doc__)
    commit = words[0]
    chosen = [int(words[1])] if len(words) > 1 else list(POINTS)
    for point in chosen:
        found = list(POINTS[point](commit))
        print(f"{point}. {len(found)}")
        for place in found:
            print("   ", place)


main(sys.argv[1:])
