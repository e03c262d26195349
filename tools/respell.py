#!/usr/bin/env python3
"""Spells the definitions and lemmas of this repository in snake case, and its types in upper camel case.

usage: tools/respell.py [--check]

It goes by what the .antt files of crates/ declare: valueOf and value-of become value_of, Round-trip becomes RoundTrip. Each whole word that is
spelled like such a name turns, in .antt and .rt files, but for quoted text and the library's names. What Rattle makes of the source keeps its name:
what stands right behind a dot of c, w, l, g or goal in a function's own proof files, and what is imported from a function's Goals or Given. Where two
names would fall together the script says so and writes nothing. --check writes nothing.
"""

import collections
import os
import re
import sys

WORD = r'[^\s(){}.;,@"«»`\[\]|]+'
DECLARED = re.compile(rf'^ *((?:(?:pub|abbrev|unfoldable|axiom|data|record) )*)({WORD})((?: [({{][^\n]*?[)}}])*) :(?: (.*))?$')
ALIAS = re.compile(rf'(?<![^\s{{,])({WORD}) as ({WORD})')
GHOST_USE = re.compile(r'ghost use [^;]*;')
HEAD = re.compile(r"(?:c|w|l|g|goal)[0-9']*$")
HOLDERS = ("args", "initial", "fn", "new", "old", "auto", "ranges", "row")
MADE = re.compile(r'^use Rattle\.\w+\.proofs\.\S*\.(?:Goals|Given)\.\{([^}]*)\}', re.M)
LIBRARY = re.compile(r"^(?:ghost )?use (?:Rattle\.std|mathlib|native|lib|Prim)\.[\w.]*\{([^}]*)\}", re.M)
QUIET = re.compile(r'(?m:^(?:pub |ghost )?use [^\s{;]+)|"(?:[^"\\\n]|\\.)*"|(?<![^\s(){}.;,@"«»])(?:--|//)[^\n]*', re.S)
# lemmas that would have the name of the definition that they are about, or of one beside it
LEMMAS = """
action-bytes after-of behind-length behind-list behind-name behind-yes bits-of bits_of_number bytes-from comes-in edit-bytes entry-bytes has_room header_of
in_place is-end is-sign length-bytes more-bits next-by next-header node_at nothing-whole operand-by operand-bytes or-first pattern-bytes patterns-bytes
sign_at update-writes whole-bytes
""".split()
# names of two crates of which neither stands on the other
APART = ("four_bytes", "two_bytes")


def files(root):
    for folder, dirs, names in os.walk(os.path.join(root, "crates")):
        dirs[:] = sorted(d for d in dirs if d != "out")
        for name in sorted(names):
            if name.endswith((".antt", ".rt")):
                yield os.path.join(folder, name)


def respelled(name):
    if name in LEMMAS:
        return name.replace("-", "_") + "_lem"
    if name[:1].isupper():
        return "".join(part[:1].upper() + part[1:] for part in name.split("-"))
    return re.sub(r"(?<=[a-z0-9])[A-Z]", lambda m: "_" + m[0].lower(), name).replace("-", "_")


def is_answers(path):
    return os.path.basename(path) in ("Answers.antt", "Invariants.antt", "Proof.antt")


def declared(path, text):
    for line in text.split("\n"):
        m = DECLARED.match(line)
        if m and m[2] not in ("let", "use", "module", "in", "_", "λ") and not line.lstrip().startswith(("let ", "--", "λ", "|")):
            if not (is_answers(path) and re.match(r"(?:goal|given)\.", m[4] or "")):
                yield m[2]


def turned(text, table, kept, count, in_source, in_answers):
    """The text with each word of the table turned."""

    def words(part):
        out, at, chain = [], 0, []
        for m in re.finditer(WORD, part):
            dotted = part[m.start() - 1 : m.start()] == "." and m.start() > 0
            chain = chain + [m[0]] if dotted else [m[0]]
            made = in_answers and len(chain) >= 2 and HEAD.match(chain[0]) and (len(chain) == 2 or (len(chain) == 3 and chain[1] in HOLDERS))
            new = table.get(m[0])
            if new and m[0] not in kept and not made and not (in_source and m[0] in LEMMAS):
                out.append(part[at : m.start()] + new)
                at = m.end()
                count[m[0]] += 1
            elif new and made:
                count["stays " + m[0]] += 1
        return "".join(out) + part[at:]

    out, at = [], 0
    for m in QUIET.finditer(text):
        out.append(words(text[at : m.start()]))
        quiet = m[0]
        if quiet.startswith(("--", "//")):
            # a comment that names a definition goes with it, where the name can be no plain word
            quiet = re.sub(WORD, lambda w: table.get(w[0], w[0]) if re.search(r"[a-z][A-Z]", w[0]) else w[0], quiet)
        out.append(quiet)
        at = m.end()
    return "".join(out) + words(text[at:])


def is_function(name, path, text):
    """Whether a word of the file is only a function's name, or a folder's of proofs: a definition may share it."""
    if path.endswith(".antt"):
        return not re.search(rf"(?<![\w.'-]){name}(?![\w'-])", text) or f"/{name}/" in path
    if not re.search(rf"(?<!\.)\b{name}\b", text):
        return True
    return re.search(rf"\bfn {name}\b", text) and not re.search(rf"\b{name}:(?!:)|\blet (?:mut )?{name}\b|\|{name}\|", text)


def main():
    root = os.path.dirname(os.path.dirname(os.path.abspath(__file__)))
    texts = {path: open(path, encoding="utf-8").read() for path in files(root)}
    names = collections.defaultdict(set)
    for path, text in texts.items():
        if path.endswith(".antt"):
            for name in declared(path, text):
                names[name].add(path)
            for m in ALIAS.finditer(text):
                names[m[2]].add(path)
        else:
            for use in GHOST_USE.finditer(text):
                for m in ALIAS.finditer(use[0]):
                    names[m[2].rstrip("}")].add(path)
    table = {name: respelled(name) for name in names if respelled(name) != name and re.match(r"[A-Za-z]", name)}
    bad = 0
    meets = collections.defaultdict(list)
    for old, new in table.items():
        meets[new].append(old)
    all_words = {path: set(re.findall(WORD, text)) for path, text in texts.items()}
    for new, olds in sorted(meets.items()):
        if len(olds) > 1:
            print(f"falls together: {' '.join(sorted(olds))} -> {new}: " + "; ".join(",".join(sorted(os.path.relpath(p, root) for p in names[o])) for o in sorted(olds)))
            bad += 1
        if new in names and new not in APART and new not in LEMMAS:
            print(f"is declared already: {olds} -> {new}: {sorted(os.path.relpath(p, root) for p in names[new])} / {[sorted(os.path.relpath(p, root) for p in names[o]) for o in olds]}")
            bad += 1
        else:
            for path, words in all_words.items():
                if new in words and new not in LEMMAS and any(o in words for o in olds) and not is_function(new, path, texts[path]):
                    print(f"a word of the same file: {olds} -> {new}: {os.path.relpath(path, root)}")
                    bad += 1
    count = collections.Counter()
    for path, text in texts.items():
        kept = {w for m in MADE.finditer(text) for w in re.findall(WORD, m[1])}
        # a name of a library's is the library's
        kept |= {w for m in LIBRARY.finditer(text) for w in re.findall(WORD, m[1])}
        if is_answers(path):
            kept |= {m[1] for m in re.finditer(rf"(?m)^(?:abbrev )?pub ({WORD}) : goal\.", text)}
        new = turned(text, table, kept, count, path.endswith(".rt"), is_answers(path))
        if new != text and "--check" not in sys.argv and not bad:
            with open(path, "w", encoding="utf-8") as f:
                f.write(new)
    for word, n in sorted(count.items()):
        if word.startswith("stays ") and word[6:] in table:
            print(f"{word} ({n})")
    print(f"{len(table)} names, {sum(n for w, n in count.items() if not w.startswith('stays '))} places, {bad} to look at")
    return 1 if bad else 0


if __name__ == "__main__":
    sys.exit(main())
