#!/usr/bin/env python3
"""Brings the repository's own definitions and lemmas to today's spelling: words in snake case, types in camel case.

usage, at the top of the repository:
    python3 tools/respell.py          says this and what it would change, and changes nothing
    python3 tools/respell.py write    changes the files
    python3 tools/respell.py --help   says this alone

It collects the names with a hyphen that specs/ and proofs/ declare: definitions, lemmas, records and their fields, and of a
file of answers the names that are not pub. It writes each anew wherever it stands in specs/, proofs/, src/ and the documents,
but not in strings, comments and prose. Names that the toolchain makes, as those of goals, and names of its library stay.
It stops, and changes nothing, where two names would fall together.
"""

import os
import re
import sys

NAME = r"[A-Za-z][\w']*(?:-[\w']+)+"
MARKS = r"^(?:pub |abbrev |unfoldable |record )*"
DECLARED = re.compile(MARKS + "(" + NAME + r") (?::|\(|\{)", re.M)
FIELD = re.compile(r"^  (?:pub )?(" + NAME + r") :", re.M)
RECORD = re.compile(r"^pub record (" + NAME + r")\b", re.M)
PRIVATE = re.compile(r"^(?:abbrev |unfoldable )*(" + NAME + r") :", re.M)
PLAIN = re.compile(MARKS + r"([A-Za-z][\w']*) (?::|\(|\{)", re.M)
PLAIN_FIELD = re.compile(r"^  (?:pub )?([A-Za-z][\w']*) :", re.M)
LIBRARY = re.compile(r"^(?:pub |ghost )*use Rattle\.(?:std|core|alloc)[\w.]*\.\{([^}]*)\}", re.M)
CODE_PROSE = r'("(?:[^"\\\n]|\\.)*"|//[^\n]*)'
PROOF_PROSE = r"((?<![\w'])--[^\n]*)"


def files():
    for top in ("crates", "docs", "README.md"):
        if os.path.isfile(top):
            yield top
        for folder, dirs, names in os.walk(top):
            dirs[:] = sorted(d for d in dirs if d not in ("out", "must-fail"))
            for name in sorted(names):
                if name.endswith((".antt", ".rt", ".md")):
                    yield os.path.join(folder, name)


def is_made(path):
    """Files whose pub names at the left are goals, which the toolchain names."""
    return os.path.basename(path) in ("Answers.antt", "Invariants.antt", "Choices.antt", "Proof.antt")


def read(path):
    with open(path, encoding="utf-8") as f:
        return f.read()


def found(patterns, texts):
    return {name for text in texts for pattern in patterns for name in pattern.findall(text)}


def library_names(texts):
    return {n.split(" as ")[-1].strip() for names in found([LIBRARY], texts) for n in names.split(",")}


def new_name(old):
    words = old.split("-")
    if old[0].isupper():
        return "".join(w[0].upper() + w[1:] for w in words)
    return "_".join(words)


def renaming(texts):
    """Each name with its new one, and a line for each that would fall together with another."""
    proofs = {p: t for p, t in texts.items() if p.endswith(".antt")}
    declaring = [t for p, t in proofs.items() if not is_made(p)]
    answering = [t for p, t in proofs.items() if is_made(p)]
    library = library_names(texts.values())
    own = found([DECLARED, FIELD, RECORD], declaring) | found([PRIVATE], answering)
    taken = library | found([PLAIN, PLAIN_FIELD], declaring)
    turned, clashes = {}, []
    for name in sorted(own - library):
        to = new_name(name)
        if to in taken:
            clashes.append(f"falls together: {name} and another {to}")
        taken.add(to)
        turned[name] = to
    return turned, clashes


def pieces(path, text):
    """The text in pieces, each with whether it is prose: a string, a comment, or in a document what has no backticks."""
    if path.endswith(".md"):
        return [(part, i % 2 == 0) for i, part in enumerate(re.split(r"(`[^`\n]*`)", text))]
    prose = CODE_PROSE if path.endswith(".rt") else PROOF_PROSE
    return [(part, i % 2 == 1) for i, part in enumerate(re.split(prose, text))]


def respelled(path, text, turned):
    longest_first = sorted(turned, key=len, reverse=True)
    word = re.compile(r"(?<![\w'\-])(" + "|".join(map(re.escape, longest_first)) + r")(?![\w'\-])")
    return "".join(part if is_prose else word.sub(lambda m: turned[m.group(1)], part) for part, is_prose in pieces(path, text))


def respell(is_to_write):
    """Says each name with its new one, and each file that changes with them; writes the files only where it is told to."""
    texts = {p: read(p) for p in files()}
    turned, clashes = renaming(texts)
    if clashes:
        sys.exit("\n".join(clashes))
    new_texts = {p: respelled(p, text, turned) if turned else text for p, text in texts.items()}
    changed = [p for p in texts if new_texts[p] != texts[p]]
    if is_to_write:
        for path in changed:
            with open(path, "w", encoding="utf-8") as f:
                f.write(new_texts[path])
    print(f"{len(turned)} names")
    for name, to in turned.items():
        print(f"  {name} -> {to}")
    print(f"{len(changed)} files {'changed' if is_to_write else 'would change'}")
    for path in changed:
        print(f"  {path}")


def main():
    words = sys.argv[1:]
    if words in ([], ["-h"], ["--help"]):
        print(__doc__)
    elif words != ["write"]:
        sys.exit(__doc__)
    if words in ([], ["write"]):
        respell(is_to_write=bool(words))


if __name__ == "__main__":
    main()
