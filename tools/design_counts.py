"""Lists the places in crates/*/src/ where older forms of code stand or may stand, by point of docs/DESIGN-PASS.md.

    python3 tools/design_counts.py [COMMIT]

A place is one to look at and no verdict. Comments, imports and clauses are left out, but for point 5, which counts clauses.
"""
import collections
import re
import subprocess
import sys

# The point, what is looked for, and the text that shows it.
KINDS = [
    (1, "flags in a struct", r"^ *(?:pub(?:\(crate\))? )?\w+: bool,"),
    (1, "a number for a pad or a group", r"\b(?:pad|group): u(?:8|16)\b"),
    (1, "a result with a number or a flag for none", r"\bfn (?:find|source_pad|push)\b"),
    (1, "a match or an if that hands on an Option or a Result", r"Ok\((\w+)\) => Ok\(\1\)|Some\((\w+)\) => (?:Ok\(\2|Some\(\2|Some\(\w+\.)|if here\.reached \{"),
    (3, "a loop that counts or jumps", r"^ *(?:while (?!let)|for \w+ in (?!\[)[^{\n]*\.\.)"),
    (3, "a loop that searches, counts or fills", r"\bif (?:\*b|bytes\[i\]) == byte|\bif rectangle\.bars|table\[i\] = value"),
    (4, "a number or a word for each variant", r"=> (?:\d+|\"\w+\"),$"),
    (4, "a comparison of lengths, offers or records by their fields", r"(?:units|length) (?:<=?|==) (?:\w+\.(?:units|length)|\d+|top|OLD_OFFER\.length)\b(?! \{)"),
    (4, "a cell written out", r"\bCell \{\s*height(?:: 0)?,\s*pad(?:: \d)?,\s*barred: \w+,?\s*\}"),
    (6, "a length or a place beside a buffer", r"^ *(?:pub(?:\(crate\))? )?(?:count|len|place): usize,"),
    (6, "an array of a fixed number in a struct", r"^ *(?:pub(?:\(crate\))? )?\w+: \[\w+; \w+\],"),
    (7, "a function pointer, a dyn, a table of functions", r"\bdyn |: fn\(|\[fn\("),
]


def run(*command):
    """What a command of git prints."""
    return subprocess.run(["git", *command], capture_output=True, text=True, check=True).stdout


def sources(commit):
    """The source files at a commit, or in the checkout."""
    if commit is None:
        return {name: open(name).read() for name in run("ls-files", "crates/*/src/*.rt").split()}
    names = [name for name in run("ls-tree", "-r", "--name-only", commit, "crates").split() if re.fullmatch(r"crates/\w+/src/\w+\.rt", name)]
    return {name: run("show", f"{commit}:{name}") for name in names}


def code(text):
    """The text with comments, imports and clauses blanked, line by line."""
    return "\n".join("" if re.match(r"\s*(//|requires |ensures |ghost |use |pub use )", line) else line for line in text.split("\n"))


def repeated_facts(files):
    """The short clauses that stand at three and more functions of a crate, old and new alike."""
    facts = collections.defaultdict(list)
    for name, text in files.items():
        for clause in re.finditer(r"^ *(?:requires|ensures) (?:\w+ )?\{ (.{,139}) \}$", text, re.M):
            facts[name.split("/")[1], re.sub(r"\.(old|new|now)\b", "", clause.group(1))].append(name)
    return {key: len(places) for key, places in facts.items() if len(places) >= 3}


def long_lists(files):
    """The functions of six and more parameters."""
    for name, text in files.items():
        for head in re.finditer(r"\bfn (\w+)[^(;{]*\(([^()]*(?:\([^()]*\)[^()]*)*)\)", text):
            parameters = len(re.findall(r"\b(?:self\b|\w+: )", head.group(2)))
            if parameters >= 6:
                yield f"{name}: {head.group(1)}: {parameters}"


def show(title, places):
    """A count and its places."""
    print(f"{title}: {len(places)}")
    for place in places:
        print(f"    {place}")


def main():
    files = sources(sys.argv[1] if len(sys.argv) > 1 else None)
    for point, what, pattern in KINDS:
        places = []
        for name, text in files.items():
            plain = code(text)
            for hit in re.finditer(pattern, plain, re.M):
                start = hit.start() + len(hit.group()) - len(hit.group().lstrip())
                line = plain.count("\n", 0, start)
                places.append(f"{name}:{line + 1}: {plain.splitlines()[line].strip()}")
        show(f"point {point}: {what}", places)
    facts = sorted(repeated_facts(files).items())
    show("point 5: a fact at three and more functions of a crate", [f"{crate}: {times} times: {fact}" for (crate, fact), times in facts])
    show("point 5: a function of six and more parameters", list(long_lists(files)))


if __name__ == "__main__":
    main()
