#!/usr/bin/env python3
"""Lists, by point, the lines of src/ (and for the last point of proofs/) that DESIGN-PASS.md speaks of, with counts.

usage: docs/history/places.py [COMMIT]      without a commit: the files as they lie here

It is history and is not kept up, as that page is. It lists what could be a place, by form alone; which of the lines are
places is judged by reading them.
"""

import os
import re
import subprocess
import sys
from collections import defaultdict

# For each point: what is listed, and the form of a line by which it is.
LINES = [
    ("1 enums", r"^\s*(pub )?enum "),
    ("1 flags", r"\bbool\b"),
    ("1 constant numbers", r"const [A-Z_]+: u(8|16|32|64)\b"),
    ("1 numbers matched or made by a match", r"^\s*([A-Z_]+|\d+) => |=> ([A-Z_]+|\(\d.*\)),$"),
    ("2 conditions that only refuse", r"return Err\("),
    ("3 loops over numbers, and those with no `for`", r"^\s*(while|loop)\b|^\s*for .* in [\w.()]+\.\."),
    ("3 loops over items", r"^\s*for .* in (?![\w.()]+\.\.)"),
    ("3 variables that change", r"\blet mut |\(mut |, mut "),
    ("3 indices written as numbers, lengths compared", r"\[\d+\]|\[\w+ \+ \d+\]|\.len\(\) ?([<>]|[=!]=)"),
    ("4 impls", r"^\s*impl\b.* for "),
    ("4 conversions", r" as (u8|u16|u32|u64|usize)\b|Err\(_\) =>|Ok\((\w+)\) => (Ok|Some)\(|\((\w+)\) => Some\(\4\)"),
    ("4 comparisons that choose", r"if (\w+) [<>]=? (\w+) \{ (\1|\2) \} else"),
    ("6 arrays and lengths", r"\[[^\]]+; [A-Z_0-9]+\]|\blen(gth)?: (usize|u64)"),
    ("7 steps as values", r"\bFn(Once|Mut)?\b|\bdyn\b|\bfn\(|\|[\w, ]+\| |and_then\("),
    ("7 switches", r"\bmatch "),
]
# Words that stay as they are where every name is made alike.
WORDS = set("let mut if else match for in while return self Self Ok Err Some None".split())


def git(*arguments):
    return subprocess.run(["git", *arguments], check=True, capture_output=True, text=True).stdout


# The files of a part of every crate, each with its text.
def files(commit, part, ending):
    if commit:
        listed = git("ls-tree", "-r", "--name-only", commit)
    else:
        listed = git("ls-files", "--cached", "--others", "--exclude-standard")
    for path in sorted(listed.split()):
        if not re.match(rf"crates/\w+/{part}/", path) or not path.endswith(ending):
            continue
        if commit:
            yield path, git("show", f"{commit}:{path}")
        elif os.path.exists(path):
            yield path, open(path).read()


def lines(sources, pattern):
    for path, text in sources:
        for number, line in enumerate(text.split("\n"), 1):
            if re.match(r"\s*(//|ghost use|ensures|requires)", line):
                continue
            if re.search(pattern, line):
                yield f"{path}:{number}: {line.strip()}"


# Each function: its place with its name, its parameters, its signature, its clauses and its body.
def functions(sources):
    for path, text in sources:
        rows = text.split("\n")
        for at, row in enumerate(rows):
            found = re.match(r"( *)(?:pub )?fn (\w+)", row)
            if not found:
                continue
            indent, name = found.groups()
            end = next(i for i in range(at, len(rows)) if rows[i] in (indent + "}", indent + "{}"))
            start = next((i for i in range(at, end) if rows[i] == indent + "{"), None)
            if start is None:
                start = next(i for i in range(at, end + 1) if rows[i].endswith(("{", "{}")))
            head = "\n".join(rows[at : start + (rows[start] != indent + "{")])
            signature, *clauses = re.split(r"\n\s*(?=ensures|requires)", head)
            body = "\n".join(rows[start + 1 : end])
            yield f"{name} {path}:{at + 1}", signature.split(name, 1)[1], clauses, body


# A text with every name, number and string made alike: twins have the same.
def shape(text):
    tokens = re.findall(r'"[^"]*"|\w+(?:::\w+)*|[^\s\w]', re.sub(r"//.*", "", text))
    return " ".join("x" if re.match(r'[\w"]', token) and token not in WORDS else token for token in tokens)


# What is found more than once, each with its places.
def repeated(found):
    places = defaultdict(list)
    for what, place in found:
        places[what].append(place)
    return [f"{len(at)} times {what}: {', '.join(at)}" for what, at in sorted(places.items()) if len(at) > 1]


def report(title, found):
    found = list(found)
    print(f"{title}: {len(found)}")
    for place in found:
        print(f"    {place}")


def main(commit):
    os.chdir(os.path.join(os.path.dirname(os.path.abspath(__file__)), "..", ".."))
    source = list(files(commit, "src", ".rt"))
    for title, pattern in LINES:
        report(title, lines(source, pattern))
    found = list(functions(source))
    report("2 functions of one shape", repeated((shape(head + body), place) for place, head, _, body in found if body))
    report("2 bodies of one shape", repeated((shape(body), place) for place, _, _, body in found if body))
    state = re.compile(r"\b(self|unit|controller|message)\b")
    report("5 clauses", repeated((state.sub("s", clause), place) for place, _, clauses, _ in found for clause in clauses))
    several = [(head.split("->")[0], place) for place, head, _, _ in found if head.count(":") > 1]
    report("5 parameters", repeated((" ".join(head.split()), place) for head, place in several))
    proofs = list(files(commit, "proofs", ".antt"))
    by_hand = re.compile(r"(Answers|Invariants|Proof)\.antt$")
    report("8 proofs of functions", (f"{path}: {text.count(chr(10))} lines" for path, text in proofs if by_hand.search(path)))
    print(f"8 lines of proofs: {sum(text.count(chr(10)) for _, text in proofs)}")


main(sys.argv[1] if len(sys.argv) > 1 else None)
