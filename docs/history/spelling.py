#!/usr/bin/env python3
"""Respells this repository's own definitions and lemmas as today's Rattle spells names: words joined by _, types in camel case.

usage: docs/history/spelling.py      at the top of the repository, once, after the kit's port/port.py

It is history and is not kept up: it was used once, when the repository was brought to a newer Rattle; PORT.md says when. It
touches clauses and imports in crates/*/src, specs/ and proofs/, and what README.md and docs/ quote between backticks; never a
function's name, a string, a must-fail edit or an edit's name. It writes nothing, and says why, where two names would fall
together in one file.
"""

import pathlib
import re
import sys

# Every name with a hyphen that the repository itself defines. What Rattle makes (loop-x-preserved, type-inv) is not here.
OWN = """
All-bytes At-the-fastest Brakes-only-if-needed Braking-leaves By-one Can-stop Can-stop-stays Farthest-known Fresh-end
Grant-heard Grant-in-numbers Grant-to Hear-in-numbers In-range In-range-answers In-range-stays Known-stays
Known-within-blur Less-speed Next-of No-two Order-free Passed-on Published-check Published-polynomial Rear-past
Rear-past-stays Report-heard Report-true Silent-in-range Sound-answers Sound-stays Standing-sound Take-in-numbers
Tell-heard Tell-in-numbers Worked-day Worked-example
after-bit after-bits after-byte after-bytes after-hear after-hearing after-hearings after-mark after-take after-taking
after-tick all-a all-b and-then as-received as-word ask-spec bit-lt bit-mul bit-xor bits-low bits-lt bits-shift bits-xor
blur-max brake-max brake-min brakes-checked brakes-only-if-needed brakes-passed braking-leaves by-table can-be can-stop
can-stop-stays checked-heard checked-step controllers-max counts-checked crc32-lt crc32-of d-range distance-bound
distance-checked distance-in distance-low distance-max done-or-refused farthest-known first-refusal four-all fresh-end
front-after front-onward g-can grant-bytes grant-heard grant-in-numbers grant-spec has-number hear-in-numbers hear-one
hear-spec heard-a heard-b heard-back heard-can-be heard-m high-after in-high in-low in-range in-range-answers
in-range-stays its-day its-place its-train kind-back kind-known kind-of kind-only known-other known-stays
known-within-blur length-stays less-speed lets-checked low-after m-can made-heard may-be-for message-checked message-in
moved-spec no-two number-back numbers-done numbers-received numbers-sent numbers-written one-of-them only-twelve
only-written or-refused order-free own-taken pair-laws place-checked place-max published-check published-polynomial
read-in-numbers read-numbers rear-past-stays refusal-is-first refusal-numbers refused-stands report-bytes report-heard
report-one report-spec report-true reported-place restart-spec says-g second-train sent-or-refused silent-in-range
sound-answers sound-stays speed-checked speed-max speed-passed standing-sound step-ended step-met stopping-place
table-byte take-in-numbers taken-g taken-numbers taken-up tell-bytes tell-heard tell-in-numbers tell-spec tick-blur
tick-stops to-behind told-place train-checked train-max train-of trains-max unit-after unit-lets whole-after whole-stays
with-check with-message with-report with-whole word-listed word-on worked-day worked-example written-in-numbers
written-numbers xor-swap
""".split()

WORD = re.compile(r"[\w'′₁₂⁻]+(?:-[\w'′₁₂⁻]+)*")
# `bit_xor` is the library's word, so this lemma on it gets the name of what it is about.
OTHERWISE = {"bit-xor": "after_bit_xor"}
MODULE = re.compile(r"^use [\w.]+", re.M)
QUOTED = re.compile(r"`[^`\n]*`")
CLAUSE = re.compile(r"\s*(?:ghost use|requires|ensures)\b")


def respelled(name):
    if name in OTHERWISE:
        return OTHERWISE[name]
    parts = name.split("-")
    if name[0].isupper():
        return "".join(part[0].upper() + part[1:] for part in parts)
    return "_".join(parts)


NEW = {name: respelled(name) for name in OWN}


def turn(text):
    return WORD.sub(lambda word: NEW.get(word[0], word[0]), text)


def turned(path):
    """The file's text as it should be, and the new names that stood there already beside the old one."""
    text = path.read_text(encoding="utf-8")
    words = set(WORD.findall(MODULE.sub("", text)))
    if path.suffix == ".antt":
        clash = {NEW[name] for name in words & NEW.keys() if NEW[name] in words}
        return turn(text), clash
    if path.suffix == ".rt":
        return "".join(turn(line) if CLAUSE.match(line) else line for line in text.splitlines(True)), set()
    return QUOTED.sub(lambda quoted: turn(quoted[0]), text), set()


def main():
    top = pathlib.Path(__file__).resolve().parents[2]
    edits = {path.stem for path in top.glob("crates/*/must-fail/*.edit")}
    if edits & NEW.keys():
        sys.exit(f"spelling: an edit has the name of a definition: {sorted(edits & NEW.keys())}")
    if len(set(NEW.values())) != len(NEW):
        sys.exit("spelling: two names would fall together")
    paths = [path for kind in ("antt", "rt") for path in sorted(top.glob(f"crates/*/*/**/*.{kind}")) if "out" not in path.parts]
    paths += [top / "README.md", *sorted(top.glob("docs/*.md"))]
    results = [(path, *turned(path)) for path in paths]
    clashes = [f"{path.relative_to(top)}: {', '.join(sorted(clash))}" for path, _, clash in results if clash]
    if clashes:
        sys.exit("spelling: these names stand there in both spellings:\n" + "\n".join(clashes))
    changed = 0
    for path, text, _ in results:
        if text != path.read_text(encoding="utf-8"):
            path.write_text(text, encoding="utf-8")
            changed += 1
    print(f"spelling: {len(NEW)} names, {changed} files changed")


main()
