"""The edits of tools/edits: those that the gate does not try, and tools/mutants does. tools/edits/CRATE/NAME.edit is written as
the edits in crates/CRATE/must-fail are. As a program this tells of each whether it can still be applied."""

import os
import sys

sys.dont_write_bytecode = True
ROOT = os.path.dirname(os.path.dirname(os.path.realpath(__file__)))
FOLDER = "tools/edits"


class Unfit(Exception):
    """Why an edit cannot be applied."""


class Stored:
    """One of these edits. It has the words of those that tools/mutant_edits.py finds."""

    is_stored = True

    def __init__(self, crate, file):
        self.crate, self.file = crate, file
        with open(f"{ROOT}/{FOLDER}/{crate}/{file}", encoding="utf-8") as it:
            self.text = it.read()

    def name(self):
        return self.file

    def place(self):
        return f"{FOLDER}/{self.crate}/{self.file}"

    def told(self, _):
        return self.place()

    def has(self, word):
        return word in self.file or word in self.text

    def texts(self, folder):
        """The files that it changes, by their path in the crate's folder, each as it then reads."""
        path, old, made = "", "", {}
        for line in self.text.splitlines():
            word, _, rest = line.partition(":")
            rest = rest.removeprefix(" ")
            if word == "file":
                path = rest.strip()
            elif word == "old":
                old = rest
            elif word == "new":
                if not path or not old:
                    raise Unfit("a line 'new:' has no 'file:' and no 'old:' before it")
                text = made[path] if path in made else read(folder, path)
                if text.count(old) != 1:
                    raise Unfit(f"{path} has {text.count(old)} times, and not once: {old}")
                made[path], old = text.replace(old, rest), ""
        if not made or all(text == read(folder, path) for path, text in made.items()):
            raise Unfit("it changes nothing")
        return made


def read(folder, path):
    if not path.startswith(("src/", "specs/", "proofs/")) or ".." in path.split("/"):
        raise Unfit(f"{path} is no file of src/, specs/ or proofs/")
    try:
        with open(f"{folder}/{path}", encoding="utf-8") as it:
            return it.read()
    except OSError as error:
        raise Unfit(f"{path} cannot be read: {error.strerror}") from error


def listed(folder):
    return sorted(os.listdir(folder)) if os.path.isdir(folder) else []


def of_crate(crate):
    return [Stored(crate, it) for it in listed(f"{ROOT}/{FOLDER}/{crate}") if it.endswith(".edit")]


def fault(crate, file):
    """Why what lies in tools/edits is no edit of a crate, if it is none."""
    if not os.path.isdir(f"{ROOT}/crates/{crate}"):
        return f"there is no crate {crate}"
    if not file.endswith(".edit"):
        return "it is no edit: its name does not end in .edit"
    if os.path.exists(f"{ROOT}/crates/{crate}/must-fail/{file}"):
        return f"crates/{crate}/must-fail has one of that name too"
    try:
        Stored(crate, file).texts(f"{ROOT}/crates/{crate}")
    except Unfit as why:
        return str(why)
    return ""


def main():
    found = [(crate, file) for crate in listed(f"{ROOT}/{FOLDER}") for file in listed(f"{ROOT}/{FOLDER}/{crate}") or [""]]
    faults = {it: fault(*it) for it in found}
    for (crate, file), why in faults.items():
        if why:
            print(f"{FOLDER}/{crate}/{file}: {why}")
    sys.exit(1 if any(faults.values()) else 0)


if __name__ == "__main__":
    main()
