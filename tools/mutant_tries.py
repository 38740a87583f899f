"""Has edits proved, some at a time, each in a copy of the crate. Called by tools/mutants."""

import os
import re
import shutil
import signal
import subprocess
import sys
import tempfile
from concurrent.futures import FIRST_COMPLETED, ThreadPoolExecutor, wait

from stored_edits import Unfit

PROVED = "STILL PROVED"
EQUIVALENT = "equivalent"
REFUSED = "refused"
FILE_ONLY = "only a proof file"
NOT_RUST = "does not compile"
UNFIT = "cannot be applied"
UNKNOWN = "not tried to its end"
OUTCOMES = [REFUSED, EQUIVALENT, PROVED, FILE_ONLY, UNKNOWN, NOT_RUST, UNFIT]
COUNTED = [REFUSED, EQUIVALENT, PROVED]
# A proof file that names what an edit took away, or that was not admitted because of it.
FILE_UNFIT = re.compile(r"(note: )?(\./)?proofs/.*(has no field|is not in scope|has no `|was not admitted)")
# The prover came to a limit of its own, and so to no verdict.
LIMIT = re.compile(r"antt ran out of|(outgrew the memory limit|stopped at the step limit) \(")
SECONDS = 900


class Copy:
    """A copy of the crate and of those below it, with what was proved of them. It is one of several: each tries one edit at a time."""

    def __init__(self, crate):
        self.crate = crate
        self.top = tempfile.mkdtemp(prefix="mutants-")
        self.folder = f"{self.top}/crates/{crate}"
        self.running = None
        self.is_over = False

    def fill(self, root, below):
        """Copies what stands in the tree."""
        crate = self.crate
        with open(f"{root}/crates.txt", encoding="utf-8") as lines, open(f"{self.top}/crates.txt", "w", encoding="utf-8") as it:
            it.writelines(line for line in lines if line.partition(":")[0].split()[:1] and line.split()[0].rstrip(":") in [*below, crate])
        for name in [*below, crate]:
            shutil.copytree(f"{root}/crates/{name}", f"{self.top}/crates/{name}", symlinks=True)
        shutil.rmtree(f"{self.folder}/must-fail", ignore_errors=True)
        self.take_away_proofs_by_hand()

    def take_away_proofs_by_hand(self):
        """A proof by hand follows the code word by word, so every edit would only make it unfit. Without it the function is
        proved by what the prover makes itself, and an edit is refused where a fact does not hold."""
        for at, _, files in os.walk(f"{self.folder}/proofs"):
            if "Proof.antt" in files:
                os.remove(f"{at}/Proof.antt")

    def check(self):
        how = {"cwd": self.folder, "stdin": subprocess.DEVNULL, "stdout": subprocess.PIPE, "stderr": subprocess.STDOUT}
        how |= {"text": True, "errors": "replace", "start_new_session": True}
        with subprocess.Popen(["rt", "check", self.crate, "--jobs", "1"], **how) as self.running:
            if self.is_over:
                self.kill()
            try:
                said, _ = self.running.communicate(timeout=SECONDS)
            except subprocess.TimeoutExpired:
                self.kill()
                said, _ = self.running.communicate()
            except BaseException:
                self.kill()
                raise
            return self.running.returncode, said

    def kill(self):
        """Ends the check that is under way, with all that it started."""
        if self.running and self.running.poll() is None:
            os.killpg(self.running.pid, signal.SIGKILL)

    def end(self):
        """Ends what is under way, and whatever would begin."""
        self.is_over = True
        self.kill()

    def keep(self):
        """Keeps what is proved of the crate as it stands: each edit begins with that."""
        shutil.copytree(f"{self.folder}/out", f"{self.top}/kept", symlinks=True)

    def attempt(self, edit):
        """Has the crate proved with the edit."""
        try:
            texts = edit.texts(self.folder)
        except Unfit as why:
            return UNFIT, f" ({why})"
        were = {path: read(f"{self.folder}/{path}") for path in texts}
        try:
            for path, text in texts.items():
                write(f"{self.folder}/{path}", text)
            return outcome(*self.check())
        finally:
            for path, text in were.items():
                write(f"{self.folder}/{path}", text)
            shutil.rmtree(f"{self.folder}/out", ignore_errors=True)
            shutil.copytree(f"{self.top}/kept", f"{self.folder}/out", symlinks=True)


def read(path):
    with open(path, encoding="utf-8") as it:
        return it.read()


def write(path, text):
    with open(path, "w", encoding="utf-8") as it:
        it.write(text)


def outcome(status, said):
    """What a check came to, and the first line that tells why."""
    lines = said.rstrip("\n").split("\n")
    told = [it for it in lines if re.match(r"(note: )?\S+:\d+:\d+:", it)]
    told = [it for it in told if ": error" in it or it.startswith("note: ")] or told
    if status == 0:
        return PROVED, ""
    if status < 0:
        return UNKNOWN, f" (it was ended by the signal {-status})"
    if told and any(it.startswith("logic=not-proved") for it in lines):
        first = next((it for it in told if not FILE_UNFIT.match(it)), "")
        return (REFUSED if first else FILE_ONLY), f" ({(first or told[0])[:110]})"
    if not LIMIT.search(said) and re.search(r"\berror(\[[\w-]+\])?:", said):
        return NOT_RUST, ""
    return UNKNOWN, f" ({lines[-1][:110]})"


def try_all(root, crate, below, order, count, jobs):
    """Tries edits in their order until so many of those that were drawn were proved or refused, and gives each with its outcome."""
    print(f"mutants: copying {crate} and proving it as it stands", file=sys.stderr, flush=True)
    copies = [Copy(crate)]
    try:
        first = copies[0]
        first.fill(root, below)
        status, said = first.check()
        if status:
            sys.exit(f"mutants: {crate} is not proved as it stands:\n{said[-800:]}")
        first.keep()
        for _ in range(1, jobs):
            copies.append(Copy(crate))
            # what was proved of the crates below is copied too
            shutil.copytree(first.top, copies[-1].top, symlinks=True, dirs_exist_ok=True)
        yield from in_lanes(copies, order, count)
    finally:
        for copy in copies:
            shutil.rmtree(copy.top, ignore_errors=True)


def in_lanes(copies, order, count):
    """Tries one edit in each copy at a time. Public functions that have none yet are served beyond the count."""
    free, running, done = list(copies), {}, 0
    with ThreadPoolExecutor(len(copies)) as pool:
        try:
            while True:
                while free and (order.stored or done + len(running) < count or order.wanting):
                    edit = order.next()
                    if edit is None:
                        break
                    copy = free.pop()
                    running[pool.submit(copy.attempt, edit)] = copy, edit
                if not running:
                    return
                for ended in wait(running, return_when=FIRST_COMPLETED).done:
                    copy, edit = running.pop(ended)
                    free.append(copy)
                    came, why = ended.result()
                    order.ended(edit, came in COUNTED)
                    done += came in COUNTED and not edit.is_stored
                    yield edit, came, why
        finally:
            # where it is interrupted, nothing is waited for
            for copy in copies:
                copy.end()
