"""Proves and builds a program with all below it, side by side, and says on standard error which crates are being proved. What
rt prints is shown only where something is not proved: the status is then 1.

usage: tools/prove.py ROOT PROGRAM NAME

PROGRAM is a crate of ROOT/crates, and NAME the script that calls this: what is said begins with it."""
import os
import shutil
import sys
import tempfile

sys.dont_write_bytecode = True
sys.path.insert(0, os.path.dirname(os.path.realpath(__file__)))
import at_work  # noqa: E402
import crates  # noqa: E402

AT_FIRST = "proving and building what has changed (from nothing it takes some minutes)"
# A proof takes up to so many bytes of memory.
PROOF = 4 << 30


class Prover:
    """The program, and what is left to be proved of it."""

    def __init__(self, root, program, name):
        self.root, self.program, self.below = root, program, crates.read(root)
        self.order = [*self.below[program], program]
        # Over libraries that were never built rt run begins with a look at all sources, which takes a minute, so these are
        # built one by one. Of all others it knows best itself what has changed.
        self.new = [it for it in self.below[program] if not os.path.isdir(f"{root}/crates/{it}/out/rlib")]
        memory = os.sysconf("SC_PAGE_SIZE") * os.sysconf("SC_PHYS_PAGES")
        self.most = max(1, min(len(os.sched_getaffinity(0)), memory // PROOF))
        self.rooms = {}
        self.sign = at_work.Sign(name, self.head, at_first=AT_FIRST)
        self.commands = at_work.Commands(self.sign)
        self.said = {}
        self.is_refused = False

    def head(self, crate):
        return f"proving {self.order.index(crate) + 1} of {len(self.order)}"

    def run(self):
        try:
            self.start_more()
            self.commands.follow(self.heard, self.ended)
        finally:
            for room in self.rooms.values():
                shutil.rmtree(room, ignore_errors=True)
        return 1 if self.is_refused else 0

    def start_more(self):
        """Starts what can be proved now, first that on which most stand one over the other."""
        left = {*self.new, *self.commands.running}
        ready = [it for it in self.new if not left & {*self.below[it]}]
        for crate in sorted(ready, key=self.height, reverse=True)[: self.most - len(self.commands.running)]:
            self.new.remove(crate)
            self.rooms[crate] = self.room(crate)
            self.start(crate, self.rooms[crate], "lib")
        if not self.new and not self.commands.running:
            # the program runs only if all is proved, and with --help: it is there to be built
            self.start(self.program, self.root, "run", "--", "--help")

    def height(self, crate):
        """How many crates stand over one another on this one."""
        return max((1 + self.height(it) for it in self.order if crate in self.below[it]), default=0)

    def room(self, crate):
        """A copy of the crate with all below it. Two that have some in common cannot be proved in one: rt keeps a crate and all
        below it to itself."""
        os.makedirs(f"{self.root}/out", exist_ok=True)
        room = tempfile.mkdtemp(prefix=f"prove-{crate}-", dir=f"{self.root}/out")
        inside = {*self.below[crate], crate}
        with open(f"{self.root}/crates.txt", encoding="utf-8") as lines, open(f"{room}/crates.txt", "w", encoding="utf-8") as copy:
            copy.writelines(it for it in lines if it.partition(":")[0].split()[:1] in [[one] for one in inside])
        for it in inside:
            left_out = shutil.ignore_patterns("incremental", "must-fail", "data")
            shutil.copytree(f"{self.root}/crates/{it}", f"{room}/crates/{it}", copy_function=os.link, ignore=left_out)
        return room

    def start(self, crate, at, *words):
        self.said[crate] = []
        self.commands.start(crate, ["rt", *words], f"{at}/crates/{crate}")

    def heard(self, crate, line):
        self.said[crate].append(line)
        # for another rt at work in this checkout, or on the same crates in another one
        if line.startswith("rt: ") and "waiting for" in line:
            self.sign.say(line[len("rt: ") :].rstrip())

    def ended(self, crate, status):
        if status:
            self.is_refused = True
            self.sign.clear()
            sys.stderr.writelines(self.said[crate])
        elif crate != self.program and not self.is_refused:
            out = f"{self.root}/crates/{crate}/out"
            shutil.rmtree(out, ignore_errors=True)
            os.rename(f"{self.rooms[crate]}/crates/{crate}/out", out)
            self.start_more()


if __name__ == "__main__":
    at_work.as_program(Prover(*sys.argv[1:]).run)
