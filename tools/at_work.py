"""Tells what rt is at: which crates the processes below it prove, for how long already, and what processor time they take.
rt prints a crate's lines only when that crate is done, so /proc is asked. Called by tools/prove.py and tools/gate."""

import os
import queue
import signal
import subprocess
import sys
import threading
import time

PROOF, TESTS, EDITS, RUNS, GLANCE = "proof", "tests", "edits", "runs", "glance"
LABELS = {
    PROOF: "{}",
    TESTS: "the tests of {}",
    EDITS: "the edits of {}",
    RUNS: "{} runs",
    GLANCE: "a quick look for faults at {}",
}
TICKS = os.sysconf("SC_CLK_TCK")
# How often /proc is looked at: what a process takes after the last look is not seen.
LOOK = 0.25
# Where nobody watches a terminal, what takes long is told again after so many seconds,
AGAIN = 30
# and what began anew within these is not told to have ended: a check and the compiler after it are one.
PAUSE = 3


class Process:
    """A process that works at a crate, with all that it started."""

    def __init__(self, crate, kind, edit, began):
        self.crate, self.kind, self.edit, self.began = crate, kind, edit, began
        self.seen, self.seconds = began, 0.0


class Watch:
    """What was at work below a process, each time that it looked."""

    def __init__(self, top):
        self.top, self.all, self.now = top, {}, []

    def look(self):
        found, children = stats(), {}
        for pid, (parent, _, _) in found.items():
            children.setdefault(parent, []).append(pid)
        self.now, now = [], uptime()
        left = list(children.get(self.top, []))
        while left:
            pid = left.pop()
            key = pid, found[pid][2]
            if key not in self.all:
                work = work_of(pid)
                if work is None:
                    left += children.get(pid, [])
                    continue
                self.all[key] = Process(*work, key[1])
            process = self.all[key]
            process.seconds = max(process.seconds, taken(pid, found, children))
            process.seen = now
            self.now.append(process)

    def activities(self):
        """What is at work now: by crate and kind, since when."""
        since = {}
        for it in self.now:
            key = it.crate, it.kind
            since[key] = min(it.began, since.get(key, it.began))
        return since

    def of(self, crate, kind=None):
        return [it for it in self.all.values() if it.crate == crate and kind in (None, it.kind)]

    def taken(self, crate, kind):
        """The processor seconds that were taken for a crate."""
        return sum(it.seconds for it in self.of(crate, kind))

    def clock(self, crate, kind=None):
        """For how long something of a crate was at work, by the clock."""
        whole = until = 0.0
        for it in sorted(self.of(crate, kind), key=lambda it: it.began):
            whole += max(0.0, it.seen - max(it.began, until))
            until = max(until, it.seen)
        return whole

    def edits_begun(self, crate):
        return {it.edit for it in self.of(crate, EDITS) if it.edit}


def stats():
    """Of each process its parent, the processor seconds of it and of its children that ended, and when it began."""
    found = {}
    for name in os.listdir("/proc"):
        if name.isdigit():
            try:
                with open(f"/proc/{name}/stat", encoding="utf-8", errors="replace") as it:
                    words = it.read().rpartition(")")[2].split()
            except OSError:
                continue
            found[int(name)] = int(words[1]), sum(map(int, words[11:15])) / TICKS, int(words[19]) / TICKS
    return found


def taken(pid, found, children):
    return found[pid][1] + sum(taken(it, found, children) for it in children.get(pid, []))


def uptime():
    """The clock by which /proc tells when a process began: seconds since the machine was started."""
    return time.clock_gettime(time.CLOCK_BOOTTIME)


def work_of(pid):
    """The crate that a process works at, of what kind its work is, and which edit it tries, if it does; None where it is none
    of those that work, or not yet."""
    try:
        with open(f"/proc/{pid}/cmdline", encoding="utf-8", errors="replace") as it:
            words = it.read().split("\0")
        folder = os.readlink(f"/proc/{pid}/cwd")
    except OSError:
        return None
    command = os.path.basename(words[0])
    if command == "rattle" and "--crate-name" in words:
        crate = after(words, "--crate-name")
        # rt tries each edit in a folder of this name, over a copy of what was proved, which has the edit's number
        if os.path.basename(folder).startswith("rt-edit-"):
            number = os.path.basename(after(words, "--incremental"))
            return crate, EDITS, number if number.isdigit() else None
        # before it builds anything, rt looks for what is wrong in any source, and proves nothing
        if "--only" in words and not after(words, "--only"):
            return crate, GLANCE, None
        return crate, TESTS if "--test" in words else PROOF, None
    # rt runs each program from a folder of this name, and tests by rattle-test
    ran = [it for it in words if "/rt-run-" in it and "/bin/" in it]
    if ran and command in ("rattle-test", os.path.basename(ran[0])):
        return os.path.basename(ran[0]).partition(".")[0].removesuffix("_tests"), RUNS, None
    return None


def after(words, flag):
    """The word after a flag, or nothing."""
    return words[words.index(flag) + 1] if flag in words[:-1] else ""


def label(crate, kind):
    return LABELS[kind].format(crate)


class Sign:
    """Says on standard error what is at work: on a terminal in one line that is written again each second, and else in a line
    where something begins, where it ends, and now and then where it takes long."""

    def __init__(self, name, head, label=label, at_first=""):
        """`head` gives what a line begins with, of a crate: how far all is. `label` gives what is told of a crate and a kind of
        work, and `at_first` is said before anything is told."""
        self.name, self.head, self.label, self.at_first = name, head, label, at_first
        self.on_terminal = sys.stderr.isatty()
        self.shown, self.written = False, 0.0
        # by crate and kind: since when it is at work, when it was last seen, and when it was last told
        self.told = {}

    def say(self, text):
        """A line that stays."""
        self.clear()
        print(f"{self.name}: {text}", file=sys.stderr, flush=True)

    def clear(self):
        if self.shown:
            print("\r\033[K", end="", file=sys.stderr, flush=True)
            self.shown, self.written = False, 0.0

    def tell(self, since):
        """Tells what is at work since when."""
        if since and self.at_first:
            self.say(self.at_first)
            self.at_first = ""
        if self.on_terminal:
            self.write_line(since)
        else:
            self.write_changes(since)

    def write_line(self, since):
        now = time.monotonic()
        if now < self.written + 1:
            return
        if not since:
            return self.clear()
        parts = [f"{self.label(*key)} {uptime() - began:.0f} s" for key, began in since.items()]
        line = f"{self.name}: {self.head(list(since)[0][0])}: {', '.join(parts)}"
        # a terminal that does not tell how wide it is says 0
        line = line[: (os.get_terminal_size(sys.stderr.fileno()).columns or 80) - 1]
        print(f"\r\033[K{line}", end="", file=sys.stderr, flush=True)
        self.shown, self.written = True, now

    def write_changes(self, since):
        now = uptime()
        for key, began in since.items():
            what = f"{self.head(key[0])}: {self.label(*key)}"
            if key not in self.told:
                self.told[key] = [began, now, now]
                self.say(what)
            elif now >= self.told[key][2] + AGAIN:
                self.told[key][2] = now
                self.say(f"{what}, {now - self.told[key][0]:.0f} s so far")
            self.told[key][1] = now
        for key in [it for it, (_, seen, _) in self.told.items() if now > seen + PAUSE]:
            self.tell_end(key)

    def tell_end(self, key):
        began, seen, _ = self.told.pop(key)
        self.say(f"{label(*key)} took {seen - began:.0f} s")

    def end(self):
        self.clear()
        for key in list(self.told):
            self.tell_end(key)


class Commands:
    """Commands that run side by side, with a sign of what they are at."""

    def __init__(self, sign):
        self.sign, self.watch = sign, Watch(os.getpid())
        self.running, self.lines = {}, queue.SimpleQueue()

    def start(self, name, words, folder):
        how = {"cwd": folder, "stdin": subprocess.DEVNULL, "stdout": subprocess.PIPE, "stderr": subprocess.STDOUT}
        child = subprocess.Popen(words, encoding="utf-8", errors="replace", **how)
        self.running[name] = child
        threading.Thread(target=self.read, args=(name, child), daemon=True).start()

    def read(self, name, child):
        for line in child.stdout:
            self.lines.put((name, line))
        self.lines.put((name, None))

    def follow(self, heard, ended):
        """Until all have ended, hands what they print to `heard`, line by line, and their status to `ended`, which may start more."""
        next_look = time.monotonic() + LOOK
        try:
            while self.running:
                try:
                    name, line = self.lines.get(timeout=max(0, next_look - time.monotonic()))
                    if line is not None:
                        heard(name, line)
                    else:
                        status = self.running.pop(name).wait()
                        ended(name, status if status >= 0 else 128 - status)
                except queue.Empty:
                    pass
                if time.monotonic() >= next_look:
                    self.watch.look()
                    self.sign.tell(self.watch.activities())
                    next_look = time.monotonic() + LOOK
            self.sign.end()
        except BaseException as reason:
            self.sign.clear()
            self.end(reason)
            raise

    def end(self, reason):
        """Lets rt end well: rt ci puts back what it set aside. A terminal tells it of an interrupt itself."""
        is_deaf = signal.getsignal(signal.SIGINT) is signal.SIG_IGN
        for child in self.running.values():
            if not isinstance(reason, KeyboardInterrupt):
                child.send_signal(signal.SIGTERM if is_deaf else signal.SIGINT)
        for child in self.running.values():
            try:
                child.wait(2)
            except subprocess.TimeoutExpired:
                self.sign.say("waiting for rt, which ends what it is at, and puts back what it set aside")
                child.wait()


def as_program(call):
    """Ends with the status that the call gives; where this is told to end, or interrupted, with what it started."""
    signal.signal(signal.SIGTERM, lambda *_: sys.exit(128 + signal.SIGTERM))
    try:
        sys.exit(call())
    except KeyboardInterrupt:
        # the script that called this ends too, if it sees that this was ended by the interrupt
        signal.signal(signal.SIGINT, signal.SIG_DFL)
        os.kill(os.getpid(), signal.SIGINT)
