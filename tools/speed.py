#!/usr/bin/env python3
"""Measures the programs that ./speed has built, and prints the times as Markdown. Called by ./speed.

usage: tools/speed.py RUNS [BEFORE]

BEFORE is a bench that was built before a change. It takes its turns with the others, and a table has its times
beside those of the bench of now.
"""

import datetime
import hashlib
import os
import pathlib
import statistics
import subprocess
import sys
import tempfile
from dataclasses import dataclass

TOP = pathlib.Path(__file__).resolve().parent.parent
PROGRAMS = {"Rattle": TOP / "crates/bench/out/bench", "Rust": TOP / "reference/target/release/reference"}
MESSAGES = TOP / "tools/message-speed/target/release/message-speed"

# The files by their names in tools/speed_files.py, how many events each has, and what is in it.
FILES = [
    ("ordinary", 1_000_000, "8 trains, all kinds of events, half of them ticks"),
    ("many-trains", 1_000_000, "the same with 64 trains"),
    ("brake-1", 1_000_000, "4 trains, brake 1, wishes from 9,000 to 10,000"),
    ("radio", 1_000_000, "8 trains, messages only, many of them old or come twice"),
]
GROWING = [10_000, 100_000, 1_000_000]


@dataclass
class Run:
    """The processor time of a run, user and system together, and the most memory that it had."""

    seconds: float
    megabytes: float


def say(text):
    print(f"speed: {text}", file=sys.stderr, flush=True)


def give_up(text):
    say(text)
    sys.exit(1)


def said_by(*command):
    """What a command prints; without its answer nothing can be measured."""
    try:
        return subprocess.run(command, check=True, capture_output=True, text=True, cwd=TOP).stdout.strip()
    except (OSError, subprocess.CalledProcessError) as why:
        give_up(f"{command[0]} does not answer: {why}")


def made(folder, name, events):
    """Makes a file, if it is not there yet."""
    path = folder / f"{name}-{events}.txt"
    if path.exists():
        return path
    say(f"making {path.name}")
    command = [sys.executable, str(TOP / "tools/speed_files.py"), name, str(events)]
    with open(path, "wb") as file:
        if subprocess.run(command, stdout=file).returncode != 0:
            give_up(f"{path.name} could not be made")
    return path


def printed(program, path):
    """What a program says to a file and how it ends: a checksum of its standard output, and its status."""
    with tempfile.TemporaryFile() as output:
        done = subprocess.run([program, path], stdout=output, stderr=subprocess.PIPE)
        output.seek(0)
        check = hashlib.sha256()
        while piece := output.read(1 << 20):
            check.update(piece)
    if done.returncode != 0:
        say(f"{program} ends with status {done.returncode}: {done.stderr.decode(errors='replace')[-400:]}")
    return check.hexdigest(), done.returncode


def check_alike(programs, path):
    """Every file has only events that can be, so all programs have to end with status 0, with the same output."""
    answers = {printed(program, path) for program in programs.values()}
    if len(answers) != 1:
        give_up(f"the programs do not print the same, or end alike, at {path.name}")
    if answers.pop()[1] != 0:
        give_up(f"{path.name} is refused, so nothing can be measured on it")


def play(program, path):
    """Plays a file once, by the program that tools/measured.c makes."""
    seconds, kilobytes, status = said_by(path.parent / "measured", program, path).split()
    if status != "0":
        give_up(f"{program} ended with status {status} at {path.name}")
    return Run(float(seconds), int(kilobytes) / 1024)


def played(programs, path, runs):
    """The runs of each program, which take turns."""
    check_alike(programs, path)
    say(f"playing {path.name}, {runs} times with each program")
    turns = [{name: play(program, path) for name, program in programs.items()} for _ in range(runs)]
    return {name: [turn[name] for turn in turns] for name in programs}


def seconds_of(turns, program):
    """The processor times of the runs of a program."""
    return [run.seconds for run in turns[program]]


def both(values, form):
    """The best and the median."""
    return f"{min(values):{form}} ({statistics.median(values):{form}})"


def ratio(values, others):
    return f"{min(values) / min(others):.2f} ({statistics.median(values) / statistics.median(others):.2f})"


def row(*cells):
    return f"| {' | '.join(cells)} |"


def heading(*cells):
    return [row(*cells), "|" + "---|" * len(cells)]


def file_rows(files):
    yield from heading("File", "Events", "Rattle, s", "Rust, s", "Rattle / Rust", "Rattle, MB", "Rust, MB", "Rattle / Rust")
    for name, events, what in FILES:
        times = [seconds_of(files[name], program) for program in PROGRAMS]
        memory = [[run.megabytes for run in files[name][program]] for program in PROGRAMS]
        yield row(
            f"`{name}`: {what}",
            f"{events:,}",
            *(both(values, ".3f") for values in times),
            ratio(*times),
            *(both(values, ".1f") for values in memory),
            ratio(*memory),
        )


def before_rows(files):
    yield from heading("File", "Before, s", "Now, s", "Before / now")
    for name, _, _ in FILES:
        times = [seconds_of(files[name], program) for program in ("before", "Rattle")]
        yield row(f"`{name}`", *(both(values, ".3f") for values in times), ratio(*times))


def growth_rows(folder, runs):
    yield from heading("Events of `ordinary`", "Rattle, ns an event", "Rust, ns an event", "Rattle / Rust")
    for events in GROWING:
        turns = played(PROGRAMS, made(folder, "ordinary", events), runs)
        times = [[run.seconds * 1e9 / events for run in turns[program]] for program in PROGRAMS]
        yield row(f"{events:,}", *(both(values, ".0f") for values in times), ratio(*times))


def measured_messages(runs):
    """What tools/message-speed answers: how many messages agreed, zlib's version, and the times of each work by each."""
    say(f"reading and writing messages, {runs} times")
    times, facts = {}, {}
    for line in said_by(str(MESSAGES), str(runs)).splitlines():
        match line.split("\t"):
            case [work, by, time]:
                times.setdefault((work, by), []).append(float(time))
            case [fact, value]:
                facts[fact] = value
    return times, facts


def message_rows(times):
    yield from heading("", "Rattle, ns", "Rust, ns", "zlib, ns", "Rattle / Rust", "Rattle / zlib")
    for work in ("read", "write"):
        rattle, rust, zlib = (times[work, by] for by in ("rattle", "rust", "zlib"))
        yield row(work, *(both(values, ".1f") for values in (rattle, rust, zlib)), ratio(rattle, rust), ratio(rattle, zlib))


def value_in(path, name):
    """The value of the first line `NAME: VALUE` of a file of the system."""
    for line in pathlib.Path(path).read_text().splitlines():
        found, _, value = line.partition(":")
        if found.strip() == name:
            return value.strip()
    return "unknown"


def machine():
    memory = int(value_in("/proc/meminfo", "MemTotal").split()[0]) / (1 << 20)
    load = os.getloadavg()[0]
    processor = value_in("/proc/cpuinfo", "model name")
    return f"{processor}, {os.cpu_count()} cores, {memory:.0f} GB of memory; load at the start {load:.1f}"


def versions(zlib):
    programs = (("rt", "version"), ("rustc", "--version"), ("gcc", "--version"), ("git", "describe", "--always", "--dirty"))
    rattle, rust, gcc, commit = (said_by(*command).splitlines()[0] for command in programs)
    return f"{rattle}; {rust}; {gcc}; zlib {zlib}; commit {commit}"


def before_and_now(files):
    """The times of the bench that was built before a change, beside those of the bench of now, from the same runs."""
    yield "The bench before the change and now, processor time in the same runs:"
    yield from ("", *before_rows(files), "")


def report(folder, runs, before):
    here = machine()
    said_by("gcc", "-O2", "-o", folder / "measured", TOP / "tools/measured.c")
    times, facts = measured_messages(runs)
    programs = PROGRAMS | ({"before": before} if before else {})
    files = {name: played(programs, made(folder, name, events), runs) for name, events, _ in FILES}
    yield from (f"### Measured on {datetime.date.today().isoformat()}", "")
    yield f"Machine: {here}."
    yield f"Versions: {versions(facts['zlib'])}."
    yield f"Each was run {runs} times, in turn. Numbers are those of the best run, with the median of the runs in brackets."
    yield ""
    yield "The bench and the program of `reference`, processor time and the most memory:"
    yield from ("", *file_rows(files), "")
    weak, ordinary = (seconds_of(files[name], "Rattle") for name in ("brake-1", "ordinary"))
    yield f"On `brake-1` the bench takes {ratio(weak, ordinary)} of its time on `ordinary`."
    yield ""
    if before:
        yield from before_and_now(files)
    yield from ("How the time grows, in nanoseconds of the processor for each event:", "")
    yield from (*growth_rows(folder, runs), "")
    yield "A message, in nanoseconds of the processor, from memory and into memory that was prepared before"
    yield f"({int(facts['agreed']):,} answers agreed before; zlib's time is that of the check alone):"
    yield from ("", *message_rows(times))


def main(runs, before):
    for program in (*PROGRAMS.values(), MESSAGES):
        if not os.access(program, os.X_OK):
            give_up(f"{program} is not there: ./speed builds it")
    with tempfile.TemporaryDirectory() as folder:
        lines = list(report(pathlib.Path(folder), runs, before))
    print("\n".join(lines))


if __name__ == "__main__":
    if len(sys.argv) not in (2, 3) or not sys.argv[1].isdecimal() or int(sys.argv[1]) < 1:
        sys.exit(__doc__)
    main(int(sys.argv[1]), pathlib.Path(sys.argv[2]).resolve() if len(sys.argv) == 3 else None)
