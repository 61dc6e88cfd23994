#!/usr/bin/env python3
"""Watches programs with `record/run --online`: which sites race, what a report says, and that nothing but the report is left of a run.

The programs of tests/record that `record_tests.py` records have the same racing lines here, since chance has no part in them. Those of tests/record/online
are for what only a detector in the program has: reports that come at once, memory that doesn't grow with the run, locks that others release, forks, SIGTRAP, handlers.

`tests/run` calls `tests`. By itself this file runs these tests alone.
"""

import concurrent.futures
import os
import pathlib
import re
import signal
import subprocess
import sys
import tempfile
import threading

sys.path.insert(0, str(pathlib.Path(__file__).parent))
sys.dont_write_bytecode = True
import record_tests
from alone import run_alone
from record_tests import ENDS, PRINTED, RUN, SOURCES, STATUS, TOP, WORKERS, Findings, build, command, marked

PROGRAMS = SOURCES / "online"
# Those of tests/record whose lines race in each run, or never.
CLEAN = ("cancelled.c", "lives.c", "handover.cpp", "operators.cpp", "recursive.cpp", "gives.cpp", "clocks.c")
RACING = ("annotations.c", "counter.c", "double_checked.cpp", "forks.c", "jumps.c", "queue.cpp", "recycle.cpp", "signals.c", "spin.c", "table.cpp",
    "thread_pool.cpp", "trylock.c", "two_locks.c")
# Each built program is run so often.
RUNS = int(os.environ.get("ONLINE_RUNS", 3))
WAYS = (("gcc", "-O0"), ("gcc", "-O2"), ("clang", "-O0"), ("clang", "-O2"))
# What the detector may have more after more rounds: a part that it asks the system for. Of that many rounds 300 bytes for each thread would be two.
PART = 1024
MANY_ROUNDS = 2000


def sites(report):
    """The lines that a report has a race of: those that came at once, and those of the list at the end. They are the same ones."""
    at_once = set(re.findall(r"^(?:.*, process \d+: )?race: (\S+): t\d+", report, re.M))
    listed = set(re.findall(r"^\d+ +(?:read|write) +(\S+)$", report, re.M))
    return at_once if at_once == listed else {"at once", *at_once, "listed", *listed}


def totals(report):
    """The numbers of the last line."""
    found = re.search(r"^(?:.*, process \d+: )?races (\d+), suppressed (\d+), accesses (\d+), threads (\d+), memory (\d+) KiB$", report, re.M)
    return dict(zip(("races", "suppressed", "accesses", "threads", "memory"), map(int, found.groups()))) if found else {}


class Watched:
    """A run with --online, and its report in a file."""

    def __init__(self, folder, name, program, *words, options=(), **more):
        path = folder / f"{name}.report"
        self.done = command([RUN, "--online", *options, "-o", path, program, *words], **more)
        self.report = path.read_text()
        path.unlink()

    def fault(self, expected, status=0, printed=None):
        if self.done.returncode != status or printed is not None and self.done.stdout != printed:
            return f"status {self.done.returncode}, printed {self.done.stdout!r}, {self.done.stderr!r}"
        if sites(self.report) != expected:
            return f"sites {sites(self.report)}, expected {expected}: {self.report!r}"
        # A further program's events are in its own last line.
        if not re.search(r"^record: (\d+ events watched, 0 lost|\d+ programs watched, \d+ with races)$", self.done.stderr, re.M) or ", lost " in self.report:
            return f"lost: {self.done.stderr!r} {self.report!r}"
        return None if totals(self.report) else f"no totals: {self.report!r}"


def made(folder, findings, source, compiler, level):
    program, built = build(folder, source, compiler, level)
    findings.check(f"{program.name} is built", built.returncode == 0 and built.stderr == "", built.stderr)
    return program


# ---- The programs of tests/record ----


def recorded_programs(folder, findings, name, compiler, level):
    source = SOURCES / name
    program = made(folder, findings, source, compiler, level)
    for nth in range(RUNS):
        watched = Watched(folder, f"{program.name}.{nth}", program)
        fault = watched.fault(marked(source, "RACE"), STATUS.get(source.stem, 0), PRINTED.get(source.stem))
        findings.check(f"{program.name} online, run {nth}", fault is None, fault)


def ends(folder, findings):
    """However a program ends, its races are in the report, and so is the last line."""
    program = made(folder, findings, SOURCES / "ends.c", "gcc", "-O0")
    for how, status in ENDS.items():
        watched = Watched(folder, f"ends-{how}", program, how)
        fault = watched.fault(marked(SOURCES / "ends.c", "RACE"), status)
        findings.check(f"the end by {how} online", fault is None, fault)


def hosts(folder, findings):
    """A program that isn't instrumented loads what is."""
    host = folder / "host"
    command(["gcc", "-g", SOURCES / "late/host.c", "-o", host])
    plugin = made(folder, findings, SOURCES / "late/plugin.c", "gcc", "-O0")
    watched = Watched(folder, "host", host, plugin)
    fault = watched.fault(marked(SOURCES / "late/plugin.c", "RACE"))
    findings.check("a plugin online", fault is None, fault)
    watched = Watched(folder, "late", "env", "-u", "LD_PRELOAD", host, plugin)
    is_told = "record: LD_PRELOAD was taken from a program that isn't instrumented and loads what is: " in watched.done.stderr
    findings.check("a plugin online, and no LD_PRELOAD", watched.done.returncode == 0 and is_told and totals(watched.report), f"{watched.done} {watched.report}")


def standard_library(folder, findings):
    """The C++ library is in the program's own file."""
    program = folder / "static"
    command(["g++", "-g", "-std=c++17", "-fsanitize=thread", "-static-libstdc++", "-static-libgcc", SOURCES / "recycle.cpp", "-o", program])
    watched = Watched(folder, "static", program)
    fault = watched.fault(marked(SOURCES / "recycle.cpp", "RACE"), printed=PRINTED["recycle"])
    findings.check("the C++ library in the program's file online", fault is None, fault)


# ---- What a report says ----


def told(folder, findings):
    source = PROGRAMS / "told.c"
    marks = {match[1]: number for number, line in enumerate(source.read_text().splitlines(), 1) if (match := re.search(r"/\* @?(\w+) \*/", line))}
    report = Watched(folder, "told", made(folder, findings, source, "gcc", "-O0")).report
    wanted = (f"race: told.c:{marks['RACE']}: t3 (second) writes shared, 8 bytes at 0x#, which t2 (first) has used\n  in set\n"
        f"  called at told.c:{marks['set']} in second\n  t3 (second) holds table, to read, taken at told.c:{marks['table']}\n"
        f"    and rows+56, to read, taken at told.c:{marks['row']}\nraces     kind      site\n1         write     told.c:{marks['RACE']}\n")
    found = re.sub(r"0x[0-9a-f]+", "0x#", report.rpartition("races ")[0])
    findings.check("what a report says online", found == wanted, found)
    numbers = totals(report)
    findings.check("the last line online", {**numbers, "memory": 0} == {"races": 1, "suppressed": 0, "accesses": 4, "threads": 3, "memory": 0}, f"{report}")


def blocks(folder, findings):
    """A race in a block of memory has its name, as a race in a recorded trace has."""
    source = PROGRAMS / "blocks.cpp"
    lines = source.read_text().splitlines()
    marks = {match[1]: number for number, line in enumerate(lines, 1) if (match := re.search(r"// @(\w+)$", line))}
    wanted = {}
    for number, line in enumerate(lines, 1):
        if match := re.search(r"// RACE (\d+) of (\d+) (\w+)$", line):
            wanted[number] = f"byte {match[1]} of a block of {match[2]} bytes allocated at blocks.cpp:{marks[match[3]]}"
        elif line.endswith("// RACE"):
            wanted[number] = ""
    for compiler, level in WAYS:
        program = made(folder, findings, source, compiler, level)
        watched = Watched(folder, program.name, program)
        told = re.findall(r"^race: blocks.cpp:(\d+): t\d+ (?:reads|writes) (?:(.*), )?\d+ bytes? at ", watched.report, re.M)
        found = {int(number): memory for number, memory in told}
        findings.check(f"{program.name} online", watched.done.returncode == 0 and found == wanted, f"{found} {wanted} {watched.report}")


def at_once(folder, findings):
    """A race is written while the program runs: its parent reads it, and only then ends the program."""
    program = made(folder, findings, SOURCES / "ends.c", "gcc", "-O1")
    child = subprocess.Popen([RUN, "--online", "--report", "-", program, "never"], stdout=subprocess.PIPE, stderr=subprocess.PIPE, text=True)
    patience = threading.Timer(record_tests.PATIENCE, child.terminate)
    patience.start()
    first = child.stdout.readline()
    is_running = child.poll() is None
    child.send_signal(signal.SIGTERM)
    rest, errors = child.communicate(timeout=record_tests.PATIENCE)
    patience.cancel()
    site = "".join(marked(SOURCES / "ends.c", "RACE"))
    is_right = first.startswith(f"race: {site}: ") and is_running and totals(rest) and child.returncode == 128 + signal.SIGTERM
    findings.check("a race is written when it happens", is_right, f"{first!r} {is_running} {rest!r} {errors!r} {child.returncode}")


# ---- What ends in the middle ----


def cut(folder, findings):
    """A thread that is cancelled at any instruction, also in a handler, or a handler that leaves by longjmp, leaves no part of the detector locked, and no
    event is lost."""
    for compiler, level in WAYS:
        program = made(folder, findings, PROGRAMS / "cut.c", compiler, level)
        watched = Watched(folder, program.name, program)
        is_right = (watched.done.returncode, watched.done.stdout) == (0, "1\n") and totals(watched.report).get("threads") == 41
        findings.check(f"{program.name} online", is_right and " events watched, 0 lost" in watched.done.stderr, f"{watched.done} {watched.report}")


def doors(folder, findings):
    """However a handler is set, it may leave an event by longjmp, and the program sees what it has set."""
    for compiler, level in WAYS:
        program = made(folder, findings, PROGRAMS / "doors.c", compiler, level)
        fault = Watched(folder, program.name, program).fault(set(), printed="fine\n")
        findings.check(f"{program.name} online", fault is None, fault)


def early_handler(folder, findings):
    """A handler that is there before the program is watched may leave an event as well."""
    host, plugin = folder / "early_host", folder / "used_plugin.so"
    command(["gcc", "-g", PROGRAMS / "early_host.c", "-o", host])
    command(["gcc", "-g", "-fsanitize=thread", "-shared", "-fPIC", PROGRAMS / "used_plugin.c", "-o", plugin])
    fault = Watched(folder, "early", host, plugin).fault(set(), printed="1\n")
    findings.check("a handler before a plugin", fault is None, fault)


def lookups(folder, findings):
    """Nothing is looked up by its name where the loader's lock may be held, or must not be left."""
    program = folder / "lookups"
    built = command(["gcc", "-g", "-fsanitize=thread", "-rdynamic", PROGRAMS / "lookups.c", "-o", program])
    findings.check("lookups is built", built.returncode == 0, built.stderr)
    fault = Watched(folder, "lookups", program).fault(set(), printed="0 at 1 signal\n0 at an access\nlooked up before\n")
    findings.check("nothing is looked up late", fault is None, fault)


# ---- What goes on for long ----


def rounds(folder, findings):
    """After many rounds the detector has as much memory as after few, but for a part that it may ask for."""
    source = PROGRAMS / "rounds.c"
    program = made(folder, findings, source, "gcc", "-O0")
    few, many = (Watched(folder, f"rounds-{number}", program, str(number)) for number in (20, MANY_ROUNDS))
    for number, watched in ((20, few), (MANY_ROUNDS, many)):
        fault = watched.fault(marked(source, "RACE"), printed=f"{4 * number}\n")
        findings.check(f"{number} rounds online", fault is None, fault)
        findings.check(f"the threads of {number} rounds", totals(watched.report).get("threads") == 4 * number + 1, watched.report)
    memory = [totals(watched.report).get("memory", 0) for watched in (few, many)]
    findings.check("the memory of many rounds", 0 < memory[0] and memory[1] <= memory[0] + PART, f"{memory}")


def crowd(folder, findings):
    for compiler, level in WAYS:
        program = made(folder, findings, PROGRAMS / "crowd.c", compiler, level)
        watched = Watched(folder, program.name, program)
        fault = watched.fault(marked(PROGRAMS / "crowd.c", "RACE"), printed="128000\n")
        findings.check(f"{program.name} online", fault is None and totals(watched.report)["threads"] == 201, fault or watched.report)


def handed(folder, findings):
    """A lock that another thread releases is held no more."""
    program = made(folder, findings, PROGRAMS / "handed.c", "gcc", "-O0")
    fault = Watched(folder, "handed", program).fault(marked(PROGRAMS / "handed.c", "RACE"))
    findings.check("a lock that another thread releases", fault is None, fault)


def refused_lock(folder, findings):
    """A lock that the detector has no room for is its thread's own: its release is nobody else's."""
    watched = Watched(folder, "refused", made(folder, findings, PROGRAMS / "refused.c", "gcc", "-O0"))
    is_right = watched.done.returncode == 0 and watched.done.stdout == "1\n" and not sites(watched.report)
    findings.check("a lock too many", is_right and watched.report.endswith(", lost 1\n"), f"{watched.done} {watched.report}")


def late_ends(folder, findings):
    """What a thread does when it counts as ended is lost, and said to be. (The compiler's own hooks count as well.)"""
    watched = Watched(folder, "late_ends", made(folder, findings, PROGRAMS / "late_ends.c", "gcc", "-O1"))
    lost = re.search(r", lost (\d+)$", watched.report, re.M)
    findings.check("accesses of a thread that has ended", watched.done.returncode == 0 and lost and int(lost[1]) >= 4, f"{watched.done} {watched.report}")


def fork_storm(folder, findings):
    """A fork waits for no thread that is at work, and its children wait for nobody."""
    program = made(folder, findings, PROGRAMS / "fork_storm.c", "gcc", "-O1")
    watched = Watched(folder, "fork_storm", program)
    is_right = (watched.done.returncode, watched.done.stdout) == (0, "0 failed\n") and not sites(watched.report)
    is_told = "record: 21 programs watched, 0 with races\n" in watched.done.stderr
    findings.check("forks beside threads at work", is_right and is_told and ", lost " not in watched.report, f"{watched.done} {watched.report}")


def children(folder, findings):
    """A forked child is watched from its first thread on, by a detector that knows nothing of its parent's accesses."""
    program = made(folder, findings, PROGRAMS / "children.c", "gcc", "-O0")
    watched = Watched(folder, "children", program)
    fault = watched.fault(marked(PROGRAMS / "children.c", "RACE"))
    is_told = "record: the program forked 1 time: a child is recorded from its first thread on\n" in watched.done.stderr
    heads = re.findall(r"^(.*)race: ", watched.report, re.M)
    of_child = re.compile(rf"{re.escape(program.name)}, process \d+: ")
    # The parent's race comes before the child begins, and may be written behind that.
    is_right = len(set(heads)) == len(heads) == 2 and all(not head or of_child.fullmatch(head) for head in heads)
    findings.check("a child online", fault is None and is_told and is_right, f"{fault} {watched.report} {watched.done.stderr}")


# ---- Options ----


def stops(folder, findings):
    """Each place at which a thread races sends SIGTRAP once, after its report."""
    program = made(folder, findings, PROGRAMS / "stops.c", "gcc", "-O0")
    watched = Watched(folder, "stops", program, options=["--stop-at-race"])
    fault = watched.fault(marked(PROGRAMS / "stops.c", "RACE"), printed="2\n")
    findings.check("--stop-at-race, of which the program has a handler", fault is None and totals(watched.report)["races"] == 20, fault or watched.report)
    watched = Watched(folder, "no-stops", program)
    fault = watched.fault(marked(PROGRAMS / "stops.c", "RACE"), printed="0\n")
    findings.check("no --stop-at-race", fault is None, fault)
    path, lines = folder / "stops.rules", sorted(marked(PROGRAMS / "stops.c", "RACE"))
    for text, left, often in (("site *stops.c:*\n", set(), 0), (f"site {lines[0]}\n", {lines[1]}, 1)):
        path.write_text(f"eraser suppressions 2\n{text}")
        fault = Watched(folder, "ruled", program, options=["--stop-at-race", "--suppress", path]).fault(left, printed=f"{often}\n")
        findings.check(f"--stop-at-race and the rule {text!r}", fault is None, fault)
    for name, printed in (("child_stops.c", "1 and 1\n"), ("instances.cpp", "1\n")):
        watched = Watched(folder, name, made(folder, findings, PROGRAMS / name, "gcc", "-O0"), options=["--stop-at-race"])
        fault = watched.fault(marked(PROGRAMS / name, "RACE"), printed=printed)
        findings.check(f"{name} with --stop-at-race", fault is None, fault)
    stopped = made(folder, findings, SOURCES / "counter.c", "gcc", "-O0")
    watched = Watched(folder, "stopped", stopped, options=["--stop-at-race"])
    fault = watched.fault(marked(SOURCES / "counter.c", "RACE"), 128 + signal.SIGTRAP, "")
    findings.check("--stop-at-race without a handler", fault is None, fault)


def rules(folder, findings):
    """Races that a rule takes are counted, and not written."""
    program = made(folder, findings, PROGRAMS / "stops.c", "gcc", "-O0")
    lines = sorted(marked(PROGRAMS / "stops.c", "RACE"))
    for name, text, left in (
        ("site", f"site {lines[0]}\n", {lines[1]}),
        ("sites", f"# both\n\nsite {lines[0]}\nsite {lines[1]}\n", set()),
        ("pattern", "eraser suppressions 2\nsite st*s.c:*\n", set()),
        ("star", "site st*s.c:*\n", set(lines)),
        ("other", "eraser suppressions 2\nsite */stops.c:*\nwords 0x0 0x1000\n", set(lines)),
        ("words", "words 0 281474976710656\n", set()),
    ):
        path = folder / f"{name}.rules"
        path.write_text(text)
        watched = Watched(folder, f"rules-{name}", program, options=["--suppress", path, "--exit-status", "report"])
        fault = watched.fault(left, 1 if left else 0)
        numbers = totals(watched.report)
        is_right = fault is None and (numbers["races"], numbers["suppressed"]) == (10 * len(left), 20 - 10 * len(left))
        findings.check(f"a rule of {name} online", is_right, fault or watched.report)
    for text, says in (
        ("site\n", "1: missing operand"),
        ("# x\nsite a b\n", "2: extra operand"),
        ("words 1 z\n", "1: bad number"),
        ("words 0x1000000000000 1\n", "1: address out of range"),
        (f"site {'x' * 129}\n", "1: bad name"),
        ("eraser suppressions 2\nfunction work\n", "2: --online takes rules of `site` and `words` alone"),
    ):
        path = folder / "bad.rules"
        path.write_text(text)
        done = command([RUN, "--online", "--suppress", path, program])
        findings.check(f"a bad rule online: {text!r}", done.returncode == 125 and f"record: {path}:{says}" in done.stderr and done.stdout == "", f"{done}")


def refused(folder, findings):
    """What has no meaning without a recording is refused before the program runs, and says why."""
    touch = folder / "touched"
    for options, says in (
        (["--analysis", "happens-before"], "--online knows the locks alone"),
        (["--analysis", "both"], "--online knows the locks alone"),
        (["--explain"], "--explain is of a recording"),
        (["--format", "json"], "--online writes each race when it comes, as text"),
        (["--format", "html"], "--online writes each race when it comes, as text"),
        (["--strict"], "are of a replay"),
        (["--until-fault"], "are of a replay"),
        (["--workers", "2"], "are of a replay"),
        (["--replay"], "are of a trace"),
        (["--trace", "4"], "are of a trace"),
        (["--order"], "are of a trace"),
        (["--stacks"], "--stacks is of a trace"),
        (["--flow"], "are of a trace"),
        (["--limit", "0"], "are of a trace"),
        (["--runs", "2"], "--runs merges the reports of replays"),
        (["-o", "a", "--report", "b"], "both name the file of the report"),
        (["-o", f"{folder}/"], "all programs report into one file"),
    ):
        done = command([RUN, "--online", *options, "touch", touch])
        findings.check(f"--online {' '.join(options)}", done.returncode == 125 and says in done.stderr and not touch.exists(), f"{done}")
    done = command([RUN, "--stop-at-race", "touch", touch])
    findings.check("--stop-at-race alone", done.returncode == 125 and "--stop-at-race goes with --online" in done.stderr and not touch.exists(), f"{done}")


def statuses(folder, findings):
    """The status of the report, or of the program; and nothing but the report with -q."""
    racing, clean = (made(folder, findings, SOURCES / name, "gcc", "-O1") for name in ("two_locks.c", "recursive.cpp"))
    for program, wanted in ((racing, 1), (clean, 0)):
        for options, status in ((["--exit-status", "report"], wanted), ([], 0), (["--analysis", "lockset", "--by-site"], 0), (["--format", "text"], 0)):
            done = command([RUN, "--online", "-q", *options, program])
            is_right = done.returncode == status and bool(sites(done.stderr)) == bool(wanted) and "record:" not in done.stderr
            findings.check(f"the status of {program.name} {' '.join(options)}", is_right, f"{done}")
    failing = made(folder, findings, SOURCES / "counter.c", "gcc", "-O1")
    done = command([RUN, "--online", "--exit-status", "report", failing])
    findings.check("the status of a program that fails", done.returncode == STATUS["counter"], f"{done}")
    done = command([RUN, "--online", "--exit-status", "report", "true"])
    findings.check("nothing to watch", done.returncode == 125 and "record: nothing was recorded" in done.stderr, f"{done}")


def tests(record):
    findings = Findings(record)
    command([TOP / "record/build"])
    with tempfile.TemporaryDirectory() as name, concurrent.futures.ThreadPoolExecutor(WORKERS) as pool:
        folder = pathlib.Path(name)
        parts = []
        for number, part in enumerate((ends, hosts, standard_library, told, blocks, at_once, cut, doors, early_handler, lookups, rounds, crowd, handed, refused_lock, late_ends,
            fork_storm, children, stops, rules, refused, statuses)):
            (folder / str(number)).mkdir()
            parts.append(pool.submit(part, folder / str(number), findings))
        for program in (*CLEAN, *RACING):
            for compiler, level in WAYS:
                parts.append(pool.submit(recorded_programs, folder, findings, program, compiler, level))
        for part in parts:
            part.result()


if __name__ == "__main__":
    run_alone(tests)
