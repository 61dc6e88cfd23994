#!/usr/bin/env python3
"""Compares `eraser replay --by-site` with a second reading of docs/FORMATS.md, made from the explained report of tests/reference.py.

`tests/run` calls `tests`. By itself this file runs these tests alone.
"""

import collections
import itertools
import os
import pathlib
import re
import subprocess
import sys
import tempfile
import threading

sys.path.insert(0, str(pathlib.Path(__file__).parent))
sys.dont_write_bytecode = True
import cases
import reference
from alone import each_refused, program, run_alone

TOP = pathlib.Path(__file__).resolve().parent.parent
PROGRAM = program("eraser")
RANDOM_TRACES = 300
WIDEST = 120

# The first access has a site and a lock, and the race has none.
PLACED = b"eraser trace 1\nt1 lock a\nt1 write 0x1000 pool.c:8\nt2 write 0x1000\n"

# A thread has several races at one site, under one lock. The example is the first of them.
SEVERAL = b"""eraser trace 1
t1 write 0x1000
t1 write 0x2000
t1 write 0x3000
t2 lock n
t2 write 0x1000
t2 write 0x2000
t2 write 0x3000
t3 lock m
t3 write 0x1000 a.c:1
t3 write 0x2000 a.c:1
t3 read 0x3000 a.c:1
"""
SEVERAL_BY_SITE = b"""words     kinds       threads   locks     site
3         read write  1         1         a.c:1

a.c:1:
  t3 wrote the word at 0x000000001000 (line 10)
  t3 held m
  t1 used it first: it wrote it (line 2)
  t2 was the second: it wrote it (line 6)
  t2 has written it since then (line 6)
  n did not protect it when t3 wrote it (line 10)
  So no lock protected all accesses from the second thread's first one on

steps 11, races 3, suppressed 0, refused 0
"""
# More than 17 bits number.
MANY = (1 << 17) + 2

RACE = re.compile(r"line (\d+): (?:race|unordered): (\S+) (read|write) (0x[0-9a-f]{12}) at (\S+), holds (.*)")
REUSE = re.compile(r"line (\d+): unordered: (\S+) reuse (0x[0-9a-f]{12}) (\d+)(?: at (\S+))?")
REASON = re.compile(r"  (.+): line (\d+), (\S+) (read|write)")
REFUSED = re.compile(r"line (\d+): refused: .*: ([^:]+)")
DID = {"read": "read", "write": "wrote"}
SYSTEM = ("/usr/include/", "/usr/lib/")

# Words at sites in headers of the system and elsewhere. Two threads meet at two places of the program, under a lock that is held only to read.
HEADERS = b"""eraser trace 3
""" + b"".join(b"%s write %#x %s\n" % (thread, 4 * k, site) for site, words in (
    (b"/usr/include/c++/13/bits/stl_vector.h:988", range(1, 4)), (b"/usr/src/app/main.cpp:7", range(4, 5)), (b"/usr/lib/gcc/x86_64/13/include/a.h:1", range(5, 10)),
    (b"/usr/libexec.c:3", range(10, 12)), (b"/usr/local/include/b.h:2", range(12, 13))) for k in words for thread in (b"t1", b"t2")) + b"""t1 rlock table
t1 write 0x1000 cache.cpp:41
t1 runlock table
t2 rlock table
t2 write 0x1000 cache.cpp:31
t2 runlock table
end
"""
HEADERS_ORDER = ["/usr/libexec.c:3", "/usr/src/app/main.cpp:7", "/usr/local/include/b.h:2", "cache.cpp:31", "/usr/lib/gcc/x86_64/13/include/a.h:1", "/usr/include/c++/13/bits/stl_vector.h:988"]
HEADERS_STORY = b"""
cache.cpp:31 and cache.cpp:41:
  t2 wrote the word at 0x000000001000 (line 30)
  t2 held table, but only to read
"""


def run(words, text=b"", **more):
    done = subprocess.run([str(PROGRAM), *words], input=text, capture_output=True, timeout=120, **more)
    return done.stdout, done.stderr, done.returncode


def short(name, most):
    return name if len(name) <= most else ".." + name[2 - most:]


def lock_name(name):
    return name if name.startswith("!") else short(name, 32)


def sites_in(text):
    """The sites of a trace by their numbers: the missing one, and the others by first appearance."""
    found = {"-": 0}
    for _, (_, verb, operands) in reference.events_of(text):
        sites = operands[{b"read": 1, b"write": 1, b"reuse": 2}.get(verb, len(operands)):]
        if sites and sites[0] != b"-":
            found.setdefault(sites[0].decode(), len(found))
    return found


def locks_in(text):
    return [] if text == "none" else text.split(" ")


class Holding(reference.Replay):
    """A replay that notes the locks that the thread of each reuse holds, by the reuse's line. The text of a report doesn't say them."""

    def __init__(self):
        super().__init__([])
        self.holds = {}

    def step(self, line, thread, verb, operands):
        super().step(line, thread, verb, operands)
        self.holds[str(line)] = self.names(self.cover(thread, b"read"))


def holds_of(text):
    holding = Holding()
    for line, event in reference.events_of(text):
        holding.step(line, *event)
    return holding.holds


# Where an access stood, the locks that its thread held, each with whether it was held to write, the calls that led there, the innermost first, and the
# function of the access and of each of these calls, as far as they are known.
Place = collections.namedtuple("Place", "site locks calls functions")
NOWHERE = Place("-", [], [], [])
MOST_CALLS = 8


class Placed(reference.Replay):
    """A replay that notes of each access its site and the locks that its thread held."""

    def __init__(self):
        super().__init__([])
        self.places = {}

    def step(self, line, thread, verb, operands):
        if verb in (b"read", b"write"):
            held = self.held.get(thread, {})
            locks = self.in_order(list(held) + list(range(1, self.level.get(thread, 0) + 1)))
            site = operands[1].decode() if len(operands) > 1 else "-"
            self.places[str(line)] = Place(site, [(self.name(lock), held.get(lock) != b"rlock") for lock in locks], [], [])
        super().step(line, thread, verb, operands)


def plain_name(name):
    return name.decode() if name else None


def places_in(text, trace=None):
    """Where the accesses of a trace stood, by their lines, with what this trace 4 says of them."""
    run = Placed()
    for line, (thread, verb, operands) in reference.events_of(text):
        run.step(line, thread, verb, operands)
    if trace is None:
        return run.places
    led = {line: [plain_name(name) for name in (trace.function_on(int(line)), *trace.functions_of_calls(int(line)))] for line in run.places}
    return {line: place._replace(calls=trace.calls[line], functions=led[line]) for line, place in run.places.items()}


def led_lines(place):
    """The function of an access, and the calls that led there."""
    own, *functions = place.functions or [None]
    calls = [f"    called at {short(call, 72)}{f' in {short(name, 72)}' if name else ''}" for call, name in itertools.zip_longest(place.calls, functions)]
    left_out = len(calls) - MOST_CALLS
    return [*([f"    in {short(own, 72)}"] if own else []), *calls[:MOST_CALLS], *([f"    .. and {left_out} more"] if left_out > 0 else [])]


def memory_of(trace, line, address):
    """The variable of a race's word, or the block that it was in, as a trace 4 says it."""
    return trace and (trace.variable_of(int(address, 16)) or trace.block_of(int(line), int(address, 16)))


def subject(trace, line, address, most=72):
    """The same in words, in front of the word."""
    memory = memory_of(trace, line, address)
    if not memory:
        return ""
    if memory.name:
        return f" {short(memory.name.decode(), most)}{f'+{memory.offset}' if memory.offset else ''},"
    return f" byte {memory.offset} of a block of {memory.size} bytes{f' allocated at {short(memory.place.decode(), most)}' if memory.place else ''},"


def starts(threads, trace):
    """Of these threads, each once, where it was started and what the program calls it, if a trace 4 says where."""
    found = {thread: trace and trace.start_of(thread.encode()) for thread in threads}
    return [(thread, plain_name(start[1]), start[0].decode()) for thread, start in found.items() if start and start[0]]


def start_lines(races, trace):
    """The threads that these races and their reasons name."""
    threads = [thread for race in races for thread in (race[1], *(reason[2] for reason in race[-1]))]
    called = lambda name: f' "{short(name, 72)}"' if name else ""
    lines = [f"  {short(thread, 24)}{called(name)} was started at {short(site, 72)}" for thread, name, site in starts(threads, trace)]
    return ["threads:", *lines, ""] if lines else []


def births(lines, places, trace):
    """Of the locks that were held at the accesses on these lines, each once, where its life began and whether a call created it, if a trace 4 says it."""
    locks = dict.fromkeys(lock for line in lines for lock, _ in places.get(line, NOWHERE).locks)
    found = {lock: trace and trace.birth_of(lock.encode()) for lock in locks}
    return [(lock, birth[0].decode(), birth[1]) for lock, birth in found.items() if birth]


def mention_lines(races, places, trace):
    """The threads and the locks of these races and of their reasons."""
    lines = [line for race in races for line in (race[0], *(reason[1] for reason in race[-1]))]
    told = [f"  {lock_name(lock)} was {'created' if is_created else 'first taken'} at {short(site, 72)}" for lock, site, is_created in births(lines, places, trace)]
    return [*start_lines(races, trace), *(["locks:", *told, ""] if told else [])]


def place_lines(place):
    """The lines behind a reason whose place is known."""
    site, locks, *_ = place
    at = "" if site == "-" else f"at {short(site, 72)}"
    if not locks:
        return ["    " + ", ".join(part for part in (at, "holding no lock") if part), *led_lines(place)]
    held = [f"    holding {lock_name(lock)}" + ("" if writes else ", but only to read") for lock, writes in locks]
    return [*([f"    {at}"] if at else []), *led_lines(place), *held]


def title(race, places):
    """The site of a race, and that of the access which it is with, if that is known and another one: the last of its reasons that isn't the race itself, if
    a lock did not protect that, and else the last one whose access another thread made."""
    line, thread, _, _, site, _, reasons = race
    lacks = any(label.endswith(" not covering") and at == line for label, at, _, _ in reasons)
    met = places.get(next((at for _, at, other, _ in reversed(reasons) if (at != line if lacks else other != thread)), None), NOWHERE).site
    return f"{short(site, 72)}:" if met in ("-", site) else f"{short(site, 57)} and {short(met, 57)}:"


def story(race, places, trace):
    """A race in sentences. That of a reuse has a size in place of the address of a word."""
    line, thread, kind, address, site, held, reasons = race
    who = short(thread, 24)
    yield ""
    yield title(race, places)
    if kind == "reuse":
        yield from given_back(line, thread, address, reasons, places)
        return
    yield f"  {who} {DID[kind]}{subject(trace, line, address)} the word at {address} (line {line})"
    own = places.get(line, NOWHERE)
    yield from led_lines(own)
    unwritten = {lock for lock, writes in own.locks if not writes}
    for lock in held:
        is_weak = lock in unwritten or {("joined", line), (f"{lock} not covering", line)} & {(label, at) for label, at, _, _ in reasons}
        yield f"  {who} held {lock_name(lock)}" + (", but only to read" if is_weak else "")
    if not held:
        yield f"  {who} held no lock"
    yield from reason_lines(line, reasons, places)
    if reasons and reasons[0][0] != "unordered with":
        yield "  So no lock protected all accesses from the second thread's first one on"


def reason_lines(line, reasons, places):
    """The reasons of a race on this line, each with its place if that is known."""
    for label, at, other, did in reasons:
        one, deed = short(other, 24), f"{DID[did]} it"
        if label == "first":
            yield f"  {one} used it first: it {deed} (line {at})"
        elif label == "joined":
            yield f"  {one} was the second: it {deed} (line {at})"
        elif label == "write":
            yield f"  {one} has written it since then (line {at})"
        elif label == "unordered with":
            yield f"  nothing orders this before it: {one} {deed} (line {at})"
        else:
            yield f"  {lock_name(label.removesuffix(' not covering'))} did not protect it when {one} {deed} (line {at})"
        if at != line and at in places:
            yield from place_lines(places[at])


def given_back(line, thread, size, reasons, places):
    return [f"  {short(thread, 24)} gave back {size} bytes (line {line})", *reason_lines(line, reasons, places)]


def reuse_story(reuse, places):
    """An unordered reuse without a site in sentences."""
    line, thread, address, size, reasons = reuse
    return [f"{address}:", *given_back(line, thread, size, reasons, places), ""]


def read_report(report, holds=()):
    """The races of an explained report that are at a site, which may be the missing one, its other reuses, the line of its first refusal, and the lines
    that it ends with. Reuses need the locks that are held on each line."""
    races, reuses, refused, rest, reasons = [], [], [], [], []
    for line in report.splitlines():
        race, reuse, reason, refusal = (form.fullmatch(line) for form in (RACE, REUSE, REASON, REFUSED))
        if race:
            reasons = []
            races.append((race[1], race[2], race[3], race[4], race[5], locks_in(race[6]), reasons))
        elif reuse:
            reasons = []
            line, thread, address, size, site = reuse.groups()
            if site:
                races.append((line, thread, "reuse", size, site, locks_in(holds[line]), reasons))
            else:
                reuses.append((line, thread, address, size, reasons))
        elif reason:
            reasons.append((reason[1], reason[2], reason[3], reason[4]))
        elif refusal:
            refused = refused or [f"first refused: line {refusal[1]}: {refusal[2]}"]
        elif not re.match(r"line \d+: state ", line):
            rest.append(line)
    return races, reuses, refused, rest


def rows_of(races, numbers):
    """The sites of some races, each with its races: those in headers of the system last, and the site with most of them first."""
    sites = {}
    for race in races:
        sites.setdefault(race[4], []).append(race)
    return sorted(sites.items(), key=lambda row: (row[0].startswith(SYSTEM), -len(row[1]), numbers[row[0]]))


def table(rows, places, trace):
    """The lines of a table and of an example for each of its rows."""
    if not rows:
        return []
    lines = ["words     kinds       threads   locks     site"]
    for site, found in rows:
        kinds = " ".join(sorted({race[2] for race in found}, key=["read", "write", "reuse"].index)).replace("read write reuse", "all three")
        threads, locks = len({race[1] for race in found}), len({lock for race in found for lock in race[5]})
        lines.append(f"{len(found):<10}{kinds:<12}{threads:<10}{locks:<10}{short(site, 72)}")
    for _, found in rows:
        lines += story(found[0], places, trace)
    return [*lines, ""]


def part(heading, nothing, rows, places, trace):
    """A heading, and below it the table and the examples, if there are rows."""
    return [heading, *table(rows, places, trace)] if rows else [f"{heading}: {nothing}", ""]


def examples(rows):
    return [found[0] for _, found in rows]


def by_site(report, text, places, trace=None):
    """The text for people, from the lines of an explained report of a trace and where accesses stood as far as that is known."""
    races, _, refused, rest = read_report(report)
    rows = rows_of(races, sites_in(text))
    return "".join(line + "\n" for line in [*table(rows, places, trace), *mention_lines(examples(rows), places, trace), *refused, *rest])


def in_run(rows, reuses, places, trace):
    """What is unordered in the run: the sites of accesses and reuses, and then the other reuses."""
    sites = ["races in this run"] if reuses and not rows else part("races in this run", "none", rows, places, trace)
    return [*sites, *(line for reuse in reuses for line in reuse_story(reuse, places))]


def by_site_of_order(unordered, text, places, trace=None):
    """The text for people of an explained report by happens-before."""
    races, reuses, refused, rest = read_report(unordered, holds_of(text))
    rows = rows_of(races, sites_in(text))
    return "".join(line + "\n" for line in [*in_run(rows, reuses, places, trace), *mention_lines([*examples(rows), *reuses], places, trace), *refused, *rest])


def by_site_of_both(lockset, unordered, text, places, trace=None):
    """The same of a trace that was analysed both ways: what is unordered in the run, and the other sites of races by locks."""
    (races, _, refused, rest), (others, reuses, _, more) = read_report(lockset), read_report(unordered, holds_of(text))
    numbers = sites_in(text)
    first = rows_of(others, numbers)
    apart = [row for row in rows_of(races, numbers) if row[0] not in dict(first)]
    lines = [*in_run(first, reuses, places, trace), *part("no common lock", "no further site", apart, places, trace)]
    lines += mention_lines([*examples(first), *reuses, *examples(apart)], places, trace)
    return "".join(line + "\n" for line in [*lines, *refused, *rest, *more])


def expected(text, rules, is_file=False, trace=None):
    output, errors, status = reference.replay(text, rules or b"", explain=True)
    if status < 2:
        output = by_site(output, text, places_in(text, trace) if is_file else {}, trace)
    return output.encode(), errors.encode(), status


def run_with(rules, text, *options, path="-"):
    if rules is None:
        return run(["replay", *options, path], text)
    with tempfile.NamedTemporaryFile() as file:
        file.write(rules)
        file.flush()
        return run(["replay", *options, "--suppress", file.name, path], text)


def run_file(rules, text, *options):
    """The same over a file, which can be read twice."""
    with tempfile.NamedTemporaryFile() as file:
        file.write(text)
        file.flush()
        return run_with(rules, b"", *options, path=file.name)


def run_fifo(text, *options):
    """The same over a FIFO, which has a name and can't be read twice."""
    with tempfile.TemporaryDirectory() as folder:
        path = pathlib.Path(folder) / "fifo"
        os.mkfifo(path)
        writer = threading.Thread(target=path.write_bytes, args=(text,))
        writer.start()
        found = run(["replay", *options, str(path)])
        writer.join()
        return found


def texts():
    for trace in sorted((TOP / "examples").glob("*.trace")):
        rules = trace.with_suffix(".rules")
        yield f"example {trace.stem}", trace.read_bytes(), rules.read_bytes() if rules.exists() else None
    for case in cases.CASES + cases.EXPLAINED:
        # The reference looks back over the whole trace for each race, so the largest traces are left out.
        if len(case.text) < 20_000:
            yield f"worked trace {case.name}", case.text, case.rules
    for seed in range(RANDOM_TRACES):
        yield f"random trace {seed}", reference.random_trace(seed), None if seed % 3 else reference.random_rules(seed)


def long_names(count):
    """A trace of names of 128 bytes: its widest lines."""
    site, lock, one, two = "s" * 128, "l" * 127, "t" * 127 + "1", "t" * 127 + "2"
    lines = ["eraser trace 1"]
    for k in range(count):
        lines += [f"{one} lock {lock}{k}", f"{one} write {hex(4 * k)} {site}"]
    for k in range(count):
        lines += [f"{two} lock {lock}{k}" if k else f"{two} rlock {lock}{k}", f"{two} write {hex(4 * k)} {site}"]
    lines += [f"{one} unlock {lock}{k}" for k in range(count)] + [f"{one} write {hex(4 * k)} {site}" for k in range(count)]
    return "\n".join(lines).encode() + b"\n"


def tests(record, preloaded):
    raced = placed = 0
    for name, text, rules in texts():
        wanted, found = expected(text, rules), run_with(rules, text, "--by-site")
        record(f"{name} by site", found == wanted, f"{found}"[:1000])
        record(f"{name} by site, status", found[1:] == run_with(rules, text)[1:], f"{found[1:]}")
        record(f"{name} by site, explained or by several workers", found == run_with(rules, text, "--by-site", "--explain", "--workers", "3"))
        raced += b"used it first" in found[0]
        wanted, found = expected(text, rules, True), run_file(rules, text, "--by-site")
        record(f"{name} by site, from a file", found == wanted, f"{found}"[:1000])
        placed += b"\n    holding " in found[0] and b"\n    at " in found[0]
    record("traces by site have races", raced > 100, f"{raced}")
    record("some reasons have a site and locks", placed > 50, f"{placed}")
    found = run(["replay", "--by-site", "-"], SEVERAL)
    record("several races of a thread at one site", found == (SEVERAL_BY_SITE, b"", 1), f"{found}")
    record("reasons from a FIFO have no places", run_fifo(PLACED, "--by-site") == expected(PLACED, None))
    record("reasons from a file have places", run_file(None, PLACED, "--by-site") == expected(PLACED, None, True) and b"    at pool.c:8\n    holding a\n" in expected(PLACED, None, True)[0])
    found = run(["replay", "--by-site", "-"], long_names(9))
    record("long names by site", found == expected(long_names(9), None) and found[2] == 1 and b"only to read" in found[0], f"{found}"[:1000])
    record("long names by site are cut", max(len(line) for line in found[0].splitlines()) <= WIDEST)
    two = [line for line in run_file(None, long_names(9).replace(b"write 0x0 s", b"write 0x0 z", 1), "--by-site")[0].splitlines() if b" and " in line]
    record("two long names in a line", [len(line) for line in two] == [WIDEST], f"{two}")
    found = run_file(None, long_names(9), "--by-site")
    record("long names by site from a file", found == expected(long_names(9), None, True))
    both = run_file(None, HEADERS, "--analysis", "both", "--by-site")
    for of, found in (("locks", run_file(None, HEADERS, "--by-site")), ("both analyses", both)):
        order = re.findall(rb"\n[1-9]\d* .{40}(.*)", found[0])
        record(f"by {of} sites in headers of the system come last", [site.decode().strip() for site in order] == HEADERS_ORDER, f"{found}")
        record(f"by {of} an example names both places, and a lock that is held only to read", HEADERS_STORY in found[0], f"{found}")
    record("no site but those above", b"no common lock: no further site\n\n" in both[0], f"{both}")
    record("long names by site from a file are cut", max(len(line) for line in found[0].splitlines()) <= WIDEST)
    record("no colour by site", b"\x1b" not in found[0])
    # As many sites as there are races: a pass over the rows for each would take minutes.
    many = "eraser trace 1\n" + "".join(f"t{who} write {4 * k} s:{k}\n" for who in (1, 2) for k in range(MANY))
    output, errors, status = run(["replay", "--by-site", "-"], many.encode())
    record("many sites", (errors, status) == (b"", 1) and output.count(b"\n1         write       1         0         s:") == MANY)
    formats = (TOP / "docs/FORMATS.md").read_text()
    for name, *analysis in (("explained",), ("both_analyses", "--analysis", "both"), ("both_analyses", "--analysis", "happens-before"), ("ordered", "--analysis", "happens-before")):
        shown = run(["replay", "--by-site", *analysis, str(TOP / f"examples/{name}.trace")])[0].decode()
        record(f"the report by site of the formats: {name} {analysis}", f"```text\n{shown}```" in formats, shown)
    with tempfile.TemporaryDirectory() as folder:
        library = preloaded(folder, "refuse")
        words = ["replay", "--by-site", str(TOP / "examples/explained.trace")]
        whole, bare = run(words), run(["replay", "--by-site", "-"], (TOP / "examples/explained.trace").read_bytes())
        record("by site the example's reasons have places", whole != bare)
        for nth, found, was_refused in each_refused(library, folder, lambda env: run(words, env=env)):
            if not was_refused:
                record("by site with all allocations", found == whole and nth > 20, f"{nth}")
                break
            is_stopped = found[1:] == (b"", 3) and b": stopped: out of memory\n" in found[0]
            record(f"by site without allocation {nth}", found in (whole, bare, (b"", b"out of memory\n", 3)) or is_stopped, f"{found}")


def preloaded(folder, name):
    """A library of tests/ for LD_PRELOAD, as `tests/run` builds it."""
    path = pathlib.Path(folder) / f"{name}.so"
    subprocess.run(["cc", "-O1", "-shared", "-fPIC", "-o", str(path), str(TOP / f"tests/{name}.c"), "-ldl"], check=True)
    return path


if __name__ == "__main__":
    run_alone(tests, preloaded)
