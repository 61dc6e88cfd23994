#!/usr/bin/env python3
"""Records programs with `record/run --stacks`, and compares the calls of each access, and the names of functions and blocks, with what the programs say.

The programs of tests/record/stacks have marks (marks.h), and name all stacks that their accesses have: those of the trace are these and no others, by
two compilers at two levels. tests/trace4.py reads the traces.

`tests/run` calls `tests`. By itself this file runs these tests alone.
"""

import collections
import concurrent.futures
import itertools
import os
import pathlib
import re
import sys
import tempfile

sys.path.insert(0, str(pathlib.Path(__file__).parent))
sys.dont_write_bytecode = True
import record_tests
import site_tests
import trace4
from alone import run_alone
from record_tests import LEVELS, RUN, SOURCES, TOP, WORKERS, Findings, command

PROGRAMS = SOURCES / "stacks"
# Of those that are linked together with another file, which.
PARTS = {"thrown": "through.c"}
# Programs that say more than which stacks there are.
ALONE = ("crowd.c", "deep.c", "freed.c", "interrupted.c", "local.c", "many.c", "named.cpp", "taken.c")
# Those that --order has more to say of.
ORDERED = ("events", "once")
LEFT_OUT = "calls-left-out"
# Calls that a stack has, and the main program's one among them.
MOST_CALLS = 256


def build(folder, findings, source, compiler, level, *more, name=None):
    """Builds a program, and its second file as C. The compiler must have nothing to say."""
    program = folder / f"{name or source.stem}-{compiler}{level}"
    settings = {**os.environ, "ERASER_CC": compiler, "ERASER_CXX": {"gcc": "g++", "clang": "clang++"}[compiler]}
    files, said = [source, *more], ""
    if source.stem in PARTS:
        part = folder / f"{program.name}.o"
        said += command([TOP / "record/cc", level, *record_tests.WARNINGS, "-c", PROGRAMS / PARTS[source.stem], "-o", part], env=settings).stderr
        files.append(part)
    wrapper = TOP / "record" / ("c++" if source.suffix == ".cpp" else "cc")
    said += command([wrapper, level, *record_tests.WARNINGS, *files, "-o", program], env=settings).stderr
    findings.check(f"{program.name} is built", said == "", said)
    return program


def lines_of(source):
    """The mark of each line that has one."""
    return {number: match[1] for number, line in enumerate(source.read_text().splitlines(), 1) if (match := re.search(r"/\* @(\S+) \*/", line))}


def expected(source, word="STACK"):
    return {tuple(line.split()) for line in re.findall(rf"^ \* {word} (.+)$", source.read_text(), re.M)}


# Kinds of events that programs name.
KINDS = {trace4.LOCK: "lock", trace4.UNLOCK: "unlock", trace4.READ_LOCK: "rlock", trace4.READ_UNLOCK: "runlock", trace4.START: "start", trace4.JOIN: "join",
    trace4.SIGNAL: "signal", trace4.AWAIT: "await", trace4.REUSE: "reuse"}


# A block of memory that the program got, and how many events come before.
GotBlock = collections.namedtuple("GotBlock", "events address size node")


class Trace(trace4.Trace):
    """A trace, with the blocks that the program got."""

    def __init__(self, data):
        self.got_blocks = []
        super().__init__(data)

    def read_fact(self, kind, content):
        if kind == trace4.MEMORY_FACTS and len(content) == 16:
            address, size, node = (int.from_bytes(part, "little") for part in (content[:6], content[6:12], content[12:]))
            self.check(size and address + size <= trace4.ADDRESS_END and node < len(self.nodes))
            self.got_blocks.append(GotBlock(len(self.events), address, size, node))
        super().read_fact(kind, content)

    def block_before(self, events, address):
        """The last block that was got before an event and has an address."""
        return next((block for block in reversed(self.got_blocks) if block.events <= events and block.address <= address < block.address + block.size), None)


class Recording:
    """One run of a program with --stacks, and of what it started."""

    def __init__(self, folder, program, *words, **more):
        traces = folder / f"{program.name}.traces"
        self.done = command([RUN, *words, "-o", f"{traces}/", "--limit", "0", "--stacks", program], **more)
        self.paths = sorted(traces.glob("*.trace"))
        self.traces = [Trace(path.read_bytes()) for path in self.paths]

    def fault(self):
        if self.done.returncode or not self.traces or any(trace.damage or trace.lost or not trace.has_ended for trace in self.traces):
            return f"status {self.done.returncode}, {self.done.stderr!r}, {[trace.damage for trace in self.traces]}"
        return None

    def stacks(self, source, of_events=False):
        """The stacks of the accesses of a source, or of its other events, by its marks. A bracket has none."""
        marks = lines_of(source)
        for trace in self.traces:
            for event in trace.events:
                places = [place.decode() for place, _ in trace.stack(event.node)]
                if places and places[0].startswith(f"{source.name}:") and (event.kind != "access") == of_events and event.kind not in trace4.ALONE:
                    kind = [KINDS.get(event.kind, str(event.kind))] if of_events else []
                    yield (*kind, *(name_of(place, source, marks) for place in places))


def name_of(place, source, marks):
    """The mark of a place, `*` if it is in another file."""
    file, _, line = place.rpartition(":")
    return LEFT_OUT if place == LEFT_OUT else marks.get(int(line), place) if file == source.name else "*"


def outside(trace, node, source, marks):
    """The marks of a node's places, from the nearest one outside headers of the system on."""
    return [name_of(place.decode(), source, marks) for place, _ in itertools.dropwhile(lambda part: part[1] & trace4.IN_HEADER, trace.stack(node))]


def sizes_of(trace, memory, source):
    """How many bytes of memory are got or given back at each line with a mark, and the calls around that."""
    marks = lines_of(source)
    told = [(str(one.size), *outside(trace, one.node, source, marks)) for one in memory]
    return {one for one in told if one[1:2] and one[1] in marks.values()}


def blocks_of(trace, source):
    return sizes_of(trace, trace.got_blocks, source)


def given_of(trace, source):
    return sizes_of(trace, [event for event in trace.events if event.kind == trace4.REUSE], source)


def functions_of(trace, source):
    """The places of a source, and the function of each, or `-`."""
    return {place.decode(): trace.functions.get(number, b"-").decode() for number, place in enumerate(trace.places) if place.startswith(source.name.encode() + b":")}


# ---- The programs

def says_what_it_does(folder, findings, source, compiler, level):
    program = build(folder, findings, source, compiler, level)
    of_events = source.stem == "events"
    recording = Recording(folder, program, *["--order"] * (source.stem in ORDERED))
    wrong = set(recording.stacks(source, of_events)) ^ expected(source, "EVENT" if of_events else "STACK")
    fault = recording.fault() or (wrong and f"only in one: {sorted(map(' < '.join, wrong))}")
    findings.check(f"the calls of {program.name}", not fault, fault)
    if of_events:
        own_memory(findings, recording.traces[0], source, program)


def own_memory(findings, trace, source, program):
    """Of the blocks that are got for a thread the C library's own are told, where the program created it, and none that the recorder asked for. The
    other one is given back."""
    marks, first = lines_of(source), trace.events[0].thread
    placed = [block for block in trace.got_blocks if block.node]
    got = {tuple(outside(trace, block.node, source, marks)) for block in placed}
    given = [(event.thread == first, outside(trace, event.node, source, marks)[:1]) for event in trace.events if event.kind == trace4.REUSE]
    is_right = got == expected(source, "BLOCK") and len(placed) == 2 and given == [(True, ["frees"])]
    findings.check(f"the blocks of {program.name}", is_right, f"{got} {given}")


def recorded(folder, findings, name, compiler, level):
    """A program, its recording, and the stacks that this has."""
    source = PROGRAMS / name
    program = build(folder, findings, source, compiler, level)
    recording = Recording(folder, program)
    return source, program, recording, set(recording.stacks(source))


def deep(folder, findings, compiler, level):
    """Deep calls are left out, and counted."""
    source, program, recording, found = recorded(folder, findings, "deep.c", compiler, level)
    bottoms = {stack for stack in found if stack[0] == "bottom"}
    ends = [("calls", "main-few"), ("calls", "main-some"), ("calls", "main-many")]
    wanted = {("bottom", *["deeper"] * 20, *ends[0])} | {("bottom", LEFT_OUT, *["deeper"] * (MOST_CALLS - 3), *end) for end in ends[1:]}
    findings.check(f"the depth of {program.name}", not recording.fault() and bottoms == wanted, f"{recording.done.stderr} {[(s[:3], len(s), s[-3:]) for s in bottoms]}")
    wrong = (found - bottoms) ^ expected(source)
    findings.check(f"the calls of {program.name}", not wrong, f"{wrong}"[:500])
    findings.check(f"what {program.name} is told", re.search("^record: [24] events lack their innermost calls", recording.done.stderr, re.M), recording.done.stderr)


def interrupted(folder, findings, compiler, level):
    source, program, recording, found = recorded(folder, findings, "interrupted.c", compiler, level)
    handled = {stack for stack in found if stack[0] == "note"}
    findings.check(f"the handlers of {program.name}", handled and all(stack[1:3] == ("handles", "*") for stack in handled), f"{handled}"[:500])
    wrong = (found - handled) ^ expected(source)
    findings.check(f"the calls of {program.name}", not recording.fault() and not wrong, f"{recording.fault()} {sorted(map(' < '.join, wrong))}"[:500])


def crowd(folder, findings, compiler, level):
    """Each thread has each stack: those of all ways down a tree."""
    source = PROGRAMS / "crowd.c"
    program = build(folder, findings, source, compiler, level)
    recording = Recording(folder, program)
    trace, marks, found = recording.traces[0], lines_of(source), collections.defaultdict(set)
    for event in trace.events:
        stack = tuple(name_of(place.decode(), source, marks) for place, _ in trace.stack(event.node))
        if stack and stack[0] == "tree":
            found[event.thread].add(stack)
    wanted = {("tree", *way, "root") for height in range(10) for way in itertools.product(("left", "right"), repeat=height)}
    findings.check(f"the calls of {program.name}", len(found) == 4 and all(stacks == wanted for stacks in found.values()), f"{[len(stacks) for stacks in found.values()]}")
    # The report shows the calls of the race, and of the first thread's first access.
    shown = command([TOP / "eraser", "replay", "--by-site", recording.paths[0]]).stdout
    output, _, _ = site_tests.expected(trace.text(), None, True, trace)
    root = next(number for number, mark in marks.items() if mark == "root")
    is_told = len(re.findall(rf"^    called at \S*crowd\.c:{root} in work$", shown, re.M)) > 1
    findings.check(f"the calls in the report of {program.name}", is_told and shown == output.decode(), f"{shown}, {output}"[:2000])


def in_brackets(trace):
    """The reuses that stand alone in a bracket of their thread."""
    for before, event, behind in zip(trace.events, trace.events[1:], trace.events[2:]):
        if (before.kind, event.kind, behind.kind) == (trace4.IGNORE_ON, trace4.REUSE, trace4.IGNORE_OFF) and before.thread == event.thread == behind.thread:
            yield event


def named(folder, findings, compiler, level):
    """Functions have the names that a person gives them, and blocks of memory are those that the program got."""
    source = PROGRAMS / "named.cpp"
    program = build(folder, findings, source, compiler, level)
    trace, marks = Recording(folder, program).traces[0], lines_of(source)
    functions = {(name_of(place, source, marks), name) for place, name in functions_of(trace, source).items()}
    wrong = {pair for pair in functions ^ expected(source, "FUNCTION") if pair[0] in marks.values()}
    findings.check(f"the functions of {program.name}", not wrong, f"{wrong} {trace.damage}")
    for way, found in (("", trace), (" with --order", Recording(folder, program, "--order").traces[0])):
        wrong = blocks_of(found, source) ^ expected(source, "BLOCK") | given_of(found, source) ^ expected(source, "GIVEN")
        findings.check(f"the blocks of {program.name}{way}", not wrong and not list(in_brackets(found)), f"{sorted(wrong)}")
    without_debug(folder, findings, program, {pair for pair in functions if pair[0] in marks.values()})


def preload(folder, findings):
    """The environment with an allocator in C."""
    made = folder / "preloaded.so"
    done = command(["gcc", "-O1", *record_tests.WARNINGS, "-fno-builtin", "-shared", "-fPIC", SOURCES / "told/preloaded.c", "-o", made])
    findings.check("an allocator in C is built", done.returncode == 0 and done.stderr == "", done.stderr)
    return {**os.environ, "LD_PRELOAD": str(made)}


def blocks_of_allocator(folder, findings):
    """The blocks of a preloaded allocator, but for the one that the C library gives, since the allocator has no such function."""
    source = PROGRAMS / "named.cpp"
    program = build(folder, findings, source, "gcc", "-O1")
    recording = Recording(folder, program, "--order", env=preload(folder, findings))
    trace, fault = recording.traces[0], recording.fault()
    wanted = {block for block in expected(source, "BLOCK") if block[:2] != ("60", "paged")}
    given = {("20", "grown", "main"), ("16", "moved", "main")}
    wrong = blocks_of(trace, source) ^ wanted | given_of(trace, source) ^ given
    findings.check("the blocks of a preloaded allocator", not fault and not wrong, f"{fault} {wrong}")


def freed(folder, findings, compiler, level):
    """A use of freed memory is reported as without calls, though the program got the same bytes again. Each access is in the block that was there."""
    source, program, recording, found = recorded(folder, findings, "freed.c", compiler, level)
    trace, marks = recording.traces[0], lines_of(source)
    wrong = found ^ expected(source) or blocks_of(trace, source) ^ expected(source, "BLOCK")
    findings.check(f"the calls of {program.name}", not recording.fault() and not wrong, f"{recording.fault()} {wrong}")
    blocks = {}
    for number, event in enumerate(trace.events):
        block = trace.block_before(number, event.address) if event.kind == "access" else None
        if block:
            blocks[outside(trace, event.node, source, marks)[0]] = (block.size, event.address - block.address, outside(trace, block.node, source, marks)[0])
    wanted = {"begins": (64, 12, "first"), "uses": (64, 12, "first"), "races": (64, 12, "again")}
    findings.check(f"the blocks of {program.name}", blocks == wanted, f"{blocks}")
    site = next(f"{source.name}:{number}" for number, mark in marks.items() if mark == "races")
    for words in (["--trace", "4"], ["--stacks"]):
        path = folder / f"{program.name}.trace"
        done = command([RUN, "--order", *words, "-o", path, program])
        told = re.findall(r"^line \d+: (race|unordered): t1 write \S+ at (\S+), holds none$|(: unordered: \S+ reuse)", command([TOP / "eraser", "replay", "--analysis", "both", path]).stdout, re.M)
        findings.check(f"the use of freed memory in {program.name}, {words[-1]}", told == [("race", site, ""), ("unordered", site, "")], f"{done} {told}")


def local(folder, findings, compiler, level):
    """A variable on a thread's stack is in no block that was there before: the stack is a block without a place."""
    source, program, recording, found = recorded(folder, findings, "local.c", compiler, level)
    trace, marks = recording.traces[0], lines_of(source)
    findings.check(f"the calls of {program.name}", not recording.fault() and found == expected(source), f"{recording.fault()} {found}")
    was = next((block for block in trace.got_blocks if block.size == 16 << 20), None)
    for number, event in enumerate(trace.events):
        names = outside(trace, event.node, source, marks) if event.kind == "access" else []
        if names[:1] in (["begins"], ["races"]):
            block = trace.block_before(number, event.address)
            is_there = was and was.address <= event.address < was.address + was.size
            findings.check(f"the stack in {program.name}, {names[0]}", is_there and block and block.size < was.size and not block.node, f"{was} {event} {block}")


def without_debug(folder, findings, program, functions):
    """Without debug information the symbols have the same names, but for functions that were inlined. Debug information is found in a file beside the
    program's, though the program has no link to it."""
    bare, away = folder / f"{program.name}-bare", folder / f"{program.name}-away"
    made = [command(["objcopy", *words]).stderr for words in (["--strip-debug", program, bare], ["--strip-debug", program, away], ["--only-keep-debug", program, f"{away}.debug"])]
    names = {name.decode() for name in Recording(folder, bare).traces[0].functions.values()}
    missing = {name for _, name in functions if name != "deep"} - names
    findings.check(f"the functions of {bare.name}", len(functions) > 20 and not missing, f"{made} {missing} {names}")
    places = Recording(folder, away).traces[0].places
    findings.check(f"the places of {away.name}", any(place.startswith(b"named.cpp:") for place in places), f"{made} {places}")


def regions(folder, findings, level):
    """OpenMP: each place is in a function of the source, and each thread was created at one of its lines."""
    source, program = SOURCES / "openmp/regions.c", folder / f"regions{level}"
    built = command(["gcc", "-g", "-fsanitize=thread", "-std=gnu11", *record_tests.WARNINGS, "-fopenmp", level, source, "-o", program])
    trace = Recording(folder, program).traces[0]
    known = set(re.findall(r"^(?:static )?\w+ \**(\w+)\(", source.read_text(), re.M))
    functions = functions_of(trace, source)
    findings.check(f"the functions of {program.name}", {"main"} < set(functions.values()) <= known, f"{built} {functions} {known}")
    created = [outside(trace, fact.created_at, source, {}) for fact in trace.thread_facts.values()]
    findings.check(f"the threads of {program.name}", len(created) > 1 and all(calls and calls[0] in functions for calls in created), f"{created}")


def many(folder, findings):
    """More stacks than there is room for: a tree of calls has 2,097,151, and the one of main comes before them. What a second tree of 15 calls does is in
    main, and nobody knows by which calls."""
    program = build(folder, findings, PROGRAMS / "many.c", "gcc", "-O2")
    done = command([RUN, "-o", "/dev/null", "--limit", "0", "--stacks", program])
    findings.check("more stacks than there is room for", "record: 32 events lack their innermost calls: " in done.stderr and ", 0 lost\n" in done.stderr, done.stderr)


def taken(folder, findings):
    """A block that can't be recorded is no lost event: those that are recorded and those that are lost are together as many as without a limit. (One block
    may count, if the writer stops just then.)"""
    program = build(folder, findings, PROGRAMS / "taken.c", "gcc", "-O1")
    limits = ("0", "20000", "70000")
    told = [command([RUN, "-o", folder / "taken.trace", "--limit", limit, "--stacks", program]).stderr for limit in limits]
    counts = [tuple(map(int, match)) for text in told for match in re.findall(r"^record: (\d+) events recorded, (\d+) lost", text, re.M)]
    is_right = len(counts) == 3 and counts[0][1] == 0 and all(lost and 0 <= recorded + lost - counts[0][0] <= 1 for recorded, lost in counts[1:])
    findings.check("the lost events of a program that gets memory", is_right, f"{counts} {told}")


def refused(folder, findings, option, says):
    """A text can't have what the option asks for, and nothing is recorded."""
    for words in ([option, "--trace", "3"], ["--trace", "3", option]):
        done = command([RUN, *words, "-o", folder / "text.trace", "true"])
        is_told = (done.returncode, done.stdout, done.stderr) == (125, "", f"record: {option} does not go with --trace 3: {says}\n")
        findings.check(f"{' '.join(words)}", is_told and not (folder / "text.trace").exists(), f"{done}")


def tests(record):
    findings = Findings(record)
    command([TOP / "record/build"])
    sources = [source for source in sorted(PROGRAMS.glob("*.c*")) if source.name not in (*PARTS.values(), *ALONE)]
    with tempfile.TemporaryDirectory() as name, concurrent.futures.ThreadPoolExecutor(WORKERS) as pool:
        folder = pathlib.Path(name)
        ways = [(compiler, level) for compiler in ("gcc", "clang") for level in LEVELS]
        done = [pool.submit(says_what_it_does, folder, findings, source, *way) for source in sources for way in ways]
        done += [pool.submit(test, folder, findings, *way) for test in (crowd, deep, freed, interrupted, local, named) for way in ways]
        done += [pool.submit(regions, folder, findings, level) for level in LEVELS]
        done += [pool.submit(blocks_of_allocator, folder, findings), pool.submit(many, folder, findings), pool.submit(taken, folder, findings), pool.submit(refused, folder, findings, "--stacks", "a text has no stacks")]
        for one in done:
            one.result()


if __name__ == "__main__":
    run_alone(tests)
