#!/usr/bin/env python3
"""Compares what the program makes of traces in the binary form with what it makes of the texts that they mean, by the second reading of tests/trace4.py.

`tests/run` calls `tests`. By itself this file runs these tests alone.

- random traces of texts 1 to 3, examples and worked traces, as trace 4 with random lengths, blocks and records that say nothing: `eraser print` gives
  the text, and replays give the same report, by path and by standard input, with each option of a report and several workers; by happens-before, if
  each access touches whole words
- the report by happens-before of accesses that touch parts of their words is that of tests/order_reference.py by bytes, also with --until-fault, of a
  whole trace and of the lines before a fault, and if batches lie between them, or pieces of several workers
- random trees of calls and facts: the reports by site by each analysis, the JSON and the SARIF of a file show the calls that led to accesses, and what
  raced, as their second readings say; from standard input, from a FIFO and with --until-fault they show neither
- the last 256 blocks of memory are known to a report, and no block before them; facts that say nothing of a block
- three small traces cut off at each byte, and with a random bit of each byte flipped: the fault of the damage, or the same report
- records that no trace has, in blocks whose checksum is right: the damage is at their byte, and with --until-fault what stands before it is reported
- a file that means more text than a text may have is replayed whole, unless a limit is given
- one name or place more than a trace may have; records and blocks of the greatest length, and of one byte more; long traces of several blocks
- each allocation refused in turn, also where a file is read again for its places and calls; reads of a few bytes at a time, and each read failed in turn
- the example of docs/FORMATS.md has the text that stands beside it, and so has the example of a report with facts
"""

import collections
import json
import os
import pathlib
import random
import re
import sys
import tempfile

sys.path.insert(0, str(pathlib.Path(__file__).parent))
sys.dont_write_bytecode = True
import analysis_tests
import cases
import json_tests
import reference
import sarif_tests
import site_tests
import trace4
from alone import OUTCOMES, each_failed, each_refused, outcome_of, run_alone
from analysis_tests import expected_by_site
from site_tests import TOP, preloaded, run, run_fifo, run_file

RANDOM_TRACES = 200
# What reports have of calls and facts.
SHOWN = (b"called at", b" more\n", b"    in Pool::take\n", b" in stats\n", b" stats+", b" of a block of ", b" allocated at ", b"\nthreads:\n", b" was started at ", b' "stats" was',
    b'"calls":', b'"functions":[', b'"functions":[null', b'"variable":', b'"block":', b'"site":null}', b'"threads":', b'"name":null', b'"stacks":', b'"kind":"function"',
    b"\nlocks:\n", b" was created at ", b" was first taken at ", b'"locks":', b'"created":true', b'"created":false')
SCHEMA = json.loads(json_tests.SCHEMA.read_text())
# Options of a replay. Each trace is replayed with some of them.
FORMS = ([], ["--explain"], ["--by-site"], ["--format", "json"], ["--format", "sarif"], ["--format", "html"], ["--workers", "2"], ["--workers", "3"], ["--strict"],
    ["--strict", "--workers", "3"], ["--until-fault"], ["--workers", "3", "--explain", "--by-site"], ["--analysis", "happens-before"],
    ["--analysis", "happens-before", "--workers", "2"], ["--analysis", "happens-before", "--workers", "3"], ["--analysis", "happens-before", "--explain"], ["--analysis", "both"],
    ["--analysis", "both", "--by-site"], ["--analysis", "both", "--format", "json", "--workers", "3"], ["--analysis", "both", "--strict", "--until-fault"],
    ["--max-races", "1"])
# As many threads, locks and places as need numbers of two bytes; accesses all over memory; events lost.
WIDE = "".join(f"t{n} write {n * 0x1234567891 % 2**48:#x} place.c:{n}\nt{n} lock m{n}\n" for n in range(300))


# ---- Traces

def texts():
    """Texts without a fault, by names."""
    found = [(path.stem, path.read_bytes()) for path in sorted((TOP / "examples").glob("*.trace"))]
    found += [(case.name, case.text) for case in cases.CASES + cases.EXPLAINED if len(case.text) < 20_000]
    found += [("wide", f"eraser trace 3\n{WIDE}".encode()), ("nothing", b"eraser trace 3\n"), ("comments", b"# one\neraser trace 3\n# two \n#three\n\n# incomplete: 9 events, 2 lost\nend\n")]
    return [(name, text) for name, text in found if is_sound(text)]


def is_sound(text):
    try:
        reference.events_of(text)
    except reference.Fault:
        return False
    return True


def random_texts():
    return [(f"random trace {seed}", reference.random_trace(seed)) for seed in range(RANDOM_TRACES) if is_sound(reference.random_trace(seed))]


def loss_of(dice):
    return dice.choice([0, 0, 3, 2**40])


def small_traces():
    """Three small traces with a race each: of one block, of several, and one that lost events."""
    text = b"eraser trace 3\n# by hand\nt1 lock m\nt1 write 0x1000 a.c:1\nt1 write 0x1004 a.c:1\nt1 unlock m\nt2 write 0x1000 b.c:2\nt1 reuse 0x2000 64 a.c:3\nt1 signal s\n"
    dice = random.Random(4)
    return [trace4.encode(text), trace4.encode(text, dice, most_bytes=40), trace4.encode(text + WIDE[:200].rsplit("\n", 1)[0].encode(), lost=5)]


# ---- Sound traces

def check(record, name, text, data, options):
    """A replay of a trace 4 writes what one of its text writes, from standard input and from a file."""
    for way, found, wanted in (
        ("standard input", run(["replay", *options, "-"], data), run(["replay", *options, "-"], text)),
        ("a file", run_file(None, data, *options), run_file(None, text, *options)),
    ):
        record(f"trace 4: {name} from {way} {' '.join(options)}", found == wanted and wanted[2] in (0, 1, 2), f"{found}, {wanted}"[:1500])


def same_reports(record):
    worked, drawn = texts(), random_texts()
    for at, (name, text) in enumerate(worked + drawn):
        dice = random.Random(at)
        plain = trace4.plain(text)
        for how in (None, dice):
            found = trace4.text_of(trace4.encode(text, how))
            record(f"trace 4: the second reading of {name} {'at random' if how else ''}", found == plain, f"{found}, {plain}"[:1500])
        data = trace4.encode(text, dice, loss_of(dice), most_bytes=dice.choice([1, 100, 65536]))
        plain = trace4.text_of(data)
        found = run(["print", "-"], data)
        record(f"trace 4: the text of {name}", found == (plain, b"", 0), f"{found}, {plain}"[:1500])
        found = run(["print", "-"], text)
        record(f"trace 4: {name} means itself", found == (text, b"", 0), f"{found}"[:1500])
        by_words = trace4.encode(text, dice, loss_of(dice), most_bytes=dice.choice([1, 100, 65536]), words=True)
        for nth in range(4 if at < len(worked) else 2):
            options = FORMS[(at + 5 * nth) % len(FORMS)]
            given = by_words if "--analysis" in options else data
            check(record, name, trace4.text_of(given), given, options)


# How a trace is replayed up to a fault.
UNTIL_FAULT = {
    "from standard input": lambda data, options: run(["replay", "--until-fault", *options, "-"], data),
    "from a FIFO": lambda data, options: run_fifo(data, "--until-fault", *options),
    "of a file": lambda data, options: run_file(None, data, "--until-fault", *options),
}


def by_bytes(record):
    """The report by happens-before of a trace that says bytes. Some reports have fewer races than those of their texts."""
    fewer = 0
    for at, (name, text) in enumerate(random_texts()):
        data = trace4.encode(text, random.Random(at), most_bytes=random.Random(at).choice([100, 65536]))
        trace = trace4.Trace(data)
        plain = trace.text()
        for analysis in ("happens-before", "both"):
            for options in ([], ["--explain"], ["--workers", "3"]):
                wanted = analysis_tests.expected(plain, None, analysis, "--explain" in options, trace.touched)
                options = [*options, "--analysis", analysis]
                for way, found in (("standard input", run(["replay", *options, "-"], data)), ("a file", run_file(None, data, *options)), ("a file, up to a fault", run_file(None, data, "--until-fault", *options)),
                    ("standard input, up to a fault", run(["replay", "--until-fault", *options, "-"], data))):
                    record(f"trace 4: bytes of {name} from {way} {' '.join(options)}", found == wanted, f"{found}, {wanted}"[:1500])
                # A byte behind the end is a fault: the lines before it are replayed a second time.
                way, found = list(UNTIL_FAULT.items())[at % 3]
                output, errors, status = found(data + b"\0", options)
                is_told = errors.endswith(b": after end\n") and status == 2
                record(f"trace 4: bytes of {name} before a fault, {way} {' '.join(options)}", output == wanted[0] and is_told, f"{output} {errors} {status}, {wanted}"[:1500])
        fewer += run(["replay", "--analysis", "happens-before", "-"], data)[0] != run(["replay", "--analysis", "happens-before", "-"], plain)[0]
    record("trace 4: bytes make fewer races", fewer > 10, f"{fewer}")


def long_list(dice):
    """A text of 20,000 lines: accesses, and here and there what orders threads, or puts memory to a new use."""
    lines, word = [], lambda: f"{0x10000 + 4 * dice.randrange(8000):#x}"
    for _ in range(20_000):
        verb = f"{dice.choice(['read', 'write'])} {word()} source/of/the/program/file_{dice.randrange(100)}.cpp:{dice.randrange(900)}"
        if dice.randrange(300) == 0:
            verb = dice.choice(["lock m", "unlock m", "lock n", "unlock n", "signal s", "await s", f"reuse {word()} 64 pool.cpp:1"])
        lines.append(f"thread-{dice.randrange(4)} {verb}\n")
    return f"eraser trace 3\n{''.join(lines)}end\n".encode()


def bytes_of_a_long_trace(record):
    """Accesses of the same bytes lie farther apart than the longest batch, and the lines are several pieces of 384 KiB."""
    dice = random.Random(5)
    data = trace4.encode(long_list(dice), dice, most_bytes=10_000)
    trace = trace4.Trace(data)
    plain = trace.text()
    by_bytes, status = analysis_tests.unordered_report(plain, [], True, trace.touched)
    by_locks, errors, either = reference.replay(plain)
    both = by_locks + re.sub("  unordered with: .*\n", "", by_bytes)
    apart = [int(line) - int(reason) for line, reason in re.findall(r"^line (\d+): unordered: .*\n  unordered with: line (\d+)", by_bytes, re.M)]
    more = run(["replay", "--analysis", "happens-before", "-"], plain)[0].count(b": unordered: ") - len(apart)
    record("trace 4: a long trace by bytes", max(apart) > 16_384 and more > 10 and len(plain) > 3 * 384 * 1024 and len(apart) > 1000, f"{max(apart)} {more} {len(plain)} {len(apart)}")
    for workers in ("1", "2", "4", "7"):
        for analysis, wanted in (["happens-before", "--explain"], (by_bytes.encode(), b"", status)), (["both"], (both.encode(), errors.encode(), max(status, either))):
            options = ["--analysis", *analysis, "--workers", workers]
            for way, found in (("standard input", run(["replay", *options, "-"], data)), ("a file", run_file(None, data, *options))):
                record(f"trace 4: a long trace by bytes from {way} {' '.join(options)}", found == wanted, f"{len(found[0])} {found[1:]}, {len(wanted[0])}")


def long_traces(record):
    """Several blocks, of which some have the greatest length, and lines that several workers share."""
    dice = random.Random(11)
    lines = [f"t{dice.randrange(5)} {dice.choice(['read', 'write'])} {0x10000 + 4 * dice.randrange(8000):#x} f{dice.randrange(400)}.c:{dice.randrange(9)}" for _ in range(60_000)]
    text = ("eraser trace 3\n" + "\n".join(lines) + "\n").encode()
    plain = trace4.plain(text)
    for name, data in (("usual blocks", trace4.encode(text)), ("small blocks", trace4.encode(text, most_bytes=500)), ("one block", trace4.encode(text, most_bytes=trace4.MOST_BYTES - 100))):
        found = run(["print", "-"], data)
        record(f"trace 4: the text of a long trace, {name}", found == (plain, b"", 0), f"{len(found[0])} {found[1:]}")
        for options in ([], ["--workers", "2"], ["--workers", "3"], ["--analysis", "both", "--workers", "3", "--by-site"]):
            found, wanted = run(["replay", *options, "-"], data), run(["replay", *options, "-"], plain)
            record(f"trace 4: a long trace, {name} {options}", found == wanted and wanted[2] == 1, f"{found[1:]}, {wanted[1:]}")


def long_text(record):
    """A file that means more text than a text may have: only a limit that is given ends its replay. From standard input the usual one does too."""
    site, count, limit = b"a" * 128, 500_000, 1 << 28
    writer = trace4.Writer()
    node = writer.node_of(site)
    for _ in range(count):
        writer.access(b"t1", False, 0x1000, 16, node)
    data = writer.finish()
    line = len(b"t1 read 0x000000001000 " + site + b"\n")
    fault = b"line %d: text too long\n" % ((limit - len(b"eraser trace 3\n")) // line + 2)
    end = b"steps %d, %s 0, suppressed 0, refused 0\n"
    with tempfile.NamedTemporaryFile() as file:
        file.write(data)
        file.flush()
        for words, races in (([], b"races"), (["--workers", "3"], b"races"), (["--until-fault"], b"races"), (["--analysis", "happens-before"], b"unordered")):
            found = run(["replay", *words, file.name])
            record(f"trace 4: a long text {words}", found == (end % (4 * count, races), b"", 0), f"{found}")
        found = run(["replay", "--byte-limit", str(limit), file.name])
        record("trace 4: a long text with the limit of a text", found == (b"", fault, 2), f"{found}")
        found = run(["explain", "2", file.name])
        record("trace 4: the story of a step of a long text", found == (b"", fault, 2), f"{found}")
    found = run(["replay", "-"], data)
    record("trace 4: a long text from standard input", found == (b"", fault, 2), f"{found}")


def expected_forms(text, trace):
    """The forms of a report that tell places, with their options: what is written of a file, which is this trace 4, and what of a stream."""
    places = expected_by_site(text, None, trace)
    yield "by site", ["--by-site"], site_tests.expected(text, None, True, trace), site_tests.expected(text, None)
    for analysis in ("happens-before", "both"):
        yield f"by site of {analysis}", ["--by-site", "--analysis", analysis], places[analysis, True], places[analysis, False]
    for analysis in ("lockset", "both"):
        options = ["--explain", "--analysis", analysis, "--format"]
        yield f"json of {analysis}", [*options, "json"], *(json_tests.expected(text, None, True, analysis, is_file, trace) for is_file in (True, False))
        yield f"sarif of {analysis}", [*options, "sarif"], *(sarif_tests.expected(text, None, is_file, analysis, trace) for is_file in (True, False))


# How a trace is replayed that isn't read again.
READ_ONCE = {
    "from standard input": lambda data, options: run(["replay", *options, "-"], data),
    "from a FIFO": lambda data, options: run_fifo(data, *options),
    "with --until-fault": lambda data, options: run_file(None, data, "--until-fault", *options),
}


def check_calls(record, name, text, data, way):
    """The forms of a report that tell places show the calls that led there and the facts, as the second readings say, and a trace that is read once has
    neither. Yields what they show of these, once for each form."""
    for form, options, want, bare in expected_forms(text, trace4.Trace(data)):
        found = run_file(None, data, *options)
        record(f"trace 4: the calls of {name}, {form}", found == want, f"{found}, {want}"[:3000])
        once = READ_ONCE[way](data, options)
        record(f"trace 4: no calls of {name}, {form}, {way}", once == bare, f"{once}, {bare}"[:3000])
        if "json" in form and want[2] < 2:
            wrong = list(json_tests.faults(json.loads(found[0] or b"null"), SCHEMA, SCHEMA))
            record(f"trace 4: the calls of {name}, {form} by the schema", not wrong, f"{wrong}")
        if "sarif" in form and want[2] < 2:
            wrong = list(sarif_tests.faults(json.loads(found[0] or b"{}")))
            record(f"trace 4: the calls of {name}, {form} by what SARIF requires", not wrong, f"{wrong}")
        yield from ((word, form) for word in SHOWN if word in found[0])


def shown_calls(record):
    met = collections.Counter()
    for at, (name, text) in enumerate(random_texts()):
        data = trace4.encode(text, random.Random(at), most_bytes=random.Random(at).choice([100, 65536]), most_calls=at % 14, facts=at % 4 > 0)
        met.update(check_calls(record, name, trace4.text_of(data), data, list(READ_ONCE)[at % 3]))
    shown = collections.Counter()
    for (word, _), times in met.items():
        shown[word] += times
    record("trace 4: reports show what a trace says", all(shown[word] > 10 for word in SHOWN), f"{shown}")
    for analysis in ("happens-before", "both"):
        rare = [word for word in (b"called at", b"    in Pool::take\n", b" stats+", b" of a block of ", b"\nthreads:\n", b"\nlocks:\n") if met[word, f"by site of {analysis}"] < 5]
        record(f"trace 4: reports by site of {analysis} show what a trace says", not rare, f"{rare} {met}")
    # The calls of the race, of the write that it is unordered with, and none where a place has no caller.
    data = of_blocks([*BEGIN, named(T.PLACE, b"main.c:3"), record_of(T.NEW_NODE, 0, bytes([2, 0, 0, 0, 0])), record_of(T.NEW_NODE, 4, bytes([0, 0, 0, 0, 0])), record_of(T.NEW_NODE, 5, bytes([1, 0, 0, 0, 1])),
        bytes([64 | 16 | 1, 16, 6]), record_of(T.THREAD, 1), bytes([64 | 16 | 1, 16, 2]), record_of(T.END, 2)])
    found = run_file(None, data, "--by-site")
    wanted = b"""
x.c:1:
  b wrote the word at 0x000000000010 (line 3)
  b held no lock
  a used it first: it wrote it (line 2)
    at x.c:1, holding no lock
    called at main.c:3
"""
    record("trace 4: calls behind a header of the system", wanted in found[0] and found[1:] == (b"", 1), f"{found}")
    record("trace 4: no calls from standard input", b"called at" not in run(["replay", "--by-site", "-"], data)[0])


def fact(writer, kind, *content):
    """A fact of numbers, each with how many bytes it has, and a name."""
    whole = b"".join(part if isinstance(part, bytes) else part[0].to_bytes(part[1], "little") for part in content)
    writer.record(kind, len(whole), whole)


def block(writer, address, size, node):
    fact(writer, T.MEMORY_FACTS, (address, 6), (size, 6), (node, 4))


def pool(most_bytes=trace4.USUAL_BYTES, lock=trace4.LOCK, unlock=trace4.UNLOCK):
    """A trace by hand that says all that a report can name: two threads meet in a block of memory, and in a variable."""
    writer = trace4.Writer(most_bytes=most_bytes)
    taken, made, started = (writer.node_of(b"pool.cpp:%d" % line) for line in (22, 23, 24))
    called = writer.node_of(b"pool.cpp:17")
    first, second, third = (writer.node_of(place, called) for place in (b"pool.cpp:12", b"pool.cpp:13", b"pool.cpp:14"))
    for place, function in (*((b"pool.cpp:%d" % line, b"main") for line in (22, 23, 24)), (b"pool.cpp:17", b"work"), *((b"pool.cpp:%d" % line, b"note") for line in (12, 13, 14))):
        fact(writer, T.FUNCTION, (writer.places[place], 4), function)
    block(writer, 0x555e36321eb0, 32, taken)
    for thread in (b"t2", b"t3"):
        writer.of_thread(b"main", T.START, thread, started)
    writer.access(b"t2", True, 0x555e36321ebc, 4, first)
    writer.of_lock(b"t3", lock, b"mutex-1", second)
    fact(writer, T.MEMORY_FACTS, (0, 4), (0x555e36321eb0, 6), (made, 4))
    writer.access(b"t3", True, 0x555e36321ebc, 4, second)
    writer.of_lock(b"t3", unlock, b"mutex-1", second)
    for thread in (b"t2", b"t3"):
        writer.access(thread, True, 0x555e34d04058, 4, third)
    for thread, name in ((b"t2", b""), (b"t3", b"worker")):
        fact(writer, T.THREAD_FACTS, (writer.threads[thread], 4), (started, 4), name)
    fact(writer, T.VARIABLE, (0x555e34d04040, 6), (40, 6), b"stats")
    return writer.finish()


def report_by_site(record, name, data, in_full=None):
    """The report by site of a trace that has a race, which is what the second reading makes of it, if these words alone are reported in full."""
    trace = trace4.Trace(data)
    trace.in_full = in_full
    found, wanted = run_file(None, data, "--by-site"), site_tests.expected(trace.text(), None, True, trace)
    record(f"trace 4: {name}", found == wanted and found[2] == 1, f"{found}, {wanted}")
    return found[0]


def blocks_by_hand(record):
    """A report knows the last 256 blocks that have a word of its races, without those that lie in later ones. A reuse is no block."""
    for count, begin in ((255, block), (256, block), (255, lambda writer, *bytes_and_node: writer.reuse(b"t1", *bytes_and_node))):
        writer = trace4.Writer()
        node = writer.node_of(b"a.c:2", writer.node_of(b"a.c:1"))
        begin(writer, 0x1000, 64, node)
        for address, sizes in ((0x3000, [64] * 300), (0x2000, [4] * 300), (0x2000, range(4 * count, 0, -4))):
            for size in sizes:
                begin(writer, address, size, node)
        for word in (0x1004, 0x2000):
            for thread in (b"t1", b"t2"):
                writer.access(thread, True, word, 4, writer.node_of(b"%s.c:%x" % (thread, word)))
        name = f"{'a block' if begin is block else 'a reuse'}, and {count} behind it"
        told = re.findall(rb"wrote(.*?) the word at", report_by_site(record, name, writer.finish(), {0x1004, 0x2000}))
        oldest, latest = b" byte 4 of a block of 64 bytes allocated at a.c:2,", b" byte 0 of a block of 4 bytes allocated at a.c:2,"
        named = [oldest if count == 255 else b"", latest] if begin is block else [b"", b""]
        record(f"trace 4: {name}: which of them are reported", told == named, f"{told}")
    facts_of_memory(record)
    facts_of_locks(record)


def facts_of_memory(record):
    """What is told of a block by a fact of its address, its size and its node, or by bytes that are none."""
    told, end = b" byte 4 of a block of 8 bytes", (1 << 48) - 8
    for name, address, facts, wanted in (
        ("a block", 0x1000, [(0x1000, 8, 1)], told + b" allocated at new.c:5,"),
        ("a block without a node", 0x1000, [(0x1000, 8, 0)], told + b","),
        ("a block at the end of memory", end, [(end, 8, 1)], told + b" allocated at new.c:5,"),
        ("a block past the end of memory", end, [(end, 9, 1)], b""),
        ("a block of all memory", 0x1000, [(0, (1 << 48) - 1, 1)], b" byte 4100 of a block of 281474976710655 bytes allocated at new.c:5,"),
        ("a block of no byte", 0x1000, [(0x1006, 0, 1)], b""),
        ("a node that isn't there", 0x1000, [(0x1000, 8, 3)], b""),
        ("a fact of 15 bytes", 0x1000, [(0x1000, 8, 1), b"\4\x10\0\0\0\0\4" + bytes(8)], told + b" allocated at new.c:5,"),
        ("a fact of 17 bytes", 0x1000, [(0x1000, 8, 1), b"\4\x10\0\0\0\0\4" + bytes(10)], told + b" allocated at new.c:5,"),
        ("where a lock lies", 0x1000, [(0x1000, 8, 1), b"\4\x10\0\0\0\0\4\0\0\0"], told + b" allocated at new.c:5,"),
        ("a block in a block", 0x1000, [(0x1000, 8, 1), (0x1004, 4, 0)], b" byte 0 of a block of 4 bytes,"),
        ("a block beside a block", 0x1000, [(0x1000, 8, 1), (0x1008, 4, 0)], told + b" allocated at new.c:5,"),
    ):
        writer = trace4.Writer()
        writer.node_of(b"new.c:5")
        for thread in (b"t1", b"t2"):
            writer.access(thread, True, address + 4, 4, writer.node_of(b"a.c:1"))
            for fact_of in facts if thread == b"t1" else []:
                block(writer, *fact_of) if isinstance(fact_of, tuple) else fact(writer, T.MEMORY_FACTS, fact_of)
        output = report_by_site(record, f"{name}, in a report", writer.finish())
        record(f"trace 4: {name}: what is told of it", re.findall(rb"wrote(.*?) the word at", output) == [wanted], f"{output}")


def facts_of_locks(record):
    """What is told of two locks by facts of the number of one, its address and a node, with more bytes or without, or by bytes that are none."""
    first, second = 1, 2
    for name, facts, wanted in (
        ("a lock that a call created", [(0, first, b"")], [b"m was created at new.c:5"]),
        ("a lock that a call acquired first", [(0, first, b"\0")], [b"m was first taken at new.c:5"]),
        ("a lock that a call acquired first, and another byte", [(0, first, b"\xff")], [b"m was first taken at new.c:5"]),
        ("two locks", [(1, second, b"\1"), (0, first, b"")], [b"m was created at new.c:5", b"n was first taken at new.c:6"]),
        ("a lock that nobody held", [(2, first, b"")], []),
        ("a lock that isn't there", [(3, first, b""), (2**32 - 1, first, b"")], []),
        ("a lock without a node", [(0, 0, b""), (0, 0, b"\0")], []),
        ("a lock whose node isn't there", [(0, 4, b""), (0, 2**32 - 1, b"\0")], []),
        ("two facts of a lock", [(0, first, b""), (0, second, b"\0")], [b"m was first taken at new.c:6"]),
        ("a fact of a lock, and one without a node", [(0, first, b""), (0, 0, b"\0")], [b"m was created at new.c:5"]),
        ("where a lock lies", [(0, None, b"")], []),
        ("a fact of a lock of 13 bytes", [(0, None, b"\1\0\0")], []),
        ("a fact of a lock of 16 bytes, which is a block", [(0, first, b"\0\0")], []),
        ("a fact of a lock of 17 bytes", [(0, first, b"\0\0\0")], []),
    ):
        writer = trace4.Writer()
        for line in (5, 6):
            writer.node_of(b"new.c:%d" % line)
        at = writer.node_of(b"a.c:1")
        for lock in (b"m", b"n", b"unused"):
            writer.name(writer.locks, T.LOCK_NAME, lock)
        for thread, lock in ((b"t1", b"m"), (b"t2", b"n"), (b"t1", b"m")):
            writer.of_lock(thread, T.LOCK, lock, at)
            writer.access(thread, True, 0x1000, 4, at)
            writer.of_lock(thread, T.UNLOCK, lock, at)
            for number, node, more in facts if thread == b"t1" else []:
                fact(writer, T.MEMORY_FACTS, (number, 4), (0x2000, 6), *([] if node is None else [(node, 4)]), more)
        output = report_by_site(record, f"{name}, in a report", writer.finish())
        shown = re.search(rb"\nlocks:\n(.*?)\n\n", output, re.S)
        record(f"trace 4: {name}: what is told of it", sorted(shown[1].split(b"\n") if shown else []) == [b"  " + line for line in wanted], f"{output}")


# ---- Damaged traces

def is_fault(trace, errors):
    """Whether this is the fault of the line that says the damage."""
    return errors == f"line {len(trace.lines)}: {'after end' if trace.has_ended else 'bad verb'}\n".encode()


def check_damaged(record, name, data):
    """A replay of a damaged trace has the fault and no report, or what stands before it, if that is asked for."""
    trace = trace4.Trace(data)
    found = run(["print", "-"], data)
    record(f"trace 4: the text of {name}", found == (trace.text(), b"", 0), f"{found}, {trace.text()}"[:1500])
    if not trace.damage:
        return
    for options in ([], ["--workers", "3"], ["--strict"], ["--analysis", "both"]):
        output, errors, status = run(["replay", *options, "-"], data)
        record(f"trace 4: {name} {' '.join(options)}", (output, status) == (b"", 2) and is_fault(trace, errors), f"{output} {errors} {status}, {trace.damage}")
    for options in ([], ["--workers", "3"], ["--analysis", "both"]):
        output, errors, status = run(["replay", "--until-fault", *options, "-"], data)
        before = b"".join(line + b"\n" for line in trace.lines[:-1])
        wanted = run(["replay", *options, "-"], before)[0]
        # A note may stand before it.
        *notes, last = errors.splitlines(keepends=True) or [b""]
        is_told = is_fault(trace, last) and all(line.startswith(b"note: ") for line in notes)
        record(f"trace 4: {name}, up to there {' '.join(options)}", (output, status) == (wanted, 2) and is_told, f"{output} {errors} {status}, {wanted}")


def cut_and_flipped(record):
    """Each byte: the text that is left has a fault, or the report is the same. What no checksum covers is each byte's own."""
    dice = random.Random(2)
    for nth, data in enumerate(small_traces()):
        whole = run(["replay", "-"], data)
        record(f"trace 4: small trace {nth}", (whole[2], whole[1]) == (1, b""), f"{whole}")
        for at in range(len(data)):
            flipped = data[:at] + bytes([data[at] ^ 1 << dice.randrange(8)]) + data[at + 1:]
            for name, damaged in ((f"cut off at {at}", data[:at]), (f"with a bit of byte {at} flipped", flipped)):
                found = run(["replay", "-"], damaged)
                is_told = found[0] == b"" and found[2] == 2 and re.fullmatch(rb"line \d+: (bad verb|after end|not ascii|no header)\n", found[1])
                record(f"trace 4: small trace {nth} {name}", is_told or found == whole, f"{found}")
                text, found = trace4.text_of(damaged), run(["print", "-"], damaged)
                record(f"trace 4: the text of small trace {nth} {name}", found == (text, b"", 0), f"{found}, {text}"[:1500])


def record_of(kind, operand, rest=b"", length=None):
    length = length or next(length for length in trace4.OPERANDS if operand < 1 << 8 * length)
    return bytes([128 + 4 * kind + trace4.OPERANDS.index(length)]) + operand.to_bytes(length, "little") + rest


def of_blocks(*blocks):
    return trace4.MAGIC + b"".join(trace4.block(number, len(records), b"".join(records)) for number, records in enumerate(blocks))


def named(kind, name):
    return record_of(kind, len(name), name)


T = trace4
# Two threads, a lock, two places and three nodes; then the first thread.
BEGIN = [named(T.THREAD_NAME, b"a"), named(T.THREAD_NAME, b"b"), named(T.LOCK_NAME, b"m"), named(T.PLACE, b"x.c:1"), named(T.PLACE, b"/usr/include/y.h:2"),
    record_of(T.NEW_NODE, 0, bytes([0, 0, 0, 0, 0])), record_of(T.NEW_NODE, 1, bytes([1, 0, 0, 0, 1])), record_of(T.NEW_NODE, 0, bytes([1, 0, 0, 0, 3])), record_of(T.THREAD, 0)]
WRITE = bytes([64 | 16 | 4, 0, 16])
# An access at each node: the place of a header is that of its caller, if it has one.
SITES = [bytes([64 | 16 | 4 | 1, 0, 16, node]) for node in (1, 2, 3, 0)]
EVENTS_OF = [record_of(kind, 0) for kind in (T.LOCK, T.UNLOCK, T.READ_LOCK, T.READ_UNLOCK, T.TRY, T.UNLOCK, T.READ_TRY, T.READ_UNLOCK, T.FAILED_TRY, T.FAILED_READ_TRY, T.SIGNAL, T.AWAIT)]
OTHERS = [record_of(T.START, 1), record_of(T.JOIN, 1), record_of(T.IGNORE_ON, 7), record_of(T.IGNORE_OFF, 2**64 - 1), record_of(T.REUSE, 8, b"\3\0\0\0\0\0"), record_of(T.REUSE, 8, b"\3\0\0\0\0\0"),
    record_of(T.SHOW, 2**48 - 1), record_of(T.LEVEL, 31), record_of(T.LEVEL, 0, length=8), record_of(T.SENT, 5), record_of(T.SAW, 5)]
SOUND = {
    "every kind of record": ([*BEGIN, *EVENTS_OF, *OTHERS, *(named(kind, b"\0\xff") for kind in (T.VARIABLE, T.FUNCTION, T.THREAD_FACTS, T.MEMORY_FACTS)), named(T.NOTE, b" a~"),
        record_of(T.LOST, 9), record_of(T.LOST, 2), record_of(T.END, len(EVENTS_OF) + len(OTHERS))],
        b"a lock m\na unlock m\na rlock m\na runlock m\na lock m\na unlock m\na rlock m\na runlock m\na signal m\na await m\na start b\na join b\na ignore-on\na ignore-off\n"
        b"a reuse 0x000000000003 8\na reuse 0x000000000003 8\na show 0xffffffffffff\na level 31\na level 0\n#  a~\n# incomplete: 23 events, 2 lost\nend\n"),
    "places of nodes": ([*BEGIN, *SITES, record_of(T.NODE, 2), record_of(T.REUSE, 4, b"\0\0\0\0\0\1"), record_of(T.END, 5)],
        b"a write 0x000000001000 x.c:1\na write 0x000000002000 x.c:1\na write 0x000000003000 /usr/include/y.h:2\na write 0x000000004000\na reuse 0x010000000000 4 x.c:1\nend\n"),
    "no events": ([record_of(T.END, 0)], b"end\n"),
    "nothing lost": ([record_of(T.LOST, 4), record_of(T.LOST, 0), record_of(T.END, 0)], b"end\n"),
    "sizes": ([*BEGIN, bytes([48, 3, 16]), bytes([0, 0]), bytes([32, 1]), bytes([48, 1, 255]), record_of(T.THREAD, 1), bytes([64 | 48 | 12, 16, *(2**48 - 16).to_bytes(6, "little")]), record_of(T.END, 5)],
        b"".join(b"a read 0x%012x\n" % word for word in (16, 16, 16, 20, 24, 16)) + b"".join(b"b write 0x%012x\n" % word for word in range(2**48 - 16, 2**48, 4)) + b"end\n"),
    "the longest of all": ([named(T.THREAD_NAME, b"t" * 128), named(T.LOCK_NAME, b"l" * 128), named(T.PLACE, b"~" * 128), named(T.NOTE, b"n" * 1000), record_of(T.END, 0)], b"# " + b"n" * 1000 + b"\nend\n"),
}


def wrong_records():
    """Records that no trace has, by names. They come behind BEGIN and an access."""
    yield "an access of no byte", bytes([48 | 0, 0, 0])
    yield "an access of 17 bytes", bytes([48 | 0, 17, 0])
    yield "an access past the end of memory", bytes([32 | 4, 0xfc, 0xef])
    yield "an access at a node that isn't there", bytes([16 | 1, 0, 4])
    yield "a cut access", bytes([64 | 16 | 12, 0, 0])
    yield "a tag without an operand", bytes([128 + 4 * T.SHOW + 3, 0, 0])
    for kind in (T.THREAD, T.START, T.JOIN):
        yield f"thread 2 in kind {kind}", record_of(kind, 2)
    for kind in (T.LOCK, T.UNLOCK, T.READ_LOCK, T.READ_UNLOCK, T.TRY, T.READ_TRY, T.FAILED_TRY, T.FAILED_READ_TRY, T.SIGNAL, T.AWAIT):
        yield f"lock 1 in kind {kind}", record_of(kind, 1)
    yield "node 4", record_of(T.NODE, 4)
    yield "a caller that isn't there", record_of(T.NEW_NODE, 4, bytes(5))
    yield "a place that isn't there", record_of(T.NEW_NODE, 0, bytes([2, 0, 0, 0, 0]))
    yield "a cut node", record_of(T.NEW_NODE, 0, bytes(4))
    yield "a show behind memory", record_of(T.SHOW, 2**48)
    yield "level 32", record_of(T.LEVEL, 32)
    for kind, names in ((T.THREAD_NAME, (b"", b"a b", b"t" * 129)), (T.LOCK_NAME, (b"", b"none", b"!", b"l" * 129)), (T.PLACE, (b"", b"-", b"a b", b"\x7f", b"p" * 129)), (T.NOTE, (b"\n", b"\x7f", b"n" * 1001))):
        for name in names:
            yield f"{name[:9]} in kind {kind}", named(kind, name)
    yield "a name past the end of the block", record_of(T.NOTE, 5, b"abc")
    yield "a cut reuse", record_of(T.REUSE, 4, bytes(5))
    yield "the end with other events", record_of(T.END, 2)


def built(record):
    for name, (records, text) in SOUND.items():
        data = of_blocks(records)
        trace = trace4.Trace(data)
        record(f"trace 4: the second reading of {name}", (trace.damage, trace.text()) == (None, b"eraser trace 3\n" + text), f"{trace.text()}")
        found = run(["print", "-"], data)
        record(f"trace 4: the text of {name}", found == (trace.text(), b"", 0), f"{found}, {trace.text()}"[:1500])
        check(record, name, trace.text(), data, [])
    race = [*BEGIN, WRITE, record_of(T.THREAD, 1), WRITE]
    begin = len(of_blocks(race))
    for name, wrong in wrong_records():
        # What is cut is the last record of its block.
        whole = [*race, wrong, *([] if "cut" in name or "past the end of the block" in name or "without an operand" in name else [record_of(T.END, 2)])]
        data = of_blocks(whole)
        record(f"trace 4: {name} is damage", trace4.Trace(data).damage == b"damaged at byte %d" % begin, f"{trace4.Trace(data).damage}")
        check_damaged(record, name, data)
    for name, data, damage in damaged_blocks(race, begin):
        found = trace4.Trace(data).damage
        record(f"trace 4: {name} is damage", found == damage, f"{found}, {damage}")
        check_damaged(record, name, data)


def damaged_blocks(race, begin):
    """Blocks that no trace has, with the damage."""
    end, more = [record_of(T.END, 2)], [named(T.NOTE, b"more")]
    yield "the magic alone", T.MAGIC, b"cut off at byte 8"
    yield "a block without an end", of_blocks(race), b"cut off at byte %d" % begin
    yield "an end that isn't the last record", of_blocks([*race, *end, *more]), b"damaged at byte %d" % begin
    yield "an event in a block without a thread", of_blocks(race, [WRITE, record_of(T.END, 3)]), b"damaged at byte %d" % (begin + 16)
    yield "a lock in a block without a thread", of_blocks(race, [record_of(T.LOCK, 0), record_of(T.END, 3)]), b"damaged at byte %d" % (begin + 16)
    yield "bytes behind the end", of_blocks([*race, *end]) + b"\n", b"damaged at byte %d" % len(of_blocks([*race, *end]))
    yield "a block behind the end", of_blocks([*race, *end], more), b"damaged at byte %d" % len(of_blocks([*race, *end]))
    whole = b"".join(race)
    for count in (0, len(race) - 1, len(race) + 1):
        yield f"a block that says it has {count} records", T.MAGIC + T.block(0, count, whole) + T.block(1, 1, end[0]), b"damaged at byte 8"
    yield "a block with another number", T.MAGIC + T.block(1, len(race), whole), b"damaged at byte 8"
    yield "a block without records", T.MAGIC + T.block(0, 0, b"") + T.block(1, 1, record_of(T.END, 0)), b"damaged at byte 8"
    largest = [named(T.VARIABLE, bytes(T.MOST_BYTES - 2 - 5)), record_of(T.END, 0)]
    yield "the largest block", of_blocks(largest), None
    larger = [named(T.VARIABLE, bytes(T.MOST_BYTES - 2 - 4)), record_of(T.END, 0)]
    yield "a block that is too large", of_blocks(larger), b"damaged at byte 8"


# ---- What fails around the program

def refusals(record, preloaded, folder):
    """Memory that is refused: the line of that, or of a read that failed, and never another report."""
    library = preloaded(folder, "refuse")
    data = small_traces()[1]
    for options in ([], ["--analysis", "both"]):
        whole, met = run(["replay", *options, "-"], data), set()
        for nth, found, has_failed in each_refused(library, folder, lambda env: run(["replay", *options, "-"], data, env=env)):
            outcome = "read fault" if found == (b"", b"read fault\n", 4) else outcome_of(found, whole, lambda text: text.splitlines()[-1:] != whole[0].splitlines()[-1:])
            record(f"trace 4: allocation {nth} refused {' '.join(options)}", outcome is not None, f"{found}")
            met.add(outcome)
        record(f"trace 4: memory is refused {' '.join(options)}", {"whole", "out of memory"} <= met, f"{met}")


def refusals_again(record, preloaded, folder):
    """Memory that is refused to a report by site of a file, which is read again: its calls are left out, or its places and calls, and nothing else is."""
    library, path, met = preloaded(folder, "refuse"), pathlib.Path(folder) / "calls.trace", set()
    # A lock that is held to read protects no write.
    path.write_bytes(pool(40, T.READ_LOCK, T.READ_UNLOCK))
    trace = trace4.Trace(path.read_bytes())
    reports = {
        site_tests.expected(trace.text(), None, True, trace): "whole",
        site_tests.expected(trace.text(), None, True): "without calls",
        site_tests.expected(trace.text(), None): "without places",
        (b"", b"read fault\n", 4): "read fault",
    }
    whole = next(iter(reports))[0]
    named = all(word in whole for word in (b" byte 12 of a block of 32 bytes allocated at pool.cpp:22,", b" stats+24,", b"    in note\n", b"    called at pool.cpp:17 in work\n", b'  t3 "worker" was started at pool.cpp:24\n', b"  mutex-1 was created at pool.cpp:23\n"))
    record("trace 4: what a report by site of a file may have", len(reports) == 4 and named, f"{reports}")
    for nth, found, was_refused in each_refused(library, folder, lambda env: run(["replay", "--by-site", str(path)], env=env)):
        outcome = reports.get(found) or outcome_of(found, None, lambda text: b": stopped: out of memory\n" in text)
        record(f"trace 4: allocation {nth} of a report by site {'refused' if was_refused else 'made'}", outcome is not None if was_refused else outcome == "whole", f"{found}")
        met.add(outcome)
    record("trace 4: memory is refused to a report by site", met == {*reports.values(), *OUTCOMES}, f"{met}")


def pieces(record, preloaded, folder):
    library = preloaded(folder, "pieces")
    data = small_traces()[1]
    whole = run(["replay", "-"], data)
    for size in ("1", "3", "20"):
        found = run(["replay", "-"], data, env={**os.environ, "LD_PRELOAD": str(library), "PIECE": size})
        record(f"trace 4: reads of {size} bytes", found == whole, f"{found}, {whole}")
    path = pathlib.Path(folder) / "pieces.trace"
    path.write_bytes(data)
    for trace, piped in (("-", data), (str(path), b"")):
        count = 0
        for nth, found, has_failed in each_failed(library, folder, "FAIL_READ", "FAIL_FOUND", lambda env: run(["replay", trace], piped, env={**env, "PIECE": "20"})):
            record(f"trace 4: read {nth} of {trace[:1]} failed", found == ((b"", b"read fault\n", 4) if has_failed else whole), f"{found}")
            count += has_failed
        record(f"trace 4: reads of {trace[:1]} that fail", count >= len(data) // 20, f"{count}")


# ---- The documents

def example(record):
    """The bytes of docs/FORMATS.md, and the text below them."""
    section = (TOP / "docs/FORMATS.md").read_text().split("\n## Trace 4\n", 1)[1].split("\n## ", 1)[0]
    rows, text = re.findall(r"```text\n(.*?)```", section, re.S)[-2:]
    data = bytes.fromhex("".join(re.match(r"(?:[0-9a-f]{2}(?: |$))*", row)[0] for row in rows.splitlines()))
    found = trace4.text_of(data)
    record("trace 4: the example of the formats", found.decode() == text and trace4.is_binary(data), f"{found}")
    found = run(["print", "-"], data)
    record("trace 4: the example of the formats, printed", found == (text.encode(), b"", 0), f"{found}")


def example_of_facts(record):
    """The example of a report with facts is the first one of the trace by hand, and its threads."""
    formats, analysis = (TOP / "docs/FORMATS.md").read_text().encode(), ["--analysis", "happens-before"]
    data = pool()
    found, wanted = run_file(None, data, "--by-site", *analysis), expected_by_site(trace4.text_of(data), None, trace4.Trace(data))["happens-before", True]
    record("trace 4: a report with all facts", found == wanted, f"{found}, {wanted}")
    story = re.search(rb"\n(pool\.cpp:13 and .*?\n\n)(?s:.*)\n(threads:\n.*?\n\nlocks:\n.*?\n)\nsteps", found[0], re.S)
    shown = b"```text\n" + story[1] + story[2] + b"```\n" if story else None
    record("trace 4: the example with facts of the formats", shown and shown in formats, f"{shown} {found}")


def tests(record, preloaded):
    with tempfile.TemporaryDirectory() as folder:
        example(record)
        example_of_facts(record)
        same_reports(record)
        by_bytes(record)
        bytes_of_a_long_trace(record)
        shown_calls(record)
        blocks_by_hand(record)
        long_traces(record)
        long_text(record)
        cut_and_flipped(record)
        built(record)
        refusals(record, preloaded, folder)
        refusals_again(record, preloaded, folder)
        pieces(record, preloaded, folder)


if __name__ == "__main__":
    run_alone(tests, preloaded)
