#!/usr/bin/env python3
"""Compares `eraser replay --strict` with a second reading of what damages a trace, which looks over the whole list of events.

`tests/run` calls `tests`. By itself this file runs these tests alone.

- worked traces: each kind of damage alone, all at once, none, locks to read of two threads, a thread that takes what it has, the formats
  1, 2 and 3 with a last line feed and without, with `end` and without, with comments that say that events are lost and with comments that
  nearly do; by path and by standard input
- examples, worked traces and random ones: a damaged trace gives a line for each kind and nothing on the output, and any other gives what
  it gives without --strict, by each analysis, in each form, explained, by several workers and under rules
- each allocation refused in turn: `out of memory`, or the whole answer
- long traces with a comment at each of many places, which several workers read in pieces
- steps on both sides of the ends of batches, and threads that hold one lock to read, as many as a count of them may grow to
"""

import pathlib
import sys
import tempfile

sys.path.insert(0, str(pathlib.Path(__file__).parent))
sys.dont_write_bytecode = True
import reference
import site_tests
from alone import each_refused, run_alone
from site_tests import TOP, preloaded, run, run_with

RANDOM_TRACES = 300
TAKES = {b"lock": b"write", b"rlock": b"read"}
GIVES = {b"unlock", b"runlock"}
FORMS = ([], ["--explain"], ["--by-site"], ["--format", "json"], ["--format", "sarif"], ["--format", "html"], ["--workers", "3"], ["--workers", "2", "--explain"],
    ["--analysis", "happens-before"], ["--analysis", "both"], ["--analysis", "happens-before", "--by-site"], ["--analysis", "both", "--format", "json"],
    ["--analysis", "happens-before", "--format", "sarif"], ["--analysis", "both", "--format", "html", "--workers", "2"])


# ---- The second reading

def is_refused(events, at):
    """Whether the event at a place is refused, by all accepted events of its thread before it."""
    _, (thread, verb, operands) = events[at]
    before = [(event[1], event[2]) for _, event in events[:at] if event[0] == thread and not event[3]]
    if verb in TAKES or verb in GIVES:
        held = held_by(before)
        if verb in TAKES:
            return operands[0] in held or len(held) >= 64
        return held.get(operands[0]) != TAKES[verb.replace(b"un", b"")]
    depth = sum((verb == b"ignore-on") - (verb == b"ignore-off") for verb, _ in before)
    return depth >= 255 if verb == b"ignore-on" else verb == b"ignore-off" and depth == 0


def held_by(events):
    """The locks that accepted events of one thread leave it, with how: those whose last event is a taking."""
    held = {}
    for verb, operands in events:
        if verb in TAKES:
            held[operands[0]] = TAKES[verb]
        elif verb in GIVES:
            held.pop(operands[0], None)
    return held


def is_held_twice(events, at):
    """Whether the accepted event at a place takes a lock that another thread holds, and not both to read."""
    _, (thread, verb, operands, refused) = events[at]
    if verb not in TAKES or refused:
        return False
    for other in {event[0] for _, event in events[:at]} - {thread}:
        how = held_by([(event[1], event[2]) for _, event in events[:at] if event[0] == other and not event[3]]).get(operands[0])
        if how and "write".encode() in (how, TAKES[verb]):
            return True
    return False


def damage_of(text):
    """The lines of a trace's damage. The text has no fault."""
    events = []
    for line, (thread, verb, operands) in reference.events_of(text):
        events.append((line, (thread, verb, operands)))
        events[-1] = (line, (thread, verb, operands, is_refused(events, len(events) - 1)))
    lines = text.split(b"\n")
    last = len(lines) - (lines[-1] == b"")
    words = [words for _, words in reference.content_of(text) if words]
    found = [
        (next((line for line, event in events if event[3]), None), "refused step"),
        (next((events[at][0] for at in range(len(events)) if is_held_twice(events, at)), None), "lock held twice"),
        (None if text.endswith(b"\n") else last, "no line feed"),
        (last if words[0][2] == b"3" and words[-1] != [b"end"] else None, "no end"),
    ]
    loss = reference.loss_of(text)
    found += [(loss[0], f"events lost: {loss[1]}")] if loss else []
    return "".join(f"line {line}: {kind}\n" for line, kind in found if line is not None).encode()


def expected(text, rules, *options):
    """What --strict gives, by what the program gives without it."""
    found = run_with(rules, text, *options)
    if found[2] >= 2:
        return found
    lines = damage_of(text)
    return (b"", lines, 2) if lines else found


# ---- Worked traces

HEAD = b"eraser trace 1\n"
THIRD = b"eraser trace 3\n"
WORKED = (
    ("no step", HEAD, b""),
    ("one lock, one thread after another", HEAD + b"t1 lock m\nt1 unlock m\nt2 lock m\nt2 unlock m\n", b""),
    ("a release of nothing", HEAD + b"t1 unlock m\n", b"line 2: refused step\n"),
    ("the first of two refused steps", HEAD + b"# \n\nt1 lock m\nt1 unlock n\nt1 ignore-off\n", b"line 5: refused step\n"),
    ("a lock that its thread has", HEAD + b"t1 lock m\nt1 lock m\n", b"line 3: refused step\n"),
    ("a lock that its thread has to read", HEAD + b"t1 rlock m\nt1 lock m\n", b"line 3: refused step\n"),
    ("two threads write under one lock", HEAD + b"t1 lock m\nt2 lock m\n", b"line 3: lock held twice\n"),
    ("one reads and one writes", HEAD + b"t1 rlock m\nt2 lock m\n", b"line 3: lock held twice\n"),
    ("one writes and one reads", HEAD + b"t1 lock m\nt2 rlock m\n", b"line 3: lock held twice\n"),
    ("both read", HEAD + b"t1 rlock m\nt2 rlock m\nt1 runlock m\nt2 runlock m\n", b""),
    ("both read, and a third writes", HEAD + b"t1 rlock m\nt2 rlock m\nt1 runlock m\nt3 lock m\n", b"line 5: lock held twice\n"),
    ("a third writes when both have read", HEAD + b"t1 rlock m\nt2 rlock m\nt1 runlock m\nt2 runlock m\nt3 lock m\n", b""),
    ("the first of two locks held twice", HEAD + b"t1 lock a\nt1 lock b\nt2 lock b\nt2 lock a\n", b"line 4: lock held twice\n"),
    ("a refused step takes nothing", HEAD + b"t1 rlock m\nt1 lock m\nt2 rlock m\n", b"line 3: refused step\n"),
    ("levels are no locks that a step takes", b"eraser trace 2\nt1 level 3\nt2 level 3\n", b""),
    ("no line feed", HEAD + b"t1 write 0x1000", b"line 2: no line feed\n"),
    ("a header without a line feed", b"eraser trace 1", b"line 1: no line feed\n"),
    ("a comment without a line feed", HEAD + b"t1 write 0\n# cut", b"line 3: no line feed\n"),
    ("a text 3 with its end", THIRD + b"t1 start t2\nt2 write 0\nend\n", b""),
    ("a text 3 with its end and a comment", THIRD + b"end\n\n# done\n", b""),
    ("a text 3 whose end has no line feed", THIRD + b"end", b"line 2: no line feed\n"),
    ("a thread named as the header's first word", THIRD + b"main start eraser\neraser write 0\nend\n", b""),
    ("a text 3 without an end", THIRD + b"t1 write 0\n", b"line 2: no end\n"),
    ("a header of a text 3", THIRD, b"line 1: no end\n"),
    ("a cut text 3", THIRD + b"t1 write 0\nt1 wri", None),
    ("a cut text 3 that can be read", THIRD + b"t1 write 0\nt1 write 0x1", b"line 3: no line feed\nline 3: no end\n"),
    ("a text 1 needs no end", HEAD + b"t1 write 0\n", b""),
    ("all at once", THIRD + b"t1 unlock m\nt1 lock m\nt2 lock m\nt2 write 0", b"line 2: refused step\nline 4: lock held twice\nline 5: no line feed\nline 5: no end\n"),
    ("events of a text 3 are lost", THIRD + b"t1 write 0\n# incomplete: 1 events, 30175 lost\n", b"line 3: no end\nline 3: events lost: 30175\n"),
    ("events of a text 2 are lost", b"eraser trace 2\n# incomplete: 0 events, 1 lost\n", b"line 2: events lost: 1\n"),
    ("events of a text 1 are lost", HEAD + b"t1 write 0\n\n# incomplete: 1 events, 18446744073709551615 lost\n", b"line 4: events lost: 18446744073709551615\n"),
    ("events are lost and the line feed too", HEAD + b"# incomplete: 01 events, 007 lost", b"line 2: no line feed\nline 2: events lost: 7\n"),
    ("events are lost before the header", b"# incomplete: 1 events, 2 lost\n" + HEAD, b"line 1: events lost: 2\n"),
    ("events are lost in mid-text", HEAD + b"t1 write 0\n# incomplete: 1 events, 2 lost\nt1 write 0\n", b"line 3: events lost: 2\n"),
    ("events are lost before the end", THIRD + b"# incomplete: 1 events, 2 lost\nend\n", b"line 2: events lost: 2\n"),
    ("events are lost behind the end", THIRD + b"end\n# incomplete: 1 events, 2 lost\n", b"line 3: events lost: 2\n"),
    ("the last of two comments", HEAD + b"# incomplete: 1 events, 2 lost\n# incomplete: 1 events, 3 lost\n", b"line 3: events lost: 3\n"),
    ("behind a comment that none is lost", HEAD + b"# complete: 1 events, none lost\n# incomplete: 1 events, 3 lost\n", b"line 3: events lost: 3\n"),
    ("another comment behind lost events", HEAD + b"# incomplete: 1 events, 2 lost\n# done\n", b""),
    ("an empty comment behind lost events", HEAD + b"# incomplete: 1 events, 2 lost\n#\n", b""),
    ("no lost event behind lost events", HEAD + b"# incomplete: 1 events, 2 lost\n# incomplete: 1 events, 0 lost\n", b""),
    ("none lost", THIRD + b"# complete: 1 events, none lost\nend\n", b""),
    *((f"not quite {line!r}", HEAD + line + b"\n", b"") for line in (
        b"# incomplete: 1 events, 0 lost", b"# complete: 1 events, 2 lost", b"# incomplete: 1 events, 18446744073709551616 lost",
        b"# incomplete: 18446744073709551616 events, 1 lost", b"# incomplete: events, 2 lost", b"# incomplete: x events, 2 lost",
        b"# incomplete: 1 events, 0x2 lost", b"# incomplete: 1 events, -2 lost", b"# incomplete: 1 events, lost", b"# incomplete: 1 events,  lost",
        b"#incomplete: 1 events, 2 lost", b"#  incomplete: 1 events, 2 lost", b"# incomplete:  1 events, 2 lost", b"# incomplete:\t1 events, 2 lost",
        b"# incomplete: 1 events,  2 lost", b"# incomplete: 1 events, 2  lost", b"# incomplete: 1 events, 2 lost ", b"# incomplete: 1 events, 2 lost\r",
        b"# incomplete: 1 events, 2 lost x", b"# incomplete: 1 events, 2", b"# incomplete: 1 event, 2 lost", b"# incomplete 1 events, 2 lost",
        b"# Incomplete: 1 events, 2 lost", b"## incomplete: 1 events, 2 lost", b"#", b"# ", b"#     ", b"# incomplete:",
    )),
    ("a fault before damage", HEAD + b"t1 unlock m\nt1 fly\n", None),
    ("an empty text", b"", None),
)


def worked_traces(record):
    for name, text, lines in WORKED:
        plain = run(["replay", "-"], text)
        wanted = (b"", lines, 2) if lines else plain
        record(f"strict: {name}", (lines is None) == (plain[2] == 2), f"{plain}")
        with tempfile.NamedTemporaryFile() as file:
            file.write(text)
            file.flush()
            for options in FORMS:
                for trace in ("-", file.name):
                    whole = (b"", lines, 2) if lines else run(["replay", *options, trace], text)
                    found = run(["replay", "--strict", *options, trace], text)
                    record(f"strict: {name} {options} {trace == '-'}", found == whole, f"{found}, {whole}"[:1000])
        record(f"strict: {name}, second reading", lines is None or damage_of(text) == lines, f"{lines}")
        record(f"strict: {name} without rules", run(["replay", "--strict", "-"], text) == wanted)


# ---- Other traces

def all_traces(record):
    damaged = whole = 0
    for at, (name, text, rules) in enumerate(site_tests.texts()):
        for options in (FORMS[0], FORMS[at % len(FORMS)]):
            wanted, found = expected(text, rules, *options), run_with(rules, text, "--strict", *options)
            record(f"strict: {name} {options}", found == wanted, f"{found}, {wanted}"[:1000])
            damaged, whole = damaged + (wanted[0] == b"" and b"line" in wanted[1]), whole + (wanted[2] < 2)
    record("strict: some are damaged and some are not", min(damaged, whole) > 20, f"{damaged}, {whole}")


def batches(record):
    """Damage on both sides of the ends of batches of one worker and of several, and behind them."""
    # One worker reads 1,024 lines at a time, one of two 16,384, and three of four 64 lines and then 384 KiB each.
    several = 64 + (3 * 384 << 10) // len(b"t1 write 0\n")
    for size in (1022, 1023, 1024, 2047, 16382, 16383, 16384, several - 2, several - 1, several, several + 1):
        text = HEAD + b"t1 lock m\n" * 1 + b"t1 write 0\n" * (size - 1) + b"t2 lock m\nt2 unlock n\n"
        wanted = (b"", b"line %d: refused step\nline %d: lock held twice\n" % (size + 3, size + 2), 2)
        for crew in ([], ["--workers", "2"], ["--workers", "4"]):
            record(f"strict: {size} lines before damage {crew}", run(["replay", "--strict", *crew, "-"], text) == wanted)
    text = HEAD + b"".join(b"t%d rlock m\n" % n for n in range(3000)) + b"".join(b"t%d runlock m\n" % n for n in range(2999))
    record("strict: the last of many readers is left", run(["replay", "--strict", "-"], text + b"t lock m\n")[:2] == (b"", b"line 6001: lock held twice\n"))
    record("strict: no reader is left", run(["replay", "--strict", "-"], text + b"t2999 runlock m\nt lock m\n")[1:] == (b"", 0))


def long_comments(record):
    """A comment anywhere in a trace that several workers read in pieces, and one behind it that says nothing."""
    for before, behind in ((60, 700_000), (150_000, 550_000), (350_000, 350_000), (699_000, 1000)):
        text = THIRD + b"t1 write 0\n" * before + b"# incomplete: 7 events, 8 lost\n" + b"t1 write 0\n" * behind
        damage = b"line %d: no end\nline %d: events lost: 8\n" % (before + behind + 2, before + 2)
        for crew in ([], ["--workers", "2"], ["--workers", "3"], ["--workers", "4"]):
            name = f"strict: lost behind {before} lines {crew}"
            record(name, run(["replay", "--strict", *crew, "-"], text) == (b"", damage, 2))
            record(f"{name}, in the report", run(["replay", *crew, "-"], text)[0] == b"steps %d, races 0, suppressed 0, refused 0, lost 8\n" % (before + behind))
            record(f"{name}, and said no more", run(["replay", "--strict", *crew, "-"], text + b"#\nend\n")[1:] == (b"", 0))


def refusals(record, preloaded):
    with tempfile.TemporaryDirectory() as folder:
        library, trace = preloaded(folder, "refuse"), pathlib.Path(folder) / "t.trace"
        everything = next(text for name, text, _ in WORKED if name == "all at once")
        for text, crew in ((everything, []), (WORKED[1][1], []), (everything, ["--workers", "2"])):
            trace.write_bytes(text)
            words, told = ["replay", "--strict", *crew, str(trace)], 0
            whole = run(words)
            for nth, found, was_refused in each_refused(library, folder, lambda env: run(words, env=env)):
                is_told = found[0] == b"" and found[2] == 3 and found[1] in (b"out of memory\n", b"worker not started\n")
                # Without memory for its lines the damage is told as a want of memory, with the status of damage.
                is_damage = whole[2] == 2 and found == (b"", b"out of memory\n", 2)
                is_stopped = whole[2] < 2 and found[1:] == (b"", 3) and b"stopped: out of memory" in found[0]
                told += is_told or is_damage
                record(f"strict {crew} without allocation {nth}", found == whole or was_refused and (is_told or is_damage or is_stopped), f"{found}")
            record(f"strict {crew}: refused allocations are told", told > 5, f"{told}")


def tests(record, preloaded):
    worked_traces(record)
    all_traces(record)
    batches(record)
    long_comments(record)
    refusals(record, preloaded)


if __name__ == "__main__":
    run_alone(tests, preloaded)
