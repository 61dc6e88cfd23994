#!/usr/bin/env python3
"""More of everything than a limit that nobody asked for would let through, both sides of the limits that there are, and which options go together.

`tests/run` calls `tests`. By itself this file runs these tests alone. Each trace is made beside what the program must write of it.

- more threads, locks and sites than 18 bits number; more sets of locks by both analyses, blocks of words, lists of reads and releases of one
  thread by happens-before, races with reasons, rules of a file, and locks of a strict replay than 17 bits number; more pages than 16 bits number
- 65,536 threads whose order happens-before follows, and one more; of a damaged trace a strict replay reports the damage, and not the thread
- a word whose reads are in order again gives their list up: memory goes by the words that have a list now
- each number of workers starts more threads than the one before it, and a thread that can't be started hides no fault of the text
- an option with a number takes the least and the greatest, and nothing beyond
- each analysis in each form, strict or not, with each other option: what goes together has its report, and what doesn't is wrong arguments
"""

import os
import pathlib
import re
import subprocess
import sys
import tempfile

sys.path.insert(0, str(pathlib.Path(__file__).parent))
sys.dont_write_bytecode = True
import reference
from alone import program, run_alone
from site_tests import preloaded

PROGRAM = program("eraser")
# More than 16, 17 and 18 bits number.
OVER_16, OVER_17, OVER_18 = (1 << 16) + 2, (1 << 17) + 2, (1 << 18) + 2
HAPPENS_BEFORE, BOTH = ["--analysis", "happens-before"], ["--analysis", "both"]


def run(words, text=b"", **more):
    done = subprocess.run([str(PROGRAM), *map(str, words)], input=text, capture_output=True, timeout=120, **more)
    return done.stdout, done.stderr, done.returncode


def text_of(lines):
    return "".join(f"{line}\n" for line in lines).encode()


def totals(trace, races=0, suppressed=0, what="races"):
    """The last line of the report of a trace in which each line but the header is a step, and none is refused."""
    return f"steps {len(trace) - 1}, {what} {races}, suppressed {suppressed}, refused 0"


def check(record, name, options, trace, output, errors=(), status=0):
    end = ["end"] if trace[0] == "eraser trace 3" else []
    found, wanted = run(["replay", *options, "-"], text_of([*trace, *end])), (text_of(output), text_of(errors), status)
    record(f"limits: {name} {' '.join(map(str, options))}", found == wanted, f"{found}"[:1000])


# ---- More than a limit that nobody asked for would let through


def many_names(record):
    """The last thread, lock and site are named in a race and in the states of words."""
    last, raced, kept = OVER_18 - 1, 4 * OVER_18, 4 * OVER_18 + 4
    trace = ["eraser trace 1"]
    for k in range(OVER_18):
        trace += [f"t{k} lock m{k}", f"t{k} write {4 * k} s{k}"]
    # Thread 0 comes first to both words, and the second thread leaves its lock as the candidate.
    trace += [f"t0 write {raced}", f"t1 write {raced}", f"t{last} write {raced} s{last}"]
    output = [f"line {len(trace)}: race: t{last} write 0x{raced:012x} at s{last}, holds m{last}"]
    trace += [f"t0 write {kept}", f"t{last} write {kept}"]
    for word, state in ((4 * last, f"exclusive t{last}"), (kept, f"shared-modified, candidates m{last}")):
        trace.append(f"t0 show {word}")
        output.append(f"line {len(trace)}: state 0x{word:012x}: {state}")
    output.append(totals(trace, races=1))
    for crew in ([], ["--workers", "4"]):
        check(record, "threads, locks and sites", crew, trace, output, status=1)


def many_sets(record):
    """Each word is read by a second thread under a set of its own, in the order of a Gray code. What the first thread wrote is handed on, but not back."""
    word, held = 4 * OVER_17, 0
    trace = ["eraser trace 3", *(f"t1 write {4 * k}" for k in range(1, OVER_17 + 1)), "t1 signal q", "t2 await q"]
    for k in range(1, OVER_17 + 1):
        code = k ^ k >> 1
        lock = (code ^ held).bit_length() - 1
        trace += [f"t2 {'lock' if code > held else 'unlock'} m{lock}", f"t2 read {4 * k}"]
        held = code
    locks = " ".join(f"m{n}" for n in range(held.bit_length()) if held >> n & 1)
    trace += [f"t1 show {word}", f"t1 write {word}"]
    line, access = len(trace), f"t1 write 0x{word:012x} at -, holds none"
    output = [f"line {line - 1}: state 0x{word:012x}: shared, candidates {locks}", f"line {line}: race: {access}", totals(trace, races=1)]
    output += [f"line {line}: unordered: {access}", totals(trace, races=1, what="unordered")]
    check(record, "sets of locks", BOTH, trace, output, status=1)


def many_blocks(record):
    """Words far from one another, the last of which a second thread writes too."""
    for name, options, apart, count, kind, what in (
        ("blocks of words", HAPPENS_BEFORE, 128, OVER_17, "unordered", "unordered"),
        ("pages", [], 4096, OVER_16, "race", "races"),
    ):
        last = apart * (count - 1)
        trace = ["eraser trace 1", *(f"t1 write {apart * k}" for k in range(count)), f"t2 write {last}"]
        output = [f"line {len(trace)}: {kind}: t2 write 0x{last:012x} at -, holds none", totals(trace, races=1, what=what)]
        check(record, name, options, trace, output, status=1)


def many_reads(record):
    """Two threads read each word, and then a third one writes each. The read of the second thread is the last one before."""
    words, output = range(0, 4 * OVER_17, 4), []
    trace = ["eraser trace 1", *(f"{who} {word}" for who in ("t1 read", "t2 read", "t3 write") for word in words)]
    for k, word in enumerate(words):
        second, third = 2 + OVER_17 + k, 2 + 2 * OVER_17 + k
        output += [f"line {third}: unordered: t3 write 0x{word:012x} at -, holds none", f"  unordered with: line {second}, t2 read"]
    output.append(totals(trace, races=OVER_17, what="unordered"))
    check(record, "words with several reads", [*HAPPENS_BEFORE, "--explain"], trace, output, status=1)


def many_releases(record):
    """A thread releases and signals again and again. What it does then is handed on by a lock and by a signal, and not without."""
    trace = ["eraser trace 3", *["t1 lock m", "t1 unlock m", "t1 signal q"] * OVER_16]
    trace += ["t1 lock m", "t1 write 0x1000", "t1 unlock m", "t2 lock m", "t2 write 0x1000", "t2 unlock m"]
    trace += ["t1 write 0x2000", "t1 signal q", "t2 await q", "t2 write 0x2000", "t1 write 0x3000", "t2 write 0x3000"]
    output = [f"line {len(trace)}: unordered: t2 write 0x000000003000 at -, holds none", totals(trace, races=1, what="unordered")]
    check(record, "releases of one thread", HAPPENS_BEFORE, trace, output, status=1)


def many_threads(record):
    """A thread behind the first 65,536 of a text may access and may be refused, but takes no part in the order of threads."""
    late = f"t{1 << 16}"
    trace = ["eraser trace 3", *(f"t{k} {verb} m{k}" for k in range(1 << 16) for verb in ("lock", "unlock"))]
    check(record, "threads in order", HAPPENS_BEFORE, trace, [totals(trace, what="unordered")])
    accesses = [*trace, f"{late} write 0x1000", f"{late} unlock m0", "t0 write 0x1000"]
    output = [f"line {len(accesses) - 1}: refused: {late} unlock m0: not held", f"line {len(accesses)}: unordered: t0 write 0x000000001000 at -, holds none"]
    output.append(totals(accesses, races=1, what="unordered").replace("refused 0", "refused 1"))
    note = ["note: this trace records no order: record it with --order; 1 unordered accesses may be ordered"]
    check(record, "a thread more that accesses", HAPPENS_BEFORE, accesses, output, note, 1)
    for step in (f"{late} lock m0", f"t0 start {late}", f"t0 join {late}", f"{late} signal q", f"{late} await q"):
        for analysis in (HAPPENS_BEFORE, BOTH):
            check(record, f"a thread more: {step}", analysis, [*trace, step], [], ["too many threads"], 3)
    # Damage comes before it, wherever the two stand.
    late_lock, refused = f"{late} lock m0", "t0 unlock m0"
    for analysis in (HAPPENS_BEFORE, BOTH):
        strict = [*analysis, "--strict"]
        check(record, "a thread more", strict, [*trace, late_lock], [], ["too many threads"], 3)
        for steps in ([refused, late_lock], [late_lock, refused]):
            damaged = [*trace, *steps]
            check(record, f"a thread more and damage: {', '.join(steps)}", strict, damaged, [], [f"line {damaged.index(refused, len(trace)) + 1}: refused step"], 2)


def many_reasons(record):
    """Each word is written by two threads, so that each has a race with reasons."""
    words = range(1, OVER_17 + 1)
    trace = ["eraser trace 1", *(f"{thread} write {4 * k}" for thread in ("t1", "t2") for k in words)]
    output = []
    for k in words:
        line = 1 + OVER_17 + k
        output.append(f"line {line}: race: t2 write 0x{4 * k:012x} at -, holds none")
        output += [f"  first: line {1 + k}, t1 write", f"  joined: line {line}, t2 write", f"  write: line {line}, t2 write"]
    check(record, "races with reasons", ["--explain"], trace, [*output, totals(trace, races=OVER_17)], status=1)


def many_rules(record, folder):
    """By turns a rule of a site and one of a word, in one file, and one rule more in a second file. Some of them take a race each."""
    files = folder / "first.rules", folder / "second.rules"
    rules = [f"words 0x{4 * k:012x} 4" if k % 2 else f"site a.c:{k}" for k in range(OVER_17)] + ["site b.c:1"]
    for file, lines in zip(files, (rules[:-1], rules[-1:])):
        file.write_bytes(text_of(lines))
    takers = [0, 1, OVER_16 - 3, OVER_16 - 2, OVER_16 - 1, OVER_17 - 3, OVER_17 - 2, OVER_17 - 1, OVER_17]
    places = [(4 * k, "b.c:1" if k == OVER_17 else f"a.c:{k}") for k in takers] + [(4 * OVER_17 + 4, "b.c:2")]
    trace = ["eraser trace 1", *(f"{thread} write {word} {site}" for word, site in places for thread in ("t1", "t2"))]
    output = [f"line {len(trace)}: race: t2 write 0x{4 * OVER_17 + 4:012x} at b.c:2, holds none"]
    output += [f"suppression {k + 1}: {int(k in takers)}" for k in range(len(rules))] + [totals(trace, races=1, suppressed=len(takers))]
    errors = [f"unused suppression {k + 1}: {rule}" for k, rule in enumerate(rules) if k not in takers]
    check(record, "rules", ["--suppress", files[0], "--suppress", files[1], "--unused-rules"], trace, output, errors, status=1)


def many_locks(record):
    """A strict replay of as many threads, each with a lock of its own. The last lock is then held by one thread, or by two."""
    last = OVER_17 - 1
    trace = ["eraser trace 1", *(f"t{k} {verb} m{k}" for k in range(OVER_17) for verb in ("lock", "unlock")), f"t0 lock m{last}"]
    doubled = [*trace, f"t1 rlock m{last}"]
    for crew in ([], ["--workers", "2"]):
        check(record, "locks of sound steps", ["--strict", *crew], trace, [totals(trace)])
        check(record, "locks of which one is held twice", ["--strict", *crew], doubled, [], [f"line {len(doubled)}: lock held twice"], 2)


# ---- Memory


def peak_of(options, trace):
    """The output of a replay, and the most bytes of memory that it had before the trace's last byte came, that of its line `end`."""
    text = text_of([*trace, "end"])
    replay = subprocess.Popen([str(PROGRAM), "replay", *options, "-"], stdin=subprocess.PIPE, stdout=subprocess.PIPE)
    replay.stdin.write(text[:-1])
    replay.stdin.flush()
    status = pathlib.Path(f"/proc/{replay.pid}/status").read_text()
    return replay.communicate(text[-1:])[0], 1024 * int(re.search(r"VmHWM:\s+(\d+) kB", status)[1])


def reads_given_up(record):
    """Two threads read each word in no order, and then a third one writes it, ordered behind both, or gives it back. Once that is so of a few words at a
    time, once of all."""
    count, found = 200_000, {}
    for near, deed in ((128, "write"), (128, "reuse"), (count, "write")):
        trace = ["eraser trace 3"]
        for first in range(0, count, near):
            words = range(4 * first, 4 * min(first + near, count), 4)
            trace += [f"{who} {word}" for who in ("t1 read", "t2 read") for word in words] + ["t1 signal q", "t2 signal q", "t3 await q"]
            trace += [f"t3 write {word}" for word in words] if deed == "write" else [f"t3 reuse {4 * first} {4 * len(words)}"]
        output, found[near, deed] = peak_of(HAPPENS_BEFORE, trace)
        name = f"limits: several reads of {near} words at a time, and a {deed}"
        record(name, output == text_of([totals(trace, what="unordered")]), f"{output}"[:1000])
    # A list has the word's number, its own place and length, and two reads: 40 bytes at least.
    for deed in ("write", "reuse"):
        record(f"limits: a word gives up its list of reads at a {deed}", found[128, deed] + 40 * count <= found[count, "write"], f"{found}")


# ---- Workers


def workers(record, preloaded):
    # Long enough for a piece for each of twelve threads that read, and short enough for one batch of three.
    trace = ["eraser trace 1", *["t1 write 0x1000"] * 60_000]
    short = trace[:3]
    with tempfile.TemporaryDirectory() as folder:
        library, noted = preloaded(folder, "refuse_thread"), pathlib.Path(folder) / "noted"

        def noting(count, trace, nth):
            """What some workers make of a trace without their thread of this number, and what became of their threads."""
            noted.write_bytes(b"")
            env = {**os.environ, "LD_PRELOAD": str(library), "REFUSE_THREAD": str(nth), "THREADS_NOTED": str(noted)}
            return run(["replay", "--workers", count, "-"], text_of(trace), env=env), noted.read_text()

        # A quarter of them answer a batch while the others read the next one.
        started = []
        for count in range(4, 17):
            found, notes = noting(count, trace, 0)
            record(f"limits: {count} workers", found == (text_of([totals(trace)]), b"", 0), f"{found}")
            started.append(notes.count("s"))
        record("limits: each worker has threads of its own", all(fewer < more for fewer, more in zip(started, started[1:])), f"{started}")
        # Each of those that answer is made in a thread of its own. A later thread's work is done by the one that asked for it.
        for count in (2, 3, 8, 16):
            answering = max(1, count // 4)
            for nth in {1, answering, answering + 1}:
                for lines in (short, trace):
                    refused = (b"", b"worker not started\n", 3) if nth <= answering else (text_of([totals(lines)]), b"", 0)
                    for last, wanted in (([], refused), (["t1 hop"], (b"", f"line {len(lines) + 1}: bad verb\n".encode(), 2))):
                        found, notes = noting(count, [*lines, *last], nth)
                        is_right = found == wanted and "r" in notes and notes.count("s") == notes.count("j")
                        record(f"limits: {count} workers without thread {nth}, {len(lines)} lines {last}", is_right, f"{found}, {notes}"[:1000])

        # Each thread of a replay by four but the first, which is the one that answers: also where each piece has names of its own, so that threads number
        # its steps.
        named = ["eraser trace 1", *[f"t1 write 0x1000 s{line // 500}" for line in range(80_000)]]
        for what, lines in ("one name", trace), ("new names", named):
            for nth in range(2, noting(4, lines, 0)[1].count("s") + 1):
                found, notes = noting(4, lines, nth)
                is_right = found == (text_of([totals(lines)]), b"", 0) and "r" in notes and notes.count("s") == notes.count("j")
                record(f"limits: {what}, 4 workers without thread {nth}", is_right, f"{found}, {notes}"[:1000])


# ---- Options with a number

SOUND = b"eraser trace 3\nt1 write 0x1000 a.c:1\nt2 write 0x1000 a.c:2\nend\n"
REPORT = b"line 3: race: t2 write 0x000000001000 at a.c:2, holds none\n"
TOTALS = b"steps 2, races 1, suppressed 0, refused 0\n"
WHOLE = (REPORT + TOTALS, b"", 1)
# Of each option the values that it takes, with what the replay gives then, and values that it doesn't take.
NUMBERS = {
    "--workers": ({value: WHOLE for value in ("1", "2", "15", "16")}, ("0", "17", "4294967297", "18446744073709551617")),
    "--shards": ({value: WHOLE for value in ("1", "2", "63", "64")}, ("0", "65", "4294967297", "18446744073709551617")),
    "--byte-limit": ({"1": (b"", b"line 1: text too long\n", 2), str(len(SOUND) - 1): (b"", b"line 4: text too long\n", 2), str(len(SOUND)): WHOLE,
        "4611686018427387904": WHOLE}, ("0", "4611686018427387905", "18446744073709551617")),
    "--max-races": ({"0": (TOTALS, b"races left out: 1\n", 1), "1": WHOLE, "18446744073709551615": WHOLE}, ("18446744073709551616",)),
}


def is_refused(found):
    return (found[0], found[2]) == (b"", 2) and found[1].startswith(b"error: ")


def numbers(record):
    for option, (taken, refused) in NUMBERS.items():
        crew = ["--workers", "2"] if option == "--shards" else []
        for value, wanted in taken.items():
            found = run(["replay", *crew, option, value, "-"], SOUND)
            record(f"limits: {option} {value}", found == wanted, f"{found}")
        for value in (*refused, "-1", "1k", "0x1", "1.0", "", " 1"):
            found = run(["replay", *crew, f"{option}={value}", "-"], SOUND)
            record(f"limits: {option}={value!r} is a wrong argument", is_refused(found), f"{found}")
    for line in ("0", "1", "4", "5", "18446744073709551615"):
        found = run(["explain", line, "-"], SOUND)
        record(f"limits: explain {line}", found == (b"", f"line {line}: no step\n".encode(), 2), f"{found}")
    for line in ("18446744073709551616", "18446744073709551618", "1k", "", " 2"):
        found = run(["explain", line, "-"], SOUND)
        record(f"limits: explain {line!r} is a wrong argument", is_refused(found), f"{found}")


# ---- Options that go together

ANALYSES = ("lockset", "happens-before", "both")
# The options of each form, and how the reports of each analysis begin in it.
FORMS = {
    "text": (["--format", "text"], (b"line 3: race: ", b"line 3: unordered: ", b"line 3: race: ")),
    "no form": ([], (b"line 3: race: ", b"line 3: unordered: ", b"line 3: race: ")),
    "by site": (["--by-site"], (b"words     kinds ", b"races in this run\n", b"races in this run\n")),
    "JSON": (["--format", "json"], (b'{"format":1,\n', b'{"format":1,"analysis":"happens-before",\n', b'[\n{"format":1,\n')),
    "SARIF": (["--format", "sarif"], (b'{"$schema":',) * 3),
    "HTML": (["--format", "html"], (b"<!doctype html>\n",) * 3),
}
OTHERS = ([], ["--explain"], ["--until-fault"], ["--workers", "2"], ["--write-rules", "known.rules"], ["--unused-rules"], ["--max-races", "1"], ["--source", "."], ["--hints"])


def goes_together(form, other):
    """Whether docs/FORMATS.md lets a form and another option go together."""
    if other[:1] == ["--source"]:
        return form == "HTML"
    return other[:1] != ["--max-races"] or form != "by site"


def files_of_rules(record, folder):
    """Each file of rules has the byte limit for itself, and is judged before the next one is opened."""
    paths = [folder / f"of{n}.rules" for n in range(2)]
    words = [word for path in paths for word in ("--suppress", path)]
    limit = len(SOUND)
    for sizes, errors, status in (((limit, limit), b"", 1), ((limit + 1, limit), b"suppressions file 1 line 1: text too long\n", 2),
                                  ((limit, limit + 1), b"suppressions file 2 line 1: text too long\n", 2)):
        for path, size in zip(paths, sizes):
            path.write_bytes(b"# ".ljust(size - 1, b"x") + b"\n")
        found = run(["replay", "--byte-limit", limit, *words, "-"], SOUND)
        record(f"limits: files of rules with {sizes} bytes", found[1:] == (errors, status), f"{found}")
    for path, text in zip(paths, (b"hop\n", None)):
        path.write_bytes(text) if text else path.unlink()
    record("limits: a file of rules before one that isn't there", run(["replay", *words, "-"], SOUND) == (b"", b"suppressions file 1 line 1: bad verb\n", 2))
    record("limits: a file of rules behind one that isn't there", run(["replay", *words[2:], *words[:2], "-"], SOUND) == (b"", b"cannot open suppressions file 1\n", 4))


def races_left_out(record, folder):
    """Races that a rule takes have no line in any report, so they aren't left out."""
    trace = b"eraser trace 1\n" + b"".join(b"t%d write %d a.c:%d\n" % (thread, 4 * word, word) for word in range(4) for thread in (1, 2))
    rules = folder / "left.rules"
    rules.write_bytes(b"site a.c:1\n")
    for most, left in ((0, 3), (1, 2), (2, 1), (3, 0), (4, 0)):
        found = run(["replay", "--max-races", most, "--suppress", rules, "-"], trace)
        wanted = b"races left out: %d\n" % left if left else b""
        record(f"limits: {most} races and one that a rule takes", found[0].count(b": race: ") == min(most, 3) and found[1:] == (wanted, 1), f"{found}")


def together(record, folder):
    counts = [0, 0]
    for at, analysis in enumerate(ANALYSES):
        note = b"" if analysis == "lockset" else reference.order_note_of(SOUND, 1).encode()
        for form, (options, begins) in FORMS.items():
            for strict in ([], ["--strict"]):
                for other in OTHERS:
                    words = ["--analysis", analysis, *options, *strict, *other]
                    found = run(["replay", *words, "-"], SOUND, cwd=folder)
                    rules = folder / "known.rules"
                    is_written = rules.exists()
                    rules.unlink(missing_ok=True)
                    is_asked = goes_together(form, other)
                    if is_asked:
                        is_right = found[0].startswith(begins[at]) and found[1:] == (note, 1) and is_written == ("known.rules" in other)
                    else:
                        is_right = is_refused(found) and not is_written
                    counts[is_asked] += 1
                    record(f"limits: {' '.join(words)} {'is a report' if is_asked else 'is a wrong argument'}", is_right, f"{found}"[:1000])
    record("limits: some options go together and some don't", min(counts) > 30, f"{counts}")
    for form in ("text", "json", "sarif", "html"):
        for words in (["--by-site", "--format", form], ["--format", form, "--by-site"]):
            found = run(["replay", *words, "-"], SOUND)
            record(f"limits: {words} is a wrong argument", is_refused(found), f"{found}")
    paths = [folder / f"{n}.rules" for n in range(3)]
    for count in range(4):
        asked = [word for path in paths[:count] for word in ("--suppress", path)]
        for place, path in enumerate(paths):
            for each in paths:
                each.write_bytes(b"site other\n")
            found = run(["replay", *asked, "--write-rules", path, "-"], SOUND)
            is_kept = path.read_bytes() == b"site other\n"
            is_right = is_refused(found) and is_kept if place < count else found[1:] == (b"", 1) and not is_kept
            record(f"limits: rules of {count} files, and of the races in file {place}", is_right, f"{found}")


def tests(record, preloaded):
    many_names(record)
    many_sets(record)
    many_blocks(record)
    many_reads(record)
    many_releases(record)
    many_threads(record)
    many_reasons(record)
    many_locks(record)
    reads_given_up(record)
    workers(record, preloaded)
    numbers(record)
    with tempfile.TemporaryDirectory() as folder:
        many_rules(record, pathlib.Path(folder))
        files_of_rules(record, pathlib.Path(folder))
        races_left_out(record, pathlib.Path(folder))
        together(record, pathlib.Path(folder))


if __name__ == "__main__":
    run_alone(tests, preloaded)
