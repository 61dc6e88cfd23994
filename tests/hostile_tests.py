#!/usr/bin/env python3
"""Texts that were made to take long, or to take much memory: those of `bench/hostile`.

`tests/run` calls `answers`, `costs`, `barriers`, `rules`, `patterns`, `turns`, `second_looks`, `binary_traces` and `split_words`. By itself this file runs all
tests.

- each kind is answered as the references answer it: by locks and by happens-before, with reasons, by several workers, and also if the system gives no
  random bytes to hash by
- clocks that really differ take no more memory than other texts, and no more time: the replay ends with a fault
- 2,000 threads that meet at 32 barriers, and signal unequally often, end with no fault
- threads that meet at barriers over and over, and signal equally often, compare no counts but those of their own block
- no text takes more than 200 bytes of memory for each of its own by happens-before, beside 8 MiB, nor more than 250 by locks, or 300 by both with
  reasons. The dearest line takes a page: 4,096 bytes by locks, and 512 by happens-before
- two of many readers of a word that read it in turn, two million times, take no more than 16 MiB
- a second look at a file, for the places of reasons, ends behind the last line that a reason names
- as many rules of words as there are reuses, none of which takes a reuse, cost in the same way
- a binary trace of accesses and lock events takes at most 1.3 times the instructions of its text, by each analysis. As text first it would take 1.7 times
- where accesses touch a part of their words, reuses take by happens-before at most 1.2 times the instructions of reuses where they touch whole words
- a text that is four times as long takes at most 5.5 times the instructions, as valgrind counts them. What compares each with all others takes up to 16
  times as many, and what keeps all for each does so too
"""

import functools
import os
import pathlib
import re
import resource
import subprocess
import sys
import tempfile

sys.path.insert(0, str(pathlib.Path(__file__).parent))
sys.dont_write_bytecode = True
import analysis_tests
import reference
import trace4
from alone import program, run_alone
from cases import NO_END
from site_tests import preloaded

PROGRAM = program("eraser")
HOSTILE = pathlib.Path(__file__).resolve().parent.parent / "bench/hostile"
HAPPENS_BEFORE, BOTH, EXPLAIN = ["--analysis", "happens-before"], ["--analysis", "both"], ["--explain"]
FEW = 60
BYTES_BY_LOCKS, BYTES_BY_ORDER, BYTES_BY_BOTH, BYTES_BESIDE = 250, 200, 300, 8 << 20
LONGER, MOST_TIMES = 4, 5.5
# If half of these reads were kept, they would take more than this memory.
TURNS, BYTES_OF_TURNS = 1_000_000, 16 << 20
# If several workers kept these reuses as steps, they would take more than this memory, which is far more than the stacks of their threads.
REUSES, BYTES_OF_REUSES = 40_000, 1 << 30
# The reuses of the shorter text, and half as many as its rules.
FREED = 2000
# Races that are compared with a pattern, and what one comparison may take for each byte of the name and each of the pattern.
PATTERNED, MOST_FOR_TWO_BYTES = 500, 16
# Turns of the threads of a binary trace, each of which takes a lock, writes 8 bytes, reads a word and gives the lock back.
BINARY_TURNS = 1000
# Pages with a word that is touched in part.
SPLIT = 640
# Lines that no reason names.
SEEN_ONCE = 20_000
# What is replayed of each kind: how many there are in the shorter text, and by which options.
COSTS = {
    "thread-names": (1000, [[], HAPPENS_BEFORE]),
    "lock-names": (1000, [[], HAPPENS_BEFORE]),
    "site-names": (1000, [[], HAPPENS_BEFORE]),
    "pages": (1000, [[], EXPLAIN, HAPPENS_BEFORE, [*HAPPENS_BEFORE, *EXPLAIN], [*BOTH, *EXPLAIN]]),
    "locksets": (2000, [[], EXPLAIN]),
    "meets": (2000, [[]]),
    "threads": (4000, [[]]),
    "objects": (8000, [[], HAPPENS_BEFORE]),
    "lines": (2000, [["--by-site", *EXPLAIN]]),
    "readers": (2000, [[], EXPLAIN, HAPPENS_BEFORE, [*HAPPENS_BEFORE, *EXPLAIN]]),
    "handed-on": (2000, [[], HAPPENS_BEFORE]),
    "own-locks": (2000, [[], HAPPENS_BEFORE]),
    "own-objects": (16_000, [[], HAPPENS_BEFORE]),
    "many-objects": (16_000, [[], HAPPENS_BEFORE]),
    "started": (16_000, [[], HAPPENS_BEFORE]),
    "two-signals": (4000, [[], HAPPENS_BEFORE]),
    "some-signals": (4000, [[], HAPPENS_BEFORE]),
    # Nearly all names of 2,000 threads have one of the 4,096 slots of recent names, two thirds of those of 4,000, and hardly any of 16,000. The step to the hash
    # comes once and is no growth, so the shorter text has a part of it already.
    "barriers": (4000, [[], HAPPENS_BEFORE]),
    "unequal": (4000, [[], HAPPENS_BEFORE]),
    "in-turn": (8000, [[], HAPPENS_BEFORE]),
    "freed": (2000, [[], HAPPENS_BEFORE]),
}
# The clocks of these differ from one another, or are compared count by count at each step: the longer text ends with a fault.
TOO_LARGE = ["two-signals", "some-signals", "unequal", "in-turn"]
# How often what an honest program of many threads does at four barriers is done again: in all it is more work than there may be before any step.
THREADS, AGAIN = 2000, 8
# The same of a kind whose second options want a shorter text: by happens-before only 65,536 threads may take locks, and a text has eight times as many threads as
# its number.
COSTS_BESIDE = [("threads", (1000, [HAPPENS_BEFORE]))]
COUNTED = ["valgrind", "--tool=cachegrind", "--cache-sim=no", "--cachegrind-out-file=/dev/null"]


@functools.lru_cache(maxsize=None)
def made(kind, count, *more):
    return subprocess.run([HOSTILE, kind, str(count), *more], capture_output=True, check=True).stdout


def run(words, text=b"", before=(), **more):
    done = subprocess.run([*map(str, before), str(PROGRAM), "replay", *map(str, words)], input=text, capture_output=True, timeout=300, **more)
    return done.stdout, done.stderr, done.returncode


# ---- Answers


def twice(kind, text):
    """What a few more lines make of a text: each of its keys is looked up again, by a second thread too, and there are races."""
    body = text.partition(b"\n")[2]
    if kind == "started":
        # No thread is started once it has acted.
        body = b""
    second = body.replace(b"t1 ", b"t2 ")
    if kind == "pages":
        reuses = b"".join(b"t1 reuse %s 8\n" % line.split()[2] for line in body.splitlines()[::2])
        return text + second + reuses + body.replace(b"t1 write", b"t3 read") + second
    return text + second + b"t2 write 0x1000\nt3 write 0x1000\n"


def answers(record, preloaded):
    kinds = subprocess.run([HOSTILE, "--kinds"], capture_output=True, text=True, check=True).stdout.split()
    record("hostile: each kind has its costs", kinds == list(COSTS), f"{kinds}")
    with tempfile.TemporaryDirectory() as folder:
        library, noted = preloaded(folder, "no_random"), pathlib.Path(folder) / "noted"
        without = {**os.environ, "LD_PRELOAD": str(library), "RANDOM_NOTED": str(noted)}
        for kind in kinds:
            text = twice(kind, made(kind, FEW))
            for explain in ([], EXPLAIN):
                output, errors, status = reference.replay(text, b"", explain=bool(explain))
                record(f"hostile: {kind} have races", explain or status == 1, f"{status}")
                rows = [([*explain, *workers], (output.encode(), errors.encode(), status)) for workers in ([], ["--workers", "4"], ["--workers", "3", "--shards", "5"])]
                for analysis in ("happens-before", "both"):
                    rows.append(([*explain, "--analysis", analysis], analysis_tests.expected(text, None, analysis, explain=bool(explain))))
                for options, wanted in rows:
                    for env, name in ((None, ""), (without, " without random bytes")):
                        found = run([*options, "-"], text, env=env)
                        is_right = found == wanted and noted.exists() == (env is without)
                        record(f"hostile: {kind} with {options}{name}", is_right, f"{found}"[:1000])
                        noted.unlink(missing_ok=True)


# ---- Costs


def limited(size, options):
    """Lets the program have so much memory as a text of this size may take."""
    most = {tuple(HAPPENS_BEFORE): BYTES_BY_ORDER, tuple(BOTH): BYTES_BY_BOTH}.get(tuple(options[:2]), BYTES_BY_LOCKS)
    bytes_of_memory = most * size + BYTES_BESIDE
    resource.setrlimit(resource.RLIMIT_AS, (bytes_of_memory, bytes_of_memory))


def instructions(words, text=b""):
    """How many instructions a replay takes, with this text as its standard input."""
    errors = run(words, text, before=COUNTED)[1]
    return int(re.search(rb"I +refs: +([\d,]+)", errors)[1].replace(b",", b""))


def costs(record):
    with tempfile.TemporaryDirectory() as folder:
        short, long = pathlib.Path(folder) / "short.trace", pathlib.Path(folder) / "long.trace"
        for kind, (count, rows) in [*COSTS.items(), *COSTS_BESIDE]:
            short.write_bytes(made(kind, count))
            long.write_bytes(made(kind, LONGER * count))
            size = long.stat().st_size
            longer = size / short.stat().st_size / LONGER
            steps = sum(bool(line) for line in long.read_bytes().splitlines()) - 1
            for options in rows:
                name = f"hostile: {kind} {' '.join(options)}"
                found = run([*options, long], preexec_fn=functools.partial(limited, size, options))
                if options == HAPPENS_BEFORE and kind in TOO_LARGE:
                    is_whole = found == (b"", b"clocks too large\n", 3)
                else:
                    is_whole = b"steps %d, " % steps in found[0] and found[1] in (b"", NO_END) and found[2] < 2
                record(f"{name}: memory of a text of {size} bytes", is_whole, f"{found}"[:300])
                # What takes too much memory isn't run without a limit.
                if is_whole:
                    few, many = instructions([*options, short]), instructions([*options, long])
                    record(f"{name}: instructions", many <= MOST_TIMES * longer * few, f"{few} and {many}, {many / few / longer:.2f} times as many")


def barriers(record):
    """What is more work than there may be before any step is none too much for so many steps."""
    header, _, body = made("unequal", THREADS).partition(b"\n")
    found = run([*HAPPENS_BEFORE, "-"], header + b"\n" + AGAIN * body)
    wanted = b"steps %d, unordered 0, suppressed 0, refused 0\n" % (AGAIN * body.count(b"\n"))
    record(f"hostile: {THREADS} threads at {4 * AGAIN} barriers", found == (wanted, NO_END, 0), f"{found}"[:300])


def rules(record):
    """Each reuse is a race, and is looked up among as many rules of words as there are words."""
    counts, sizes = [], []
    with tempfile.TemporaryDirectory() as folder:
        trace, chosen = pathlib.Path(folder) / "freed.trace", pathlib.Path(folder) / "freed.rules"
        for count in (FREED, LONGER * FREED):
            trace.write_bytes(made("freed", count))
            chosen.write_bytes(made("freed", count, "rules"))
            words = [*HAPPENS_BEFORE, "--suppress", chosen, trace]
            found = run(words)
            record(f"hostile: {count} reuses that no rule takes", b"unordered %d, suppressed 0," % count in found[0] and found[2] == 1, f"{found}"[-300:])
            counts.append(instructions(words))
            sizes.append(trace.stat().st_size + chosen.stat().st_size)
    longer = sizes[1] / sizes[0] / LONGER
    record("hostile: rules of words: instructions", counts[1] <= MOST_TIMES * longer * counts[0], f"{counts}, {counts[1] / counts[0] / longer:.2f} times as many")


def patterns(record):
    """A race is compared with a pattern in time in proportion to the product of both lengths at most, wherever the stars stand."""
    site = "a" * 128
    text = "eraser trace 1\n" + "".join(f"t1 write {4 * word} {site}\nt2 write {4 * word} {site}\n" for word in range(PATTERNED))
    with tempfile.TemporaryDirectory() as folder:
        chosen = pathlib.Path(folder) / "hostile.rules"
        chosen.write_text("eraser suppressions 2\nsite b\n")
        without = instructions(["--suppress", chosen, "-"], text.encode())
        for pattern in ("*a" * 63 + "b", "*" + "a" * 62 + "b*a", "*" * 127 + "b", "a*" * 64):
            chosen.write_text(f"eraser suppressions 2\nsite {pattern}\n")
            taken = PATTERNED if pattern == "a*" * 64 else 0
            found = run(["--suppress", chosen, "-"], text.encode())
            record(f"hostile: pattern {pattern[:6]}", b"suppressed %d," % taken in found[0] and found[2] == (taken == 0), f"{found}"[-300:])
            more = instructions(["--suppress", chosen, "-"], text.encode()) - without
            most = MOST_FOR_TWO_BYTES * PATTERNED * len(site) * len(pattern)
            record(f"hostile: pattern {pattern[:6]}: instructions", more <= most, f"{more} more, and at most {most}")


def turns(record):
    """Many threads read a word in no order, and then two of them in turn: what is kept of them doesn't grow with their reads."""
    text = b"eraser trace 1\n" + b"".join(b"t%d read 0x1000\n" % thread for thread in range(1, 41)) + b"t1 read 0x1000\nt2 read 0x1000\n" * TURNS
    with tempfile.NamedTemporaryFile() as trace:
        trace.write(text)
        trace.flush()
        for options in (HAPPENS_BEFORE, [*HAPPENS_BEFORE, *EXPLAIN]):
            found = run([*options, trace.name], preexec_fn=functools.partial(resource.setrlimit, resource.RLIMIT_AS, (BYTES_OF_TURNS, BYTES_OF_TURNS)))
            wanted = b"steps %d, unordered 0, suppressed 0, refused 0\n" % (40 + 2 * TURNS)
            record(f"hostile: two of many readers in turn {' '.join(options)}", found == (wanted, b"", 0), f"{found}"[:300])


def long_reuses(record):
    """A line of 20 bytes is 1,025 steps: several workers keep no more of such steps at a time than one worker, whatever the text's length."""
    wanted = b"steps %d, races 0, suppressed 0, refused 0\n" % (1 + 1025 * REUSES)
    with tempfile.NamedTemporaryFile() as trace:
        trace.write(b"eraser trace 1\nt1 write 4\n" + b"t1 reuse 4 4194304\n" * REUSES)
        trace.flush()
        for workers in ("1", "2", "4"):
            found = run(["--workers", workers, trace.name], preexec_fn=functools.partial(resource.setrlimit, resource.RLIMIT_AS, (BYTES_OF_REUSES, BYTES_OF_REUSES)))
            record(f"hostile: long reuses, {workers} workers", found == (wanted, b"", 0), f"{found}"[:300])


def second_looks(record):
    """What a file takes beside the same text on standard input, which is read once, with the race's second access in front or at the end."""
    first, second, rest = b"t1 write 0x1000 a.c:1\n", b"t2 write 0x1000 a.c:2\n", b"t1 read 0x2000 b.c:1\n" * SEEN_ONCE
    words, times = ["--by-site", *EXPLAIN], {}
    for name, body in (("front", first + second + rest), ("end", first + rest + second)):
        text = b"eraser trace 1\n" + body
        with tempfile.NamedTemporaryFile() as trace:
            trace.write(text)
            trace.flush()
            once, twice = instructions([*words, "-"], text), instructions([*words, trace.name])
            places = b"a.c:2 and a.c:1:\n" in run([*words, trace.name])[0]
        times[name] = twice / once
        record(f"hostile: a second look, with the race at the {name}", places, f"{once} and {twice}")
    record("hostile: a second look ends behind the last line that a reason names", times["front"] < 1.3 and times["end"] > 1.6, f"{times}")


def binary_traces(record):
    """A binary trace has its accesses and lock events ready: no text is made of them first, which would take much more work."""
    lines = []
    for turn in range(BINARY_TURNS):
        thread, lock, word = turn // 8 % 4, f"m{turn % 7}", 0x1000 + 64 * (turn % 7)
        deeds = (f"lock {lock}", f"write {word:#x} worker.c:12", f"write {word + 4:#x} worker.c:12", f"read {word + 8:#x} worker.c:13", f"unlock {lock}")
        lines += [f"t{thread} {deed}\n" for deed in deeds]
    text = trace4.plain(("eraser trace 3\n" + "".join(lines)).encode())
    data = trace4.encode(text)
    for options in ([], HAPPENS_BEFORE):
        name, wanted, found = f"hostile: a binary trace {' '.join(options)}", run([*options, "-"], text), run([*options, "-"], data)
        record(name, found == wanted and b"steps %d, " % len(lines) in found[0], f"{found}, {wanted}"[:300])
        of_text, of_data = instructions([*options, "-"], text), instructions([*options, "-"], data)
        record(f"{name}: instructions", of_data <= 1.3 * of_text, f"{of_data}, and {of_text} of its text")


def split_words(record):
    """What a reuse takes is in proportion to the blocks of its range and to the words in it that were touched in part, wherever others are."""
    for options in (HAPPENS_BEFORE, [*HAPPENS_BEFORE, *EXPLAIN]):
        counts, sizes = [], []
        for count in (SPLIT, LONGER * SPLIT):
            parts, whole = made("split", count), made("split", count, "whole")
            name, text = f"hostile: {count} split words {' '.join(options)}", trace4.text_of(parts)
            wanted = b"steps %d, unordered 0, suppressed 0, refused 0\n" % (3 * count + count // 32 * 1024)
            for data in (parts, whole):
                found = run([*options, "-"], data, preexec_fn=functools.partial(limited, len(text), options))
                record(name, found == (wanted, b"", 0), f"{found}"[:300])
            of_parts, of_whole = instructions([*options, "-"], parts), instructions([*options, "-"], whole)
            record(f"{name}: instructions", of_parts <= 1.2 * of_whole, f"{of_parts}, and {of_whole} where whole words are touched")
            counts.append(of_parts)
            sizes.append(len(parts))
        longer = sizes[1] / sizes[0] / LONGER
        record(f"{name}: growth", counts[1] <= MOST_TIMES * longer * counts[0], f"{counts}, {counts[1] / counts[0] / longer:.2f} times as many")


def tests(record, preloaded):
    answers(record, preloaded)
    costs(record)
    barriers(record)
    rules(record)
    patterns(record)
    turns(record)
    long_reuses(record)
    second_looks(record)
    binary_traces(record)
    split_words(record)


if __name__ == "__main__":
    run_alone(tests, preloaded)
