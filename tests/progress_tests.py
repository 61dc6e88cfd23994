#!/usr/bin/env python3
"""Compares `eraser replay --progress` with the same replay without it, and reads the lines of progress.

`tests/run` calls `tests`. By itself this file runs these tests alone.

- worked traces in each form, by each analysis, by several workers, with --strict and --until-fault, with notes and with faults: the same
  output, the same errors behind the lines of progress, the same status; the last line has the bytes, the steps and the races of the whole trace
- a binary trace in each form: the last line has the bytes of its text, and no share
- a pipe that gives a piece of a trace at a time: lines come while it is open, their numbers rise, and none comes sooner than half a second
  behind another
- the second pass of --until-fault counts its time from its own beginning
- a terminal: one line, which is cleared before the report and before a fault
- standard error that is full, closed, or read by nobody: nothing else changes
- each allocation refused in turn, and each write failed in turn
- words that are no option

No test waits for a time that the machine may miss: a test that wants a line gives more of the trace until the line comes.
"""

import os
import pathlib
import queue
import re
import subprocess
import sys
import tempfile
import threading
import time

sys.path.insert(0, str(pathlib.Path(__file__).parent))
sys.dont_write_bytecode = True
import trace4
from alone import each_failed, each_refused, on_terminal, outcome_of, run_alone, terminal
from site_tests import PROGRAM, preloaded, run

HEAD, THIRD = b"eraser trace 1\n", b"eraser trace 3\n"
RACE = b"t1 write 0x1000 a.c:1\nt2 write 0x1000 a.c:2\n"
MORE = b"t1 write 0x2000 b.c:1\nt2 write 0x2000 b.c:2\n"
# A share of the file stands behind all else, so who reads a line from its front finds what stands in a line without it.
FRONT, SHARE = rb"progress: (\d+) bytes, (\d+) steps, (\d+) steps a second, (\d+) races", rb"(?:, (\d+) %)?"
LINE = re.compile(FRONT + SHARE + rb"\n")
SHOWN = re.compile(rb"\r" + FRONT + SHARE + rb"\x1b\[K")
CLEAR = b"\r\x1b[K"
# A batch of one worker, and how many of them are given at most until a line comes.
BATCH = b"t1 read 0x3000\n" * 1024
MOST_PIECES = 600
OPTIONS = ([], ["--explain"], ["--by-site"], ["--format", "json"], ["--format", "sarif"], ["--format", "html"], ["--strict"], ["--until-fault"],
    ["--hints"], ["--until-fault", "--hints"], ["--workers", "3"], ["--workers", "2", "--explain"], ["--analysis", "happens-before"], ["--analysis", "happens-before", "--explain"],
    ["--analysis", "both"], ["--analysis", "both", "--by-site"], ["--max-races", "1"], ["--until-fault", "--strict", "--explain"],
    ["--analysis", "happens-before", "--max-races", "1"], ["--until-fault", "--workers", "2"], ["--analysis", "happens-before", "--by-site"],
    ["--analysis", "both", "--format", "json"], ["--analysis", "both", "--strict", "--max-races", "1"])


def parted(errors):
    """The numbers of the lines of progress, the share of the file last, which is None if there is none, and the errors without these lines."""
    found = [tuple(int(number) if number else None for number in numbers) for numbers in LINE.findall(errors)]
    return found, LINE.sub(b"", errors)


def total(trace, word):
    """What the report of a trace counts as its steps or its races."""
    found = re.findall(rb"%s (\d+)" % word, run(["replay", "-"], trace)[0].splitlines()[-1])
    return int(found[0])


# ---- The same replay

def watched(record, name, data, path):
    """Replays of a trace with --progress beside those without it: the title and the options of each, its words, its lines and all its errors."""
    path.write_bytes(data)
    for options in OPTIONS:
        for words, given in ((["-"], data), ([str(path)], b"")):
            plain = run(["replay", *options, *words], given)
            output, errors, status = run(["replay", *options, "--progress", *words], given)
            lines, rest = parted(errors)
            title = f"progress: {name} {' '.join(options)} {words[0] == '-'}"
            record(title, (output, rest, status) == plain, f"{(output, errors, status)}, {plain}"[:1000])
            record(f"{title}: its lines come first", errors == errors[:len(errors) - len(rest)] + rest, f"{errors}")
            yield title, options, words, lines, errors, status


def same_replays(record, folder):
    traces = {
        "two races": HEAD + RACE + MORE, "no race": HEAD + b"t1 write 0\n", "no step": HEAD, "a refused step": HEAD + b"t1 unlock m\n" + RACE,
        "a text 3 with its end": THIRD + b"t1 start t2\n" + RACE + b"end\n", "no line feed": (HEAD + RACE)[:-1], "several batches": HEAD + BATCH * 3 + RACE,
        "nothing": b"", "a fault": HEAD + RACE + MORE + b"fault\n" + RACE, "a fault of a later batch": HEAD + RACE + BATCH * 2 + b"fault\n",
        "no header": RACE, "a text that is too long": HEAD + RACE + b"t1 write 0x5000 " + b"s" * 1100 + b"\n",
    }
    for name, text in traces.items():
        for title, options, words, lines, errors, status in watched(record, name, text, folder / "p.trace"):
            shares = [None if words == ["-"] else 100 * line[0] // len(text) for line in lines]
            record(f"{title}: the share of a file", [line[4] for line in lines] == shares, f"{errors}")
            if status <= 1:
                record(f"{title}: the last line", bool(lines) and lines[-1][:2] == (len(text), total(text, b"steps")), f"{errors}, {len(text)}")
                if not {"happens-before", "both"} & set(options):
                    record(f"{title}: the races", lines[-1][3] == total(text, b"races"), f"{errors}")


def numbers(record, folder):
    """The numbers of what is not the whole trace."""
    text = HEAD + RACE + MORE
    lines, _ = parted(run(["replay", "--progress", "--analysis", "both", "-"], text)[1])
    record("progress: the races of both reports", len(lines) >= 1 and lines[-1][3] == 4, f"{lines}")
    rules = folder / "n.rules"
    rules.write_bytes(b"site a.c:2\n")
    lines, _ = parted(run(["replay", "--progress", "--suppress", str(rules), "-"], text)[1])
    record("progress: races that have a line", len(lines) >= 1 and lines[-1][3] == 1, f"{lines}")
    lines, rest = parted(run(["replay", "--progress", "--until-fault", "-"], text + b"fault\n" + RACE)[1])
    record("progress: the lines before a fault", rest == b"line 6: missing operand\n" and len(lines) >= 1 and lines[-1][:2] == (len(text), 4), f"{lines} {rest}")
    lines, rest = parted(run(["replay", "--progress", "-"], HEAD + BATCH + b"fault\n")[1])
    record("progress: the batches before a fault", rest == b"line 1026: missing operand\n" and len(lines) == 1 and lines[-1][1] <= 1024, f"{lines} {rest}")
    # The lines before a fault are a part of the file. What is no ordinary file has no share, and neither has a binary trace, whose text is longer.
    whole, path = HEAD + RACE + MORE + b"fault\n" + RACE * 9, folder / "n.trace"
    path.write_bytes(whole)
    lines, _ = parted(run(["replay", "--progress", "--until-fault", str(path)])[1])
    record("progress: the share of the lines before a fault", len(lines) >= 1 and lines[-1][4] == 100 * len(text) // len(whole) < 100, f"{lines}")
    path.write_bytes(b"\xe5eraser\x04")
    lines, rest = parted(run(["replay", "--progress", "--until-fault", str(path)])[1])
    record("progress: a binary trace has no share", len(lines) >= 1 and lines[-1][4] is None and rest == b"line 2: bad verb\n", f"{lines} {rest}")
    os.mkfifo(folder / "n.fifo")
    feeder = threading.Thread(target=lambda: (folder / "n.fifo").write_bytes(text))
    feeder.start()
    lines, _ = parted(run(["replay", "--progress", str(folder / "n.fifo")])[1])
    feeder.join()
    record("progress: a FIFO has no share", len(lines) >= 1 and lines[-1][4] is None, f"{lines}")
    # A file of the name - is none that a trace is read from.
    (folder / "-").write_bytes(whole)
    lines, _ = parted(run(["replay", "--progress", "-"], text, cwd=folder)[1])
    record("progress: a file named - gives no share", len(lines) >= 1 and lines[-1][4] is None, f"{lines}")
    lines, rest = parted(run(["replay", "--progress", "-"], b"fault\n")[1])
    record("progress: a fault of the first batch", lines == [] and rest == b"line 1: no header\n", f"{lines} {rest}")


def binary_traces(record, folder):
    """The bytes of a binary trace are those of its text, also of the lines that are read before they are text."""
    text = trace4.plain(THIRD + b"t1 lock m\n" + BATCH * 3 + b"t1 unlock m\n" + RACE + MORE)
    wanted = (len(text), total(text, b"steps"))
    for title, _, _, lines, errors, _ in watched(record, "a binary trace", trace4.encode(text), folder / "b.trace"):
        record(f"{title}: the last line", bool(lines) and lines[-1][:2] == wanted and lines[-1][4] is None, f"{errors}, {wanted}")


# ---- A slow pipe

def slowly(words, errors_to, wanted, pieces, has_come):
    """Gives a header, and then pieces until so many lines have come; returns what was given, the output and the status."""
    program = subprocess.Popen([str(PROGRAM), "replay", "--progress", *words, "-"], stdin=subprocess.PIPE, stdout=subprocess.PIPE, stderr=errors_to)
    output = []
    reader = threading.Thread(target=lambda: output.append(program.stdout.read()))
    reader.start()
    given = [HEAD]
    program.stdin.write(HEAD)
    for _ in range(pieces):
        program.stdin.write(BATCH)
        program.stdin.flush()
        given.append(BATCH)
        if has_come(program, wanted):
            break
    given.append(RACE)
    program.stdin.write(RACE)
    program.stdin.close()
    return program, b"".join(given), lambda: (reader.join(), output[0])[1]


def slow_pipe(record):
    for options in ([], ["--explain"], ["--analysis", "happens-before"], ["--analysis", "both"], ["--strict"], ["--until-fault"]):
        lines, seen = queue.Queue(), []
        begun = time.monotonic()

        def has_come(program, wanted):
            if not readers:
                readers.append(threading.Thread(target=lambda: [lines.put(line) for line in program.stderr]))
                readers[0].start()
            try:
                seen.append(lines.get(timeout=0.1))
            except queue.Empty:
                pass
            return len(seen) >= wanted

        readers = []
        program, text, output = slowly(options, subprocess.PIPE, 3, MOST_PIECES, has_come)
        while_open = len(seen)
        found, status = output(), program.wait(120)
        readers[0].join()
        took = time.monotonic() - begun
        while not lines.empty():
            seen.append(lines.get())
        found_numbers, rest = parted(b"".join(seen))
        title = f"progress: a slow pipe {' '.join(options)}"
        record(f"{title}: lines come while it is open", while_open == 3, f"{seen}")
        record(f"{title}: nothing else comes", rest == b"", f"{rest}")
        # A batch may be made of bytes that were read with the one before.
        read, answered = ([line[at] for line in found_numbers] for at in (0, 1))
        record(f"{title}: the numbers rise", read == sorted(read) and answered == sorted(set(answered)), f"{found_numbers}")
        record(f"{title}: the last line", bool(found_numbers) and found_numbers[-1][:2] == (len(text), text.count(b"\n") - 1), f"{found_numbers} {len(text)}")
        record(f"{title}: half a second lies between them", len(seen) <= took / 0.5 + 1, f"{len(seen)} {took}")
        record(f"{title}: the report", (found, b"", status) == run(["replay", *options, "-"], text), f"{found}")


def second_pass(record):
    """The fault comes late, and the lines before it are replayed once more: what a line says of that took no longer than what came behind the fault."""
    program = subprocess.Popen([str(PROGRAM), "replay", "--progress", "--until-fault", "-"], stdin=subprocess.PIPE, stdout=subprocess.PIPE, stderr=subprocess.PIPE)
    program.stdin.write(HEAD + RACE)
    program.stdin.flush()
    time.sleep(0.5)
    begun = time.monotonic()
    output, errors = program.communicate(b"fault\n", timeout=120)
    took = 1000 * (time.monotonic() - begun)
    lines, rest = parted(errors)
    record("progress: a late fault", (output, rest) == (run(["replay", "-"], HEAD + RACE)[0], b"line 4: missing operand\n") and len(lines) == 1, f"{output} {errors}")
    # A rate is cut to a whole number, so its steps took more milliseconds than by the next greater one. Less than one counts as one.
    least = [1000 * steps / (rate + 1) for _, steps, rate, *_ in lines]
    record("progress: a second pass begins anew", all(each <= max(took, 1) for each in least), f"{least} {took}")


# ---- A terminal

def is_one_line(shown):
    """Whether lines that take each other's place were shown and cleared, or none was shown. A second pass has lines of its own, if it takes as long."""
    *passes, rest = shown.split(CLEAR)
    return rest == b"" and all(lines and SHOWN.sub(b"", lines) == b"" for lines in passes)


def terminals(record):
    for name, text in (("races", HEAD + RACE), ("a fault", HEAD + RACE + b"fault\n"), ("a later fault", HEAD + RACE + BATCH * 3 + b"fault\n")):
        for options in ([], ["--until-fault"], ["--workers", "2"], ["--analysis", "both"]):
            plain = on_terminal([PROGRAM, "replay", *options, "-"], text)
            shown, output, status = on_terminal([PROGRAM, "replay", "--progress", *options, "-"], text)
            is_right = shown.endswith(plain[0]) and is_one_line(shown[:len(shown) - len(plain[0])]) and (output, status) == plain[1:]
            record(f"progress: {name} on a terminal {' '.join(options)}", is_right, f"{shown} {plain}")
    for last in (b"", b"fault\n"):
        with terminal() as (slave, pieces):
            def has_come(_, wanted):
                time.sleep(0.1)
                return len(SHOWN.findall(b"".join(pieces))) >= wanted

            program, text, output = slowly([], slave, 2, MOST_PIECES, has_come)
            found, status = output(), program.wait(120)
        shown = b"".join(pieces)
        record("progress: a slow pipe on a terminal: one line", is_one_line(shown) and len(SHOWN.findall(shown)) >= 2 and b"\n" not in shown, f"{shown}")
        record("progress: a slow pipe on a terminal: the report", (found, status) == (lambda r: (r[0], r[2]))(run(["replay", "-"], text)), f"{found}")


# ---- Standard error that fails

def lost_errors(record, preloaded, folder):
    for name, text in (("a race", HEAD + RACE), ("no race", HEAD + b"t1 write 0\n"), ("a fault", HEAD + RACE + b"fault\n"), ("batches", HEAD + BATCH * 3 + RACE)):
        for options in ([], ["--until-fault"], ["--unused-rules"], ["--max-races", "0"], ["--analysis", "both"]):
            found = {}
            for words in (["replay", *options, "-"], ["replay", "--progress", *options, "-"]):
                kinds = []
                with open("/dev/full", "wb") as full:
                    kinds.append(subprocess.run([str(PROGRAM), *words], input=text, stdout=subprocess.PIPE, stderr=full, timeout=120))
                kinds.append(subprocess.run(["sh", "-c", '"$@" 2>&-', "sh", str(PROGRAM), *words], input=text, stdout=subprocess.PIPE, timeout=120))
                unread, writer = os.pipe()
                os.close(unread)
                kinds.append(subprocess.run([str(PROGRAM), *words], input=text, stdout=subprocess.PIPE, stderr=writer, timeout=120))
                os.close(writer)
                found["--progress" in words] = [(done.stdout, done.returncode) for done in kinds]
            record(f"progress: {name} {' '.join(options)} with lost errors", found[True] == found[False], f"{found}")
    text = HEAD + RACE
    words = ["replay", "--progress", "-"]
    whole = run(["replay", "-"], text)
    for nth, (output, errors, status), has_failed in each_refused(preloaded(str(folder), "refuse"), str(folder), lambda env: run(words, text, env=env)):
        outcome = outcome_of((output, parted(errors)[1], status), whole, lambda report: b"stopped" in report)
        record(f"progress: allocation {nth} refused", outcome is not None if has_failed else outcome == "whole", f"{output} {errors} {status}")
    library = preloaded(str(folder), "pieces")

    def by_bytes(env):
        return run(words, text, env={**env, "PIECE": "1"})
    shown = by_bytes({**os.environ, "LD_PRELOAD": str(library)})
    record("progress: writes of one byte", (shown[0], parted(shown[1])[1], shown[2]) == whole and len(parted(shown[1])[0]) >= 1, f"{shown}")
    for nth, (output, errors, status), has_failed in each_failed(library, str(folder), "FAIL_WRITE", "FAIL_FOUND", by_bytes):
        # A line of progress is cut off by a failed write, and none follows it. A report is cut off as ever.
        if output == whole[0] and status == whole[2]:
            cut_off = re.sub(rb"\d+", b"0", LINE.sub(b"", errors))
            is_right = cut_off == b"" or has_failed and b"progress: 0 bytes, 0 steps, 0 steps a second, 0 races\n".startswith(cut_off)
        else:
            is_right = has_failed and whole[0].startswith(output) and parted(errors)[1] == b"write fault\n" and status == 4
        record(f"progress: write {nth} failed", is_right, f"{output} {errors} {status}")


def arguments(record, folder):
    for words in (["explain", "--progress", "2", "-"], ["demo", "--progress", "racy-counter"]):
        found = run(words, HEAD)
        record(f"progress: {words[0]} has no such option", found[0] == b"" and found[2] == 2 and b"unexpected argument" in found[1], f"{found}")
    found = run(["replay", "--progress=yes", "-"], HEAD)
    record("progress: it takes no value", found[0] == b"" and found[2] == 2 and found[1].startswith(b"error: unexpected value"), f"{found}")
    # A file of the option's name is a trace.
    (folder / "--progress").write_bytes(HEAD + RACE)
    found = run(["replay", "--", "--progress"], cwd=folder)
    record("progress: a file of that name", found == run(["replay", "-"], HEAD + RACE), f"{found}")
    for name, words in (("no such trace", [str(folder / "none")]), ("a folder", [str(folder)]), ("no such rules", ["--suppress", str(folder / "none"), "-"])):
        found = [run(["replay", *options, *words]) for options in ([], ["--progress"])]
        record(f"progress: {name}", found[0] == found[1] and found[0][2] == 4, f"{found}")


def tests(record, preloaded):
    with tempfile.TemporaryDirectory() as folder:
        folder = pathlib.Path(folder)
        same_replays(record, folder)
        numbers(record, folder)
        binary_traces(record, folder)
        slow_pipe(record)
        second_pass(record)
        terminals(record)
        lost_errors(record, preloaded, folder)
        arguments(record, folder)


if __name__ == "__main__":
    run_alone(tests, preloaded)
