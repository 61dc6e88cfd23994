#!/usr/bin/env python3
"""The text that `eraser print` writes of a trace.

`tests/run` calls `tests`. By itself this file runs these tests alone.

- a text means itself, whether or not it is a trace, by path, by standard input and without TRACE; so does a beginning of a binary trace
- a binary trace without a block means its header and its damage
- a replay and a story read the same text, by path and by standard input, and with --until-fault there is what stands before the damage
- files that can't be opened or read, wrong arguments, failed reads and writes: a beginning of the text, and 4
"""

import pathlib
import random
import subprocess
import sys
import tempfile

sys.dont_write_bytecode = True
import reference
from alone import each_failed, run_alone
from site_tests import PROGRAM, TOP, preloaded, run

# A binary trace that ends behind its first 8 bytes.
CUT = b"\xe5eraser\x04"
CUT_TEXT = b"eraser trace 3\ncut off at byte 8\n"
CUT_FAULT = b"line 2: bad verb\n"


def meanings():
    """Each file with the text that it means."""
    dice = random.Random(5)
    texts = {
        "nothing": b"", "an example": (TOP / "examples/explained.trace").read_bytes(), "no trace": b"\0\xff\r\n\n", "no line feed": b"eraser trace 1\nt1 lock",
        "several pieces": dice.randbytes(300_001), "a piece": b"x" * 65536, **{f"random trace {seed}": reference.random_trace(seed) for seed in range(20)},
        **{f"{count} bytes of a binary trace": CUT[:count] for count in range(1, 8)}, "another version": CUT[:7] + b"\x05" + b"x" * 20,
    }
    return [(name, text, text) for name, text in texts.items()] + [("a binary trace without a block", CUT, CUT_TEXT)]


def texts(record, folder):
    path = folder / "p.trace"
    for name, data, text in meanings():
        path.write_bytes(data)
        for words, given in (([str(path)], b""), (["-"], data), ([], data)):
            found = run(["print", *words], given)
            record(f"the text of {name}, {words}", found == (text, b"", 0), f"{found[1:]} {len(found[0])} {found[0][:80]}")


def readers(record, folder):
    path = folder / "cut.trace"
    path.write_bytes(CUT)
    empty = run(["replay", "-"], b"eraser trace 3\n")[0]
    for words, given in (([str(path)], b""), (["-"], CUT)):
        for options in ([], ["--workers", "3"], ["--strict"], ["--analysis", "both"], ["--explain", "--by-site"]):
            found = run(["replay", *options, *words], given)
            record(f"a replay of a cut binary trace, {words} {options}", found == (b"", CUT_FAULT, 2), f"{found}")
        found = run(["replay", "--until-fault", *words], given)
        record(f"a replay up to the damage, {words}", found == (empty, CUT_FAULT, 2), f"{found}, {empty}")
        found = run(["explain", "2", *words], given)
        record(f"a story of a cut binary trace, {words}", found == (b"", CUT_FAULT, 2), f"{found}")


def faults(record, folder, preloaded):
    record("print: a trace that is not there", run(["print", "/nonexistent"]) == (b"", b"cannot open trace\n", 4))
    record("print: a folder", run(["print", str(folder)]) == (b"", b"read fault\n", 4))
    for words in (["print", "-", "-"], ["print", "--byte-limit", "9", "-"], ["print", "--strict", "-"]):
        output, errors, status = run(words, b"x")
        record(f"{words} are wrong arguments", (output, status) == (b"", 2) and errors.startswith(b"error: "), f"{errors}")
    with open("/dev/full", "wb") as full:
        done = subprocess.run([str(PROGRAM), "print", "-"], input=b"x", stdout=full, stderr=subprocess.PIPE, timeout=60)
        record("print: a full output", (done.stderr, done.returncode) == (b"write fault\n", 4), f"{done}")
    library = preloaded(str(folder), "pieces")
    for data, text in ((b"eraser trace 1\nt1 lock m\n", b"eraser trace 1\nt1 lock m\n"), (CUT, CUT_TEXT)):
        for call, line in (("FAIL_READ", b"read fault\n"), ("FAIL_WRITE", b"write fault\n")):
            for nth, found, has_failed in each_failed(library, str(folder), call, "FAIL_FOUND", lambda env: run(["print", "-"], data, env={**env, "PIECE": "3"})):
                is_right = found == (text[:len(found[0])], line, 4) and len(found[0]) <= len(text) if has_failed else found == (text, b"", 0)
                record(f"print: {call} {nth} of {len(text)} bytes", is_right, f"{found}")


def tests(record, preloaded):
    with tempfile.TemporaryDirectory() as folder:
        texts(record, pathlib.Path(folder))
        readers(record, pathlib.Path(folder))
        faults(record, pathlib.Path(folder), preloaded)


if __name__ == "__main__":
    run_alone(tests, preloaded)
