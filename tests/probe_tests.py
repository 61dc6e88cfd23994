"""Plays the cases of tests/probe/*.txt with the program `probe`, and compares what it prints with the answers that stand beside the rows.

A case whose rows have `~>` is also played once for each of its allocations, with that allocation refused (tests/refuse.c). Whatever was
refused, the rows are answered as usual: a row that finds no memory says so on the errors, leaves everything as it was and is made once
more. Which rows may find none, and that each of them does, stands in the case. A run of `probe` that finds no memory for itself ends with
3, behind a beginning of what it prints.
"""

import itertools
import pathlib
import re
import subprocess
import tempfile

import probe_cases
from alone import each_refused, program

TOP = pathlib.Path(__file__).resolve().parent.parent
PROBE = program("probe")
TOLD = re.compile(r"line (\d+): (?:out of memory|stopped at (0x[0-9a-f]+) for want of memory), (unchanged|changed)\n")
# Rows that ask for nothing, each behind the rows of its kind, and the line that is told.
BAD_ROWS = [
    ("", 1),
    ("# no row\n", 1),
    ("no-such\n", 1),
    ("table 1 1\n", 1),
    ("table 0\n", 1),
    ("table 1048577\n", 1),
    ("table 4\ndetector 7 65 100 2\n", 2),
    ("table 4\ndetector 7 0 100 2\n", 2),
    ("table 4\ndetector 7 1 0 2\n", 2),
    ("table 4\ndetector 7 1 1073741825 2\n", 2),
    ("table 4\ndetector 7 1 100 0\n", 2),
    ("table 4\ndetector 7 1 100 1073741825\n", 2),
    ("table 4\ndetector 7 1 100\n", 2),
    ("table 4\ndetector 7 1 100 2 drawing\n", 2),
    ("table 4\ndetector 7 1 100 2 drawing 0\n", 2),
    ("table 4\ndetector 7 1 100 2 drawing 1073741825\n", 2),
    ("table 4\ndetector 7 65 100 2 drawing 1\n", 2),
    ("table 4\ndetector 7 1 100 2 any 1\n", 2),
    ("table 4\nword 0\n\n# comment\nword x\n", 5),
    ("table 4\nthread 1073741824 write 0\n", 2),
    ("table 4\nthread 1 write 0 1 2\n", 2),
    ("table 4\nparallel 1 1 17\n", 2),
    ("table 4\nparallel 0 1 1\n", 2),
    ("table 4\nparallel 65 1 1\n", 2),
    ("table 4\nparallel 1 0 1\n", 2),
    ("table 4\nparallel 1 1048577 1\n", 2),
    ("table 4\nworkload no-such\n", 2),
    ("table 4\ndetector 7 2 100 2\nopen c\n", 3),
    ("table 4\ndetector 7 2 100 2\nseat 0 write 0\n", 3),
    ("table 4\ndetector 7 2 100 2\nopen a\nseat 0 write 0 in a 2\n", 4),
    ("table 4\ndetector 7 2 100 2\nentries a 2\n", 3),
    ("table 4\ndetector 7 2 100 2\nswap a 1 a 1\n", 3),
    ("table 4\ndetector 7 2 100 2\ntimes 0 0 open a\n", 3),
    ("table 4\ndetector 7 2 100 2\nsettle a\nopen a\n", 4),
    ("table 4\ndetector 7 2 100 2\nopen a\nsettle a 1\n", 4),
    ("table 4\ndetector 7 2 100 2\nopen a\nsettle a 0 0\n", 4),
    ("table 4\ndetector 1 1 1000000 17\nrate own 0 1\n", 3),
    ("table 4\ndetector 1 1 1000000 17\nrate own 17 1\n", 3),
    ("table 4\ndetector 1 1 1000000 17\nrate own 1 100000001\n", 3),
    ("table 4\ndetector 1 1 1000000 17\nrate any 1 1\n", 3),
    ("table 4\ndetector 1 1 1000000 17\nrate own 1\n", 3),
]


def run(text, **more):
    done = subprocess.run([str(PROBE)], input=text, capture_output=True, text=True, timeout=120, **more)
    return done.stdout, done.stderr, done.returncode


def differing(case, output):
    """The first line that is not as it should be, beside its row."""
    for row, wanted, found in zip(case.rows[len(case.rows) - len(case.answers) :], case.answers, output.splitlines()):
        if wanted != found:
            return f"{row}: {found}, and not {wanted}"
    return f"{len(output.splitlines())} lines, and not {len(case.answers)}"


def plays(record):
    for case in probe_cases.CASES:
        output, errors, status = run(case.text)
        record(f"probe {case.name}", (output, errors, status) == (case.output, "", 0), f"{differing(case, output)} {errors} {status}"[:1000])


def bad_rows(record):
    for text, line in BAD_ROWS:
        output, errors, status = run(text)
        record(f"bad row {text!r}", (errors, status) == (f"line {line}: bad row\n", 2), f"{output} {errors} {status}")


def lacking(case, found):
    """The line of the row that found no memory, 0 where the program itself found none, and None where the run is not as it should be."""
    output, errors, status = found
    if status == 3:
        return 0 if errors == "out of memory\n" and case.output.startswith(output) else None
    if status != 0:
        return None
    told = TOLD.fullmatch(errors)
    if told and output == case.output:
        line, stop, left = int(told[1]), told[2], told[3]
        words = case.rows[line - 1].split()
        is_first = stop is None or "reuse" in words and int(stop, 0) == int(words[words.index("reuse") + 1], 0)
        return line if (left == "unchanged") == is_first else None
    # Settling, a run and a thread that isn't started answer by themselves that they found none.
    answers = output.splitlines()
    if errors or len(answers) != len(case.answers):
        return None
    others = [at for at, answer in enumerate(answers) if answer != case.answers[at]]
    if len(others) != 1:
        return None
    at = others[0]
    line = at + 1 + len(case.rows) - len(case.answers)
    return line if is_lacking(case.rows[line - 1].split()[0], case.answers[at], answers[at]) else None


def is_lacking(verb, usual, answer):
    if verb == "run":
        done, _, stop = answer.rpartition("; stopped at ")
        count = 0 if done == "no answers" else done.count(",") + 1
        return stop == f"{count}: out of memory" and (count == 0 or usual.startswith(f"{done}, "))
    return (verb, answer) in (("settle", "memory"), ("parallel", "worker not started"))


def rates(record):
    """Threads make all calls that are measured, and none is a race. How long they took goes to the errors."""
    for shape in ("own", "spread", "one"):
        for threads, drawing in itertools.product((1, 4, 16), ("", " drawing 64")):
            output, errors, status = run(f"table 4\ndetector 1 4 1073741824 17{drawing}\nrate {shape} {threads} 1000\n")
            is_right = (output, status) == (f"done\ncalls {1000 * threads}, races 0\n", 0) and re.fullmatch(r"\d+ microseconds\n", errors)
            record(f"rate {shape} {threads}{drawing}", bool(is_right), f"{output} {errors} {status}")


def refusals(record, preloaded):
    with tempfile.TemporaryDirectory() as folder:
        library = preloaded(folder, "refuse")
        for case in (case for case in probe_cases.CASES if case.lacking):
            met = set()
            for nth, found, was_refused in each_refused(library, folder, lambda env: run(case.text, env=env)):
                if not was_refused:
                    record(f"probe {case.name} with all {nth - 1} allocations", found == (case.output, "", 0), f"{found}")
                    break
                # A list that can't grow in place moves, and some memory the C library can do without.
                line = lacking(case, found)
                is_usual = found == (case.output, "", 0)
                record(f"probe {case.name} without allocation {nth}", is_usual or line == 0 or line in case.lacking, f"{found}"[:1000])
                met.add(line)
            for line in case.lacking:
                record(f"probe {case.name}: line {line} finds no memory", line in met)


def tests(record, preloaded):
    plays(record)
    bad_rows(record)
    rates(record)
    refusals(record, preloaded)


if __name__ == "__main__":
    failed = []

    def record(name, is_right, detail=""):
        print("ok" if is_right else f"FAILED {detail}", name)
        failed.extend([] if is_right else [name])

    def preloaded(folder, name):
        library = pathlib.Path(folder) / f"{name}.so"
        subprocess.run(["cc", "-O1", "-shared", "-fPIC", "-o", str(library), str(TOP / f"tests/{name}.c"), "-ldl"], check=True)
        return library

    tests(record, preloaded)
    print(f"{len(failed)} failed: {failed}")
