#!/usr/bin/env python3
"""What `eraser replay --part` reports of the parts of a trace, and what `eraser merge` makes of reports of parts.

`tests/run` calls `tests`. By itself this file runs these tests alone.

- each example and 600 random traces, a third of them binary, in 1, 2, 3 and 16 parts, with and without rules and reasons: the parts' reports make the whole
  one and its status, and a trace with a fault has the line and the status of a whole replay in each part. The first line of each report is the one
  that is worked out here, and its races are of the part's pages
- with the trace, the same parts make its report in each form: by site, as JSON, SARIF and HTML, and as text with and without reasons, whether the parts have
  reasons or not; the bytes and the status are those of a replay in that form
- with another trace, other rules, an option without the trace, and each failed read and refused allocation: nothing, and the line of what is wrong
- rules by what a binary trace says of the program, several workers, lost events
- what `--part` doesn't go with, and values that are no part; files that aren't ordinary; refused allocations, failed reads and writes, short reads
- parts that are cut here out of whole reports of random traces, in any order, with rules and reasons, by both rules: the whole report and its status
- several lines of one line of a trace, by their addresses
- a part that is missing, given twice, of another trace or of other rules, cut off anywhere, with a line of no report, or stopped
- files that can't be opened or read, a full output, refused allocations, failed reads and writes
"""

import concurrent.futures
import json
import os
import pathlib
import random
import re
import subprocess
import sys
import tempfile

sys.dont_write_bytecode = True
import fact_rules_tests
import reference
import trace4
from alone import each_failed, each_refused, run_alone
from site_tests import PROGRAM, preloaded, run
from trace4_tests import is_sound

TOP = pathlib.Path(__file__).resolve().parent.parent
RANDOM_TRACES = 600
PARTS = (1, 2, 3, 16)

ABOUT = "a trace of 1234 bytes, digest 0123456789abcdef, rules none, without reasons"
OF_STEP = re.compile(r"line \d+: ")
WORD = re.compile(r"line \d+: (?:race|unordered|state).*? (0x[0-9a-f]{12})")


# ---- Reports of parts

def digest_of(text, digest=0):
    """docs/FORMATS.md: 8 bytes at a time, the lowest first, and the last few one by one."""
    whole = len(text) // 8 * 8
    for number in [*(int.from_bytes(text[at:at + 8], "little") for at in range(0, whole, 8)), *text[whole:]]:
        digest = (digest + number + 1) * 11400714819323198485 % 2**64
    return digest


def heading_of(part, parts, text, rules, explained):
    of_rules = 0
    for rule in rules:
        of_rules = digest_of(rule, of_rules)
    return f"# part {part} of {parts} of a trace of {len(text)} bytes, digest {digest_of(text):016x}, rules {of_rules:016x}, {'with' if explained else 'without'} reasons\n".encode()


def pages_of(report):
    return {int(address, 16) >> 12 for address in re.findall(rb"^line \d+: (?:race|state).*?(0x[0-9a-f]{12})", report, re.MULTILINE)}


FORMS = ([], ["--explain"], ["--by-site"], ["--format", "json"], ["--format", "json", "--explain"], ["--format", "sarif"], ["--format", "html"],
         ["--format", "html", "--source", str(TOP / "examples")])


def in_forms(record, folder, name, path, rules, count, forms=FORMS):
    """Merges the reports that `merge` has written, with their trace and in forms. Each is what a replay of the whole trace gives in that form."""
    paths = [str(folder / f"{number}.report") for number in range(count)]
    words = [word for file in rules for word in ("--suppress", str(file))]
    for form in forms:
        whole = run(["replay", *words, *form, str(path)])
        found = run(["merge", "--trace", str(path), *words, *form, *paths])
        record(f"{name}, merged with {form}", found == whole, f"{found}, {whole}"[:1000])


def in_parts(record, folder, name, parts, path, rules, *options):
    """Replays a trace whole and in parts, and merges these."""
    words = [*options, *(word for file in rules for word in ("--suppress", str(file)))]
    whole = run(["replay", *words, str(path)])
    found = [run(["replay", "--part", f"{part}/{parts}", *words, str(path)]) for part in range(1, parts + 1)]
    name = f"{name} in {parts} parts {' '.join(words)}"
    if whole[2] > 1:
        record(f"{name}: the fault of each", all(part == whole for part in found), f"{found}, {whole}"[:1000])
        return
    text, texts = path.read_bytes(), [file.read_bytes() for file in rules]
    for part, (output, errors, status) in enumerate(found, 1):
        first, feed, body = output.partition(b"\n")
        is_right = first + feed == heading_of(part, parts, text, texts, "--explain" in options) and (errors, status) == (whole[1], int(b"race: " in body or not b" races 0," in body))
        record(f"{name}: part {part}", is_right and all(page % parts + 1 == part for page in pages_of(body)), f"{output}, {errors}, {status}"[:1000])
    reports = [output for output, _, _ in found]
    random.Random(name).shuffle(reports)
    merged = merge(folder, reports)
    record(f"{name}: the one report", merged == (whole[0], b"", whole[2]), f"{merged}, {whole}"[:1000])
    # Of the random traces each is merged in one form.
    forms = FORMS if path.parent.name == "examples" else [FORMS[random.Random(name).randrange(len(FORMS))]]
    in_forms(record, folder, name, path, rules, parts, forms)


def options_of(folder, rules):
    (folder / "rules").write_bytes(rules)
    for files in ([], [folder / "rules"]):
        for options in ([], ["--explain"]):
            yield files, options


def of_example(record, top, path):
    with tempfile.TemporaryDirectory(dir=top) as name:
        folder = pathlib.Path(name)
        rules = path.with_suffix(".rules")
        for files, options in options_of(folder, rules.read_bytes() if rules.exists() else b"eraser suppressions 2\nsite *pool*\nwords 0x1000 64\nvariable *\n"):
            for parts in PARTS:
                in_parts(record, folder, f"example {path.stem}", parts, path, files, *options)


def of_random_traces(record, top, seeds):
    with tempfile.TemporaryDirectory(dir=top) as name:
        folder = pathlib.Path(name)
        path = folder / "trace"
        for seed in seeds:
            text, kind = reference.random_trace(seed), "text"
            if seed % 3 == 0 and is_sound(text):
                dice = random.Random(seed)
                text, kind = trace4.encode(text, dice, dice.choice([0, 0, 3]), most_bytes=dice.choice([1, 100, 65536])), "binary"
            path.write_bytes(text)
            for at, (files, options) in enumerate(options_of(folder, reference.random_rules(seed))):
                in_parts(record, folder, f"random {kind} trace {seed}", PARTS[(seed + at) % 4], path, files, *options, *(["--workers", "3"] if seed % 10 == 0 else []))


def replayed(record, folder):
    examples = sorted((TOP / "examples").glob("*.trace"))
    with concurrent.futures.ThreadPoolExecutor(4) as pool:
        made = [pool.submit(of_example, record, folder, path) for path in examples]
        made += [pool.submit(of_random_traces, record, folder, range(first, RANDOM_TRACES, 24)) for first in range(24)]
        for one in made:
            one.result()


def by_facts(record, folder):
    """Rules by what a trace says of the program take in each part the races of its own words."""
    path, rules = folder / "facts.trace", folder / "facts.rules"
    path.write_bytes(fact_rules_tests.trace())
    for at, (text, _) in enumerate(fact_rules_tests.ROWS):
        rules.write_text(f"{fact_rules_tests.HEAD}{text}\n")
        in_parts(record, folder, f"rules by facts, row {at}", PARTS[at % 4], path, [rules], *(["--explain"] if at % 2 else []))
    in_parts(record, folder, "two files of rules", 3, path, [rules, rules])


TRACE = b"eraser trace 3\nt1 write 0x1000 a.c:1\nt2 write 0x1000 a.c:2\nt1 write 0x2000\nt2 write 0x2000\nend\n"
NO_VALUES = ("0/3", "4/3", "1/4097", "a/b", "1/", "/2", "/", "1", "", "1/2/3", "-1/2", "+1/2", "1/+2", " 1/2", "1/2 ", "0x1/2", "1/18446744073709551617", "1.0/2", "0/0")
NOT_WITH = {
    "--analysis": [["--analysis", "happens-before"], ["--analysis", "both"]], "--format": [["--format", "json"], ["--format", "sarif"], ["--format", "html"]], "--by-site": [["--by-site"]],
    "--strict": [["--strict"]], "--until-fault": [["--until-fault"]], "--write-rules": [["--write-rules", "new.rules"]], "--unused-rules": [["--unused-rules"]],
    "--max-races": [["--max-races", "1"]], "--source": [["--source", "."], ["--format", "html", "--source", "."]], "place of -": [["-"]],
}


def refused(record, folder):
    path = folder / "two.trace"
    path.write_bytes(TRACE)
    for value in NO_VALUES:
        output, errors, status = run(["replay", f"--part={value}", str(path)])
        line = errors.split(b"\n")[0].decode()
        wanted = f"error: invalid value '{value}' for '--part <I/N>': " if value else "error: "
        record(f"no part {value!r}", (output, status) == (b"", 2) and line.startswith(wanted), f"{output}, {errors}, {status}")
    for value, part, parts in (("1/1", 1, 1), ("4096/4096", 4096, 4096), ("1/4096", 1, 4096), ("007/8", 7, 8)):
        output, errors, status = run(["replay", "--part", value, str(path)])
        record(f"part {value}", output.startswith(heading_of(part, parts, TRACE, [], False)) and (errors, status) == (b"", int(parts == 1)), f"{output}, {errors}, {status}")
    for option, rows in NOT_WITH.items():
        for words in rows:
            output, errors, status = run(["replay", "--part", "1/2", *words, *([] if words == ["-"] else [str(path)])], TRACE, cwd=folder)
            told = errors.decode().split("\n")[0]
            record(f"--part with {words}", (output, status) == (b"", 2) and told.startswith("error: ") and "--part" in told and option in told, f"{output}, {errors}, {status}")
    record("no file of rules was written", not (folder / "new.rules").exists())
    rules = folder / "of.rules"
    rules.write_text("site a.c:2\n")
    plain = run(["replay", "--part", "2/2", "--suppress", str(rules), str(path)])
    record("the part of a page", plain == (heading_of(2, 2, TRACE, [rules.read_bytes()], False) + b"suppression 1: 1\nsteps 2, races 0, suppressed 1, refused 0\n", b"", 0), f"{plain}")
    for words in (["--workers", "4"], ["--workers", "2", "--shards", "3"], ["--byte-limit", "99"], ["--analysis", "lockset"], ["--format", "text"], ["--hints"]):
        found = run(["replay", "--part", "2/2", *words, "--suppress", str(rules), str(path)])
        record(f"--part with {words}", found == plain, f"{found}")
    output, errors, status = run(["replay", "--part", "2/2", "--progress", "--suppress", str(rules), str(path)])
    record("--part with --progress", (output, status) == (plain[0], 0) and errors.startswith(b"progress: "), f"{errors}")


def files_of_parts(record, folder, preloaded):
    path, rules = folder / "two.trace", folder / "of.rules"
    path.write_bytes(TRACE)
    rules.write_text("site a.c:2\n")
    words = ["replay", "--part", "1/2", "--explain", "--suppress", str(rules)]
    whole = run([*words, str(path)])
    record("the first of two parts", whole == (heading_of(1, 2, TRACE, [rules.read_bytes()], True)
           + b"line 5: race: t2 write 0x000000002000 at -, holds none\n  first: line 4, t1 write\n  joined: line 5, t2 write\n  write: line 5, t2 write\nsuppression 1: 0\nsteps 2, races 1, suppressed 0, refused 0\n", b"", 1), f"{whole}")
    for name in (folder / "nothing", folder):
        found = run([*words, str(name)])
        record(f"a part of {name.name}", found == run(["replay", str(name)]) and found[2] == 4, f"{found}")
    fifo = folder / "fifo"
    os.mkfifo(fifo)
    record("a part of a FIFO", run([*words, str(fifo)]) == (b"", b"a part needs ordinary files\n", 4))
    found = run(["replay", "--part", "1/2", "--suppress", "/dev/null", str(path)])
    record("rules of a device", found == (b"", b"a part needs ordinary files\n", 4), f"{found}")
    record("rules that aren't there", run(["replay", "--part", "1/2", "--suppress", str(folder / "nothing"), str(path)]) == (b"", b"cannot open suppressions\n", 4))
    long = folder / "long.trace"
    for size in (65535, 65536, 65537, 131072 + 8):
        text = b"eraser trace 1\nt1 write 0x1000\nt2 write 0x1000\n" + b"#" * 900 + b"\n"
        text = (text + (b"#" * 999 + b"\n") * 200)[:size - 1] + b"\n"
        long.write_bytes(text)
        in_parts(record, folder, f"{size} bytes", 2, long, [])
    with open("/dev/full", "wb") as full:
        done = subprocess.run([str(PROGRAM), *words, str(path)], stdout=full, stderr=subprocess.PIPE, timeout=60)
        record("a part to a full output", (done.stderr, done.returncode) == (b"write fault\n", 4), f"{done}")
    library = preloaded(str(folder), "refuse")
    for nth, found, was_refused in each_refused(library, str(folder), lambda env: run([*words, str(path)], b"", env=env)):
        record(f"a part, allocation {nth} refused", found in (whole, (b"", b"out of memory\n", 3)) if was_refused else found == whole, f"{found}")
    library = preloaded(str(folder), "pieces")
    for call in ("FAIL_READ", "FAIL_WRITE"):
        for nth, found, has_failed in each_failed(library, str(folder), call, "FAIL_FOUND", lambda env: run([*words, str(path)], b"", env={**env, "PIECE": "7"})):
            wanted = b"read fault\n" if call == "FAIL_READ" else b"write fault\n"
            is_right = found[1:] == (wanted, 4) and (found[0] == b"" if call == "FAIL_READ" else whole[0].startswith(found[0])) if has_failed else found == whole
            record(f"a part, {call} {nth}", is_right, f"{found}")


def of_traces(record, folder, preloaded):
    """Reports that aren't of the trace, or were made by other rules, and options without the trace."""
    path, other, rules, folded = (folder / name for name in ("two.trace", "other.trace", "of.rules", "more.rules"))
    path.write_bytes(TRACE)
    other.write_bytes(TRACE.replace(b"a.c:1", b"a.c:7"))
    rules.write_text("site a.c:2\n")
    folded.write_text("site a.c:1\n")
    texts = [run(["replay", "--part", f"{part}/2", "--suppress", str(rules), str(path)])[0] for part in (1, 2)]
    merge(folder, texts)
    paths = [str(folder / f"{part}.report") for part in (0, 1)]
    words = ["merge", "--trace", str(path), "--suppress", str(rules), "--format", "json", "--explain"]
    whole = run(["replay", "--suppress", str(rules), "--format", "json", "--explain", str(path)])
    record("the one report as JSON", run([*words, *paths]) == whole and whole[2] == 1, f"{run([*words, *paths])}, {whole}")
    longer = folder / "longer.trace"
    longer.write_bytes(TRACE + b"# a comment\n")
    of_other, missing = b"report file 1: another trace\n", b"part 2 missing\n"
    for name, found, line, status in (
        ("another trace", run(["merge", "--trace", str(other), "--suppress", str(rules), *paths]), of_other, 2),
        ("a longer trace", run(["merge", "--trace", str(longer), "--suppress", str(rules), *paths]), of_other, 2),
        ("no rules", run(["merge", "--trace", str(path), *paths]), of_other, 2),
        ("other rules", run(["merge", "--trace", str(path), "--suppress", str(folded), *paths]), of_other, 2),
        ("more rules", run(["merge", "--trace", str(path), "--suppress", str(rules), "--suppress", str(folded), *paths]), of_other, 2),
        ("a missing part", run([*words, paths[0]]), missing, 2),
        ("a part twice", run([*words, *paths, paths[1]]), b"part 2 given twice\n", 2),
        ("no report", run([*words, str(path), paths[1]]), b"report file 1 line 1: no report of a part\n", 2),
        ("a trace that isn't there", run(["merge", "--trace", str(folder / "nothing"), *paths]), b"cannot open trace\n", 4),
        ("a trace that is a device", run(["merge", "--trace", "/dev/null", *paths]), b"a part needs ordinary files\n", 4),
        ("a report that isn't there", run([*words, str(folder / "nothing")]), b"cannot open report file 1\n", 4),
    ):
        record(f"with a trace, {name}", found == (b"", line, status), f"{found}")
    short = run(["merge", "--trace", str(path), "--suppress", str(rules), "--byte-limit", "50", *paths])
    record("with a trace beyond the limit", short == run(["replay", "--suppress", str(rules), "--byte-limit", "50", str(path)]) and short[2] == 2, f"{short}")
    binary, coded = folder / "two.binary", [folder / f"binary-{part}.report" for part in (1, 2)]
    binary.write_bytes(trace4.encode(TRACE))
    for part, report in enumerate(coded, 1):
        report.write_bytes(run(["replay", "--part", f"{part}/2", str(binary)])[0])
    for limit, status in (([], 1), (["--byte-limit", "50"], 2)):
        found = run(["merge", "--trace", str(binary), "--format", "json", *limit, *map(str, coded)])
        record(f"with a binary trace and {limit}", found == run(["replay", "--format", "json", *limit, str(binary)]) and found[2] == status, f"{found}")
    for option in (["--by-site"], ["--format", "json"], ["--explain"], ["--suppress", str(rules)], ["--source", "."], ["--trace", "-"]):
        output, errors, status = run(["merge", *option, *paths])
        record(f"{option} without a trace", (output, status) == (b"", 2) and errors.startswith(b"error: ") and b"--trace" in errors.split(b"\n")[0] or b"--source" in errors, f"{errors}")
    output, errors, status = run(["merge", "--trace", str(path), "--by-site", "--format", "json", *paths])
    record("two forms", (output, status) == (b"", 2) and errors.startswith(b"error: "), f"{errors}")
    with open("/dev/full", "wb") as full:
        done = subprocess.run([str(PROGRAM), *words, *paths], stdout=full, stderr=subprocess.PIPE, timeout=60)
        record("JSON to a full output", (done.stderr, done.returncode) == (b"write fault\n", 4), f"{done}")
    library = preloaded(str(folder), "refuse")
    bare = json.loads(whole[0])
    for nth, found, was_refused in each_refused(library, str(folder), lambda env: run([*words, *paths], b"", env=env)):
        # Without memory for the places of reasons the document has the races without them.
        is_bare = found[1:] == whole[1:] and set(json.loads(found[0])) == set(bare)
        record(f"JSON, allocation {nth} refused", found == (b"", b"out of memory\n", 3) or is_bare if was_refused else found == whole, f"{found}")
    library = preloaded(str(folder), "pieces")
    for call in ("FAIL_READ", "FAIL_WRITE"):
        for nth, found, has_failed in each_failed(library, str(folder), call, "FAIL_FOUND", lambda env: run([*words, *paths], b"", env={**env, "PIECE": "7"})):
            told = found[1].startswith(b"read fault") if call == "FAIL_READ" else found[1] == b"write fault\n"
            is_right = told and found[2] == 4 and (call == "FAIL_WRITE" and whole[0].startswith(found[0]) or not found[0])
            # The last look at the trace is for the places of reasons alone.
            record(f"JSON, {call} {nth}", is_right or call == "FAIL_READ" and found[1:] == whole[1:] if has_failed else found == whole, f"{found}")


# ---- Reports that are cut here

def heading(part, parts, about=ABOUT):
    return f"# part {part} of {parts} of {about}\n"


def shares(dice, total, parts):
    """The total as a sum of so many numbers."""
    marks = sorted(dice.randint(0, total) for _ in range(parts - 1))
    return [high - low for low, high in zip([0, *marks], [*marks, total])]


def cut(dice, report, parts):
    """The reports of parts that together have the lines and counts of this one: a line is in the part of its page, and one without a word in the first."""
    lines = [[] for _ in range(parts)]
    counts = [[] for _ in range(parts)]
    part = 0
    for line in report.decode().splitlines():
        if OF_STEP.match(line):
            word = WORD.match(line)
            part = (int(word[1], 16) >> 12) % parts if word else 0
            lines[part].append(line)
        elif line.startswith("  "):
            lines[part].append(line)
        else:
            # Of the last line each number but that of lost events is shared out.
            numbers = [int(number) for number in re.findall(r"\d+", line.split(", lost")[0])]
            kept = numbers[:1] if line.startswith("suppression") else []
            shared = [shares(dice, number, parts) for number in numbers[len(kept):]]
            for k in range(parts):
                own = iter([*kept, *(share[k] for share in shared)])
                counts[k].append(re.sub(r"\d+", lambda _: str(next(own)), line.split(", lost")[0]) + "".join(f", lost{rest}" for rest in line.split(", lost")[1:]))
    return ["".join(f"{line}\n" for line in [*lines[k], *counts[k]]) for k in range(parts)]


def merge(folder, texts, **more):
    paths = []
    for number, text in enumerate(texts):
        paths.append(folder / f"{number}.report")
        paths[-1].write_bytes(text if isinstance(text, bytes) else text.encode())
    return run(["merge", *map(str, paths)], b"", **more)


def wholes(record, folder):
    for seed in range(150):
        dice = random.Random(seed)
        trace, rules = reference.random_trace(seed), reference.random_rules(seed)
        (folder / "rules").write_bytes(rules)
        for options in ([], ["--explain"], ["--explain", "--analysis", "happens-before"], ["--suppress", str(folder / "rules")]):
            whole = run(["replay", *options, "-"], trace)
            if whole[2] > 1:
                continue
            parts = dice.choice([1, 2, 3, 16])
            texts = [heading(k + 1, parts) + text for k, text in enumerate(cut(dice, whole[0], parts))]
            dice.shuffle(texts)
            record(f"random trace {seed} {options} in {parts} parts", merge(folder, texts) == (whole[0], b"", whole[2]), f"{whole}")


def places(record, folder):
    """Several lines of one line of a trace, as a reuse of several pages has them."""
    reuse = "line 9: unordered: t1 reuse 0x%012x 4096 at pool.c:9\n  unordered with: line 3, t2 write\n"
    other = "line %d: race: reuse write 0x%012x at a, holds none\n"
    end = "steps 3, unordered %d, suppressed 0, refused 0\n"
    texts = [heading(1, 2) + other % (3, 0x9000) + reuse % 0x2000 + reuse % 0x10000 + other % (10, 0) + end % 4,
             heading(2, 2) + reuse % 0x1000 + reuse % 0xf000 + other % (9000, 0x1000) + end % 3]
    whole = other % (3, 0x9000) + "".join(reuse % at for at in (0x1000, 0x2000, 0xf000, 0x10000)) + other % (10, 0) + other % (9000, 0x1000)
    whole += "steps 6, unordered 7, suppressed 0, refused 0\n"
    for order in (texts, texts[::-1]):
        record("lines of one line by address", merge(folder, order) == (whole.encode(), b"", 1), f"{merge(folder, order)}")


BODY = "line 4: race: t2 write 0x000000001000 at -, holds none\n  first: line 2, t1 write\nsuppression 1: 2\nsteps 3, races 1, suppressed 2, refused 0\n"
NONE = "suppression 1: 0\nsteps 1, races 0, suppressed 0, refused 0\n"


def faults(record, folder):
    first, second, third = heading(1, 3) + BODY, heading(2, 3) + NONE, heading(3, 3) + NONE
    whole = BODY.replace("steps 3", "steps 5")
    record("three parts", merge(folder, [third, first, second]) == (whole.encode(), b"", 1))
    record("one part", merge(folder, [heading(1, 1) + NONE]) == (NONE.encode(), b"", 0))
    other = "report file 2: another trace\n"
    most = f"steps {2**64 - 1}, races 0, suppressed 0, refused 0\n"
    for name, texts, line, status in (
        ("a missing part", [first, third], "part 2 missing\n", 2), ("the first is missing", [third, second], "part 1 missing\n", 2),
        ("the last is missing", [second, first], "part 3 missing\n", 2), ("two are missing", [second], "part 1 missing\n", 2),
        ("a part twice", [first, second, second, third], "part 2 given twice\n", 2), ("a part in the place of another", [first, third, third], "part 2 missing\n", 2),
        ("the first twice", [first, first, second], "part 1 given twice\n", 2),
        ("another trace", [first, second.replace("1234", "1235"), third], other, 2), ("another number of parts", [first, heading(2, 4) + NONE, third], other, 2),
        ("other rules", [first, second.replace("suppression 1: 0\n", ""), third], other, 2),
        ("another rule of races", [first, second.replace("races", "unordered"), third], other, 2),
        ("other lost events", [first, second.replace("refused 0", "refused 0, lost 3"), third], other, 2),
        ("too many steps", [heading(1, 2) + most, heading(2, 2) + most], "counts too large\n", 3),
        ("a part that stopped", [first, heading(2, 3) + "line 12: stopped: table full\n" + NONE, third], "report file 2 line 2: stopped\n", 3),
        ("a whole report", [BODY], "report file 1 line 1: no report of a part\n", 2), ("an empty file", [first, ""], "report file 2 line 1: no report of a part\n", 2),
        ("part 0", [heading(0, 2) + NONE], "report file 1 line 1: no report of a part\n", 2), ("part 3 of 2", [heading(3, 2) + NONE], "report file 1 line 1: no report of a part\n", 2),
    ):
        found = merge(folder, texts)
        record(name, found == (b"", line.encode(), status), f"{found}")
    for line in ("", "line 4: race t2", "line 4 race: ", "line x: race: a", "  first: line 2, t1 write", "suppression 2: 3", "suppression 0: 1", "steps 1, races 0, suppressed 0",
                 "steps 1, races 0, suppressed 0, refused 0 ", "steps 1, races 0, suppressed 0, refused 0, lost", f"steps {2**64}, races 0, suppressed 0, refused 0", "part 1", "\0", "# x"):
        found = merge(folder, [heading(1, 1) + f"{line}\n" + NONE])
        record(f"the line {line!r}", found == (b"", b"report file 1 line 2: no line of a report\n", 2), f"{found}")
    for text in (first + "x\n", first + "suppression 2: 1\n", first + "line 9: race: a\n", first + "\n"):
        found = merge(folder, [text])
        record("a line behind the totals", found == (b"", b"report file 1 line 6: no line of a report\n", 2), f"{found}")
    for length in range(len(first)):
        output, errors, status = merge(folder, [third, first[:length], second])
        record(f"cut off at byte {length}", (output, status) == (b"", 2) and errors.startswith(b"report file 2 line "), f"{errors}")


def devices(record, folder, preloaded):
    texts = [heading(1, 2) + BODY, heading(2, 2) + NONE]
    whole = (BODY.replace("steps 3", "steps 4").encode(), b"", 1)
    path = folder / "0.report"
    record("a report that is not there", run(["merge", str(path), str(folder / "nothing")], b"") == (b"", b"cannot open report file 2\n", 4))
    record("a folder", run(["merge", str(folder)], b"") == (b"", b"read fault in report file 1\n", 4))
    output, errors, status = run(["merge"], b"")
    record("no reports", (output, status) == (b"", 2) and errors.startswith(b"error: "), f"{errors}")
    record("both parts", merge(folder, texts) == whole)
    paths = [str(folder / f"{k}.report") for k in (0, 1)]
    with open("/dev/full", "wb") as full:
        done = subprocess.run([str(PROGRAM), "merge", *paths], stdout=full, stderr=subprocess.PIPE, timeout=60)
        record("a full output", (done.stderr, done.returncode) == (b"write fault\n", 4), f"{done}")
    library = preloaded(str(folder), "refuse")
    for nth, found, was_refused in each_refused(library, str(folder), lambda env: run(["merge", *paths], b"", env=env)):
        record(f"allocation {nth} refused", found in (whole, (b"", b"out of memory\n", 3)) if was_refused else found == whole, f"{found}")
    library = preloaded(str(folder), "pieces")
    for call, lines in (("FAIL_READ", (b"read fault in report file 1\n", b"read fault in report file 2\n")), ("FAIL_WRITE", (b"write fault\n",))):
        for nth, found, has_failed in each_failed(library, str(folder), call, "FAIL_FOUND", lambda env: run(["merge", *paths], b"", env={**env, "PIECE": "7"})):
            is_right = found[0] == whole[0][:len(found[0])] and found[1] in lines and found[2] == 4 if has_failed else found == whole
            record(f"{call} {nth}", is_right, f"{found}")


def tests(record, preloaded):
    with tempfile.TemporaryDirectory() as name:
        folder = pathlib.Path(name)
        replayed(record, folder)
        by_facts(record, folder)
        refused(record, folder)
        files_of_parts(record, folder, preloaded)
        of_traces(record, folder, preloaded)
        wholes(record, folder)
        places(record, folder)
        faults(record, folder)
        devices(record, folder, preloaded)


if __name__ == "__main__":
    run_alone(tests, preloaded)
