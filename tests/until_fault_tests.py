#!/usr/bin/env python3
"""Compares `eraser replay --until-fault` with `eraser replay` of the lines before the fault.

`tests/run` calls `tests`. By itself this file runs these tests alone.

- each kind of fault on the first line, behind comments, behind the header, in the middle and on the last line, with its line feed and
  without: by path, by standard input and by a FIFO, in each form, by both analyses, by several workers and under rules
- lines that end with CR LF, a trace that was cut off, a trace with no header, a trace past its limit
- a trace without a fault: not a byte changes
- the file of rules, the rules that took nothing and the count of races that are left out are those of the lines before the fault
- with --strict: damaged lines have no report and a line for each kind of damage; a missing `end` is no damage then
- random traces, half of them damaged in a byte or cut off
- batches: a fault on both sides of their ends
- each allocation refused in turn, each read and each write failed in turn, reads and writes of a few bytes at a time
- files that can't be opened, and a name that is the option's
"""

import os
import pathlib
import random
import re
import sys
import tempfile
import threading

sys.path.insert(0, str(pathlib.Path(__file__).parent))
sys.dont_write_bytecode = True
import reference
from alone import each_failed, each_refused, run_alone
from site_tests import preloaded, run, run_with

RANDOM_TRACES = 300
HEAD, THIRD = b"eraser trace 1\n", b"eraser trace 3\n"
RACE = b"t1 write 0x1000 a.c:1\nt2 write 0x1000 a.c:2\n"
MORE = b"t1 write 0x2000 b.c:1\nt2 write 0x2000 b.c:2\n"
FORMS = ([], ["--explain"], ["--by-site"], ["--format", "json"], ["--format", "sarif"], ["--format", "html"], ["--workers", "3"],
    ["--workers", "2", "--explain"], ["--analysis", "happens-before"], ["--max-races", "1"], ["--analysis", "happens-before", "--max-races", "1"],
    ["--analysis", "both", "--by-site"], ["--analysis", "happens-before", "--format", "json"], ["--analysis", "both", "--format", "sarif", "--max-races", "1"])
# A faulty line of each kind, the header that it needs, and what is said of it.
FAULTS = (
    (HEAD, b"t1 write 0x1000 " + b"s" * 1100, b"line too long"),
    (HEAD, b"t1 write 0x1000 \x80", b"not ascii"),
    (HEAD, b"# \xff", b"not ascii"),
    (THIRD, b"end\nt1 write 0", b"after end"),
    (HEAD, b"t! write 0", b"bad name"),
    (HEAD, b"t1", b"missing operand"),
    (HEAD, b"t1 fly 0", b"bad verb"),
    (HEAD, b"t1 level 3", b"bad verb"),
    (HEAD, b"t1 write", b"missing operand"),
    (HEAD, b"t1 write 0 a b", b"extra operand"),
    (HEAD, b"t1 lock none", b"bad name"),
    (HEAD, b"t1 write 0x", b"bad number"),
    (HEAD, b"t1 reuse 0 4194305", b"size too large"),
    (HEAD, b"t1 write 0x1000000000000", b"address out of range"),
    (b"eraser trace 2\n", b"t1 level 32", b"level too high"),
    (THIRD, b"t1 start t1", b"own thread"),
    (THIRD, b"t1 start t2\nt2 write 0\nt1 start t2", b"already running"),
    (HEAD, b"t1 write 0x1000\r", b"bad number"),
)


# ---- What is wanted

def fault_of(errors):
    """The number of the faulty line, if the last line of the errors is a fault of the trace."""
    found = re.search(rb"(?:^|\n)line (\d+): [a-z ]+\n$", errors)
    return int(found[1]) if found else None


def before(text, line):
    """The lines of a text before this one, each with its line feed."""
    return b"".join(part + b"\n" for part in text.split(b"\n")[:line - 1])


def expected(text, rules, *options):
    """What --until-fault gives, by what the program gives without it of the text and of the lines before its fault. It isn't noted that these have no end."""
    whole = run_with(rules, text, *options)
    line = fault_of(whole[1])
    if whole[2] != 2 or whole[0] or line is None:
        return whole
    output, errors, status = run_with(rules, before(text, line), *options)
    if status >= 2:
        return whole
    return output, errors.replace(reference.note_of(before(text, line)).encode(), b"") + whole[1], 2


def check(record, name, text, rules, *options):
    wanted, found = expected(text, rules, *options), run_with(rules, text, "--until-fault", *options)
    record(f"until fault: {name} {' '.join(options)}", found == wanted, f"{found}, {wanted}"[:1000])
    return wanted


# ---- Worked traces

def worked_traces(record, folder):
    path, fifo = folder / "t.trace", folder / "t.fifo"
    os.mkfifo(fifo)
    for at, (head, line, kind) in enumerate(FAULTS):
        for place, (name, text, steps) in enumerate((
            ("first line", line + b"\n" + head + RACE, None),
            ("behind a comment", b"# \n\n" + line + b"\n" + head + RACE, None),
            ("behind the header", head + line + b"\n" + RACE, b""),
            ("in the middle", head + RACE + line + b"\n" + MORE, RACE),
            ("last line", head + RACE + b"\n# more\n" + MORE + line + b"\n", RACE + MORE),
            ("last line without its line feed", head + RACE + MORE + line, RACE + MORE),
        )):
            name = f"until fault: {kind.decode()} {name}"
            plain = run(["replay", "-"], text)
            number = fault_of(plain[1])
            is_fault = plain == (b"", b"line %d: %s\n" % (number, kind if steps is not None else plain[1].split(b": ")[1].strip()), 2)
            record(f"{name}, without the option", is_fault, f"{plain}")
            output = run(["replay", "-"], before(text, number))[0] if steps is not None else b""
            races = 0 if steps is None else steps.count(b"\n") // 2
            record(f"{name}, lines before", output.count(b": race: ") == races, f"{output}")
            wanted = (output, plain[1], 2)
            path.write_bytes(text)
            found = [run(["replay", "--until-fault", "-"], text), run(["replay", "--until-fault", str(path)]), through(fifo, text)]
            record(name, found == [wanted] * 3, f"{found}, {wanted}"[:1500])
            # Each place meets each form with some kind of fault.
            for options in (FORMS[(at + place) % len(FORMS)], FORMS[(at + 5 * place + 1) % len(FORMS)]):
                wanted = expected(text, None, *options)
                found = [run(["replay", "--until-fault", *options, "-"], text), run(["replay", *options, "--until-fault", str(path)])]
                record(f"{name} {options}", found == [wanted] * 2, f"{found}, {wanted}"[:1500])
    for name, text in (
        ("nothing", b""), ("a comment alone", b"# nothing\n"), ("another header", b"eraser trace 9\n" + RACE), ("lines of CR LF", (HEAD + RACE).replace(b"\n", b"\r\n")),
        ("CR LF from the second line on", HEAD + RACE.replace(b"\n", b"\r\n")), ("CR LF on the last line", HEAD + RACE + b"t1 read 0x1000\r\n"),
        ("cut off in a verb", HEAD + RACE + b"t1 wri"), ("cut off in a name", HEAD + RACE + b"t"), ("a text 3 that is cut off", THIRD + RACE + b"t1 sta"),
        ("no fault", HEAD + RACE), ("no fault and no line feed", (HEAD + RACE)[:-1]), ("no race", HEAD + b"t1 write 0\n"), ("a refused step", HEAD + b"t1 unlock m\n" + RACE + b"x\n"),
    ):
        for options in FORMS:
            check(record, name, text, None, *options)
    path.write_bytes(HEAD + RACE)
    for options in (["--by-site"], ["--format", "sarif"]):
        found = run(["replay", "--until-fault", *options, str(path)])
        record(f"until fault: reasons have no places {options}", found == run(["replay", *options, "-"], HEAD + RACE), f"{found}")
    whole, text = run(["replay", "-"], HEAD + RACE), HEAD + RACE + MORE
    for limit in (len(HEAD + RACE), len(HEAD + RACE) + 3, len(text) - 1):
        check(record, f"a limit of {limit} bytes", text, None, "--byte-limit", str(limit))
    found = run(["replay", "--until-fault", "--byte-limit", str(len(HEAD + RACE)), "-"], text)
    record("until fault: the lines within the limit", found == (whole[0], b"line 4: text too long\n", 2), f"{found}")


def through(fifo, text):
    """What a trace gives that can be read once alone."""
    def put():
        with open(fifo, "wb") as file:
            file.write(text)
    writer = threading.Thread(target=put)
    writer.start()
    found = run(["replay", "--until-fault", str(fifo)])
    writer.join()
    return found


def notes(record, folder):
    """What is asked for besides the report comes of the lines before the fault, and before its line."""
    path, rules, taken = folder / "n.trace", folder / "n.rules", folder / "taken.rules"
    path.write_bytes(HEAD + RACE + MORE + b"fault\n")
    rules.write_bytes(b"site b.c:2\nsite other\n")
    for words in (["-"], [str(path)]):
        text = path.read_bytes() if words == ["-"] else b""
        taken.unlink(missing_ok=True)
        options = ["--suppress", str(rules), "--unused-rules", "--max-races", "0", "--write-rules", str(taken)]
        found = run(["replay", "--until-fault", *options, *words], text)
        made = taken.read_bytes() if taken.exists() else None
        wanted = run(["replay", *options, "-"], HEAD + RACE + MORE)
        record(f"until fault: notes {words}", wanted[2] == 1 and wanted[1] and found == (wanted[0], wanted[1] + b"line 6: missing operand\n", 2), f"{found}, {wanted}")
        record(f"until fault: rules {words}", made is not None and made == taken.read_bytes() and b"a.c:2" in made, f"{made}")
        found = run(["replay", "--until-fault", "--write-rules", str(folder / "no/rules"), *words], text)
        record(f"until fault: rules that can't be written {words}", found[0].count(b"race:") == 2 and found[1:] == (b"cannot write rules\n", 4), f"{found}")
        rules.write_bytes(b"site\n")
        found = run(["replay", "--until-fault", "--suppress", str(rules), *words], text)
        record(f"until fault: a fault of the rules {words}", found == (b"", b"suppressions line 1: missing operand\n", 2), f"{found}")
        rules.write_bytes(b"site b.c:2\nsite other\n")


STRICT = (
    ("sound lines", HEAD + RACE, b""),
    ("a text 3 without end", THIRD + RACE, b""),
    ("a text 3 with its end", THIRD + RACE + b"end\n", b""),
    ("a refused step", HEAD + RACE + b"t1 unlock m\n", b"line 4: refused step\n"),
    ("a refused step in a text 3", THIRD + RACE + b"t1 unlock m\n", b"line 4: refused step\n"),
    ("a lock held twice", THIRD + b"t1 lock m\nt2 lock m\nt1 unlock n\n" + RACE, b"line 4: refused step\nline 3: lock held twice\n"),
)


def strict(record, folder):
    path = folder / "s.trace"
    for name, text, damage in STRICT:
        for options in ([], ["--workers", "2"], ["--by-site"], ["--format", "json"]):
            line = text.count(b"\n") + 1
            fault = b"line %d: %s\n" % (line, b"after end" if b"\nend\n" in text else b"missing operand")
            output = b"" if damage else run(["replay", *options, "-"], text)[0]
            path.write_bytes(text + b"fault\n")
            found = [run(["replay", "--strict", "--until-fault", *options, *words], path.read_bytes()) for words in (["-"], [str(path)])]
            record(f"until fault: strict, {name} {options}", found == [(output, damage + fault, 2)] * 2, f"{found}")
            # Without a fault of the text it is --strict alone.
            plain = run(["replay", "--strict", *options, "-"], text)
            found = run(["replay", "--strict", "--until-fault", *options, "-"], text)
            record(f"until fault: strict, {name} without a fault {options}", found == plain, f"{found}, {plain}")


# ---- Other traces

def random_traces(record):
    cut = whole = 0
    for seed in range(RANDOM_TRACES):
        dice, text = random.Random(seed), reference.random_trace(seed + 5000)
        for _ in range(20):
            changed = bytearray(text)
            if dice.randrange(3) == 0:
                changed = changed[:dice.randrange(len(changed) + 1)]
            elif changed:
                changed[dice.randrange(len(changed))] = dice.choice(b"\x00 \nx!\r\xffz")
            if run(["replay", "-"], bytes(changed))[2] == 2:
                text = bytes(changed)
                break
        rules = reference.random_rules(seed) if seed % 3 == 0 else None
        wanted = check(record, f"random trace {seed}", text, rules, *FORMS[seed % len(FORMS)])
        cut, whole = cut + (wanted[2] == 2 and wanted[0] != b""), whole + (wanted[2] < 2)
    record("until fault: most random traces have lines before a fault", cut > RANDOM_TRACES // 2, f"{cut}, {whole}")


def batches(record):
    for size in (1020, 1021, 1022, 1023, 1024, 1025, 3000):
        text = HEAD + b"t1 write 0\n" * size + b"t2 write 0\nfault\n" + b"t3 write 0\n" * 2000
        for options in ([], ["--workers", "2"], ["--analysis", "happens-before"]):
            check(record, f"{size} lines before the fault", text, None, *options)
    # The window of a reader has 65,536 bytes: lines that lie across its ends.
    for size in range(4):
        check(record, f"windows {size}", HEAD + b"#" * size + b"\n" + b"t1 write 0x1000 site\n" * 9000 + b"t2 write 0x1000\nfault\n", None)


def refusals(record, preloaded, folder):
    library, path = preloaded(str(folder), "refuse"), folder / "r.trace"
    text = HEAD + RACE + MORE + b"fault\n" + RACE
    path.write_bytes(text)
    for options in ([], ["--explain"], ["--workers", "2"], ["--by-site"], ["--unused-rules"]):
        for words in (["-"], [str(path)]):
            words, told = ["replay", "--until-fault", *options, *words], 0
            whole = run(words, text)
            for nth, found, was_refused in each_refused(library, str(folder), lambda env: run(words, text, env=env)):
                is_told = found[0] == b"" and found[2] == 3 and found[1] in (b"out of memory\n", b"worker not started\n")
                # Without memory for the fault's line it is told as a want of memory, with the status of the fault.
                is_short = found == (whole[0], b"out of memory\n", 2)
                is_stopped = found[1:] == whole[1:] and b"stopped: out of memory" in found[0]
                told += is_told or is_short
                record(f"until fault {words[2:]} without allocation {nth}", found == whole or was_refused and (is_told or is_short or is_stopped), f"{found}")
            record(f"until fault {words[2:]}: refused allocations are told", told > 5, f"{told}")


def failures(record, preloaded, folder):
    library, path = preloaded(str(folder), "pieces"), folder / "f.trace"
    text = HEAD + RACE + MORE + b"fault\n" + RACE
    path.write_bytes(text)
    for words in (["-"], [str(path)]):
        words = ["replay", "--until-fault", *words]
        whole = run(words, text)

        def in_pieces(size):
            return lambda env: run(words, text, env={**env, "PIECE": size})
        for size in ("1", "7", "20"):
            found = in_pieces(size)({**os.environ, "LD_PRELOAD": str(library)})
            record(f"until fault {words[2:]} in pieces of {size}", found == whole, f"{found}")
        count = 0
        for nth, found, has_failed in each_failed(library, str(folder), "FAIL_READ", "FAIL_FOUND", in_pieces("20")):
            # A read behind the first pass of a text that is kept does not happen.
            wanted = (b"", b"read fault\n", 4) if has_failed else whole
            record(f"until fault {words[2:]} with read {nth} failed", found == wanted, f"{found}")
            count += has_failed
        first = len(text[:text.index(b"fault")]) // 20
        record(f"until fault {words[2:]}: reads of both passes failed", count > (2 * first - 2 if words[2] != "-" else first), f"{count}")
        lines = whole[0] + whole[1]
        for nth, found, has_failed in each_failed(library, str(folder), "FAIL_WRITE", "FAIL_FOUND", in_pieces("1")):
            if not has_failed:
                wanted = [whole]
            elif nth <= len(whole[0]):
                wanted = [(whole[0][:nth - 1], b"write fault\n", 4)]
            else:
                wanted = [(whole[0], lines[len(whole[0]):nth - 1], 2)]
            record(f"until fault {words[2:]} with write {nth} failed", found in wanted, f"{found}")


def arguments(record, folder):
    found = run(["replay", "--until-fault", str(folder / "none")])
    record("until fault: no such trace", found == (b"", b"cannot open trace\n", 4), f"{found}")
    found = run(["replay", "--until-fault", str(folder)])
    record("until fault: a folder", found == (b"", b"read fault\n", 4), f"{found}")
    found = run(["replay", "--until-fault=yes", "-"], HEAD)
    record("until fault: it takes no value", found[0] == b"" and found[2] == 2 and found[1].startswith(b"error: unexpected value"), f"{found}")
    # A file of the option's name is a trace.
    (folder / "--until-fault").write_bytes(HEAD + RACE + b"fault\n")
    found = run(["replay", "--", "--until-fault"], cwd=folder)
    record("until fault: a file of that name", found == (b"", b"line 4: missing operand\n", 2), f"{found}")
    for words in (["explain", "--until-fault", "2", "-"], ["demo", "--until-fault", "racy-counter"]):
        found = run(words, HEAD)
        record(f"until fault: {words[0]} has no such option", found[0] == b"" and found[2] == 2 and b"unexpected argument" in found[1], f"{found}")


def tests(record, preloaded):
    with tempfile.TemporaryDirectory() as folder:
        folder = pathlib.Path(folder)
        worked_traces(record, folder)
        notes(record, folder)
        strict(record, folder)
        random_traces(record)
        batches(record)
        refusals(record, preloaded, folder)
        failures(record, preloaded, folder)
        arguments(record, folder)


if __name__ == "__main__":
    run_alone(tests, preloaded)
