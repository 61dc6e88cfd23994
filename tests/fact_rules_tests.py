#!/usr/bin/env python3
"""Rules that take races by what a trace 4 says of the program: the frames and the functions of an access, and the variable that it touched.

`tests/run` calls `tests`. By itself this file runs these tests alone. Each list of rules stands beside one of words that takes the same races of a
trace made by hand. Then all that a replay writes is equal, but for the texts of the rules.

- each row by each analysis, in each form, with explanations, by one worker and by several
- the status of what is left, the rules that took none, the first races alone, rules that are written for what is left, rules in two files
- a trace from standard input or a pipe, a replay with --until-fault, a text: nothing is known, and these rules take none
- many races at one site, each of another variable; calls past the 64 that are kept
- each allocation refused in turn: `out of memory` and nothing written, or the whole answer
"""

import itertools
import pathlib
import re
import sys
import tempfile

sys.dont_write_bytecode = True
import trace4
from alone import each_refused, run_alone
from site_tests import preloaded, run, run_fifo
from trace4_tests import fact

HEAD = "eraser suppressions 2\n"
ANALYSES = ([], ["--analysis", "happens-before"], ["--analysis", "both"])
FORMS = ([], ["--explain"], ["--by-site"], ["--format", "json"], ["--format", "json", "--explain"], ["--format", "sarif"], ["--format", "html"])
WORKERS = ([], ["--workers", "4"])
# Of each place its function, if that is known.
FUNCTIONS = {b"first.c:1": b"first", b"main.c:1": b"main", b"pool.cpp:17": b"work", b"pool.cpp:18": b"Work<int>::go", b"note.c:12": b"note",
             b"other.c:5": b"other", b"free.c:3": b"release"}
# What is accessed by two threads: the word, and by the second thread the place and the calls, innermost first. The first thread is at another place.
ACCESSES = ((0x800, b"note.c:12", b"other.c:9"), (0x1000, b"note.c:12", b"pool.cpp:17", b"main.c:1"),
            (0x1004, b"other.c:5", b"pool.cpp:18", b"main.c:1"), (0x3000, b"bare.c:1"))
VARIABLES = ((0x1000, 8, b"jobs"), (0x2FFE, 4, b"table"))
# Words of which a rule takes nothing.
NONE = "words 0x9000 4"
# Rules, and rules of words that take the same races.
ROWS = (
    ("frame pool.cpp:17", "words 0x1000 4"),
    ("frame main.c:1", "words 0x1000 8"),
    ("frame note.c:12", "words 0x800 0x804"),
    ("frame bare.c:*", "words 0x3000 4"),
    ("frame *", "words 0 0x9000"),
    ("frame first.c:1", NONE),
    ("frame pool.cpp", NONE),
    ("frame work", NONE),
    ("function note", "words 0x800 0x804"),
    ("function main", "words 0x1000 8"),
    ("function Work<*>::go", "words 0x1004 4"),
    ("function release", "words 0x100 4"),
    ("function *", "words 0x100 0xf08"),
    ("function first", NONE),
    ("function bare.c:1", NONE),
    ("variable jobs", "words 0x1000 8"),
    ("variable t*e", "words 0x3000 4"),
    ("variable *", "words 0x1000 0x2004"),
    ("variable jobs+4", NONE),
    ("variable note", NONE),
    ("function note\nframe main.c:1\nvariable jobs\nvariable *", "words 0x800 0x804\nwords 0x1000 8\nwords 0x1000 8\nwords 0x1000 0x2004"),
    # Rules of sites and words come first, wherever they stand.
    ("function other\nwords 0x1000 8", f"{NONE}\nwords 0x1000 8"),
    ("frame *\nsite note.c:12\nsite other.c:5\nwords 0 0x800", f"words 0x3000 4\nsite note.c:12\nsite other.c:5\nwords 0 0x800"),
    ("variable table\nframe bare.c:1\nsite other.c:5", "words 0x3000 4\nwords 0x3000 4\nsite other.c:5"),
)


def trace():
    writer = trace4.Writer()
    for thread in (b"t1", b"t2"):
        for address, *way in (*ACCESSES, (0x100, b"free.c:3", b"free.c:9")):
            node = 0
            for place in reversed(way if thread == b"t2" else [b"first.c:1"]):
                node = writer.node_of(place, node)
            if address == 0x100 and thread == b"t2":
                writer.reuse(thread, address, 4, node)
            else:
                writer.access(thread, True, address, 4, node)
    for place, function in FUNCTIONS.items():
        fact(writer, trace4.FUNCTION, (writer.places[place], 4), function)
    for address, size, name in VARIABLES:
        fact(writer, trace4.VARIABLE, (address, 6), (size, 6), name)
    return writer.finish()


def renamed(text, rules, words):
    """A text that names rules of words, with the others in their place, by their numbers."""
    for number, (rule, word) in enumerate(zip(rules.splitlines(), words.splitlines()), 1):
        verb, *operands = word.split()
        if verb == "words" and rule != word:
            address, size = (int(operand, 0) for operand in operands)
            told = f"words 0x{address:012x} {size}".encode()
            text = text.replace(b"unused suppression %d: %s\n" % (number, told), f"unused suppression {number}: {rule}\n".encode())
            text = sarif_renamed(text, number, told, rule.encode())
    return text


def sarif_renamed(text, number, told, rule):
    """The result of a rule of a number in a SARIF log, with another text."""
    results = re.split(rb'(?=\{"ruleId")', text)
    return b"".join(part.replace(told, rule) if b'"justification":"rule %d"' % number in part else part for part in results)


def each_row(record, folder, path):
    taken = 0
    for rules, words in ROWS:
        first, second = folder / "facts.rules", folder / "words.rules"
        first.write_text(f"{HEAD}{rules}\n")
        second.write_text(f"{HEAD}{words}\n")
        for analysis, form, workers in itertools.product(ANALYSES, FORMS, WORKERS):
            options = ["replay", *analysis, *form, *workers, "--unused-rules"]
            plain, found = (run([*options, "--suppress", chosen, path]) for chosen in (second, first))
            wanted = (renamed(plain[0], rules, words), renamed(plain[1], rules, words), plain[2])
            record(f"{rules!r} {' '.join(options[1:])}", found == wanted and found[2] < 2, f"{found}, {wanted}")
            taken += b"suppressed 0" not in found[0]
    record("rules by facts took some races", taken > 300, f"{taken}")


def options_of_races(record, folder, path):
    """The first races alone, and rules that are written, are of what is left."""
    first, second, more, written = (folder / name for name in ("facts.rules", "words.rules", "more.rules", "written.rules"))
    first.write_text(f"{HEAD}function note\n")
    second.write_text("words 0x800 0x804\n")
    more.write_text(f"{HEAD}variable t*\n")
    for analysis in ANALYSES:
        for options in (["--max-races", "1"], ["--write-rules", written], ["--strict"], ["--max-races", "0", "--write-rules", written]):
            texts = []
            for chosen in (second, first):
                written.unlink(missing_ok=True)
                found = run(["replay", *analysis, *options, "--suppress", chosen, path])
                texts.append((found, written.read_bytes() if written.exists() else None))
            record(f"facts, {' '.join(map(str, [*analysis, *options]))}", texts[0] == texts[1] and texts[0][0][2] == 1, f"{texts}")
        found = run(["replay", *analysis, "--suppress", first, "--suppress", more, "--suppress", written, path])
        record(f"facts and rules that were written {' '.join(analysis)}", found[2] == 0 and b"suppression 1: 2\nsuppression 2: 0\n" in found[0], f"{found}")


def where_nothing_is_known(record, folder, path, data):
    rules = folder / "all.rules"
    rules.write_text(f"{HEAD}frame *\nfunction *\nvariable *\n")
    notes = b"".join(b"unused suppression %d: %s *\n" % (place, kind) for place, kind in enumerate((b"frame", b"function", b"variable"), 1))
    text = folder / "text.trace"
    text.write_bytes(trace4.Trace(data).text())
    for analysis, form, workers in itertools.product(ANALYSES, FORMS, WORKERS):
        options = ["replay", *analysis, *form, *workers, "--suppress", rules, "--unused-rules"]
        for name, found in (("standard input", run([*options, "-"], data)), ("a pipe", run_fifo(data, *map(str, options[1:]))),
                            ("a text", run([*options, text])), ("a trace until its fault", run([*options, "--until-fault", path]))):
            is_right = found[2] == 1 and notes in found[1]
            record(f"facts of {name} {' '.join(map(str, options[1:-3]))}", is_right, f"{found}")


def many_races(record, folder):
    """Races at one site, each of another variable and by another way: each is judged by its own. The outermost of 65 calls isn't kept."""
    rules, path, writer = folder / "odd.rules", folder / "many.trace", trace4.Writer()
    count = 3000
    for thread in (b"t1", b"t2"):
        for k in range(count):
            writer.access(thread, True, 0x1000 + 8 * k, 4, writer.node_of(b"one.c:1", writer.node_of(b"call.c:%d" % (k % 7))))
    for k in range(count):
        fact(writer, trace4.VARIABLE, (0x1000 + 8 * k, 6), (4, 6), b"v%d" % k)
    path.write_bytes(writer.finish())
    for rule, taken in (("frame call.c:3", len(range(3, count, 7))), ("variable v*7", len(range(7, count, 10))), ("frame one.c:1", count)):
        rules.write_text(f"{HEAD}{rule}\n")
        for workers in WORKERS:
            found = run(["replay", *workers, "--suppress", rules, path])
            wanted = f"suppression 1: {taken}\nsteps {2 * count}, races {count - taken}, suppressed {taken}, refused 0\n".encode()
            record(f"{rule} {' '.join(workers)}", found[0].endswith(wanted) and found[0].count(b": race: ") == count - taken, f"{found[0][-200:]}, {wanted}")
    writer, node = trace4.Writer(), 0
    for k in range(70):
        node = writer.node_of(b"deep.c:%d" % k, node)
    for thread in (b"t1", b"t2"):
        writer.access(thread, True, 0x1000, 4, node)
    path.write_bytes(writer.finish())
    for place, taken in ((69, 1), (5, 1), (4, 0)):
        rules.write_text(f"{HEAD}frame deep.c:{place}\n")
        found = run(["replay", "--suppress", rules, path])
        record(f"call {69 - place} of 69", found[2] == 1 - taken and b"suppression 1: %d\n" % taken in found[0], f"{found}")


def refusals(record, folder, path, preloaded):
    library, rules = preloaded(folder, "refuse"), folder / "refused.rules"
    rules.write_text(f"{HEAD}function note\nvariable t*\nframe none.c:1\n")
    for analysis in (ANALYSES[1], ANALYSES[2]):
        words = ["replay", *analysis, "--suppress", rules, "--unused-rules", path]
        whole, told = run(words), 0
        for nth, found, was_refused in each_refused(library, folder, lambda env: run(words, env=env)):
            if not was_refused:
                record(f"facts {' '.join(analysis)} with all allocations", found == whole and 2 * told > nth, f"{found}, {told} of {nth}")
                break
            # The first look at a binary trace calls memory that is refused to it a read fault.
            is_told = found in ((b"", b"out of memory\n", 3), (b"", b"read fault\n", 4))
            told += is_told
            record(f"facts {' '.join(analysis)} without allocation {nth}", is_told or (found[0], found[2]) == (whole[0], whole[2]), f"{found}")


def tests(record, preloaded):
    with tempfile.TemporaryDirectory() as name:
        folder, data = pathlib.Path(name), trace()
        path = folder / "facts.trace"
        path.write_bytes(data)
        each_row(record, folder, path)
        options_of_races(record, folder, path)
        where_nothing_is_known(record, folder, path, data)
        many_races(record, folder)
        refusals(record, folder, path, preloaded)


if __name__ == "__main__":
    run_alone(tests, preloaded)
