#!/usr/bin/env python3
"""Rules of several files, rules that are written, rules that took nothing, and the first races alone.

`tests/run` calls `tests`. By itself this file runs these tests alone. What is wanted is made of the report without these options, which
the other tests compare with tests/reference.py.

- rules in several files are those of one file with all lines; a fault names the file by its number
- --write-rules: the report stays as it is, the file has the rules that this file makes of the report, and used with the earlier rules it
  leaves no race; a rule for a header of the system has a comment; there is no file behind a fault or a stop
- --unused-rules: a line for each rule of which the report says 0
- --max-races: the first races have lines, and the others are counted; the same in JSON and SARIF
- each of these by each analysis: both reports have one list of rules, and each has its own first races
- more races at one site, and more sites, than 16 bits number
- each allocation refused in turn: `out of memory` and no file of rules, or a stop, or the whole answer
"""

import json
import pathlib
import re
import subprocess
import sys
import tempfile

sys.dont_write_bytecode = True
import cases
import order_tests
import reference
from alone import each_refused, program, run_alone
from site_tests import HEADERS, SYSTEM, preloaded

TOP = pathlib.Path(__file__).resolve().parent.parent
PROGRAM = program("eraser")
RANDOM_TRACES = 300
RANDOM_LISTS = 100
ANALYSES = ([], ["--analysis", "happens-before"], ["--analysis", "both"])
# More than 16 bits number.
MANY = 65_600
# Sites that look like something else where they are written and read again: comments, rules, a name without its end. Each has a race.
ODD_SITES = ("#a.c:1", "#", "##", "site", "words", "--", "-1", "0x1000", "words,0x1000,4", "a.c:1,", "!", "~", "'\"`", "\\n", "%20", "<b>", "{}", "/usr/include/#", "/usr/lib/~", "x" * 128, "/usr/include/" + "y" * 115)
ODD_NAMES = "".join(f"t{k} write 0x{k}000 {site}\nt{k}: write 0x{k}000 {site}\n" for k, site in enumerate(ODD_SITES))
RACE = re.compile(r"line (\d+): (?:race|unordered): (\S+) (read|write) (0x[0-9a-f]{12}) at (\S+), holds .*")
REUSE = re.compile(r"line (\d+): unordered: (\S+) (reuse) (0x[0-9a-f]{12}) (\d+)(?: at (\S+))?")
HEAD = "# Known races, written by eraser replay --write-rules\n"


def run(words, text=b"", **more):
    done = subprocess.run([str(PROGRAM), *map(str, words)], input=text, capture_output=True, timeout=120, **more)
    return done.stdout, done.stderr, done.returncode


def races_in(report):
    """The races of a report's text, of both reports if it has two: of each its line, what it did, its site, and its first and last byte."""
    for line in report.decode().splitlines():
        race, reuse = RACE.fullmatch(line), REUSE.fullmatch(line)
        if race:
            number, thread, kind, address, site = race.groups()
            yield number, f"{thread} {kind} {address}", site, int(address, 16), int(address, 16) + 3
        elif reuse:
            number, thread, kind, address, size, site = reuse.groups()
            yield number, f"{thread} {kind} {address} {size}", site, int(address, 16), int(address, 16) + int(size) - 1


def rule_for(race):
    """The rule that is written for a race: by its site if it has one, and else by words."""
    _, _, site, first, last = race
    return ("-", first, last) if site in ("-", None) else (site, None, None)


def takes(rule, race):
    """Whether a written rule takes a race: one of words has all of its words."""
    name, first, last = rule
    return name == race[2] if first is None else first <= race[3] and race[4] <= last


def rule_text(rule):
    name, first, last = rule
    return f"site {name}" if first is None else f"words 0x{first:012x} {last - first + 1}"


def known_races(report):
    """The rules file that a report asks for, or two reports, one behind the other."""
    rules = []
    for race in races_in(report):
        taker = next((known for known in rules if takes(known[0], race)), None)
        if taker:
            taker[1] += 1
        else:
            rules.append([rule_for(race), 1, race])
    told = (f"# races {count}, first: line {race[0]}, {race[1]}\n{hidden(rule[0])}{rule_text(rule)}\n" for rule, count, race in rules)
    return (HEAD + "".join(told)).encode()


def hidden(site):
    """What a rule by this site is said to hide."""
    return f"# {site} is a line of a system header: this rule hides the races of every part of the program that uses it\n" if site.startswith(SYSTEM) else ""


def totals(report):
    """The counts of the totals of each report."""
    return [[int(number) for number in re.findall(rb"\d+", line)] for line in report.splitlines() if line.startswith(b"steps ")]


def counts_in(report):
    """How many races each rule took, in all reports."""
    counts = {}
    for number, count in re.findall(rb"suppression (\d+): (\d+)", report):
        counts[int(number)] = counts.get(int(number), 0) + int(count)
    return [counts[number] for number in sorted(counts)]


def notes_behind(text, report):
    """The notes behind the reports of a text that none asked for."""
    unordered = re.search(rb"^steps \d+, unordered (\d+)", report, re.M)
    return (reference.note_of(text) + reference.order_note_of(text, int(unordered[1]) if unordered else 0)).encode()


def reports_in(text):
    """The reports of a text, each with its totals as the last line."""
    return re.findall(rb".*?^steps [^\n]*\n", text, re.M | re.S)


def first_of(text, most):
    """The text with the lines of the first races of each report, and how many races it leaves out."""
    kept, left = [], 0
    for report in reports_in(text):
        seen, is_kept = 0, True
        for line in report.splitlines(keepends=True):
            if b": race: " in line or b": unordered: " in line:
                seen, is_kept = seen + 1, seen < most
            elif not line.startswith(b"  "):
                is_kept = True
            kept += [line] if is_kept else []
        left += max(0, seen - most)
    return b"".join(kept), left


def texts():
    """Names, traces and rules, of which none has a fault, with options."""
    yield "sites in headers of the system", HEADERS, b"", []
    yield "sites that look like something else", f"eraser trace 3\n{ODD_NAMES}end\n".encode(), b"", []
    for trace in sorted((TOP / "examples").glob("*.trace")):
        rules, options = trace.with_suffix(".rules"), trace.with_suffix(".options")
        given = options.read_text().split() if options.exists() else []
        # What is compared is the report by locks, a line for each race.
        yield trace.stem, trace.read_bytes(), rules.read_bytes() if rules.exists() else b"", given if given == ["--explain"] else []
    for seed in range(RANDOM_TRACES):
        text, rules = reference.random_trace(seed), reference.random_rules(seed)
        if reference.replay(text, rules)[2] < 2:
            yield f"random trace {seed}", text, rules, []
    for seed in range(RANDOM_LISTS):
        yield f"random list {seed}", order_tests.random_list(seed), b"words 0 4\n" if seed % 3 == 0 else b"", []
    yield "rules that take what comes behind them", OVERLAPPING, b"", []


# Of both analyses a race at no site, a reuse that has its word and others, and accesses at no site that the reuse's rule takes.
OVERLAPPING = b"""eraser trace 3
t1 write 0x1000
t1 write 0x1004
t1 write 0x1008
t2 write 0x1004
t2 reuse 0x1000 12
t1 write 0x1008
t2 write 0x1008
t1 write 0x1000 a.c:1
t2 write 0x1000 a.c:2
t3 reuse 0x1000 4
t3 reuse 0x1008 4
end
"""


def written_rules(record, folder):
    first, second = folder / "first.rules", folder / "second.rules"
    races = {"race": 0, "unordered": 0, "reuse": 0, "both": 0}
    for name, text, rules, options in texts():
        first.write_bytes(rules)
        for analysis in ANALYSES:
            second.unlink(missing_ok=True)
            before = run(["replay", *options, *analysis, "--suppress", first, "-"], text)
            title, wanted = f"{name} {' '.join(analysis)}", known_races(before[0])
            for more in ([], ["--workers", "3"], ["--by-site"]):
                plain = run(["replay", *options, *analysis, *more, "--suppress", first, "-"], text)
                found = run(["replay", *options, *analysis, *more, "--suppress", first, "--write-rules", second, "-"], text)
                record(f"{title} {more}: the report beside written rules", found == plain, f"{found}")
                record(f"{title} {more}: written rules", second.exists() and second.read_bytes() == wanted, f"{second.exists() and second.read_bytes()}, not {wanted}")
            if not second.exists():
                continue
            output, errors, status = run(["replay", *options, *analysis, "--suppress", first, "--suppress", second, "-"], text)
            left = [[steps, 0, suppressed + raced, *others] for steps, raced, suppressed, *others in totals(before[0])]
            is_quiet = (errors, status) == (notes_behind(text, output), 0) and totals(output) == left
            record(f"{title}: written rules leave no race", is_quiet, f"{output}")
            counts, told = counts_in(output)[rules_in(rules):], [int(count) for count in re.findall(rb"# races (\d+)", second.read_bytes())]
            record(f"{title}: written rules take what they say", counts == told, f"{counts}, {told}")
            for kind in ("race", "unordered"):
                races[kind] += before[0].count(f": {kind}: ".encode())
            races["reuse"] += wanted.count(b" reuse ")
            races["both"] += "both" in analysis and any(int(count) > 1 for count in told)
    record("rules were written for some races of each kind, and some take races of both reports", min(races.values()) > 50, f"{races}")
    wanted = known_races(run(["replay", "-"], HEADERS)[0])
    record("rules of headers of the system say what they hide", wanted.count(b" is a line of a system header: ") == 2, f"{wanted}")


def rules_in(text):
    return len(reference.rules_of(text))


def several_files(record, folder):
    one, parts = folder / "one.rules", [folder / f"part{n}.rules" for n in range(3)]
    for name, text, rules, options in texts():
        lines = re.findall(rb"[^\n]*\n|[^\n]+", rules)
        # Each file has the header of the second edition, if the whole has it.
        headers = [line for line in lines if line.split()[:1] == [b"eraser"]]
        lines = [line for line in lines if line not in headers]
        cuts = [len(lines) // 3, 2 * len(lines) // 3]
        for part, some in zip(parts, (lines[:cuts[0]], lines[cuts[0]:cuts[1]], lines[cuts[1]:])):
            part.write_bytes(b"\n".join([*headers, b"".join(some)]))
        one.write_bytes(rules)
        words = [word for part in parts for word in ("--suppress", part)]
        whole = run(["replay", *options, "--suppress", one, "-"], text)
        found = run(["replay", *options, *words, "-"], text)
        record(f"{name}: rules in three files", found == whole, f"{found}, {whole}")
    good, bad = folder / "good.rules", folder / "bad.rules"
    good.write_bytes(b"site a.c:1\n")
    bad.write_bytes(b"# no rule\nsites a.c:1\n")
    trace = b"eraser trace 1\n"
    for words, errors, status in (
        ([bad], b"suppressions line 2: bad verb\n", 2),
        ([bad, good], b"suppressions file 1 line 2: bad verb\n", 2),
        ([good, bad], b"suppressions file 2 line 2: bad verb\n", 2),
        ([good, "/nonexistent", bad], b"cannot open suppressions file 2\n", 4),
        (["/nonexistent"], b"cannot open suppressions\n", 4),
        ([good, TOP], b"read fault in suppressions file 2\n", 4),
        ([TOP], b"read fault\n", 4),
    ):
        options = [word for path in words for word in ("--suppress", path)]
        found = run(["replay", *options, "-"], trace)
        record(f"files of rules {[pathlib.Path(word).name for word in words]}", found == (b"", errors, status), f"{found}")


TWO_RACES = cases.text_of("t1 write 0x1000 a.c:1; t2 write 0x1000 a.c:1; t1 write 0x2000; t2 read 0x2000; t2 write 0x2000")


def unwritten_rules(record, folder):
    path, kept = folder / "kept.rules", b"site kept.c:1\n"
    path.write_bytes(kept)
    for name, words, text in (
        ("a fault of the text", [], b"eraser trace 1\nt1 hop\n"),
        ("a trace that is not there", ["/nonexistent"], b""),
        ("suppressions that are not there", ["--suppress", "/nonexistent", "-"], TWO_RACES),
        ("a fault of the suppressions", ["--suppress", TOP / "README.md", "-"], TWO_RACES),
        ("damage", ["--strict", "-"], TWO_RACES + b"t1 unlock m\n"),
        ("damage by both analyses", ["--strict", "--analysis", "both", "-"], TWO_RACES + b"t1 unlock m\n"),
        ("damage before a fault", ["--strict", "--until-fault", "-"], TWO_RACES + b"t1 unlock m\nt1 hop\n"),
        ("a fault of the header", ["--until-fault", "-"], b"t1 hop\n"),
    ):
        found = run(["replay", "--write-rules", path, *(words or ["-"])], text)
        record(f"no rules are written behind {name}", found[2] > 1 and found[1] and path.read_bytes() == kept, f"{found}")
    whole = run(["replay", "-"], TWO_RACES)
    with open("/dev/full", "wb") as full:
        done = subprocess.run([str(PROGRAM), "replay", "--write-rules", str(path), "-"], input=TWO_RACES, stdout=full, stderr=subprocess.PIPE, timeout=60)
        record("no rules are written behind a write fault", (done.stderr, done.returncode, path.read_bytes()) == (b"write fault\n", 4, kept), f"{done}")
    for place in ("/dev/full", "/nonexistent/known.rules", TOP):
        found = run(["replay", "--write-rules", place, "-"], TWO_RACES)
        record(f"rules that can't be written to {pathlib.Path(place).name}", found == (whole[0], b"cannot write rules\n", 4), f"{found}")
    for words in (["--suppress", path], ["--suppress", "/dev/null", "--suppress", path]):
        output, errors, status = run(["replay", *words, "--write-rules", path, "-"], TWO_RACES)
        record(f"rules do not replace a file of {len(words) // 2}", (output, status) == (b"", 2) and errors.startswith(b"error: --write-rules would replace") and path.read_bytes() == kept, f"{errors}")
    output, errors, status = run(["replay", "--write-rules", "/dev/stdout", "-"], cases.text_of("t1 write 0x1000"))
    record("rules of no race", (errors, status) == (b"", 0) and output.endswith(HEAD.encode()), f"{output}")


def unused_rules(record, folder):
    path, unused = folder / "some.rules", 0
    for name, text, rules, options in texts():
        path.write_bytes(rules)
        for analysis in ANALYSES:
            plain = run(["replay", *options, *analysis, "--suppress", path, "-"], text)
            found = run(["replay", *options, *analysis, "--suppress", path, "--unused-rules", "-"], text)
            numbers = [place for place, count in enumerate(counts_in(plain[0]), 1) if count == 0]
            told = [int(number) for number in re.findall(rb"unused suppression (\d+): (?:(?:site|frame|function|variable) \S+|words 0x[0-9a-f]{12} \d+|words 0 0)\n", found[1])]
            notes = notes_behind(text, plain[0])
            is_right = (found[0], found[2]) == (plain[0], plain[2]) and told == numbers and found[1].endswith(notes) and found[1].count(b"\n") == len(numbers) + notes.count(b"\n")
            record(f"{name} {' '.join(analysis)}: unused rules", is_right, f"{found}, {numbers}")
            unused += len(numbers)
    record("some rules were unused", unused > 300, f"{unused}")
    path.write_bytes(b"site a.c:1\nsite -\n# none\n words  4096 0x10 \nwords 0x7 1\nwords 12 0\n")
    found = run(["replay", "--suppress", path, "--unused-rules", "-"], b"eraser trace 1\n")[1]
    wanted = b"1: site a.c:1|2: site -|3: words 0x000000001000 16|4: words 0x000000000004 4|5: words 0 0"
    record("unused rules as they are written", found == b"".join(b"unused suppression " + line + b"\n" for line in wanted.split(b"|")), f"{found}")
    # By locks the first rule takes a race, by happens-before the second, and the third takes none.
    path.write_bytes(b"site locks.c:2\nsite order.c:2\nsite none.c:1\n")
    text = b"eraser trace 3\nt1 write 0 locks.c:1\nt1 signal q\nt2 await q\nt2 write 0 locks.c:2\nt1 write 4 order.c:1\nt2 lock m\nt2 write 4 order.c:2\nt2 unlock m\nend\n"
    for analysis, numbers in zip(ANALYSES, ((2, 3), (1, 3), (3,))):
        found = run(["replay", *analysis, "--suppress", path, "--unused-rules", "-"], text)
        told = tuple(int(number) for number in re.findall(rb"unused suppression (\d+): ", found[1]))
        record(f"rules that one report alone uses {' '.join(analysis)}", told == numbers and found[2] == 0, f"{found}")


def first_races(record, folder):
    for name, text, _, options in texts():
        for analysis in ANALYSES:
            for explained in ([], ["--explain"]) if not options else ([],):
                words = ["replay", *options, *explained, *analysis]
                whole = run([*words, "-"], text)
                races = max((sum(1 for line in report.splitlines() if b": race: " in line or b": unordered: " in line) for report in reports_in(whole[0])), default=0)
                for most in {0, 1, races // 2, races, races + 1}:
                    kept, left = first_of(whole[0], most)
                    errors = (f"races left out: {left}\n" if left else "").encode() + notes_behind(text, whole[0])
                    found = run([*words, "--max-races", most, "-"], text)
                    record(f"{name} {' '.join(analysis)} {explained}: the first {most} races", found == (kept, errors, whole[2]), f"{found}, not {kept}, {errors}")


def many_races(record, folder):
    """As many races at one site, and then as many more at a site each: rules that count and take them all, and reports of the first of them."""
    path, sites = folder / "many.rules", ["one.c:1"] * MANY + [f"each.c:{k}" for k in range(MANY)]
    text = "eraser trace 1\n" + "".join(f"{thread} write {4 * k} {site}\n" for k, site in enumerate(sites) for thread in ("t1", "t2"))
    places = [(2 * k + 3, f"t2 write 0x{4 * k:012x}") for k in range(len(sites))]
    known = HEAD
    for k in (0, *range(MANY, 2 * MANY)):
        line, access = places[k]
        known += f"# races {1 if k else MANY}, first: line {line}, {access}\nsite {sites[k]}\n"

    def report(kind, what, most):
        lines = [f"line {line}: {kind}: {access} at {site}, holds none\n" for (line, access), site in zip(places[:most], sites)]
        return ("".join(lines) + f"steps {4 * MANY}, {what} {2 * MANY}, suppressed 0, refused 0\n").encode()

    for analysis, kind, what in (("lockset", "race", "races"), ("happens-before", "unordered", "unordered")):
        path.unlink(missing_ok=True)
        found = run(["replay", "--analysis", analysis, "--write-rules", path, "-"], text.encode())
        record(f"many races by {analysis}", found == (report(kind, what, None), b"", 1), f"{found}"[:1000])
        written = path.read_bytes() if path.exists() else None
        record(f"rules of many races by {analysis}", written == known.encode(), f"{written}"[:1000])
    path.write_text(known)
    found = run(["replay", "--suppress", path, "-"], text.encode())
    counts = "".join(f"suppression {number}: {1 if number > 1 else MANY}\n" for number in range(1, MANY + 2))
    wanted = f"{counts}steps {4 * MANY}, races 0, suppressed {2 * MANY}, refused 0\n".encode()
    record("rules of many races take them all", found == (wanted, b"", 0), f"{found}"[:1000])
    for most in (1025, MANY, 2 * MANY - 1):
        found = run(["replay", "--max-races", most, "-"], text.encode())
        record(f"the first {most} of many races", found == (report("race", "races", most), f"races left out: {2 * MANY - most}\n".encode(), 1), f"{found}"[:1000])


def counted(form, text):
    """How many races each JSON document, or the results of each run of a SARIF log, have."""
    parts = json.loads(text)
    parts = parts["runs"] if form == "sarif" else parts if isinstance(parts, list) else [parts]
    return [len(part["races"]) if form == "json" else sum(result["occurrenceCount"] for result in part["results"]) for part in parts]


def together(record, folder):
    path, rules = folder / "all.rules", folder / "used.rules"
    rules.write_bytes(b"site b.c:1\n")
    for analysis in ANALYSES:
        words = ["replay", *analysis, "--suppress", rules, "--unused-rules", "--max-races", "1", "--write-rules", path, "-"]
        plain, reports, name = run(["replay", *analysis, "-"], TWO_RACES), 2 if "both" in analysis else 1, f"all at once {' '.join(analysis)}"
        notes = f"unused suppression 1: site b.c:1\nraces left out: {reports}\n".encode()
        output, errors, status = run(words, TWO_RACES)
        record(name, (errors, status) == (notes, 1) and output.count(b": race: ") + output.count(b": unordered: ") == reports, f"{output}, {errors}")
        record(f"{name}: rules take the races without a line too", path.read_bytes() == known_races(plain[0]), f"{path.read_bytes()}")
        output, errors, status = run(["replay", *analysis, "--by-site", "--max-races", "1", "-"], TWO_RACES)
        record(f"{name}: --max-races with --by-site", (output, status) == (b"", 2) and errors.startswith(b"error: the argument '"), f"{errors}")
        for form in ("json", "sarif"):
            everything = run(["replay", *analysis, "--format", form, "-"], TWO_RACES)
            path.unlink()
            found = run(["replay", "--format", form, *words[1:]], TWO_RACES)
            is_right = found[1:] == (notes, 1) and counted(form, found[0]) == [1] * reports
            record(f"{name} as {form}", is_right and counted(form, everything[0]) == [2] * reports, f"{found}")
            record(f"{name}: rules take all races if the report is {form}", path.read_bytes() == known_races(plain[0]), f"{path.read_bytes()}")
    for value in ("-1", "x", ""):
        found = run(["replay", f"--max-races={value}", "-"], TWO_RACES)
        record(f"--max-races {value}", (found[0], found[2]) == (b"", 2), f"{found}")


def refusals(record, folder, preloaded):
    """Each allocation refused in turn: `out of memory` with nothing written, or a stop, or the whole answer, which may lack the note on the trace."""
    library, rules, path = preloaded(folder, "refuse"), folder / "refused.rules", folder / "written.rules"
    rules.write_bytes(b"site b.c:1\nwords 0x9000 8\n")
    for analysis in (ANALYSES[0], ANALYSES[2]):
        words = ["replay", *analysis, "--suppress", rules, "--suppress", rules, "--unused-rules", "--max-races", "1", "--write-rules", path, "-"]
        whole, told, stops, name = run(words, OVERLAPPING), 0, 0, f"triage {' '.join(analysis)}"
        written = path.read_bytes()
        bare = whole[0], b"".join(line for line in whole[1].splitlines(True) if not line.startswith(b"note: ")), whole[2]

        def run_again(env):
            path.write_bytes(b"")
            return run(words, OVERLAPPING, env=env)

        for nth, found, was_refused in each_refused(library, folder, run_again):
            if not was_refused:
                # A replay by locks alone stops where memory for its words is refused.
                is_right = found == whole and path.read_bytes() == written and 2 * told > nth and (stops > 0 or analysis != ANALYSES[0])
                record(f"{name} with all allocations", is_right, f"{found}, {told} of {nth}, of which {stops} stopped")
                break
            is_stopped = found[2] == 3 and b": stopped: out of memory\n" in found[0]
            is_told = is_stopped or found == (b"", b"out of memory\n", 3)
            told, stops = told + is_told, stops + is_stopped
            is_right = path.read_bytes() == b"" if is_told else found in (whole, bare) and path.read_bytes() == written
            record(f"{name} without allocation {nth}", is_right, f"{found}")


def tests(record, preloaded):
    with tempfile.TemporaryDirectory() as name:
        folder = pathlib.Path(name)
        several_files(record, folder)
        written_rules(record, folder)
        unwritten_rules(record, folder)
        unused_rules(record, folder)
        first_races(record, folder)
        many_races(record, folder)
        together(record, folder)
        refusals(record, folder, preloaded)


if __name__ == "__main__":
    run_alone(tests, preloaded)
