#!/usr/bin/env python3
"""`eraser replay --analysis happens-before` and `both`, beside a second reading: happens-before by chains of steps, without clocks.

- worked traces give the reports of tests/analysis/*.txt, with reasons and without, by path, by standard input and with several workers
- the lists of tests/order/worked.txt, and as traces 4 those of tests/order/bytes.txt, give a line for each race and for each refused step, and no other
- random traces give what tests/order_reference.py and tests/reference.py say of them, with suppressions and without: traces of all three
  texts, a quarter of them damaged, and lists of text 3 in which every sort of order stands
- `both` writes the report of the one analysis, and then that of the other; with `--by-site` the sites of both under two headings, and by
  happens-before alone those of the run
- `--analysis lockset` writes what stands without it
- `--write-rules`, `--unused-rules` and `--max-races` with happens-before: the rules take all unordered accesses, and so on
- the two reports of one text under rules are those of the two analyses, with the same counts of rules in each
- each allocation refused in turn, each read and each write failed in turn
- steps, a fault and unordered accesses on both sides of the ends of batches
- an analysis that there is not is refused; forms and other options by each analysis: tests/forms_tests.py
"""

import collections
import os
import pathlib
import re
import subprocess
import sys
import tempfile

sys.path.insert(0, str(pathlib.Path(__file__).parent))
sys.dont_write_bytecode = True
import order_reference
import order_tests
import reference
import trace4
from alone import each_failed, each_refused, program, run_alone
from site_tests import by_site_of_both, by_site_of_order, places_in, preloaded, run_file

TOP = pathlib.Path(__file__).resolve().parent.parent
PROGRAM = program("eraser")
CASES = TOP / "tests/analysis"
RANDOM_TRACES = 400
RANDOM_LISTS = 700
SITE_TRACES = 100
BATCH = 1024
HAPPENS_BEFORE, BOTH = ["--analysis", "happens-before"], ["--analysis", "both"]
WITH_AND_WITHOUT = (HAPPENS_BEFORE, [*HAPPENS_BEFORE, "--explain"], BOTH, [*BOTH, "--explain"])


def run(words, text=b"", **more):
    done = subprocess.run([str(PROGRAM), "replay", *words], input=text, capture_output=True, timeout=120, **more)
    return done.stdout, done.stderr, done.returncode


def run_with(rules, text, *options):
    """A replay of a text from standard input, by these suppressions if there are some."""
    if rules is None:
        return run([*options, "-"], text)
    with tempfile.NamedTemporaryFile() as file:
        file.write(rules)
        file.flush()
        return run([*options, "--suppress", file.name, "-"], text)


# ---- A second reading ----


class Noting(reference.Replay):
    """A replay that also notes the locks that the thread of each counted access holds, by the access's line."""

    def __init__(self):
        super().__init__([])
        self.holds = {}

    def access(self, line, thread, verb, operands):
        self.holds[line] = self.names(self.cover(thread, b"read"))
        super().access(line, thread, verb, operands)


def takes_race(rule, race):
    """Whether a rule takes a race: that of a reuse if it is of its site, or of words and has them all."""
    step = race.marked.step
    if step.verb != "reuse":
        return reference.takes(rule, step.site.encode(), step.words.start)
    if isinstance(rule, bytes):
        return rule == step.site.encode() != b"-"
    if isinstance(rule, (reference.Pattern, reference.FactPattern)):
        return rule.takes(step.site.encode())
    return rule[0] <= race.words[0] and race.words[-1] <= rule[1]


def taker_of(rules, race):
    """The first rule that takes the race, counted from 0."""
    return next((k for k, rule in enumerate(rules) if takes_race(rule, race)), None)


def told_of(race, holds):
    """The line of a race."""
    step, address = race.marked.step, f"0x{race.words.start * 4:012x}"
    if step.verb == "reuse":
        return f"line {step.line}: unordered: {step.thread} reuse {address} {4 * len(race.words)}" + (f" at {step.site}" if step.site != "-" else "")
    return f"line {step.line}: unordered: {step.thread} {step.verb} {address} at {step.site}, holds {holds[step.line]}"


def unordered_report(text, rules, explain=False, touched={}):
    """The report of a text that has no fault, with reasons or without. These lines touch parts of their words, as a trace 4 says, and others touch whole words."""
    noting = Noting()
    for line, (thread, verb, operands) in reference.events_of(text):
        noting.step(line, thread, verb, operands)
    lines = [(int(line.split(":")[0].removeprefix("line ")), line) for line in noting.lines if re.match(r"line \d+: refused: ", line)]
    taken, races = [0] * len(rules), 0
    marked = order_reference.mark(order_reference.touch(order_reference.read(text), touched))
    for race in order_reference.races(marked):
        taker = taker_of(rules, race)
        if taker is not None:
            taken[taker] += 1
            continue
        races += 1
        other = marked[race.earlier].step
        lines.append((race.marked.step.line, told_of(race, noting.holds) + f"\n  unordered with: line {other.line}, {other.thread} {other.verb}" * explain))
    found = [line for _, line in sorted(lines, key=lambda pair: pair[0])]
    found += [f"suppression {number}: {count}" for number, count in enumerate(taken, 1)]
    found.append(f"steps {noting.steps}, unordered {races}, suppressed {sum(taken)}, refused {noting.refused}{reference.lost_part(text)}")
    return "".join(line + "\n" for line in found), 1 if races else 0


def order_note(text, report):
    """The note on a trace that records no order, behind the text of this report by happens-before."""
    return reference.order_note_of(text, int(re.search(r"^steps \d+, unordered (\d+)", report, re.M)[1]))


def expected(text, rules, analysis, explain=False, touched={}):
    """What a replay by this analysis writes to both streams, with reasons or without, and its status, if these lines touch parts of their words."""
    output, errors, status = reference.replay(text, rules or b"", explain)
    if status == 2:
        return output.encode(), errors.encode(), status
    unordered, unordered_status = unordered_report(text, reference.rules_of(rules or b""), explain, touched)
    errors += order_note(text, unordered)
    if analysis == "happens-before":
        return unordered.encode(), errors.encode(), unordered_status
    return (output + unordered).encode(), errors.encode(), max(status, unordered_status)


# ---- Worked traces ----


def worked(record):
    """Each case is a trace, the report by happens-before below `->`, and what the lockset rule reports below `and by locks ->`."""
    names = []
    for path in sorted(CASES.glob("*.txt")):
        for case in path.read_text().split("\n== ")[1:]:
            name, _, body = case.partition("\n")
            trace, ordered = body.split("\n->\n")
            ordered, by_locks = ordered.split("and by locks ->\n")
            text, rest = trace.strip().encode() + b"\n", by_locks.split("\n\n")[0].strip() + "\n"
            names.append(name)
            status, plain = 1 if ": unordered: " in ordered else 0, re.sub("  unordered with: .*\n", "", ordered)
            by_locks, either = reference.replay(text, explain=True)[0], 1 if ": race: " in rest else status
            wanted = [(analysis, want.encode(), status) for analysis, want in ((HAPPENS_BEFORE, plain), ([*HAPPENS_BEFORE, "--explain"], ordered))]
            wanted += [(analysis, want.encode(), either) for analysis, want in ((BOTH, rest + plain), ([*BOTH, "--explain"], by_locks + ordered))]
            errors = (reference.note_of(text) + order_note(text, ordered)).encode()
            with tempfile.NamedTemporaryFile() as file:
                file.write(text)
                file.flush()
                for options in ([], ["--workers", "2"], ["--workers", "7", "--shards", "3"]):
                    for analysis, want, status in wanted:
                        by_path, by_input = run([*analysis, *options, file.name]), run([*analysis, *options, "-"], text)
                        record(f"{analysis[1:]}: {name} {options}", by_path == by_input == (want, errors, status), f"{by_path}, {by_input}")
    record("analyses: worked traces are found", len(names) >= 10, f"{names}")


def worked_lists(record):
    """Of each list the lines of its races and refused steps, and the counts."""
    kinds = collections.Counter()
    for name, text, touched, answers in order_tests.worked_lists():
        told = {"race": "unordered", "refused": "refused"}
        lines = [(str(line), told[answer]) for line, answer in enumerate(answers, 2) if answer in told]
        races, refused = answers.count("race"), answers.count("refused")
        counts = f"steps {len(answers)}, unordered {races}, suppressed 0, refused {refused}"
        output, errors, status = run([*HAPPENS_BEFORE, "-"], trace4.encode_touching(text, touched) if touched else text)
        *found, last = output.decode().splitlines() or [""]
        heads = [tuple(re.match(r"line (\d+): (\w+): ", line).groups()) for line in found]
        is_right = (heads, last, errors.decode(), status) == (lines, counts, reference.order_note_of(text, races), 1 if races else 0)
        record(f"happens-before: list {name}", is_right, f"{output}, {errors}, {status}")
        kinds[bool(touched)] += 1
    record("analyses: worked lists are found", kinds[False] >= 20 and kinds[True] >= 8, f"{kinds}")


# ---- Random traces ----


def random_traces(record):
    texts = [(f"random trace {seed}", reference.random_trace(seed), rules) for seed in range(RANDOM_TRACES) for rules in (None, reference.random_rules(seed))]
    texts += [(f"random list {seed}", order_tests.random_list(seed), None) for seed in range(RANDOM_LISTS)]
    texts.append(("all words of some blocks", reference.dense_trace(), None))
    racy = 0
    for at, (name, text, rules) in enumerate(texts):
        for analysis in (HAPPENS_BEFORE, BOTH):
            crew = ([], ["--workers", "2"], ["--workers", "7"])[at % 3]
            for more in ([], ["--explain"]):
                want, found = expected(text, rules, analysis[1], bool(more)), run_with(rules, text, *analysis, *more, *crew)
                record(f"{analysis[1]}: {name}{'' if rules is None else ' with suppressions'} {[*more, *crew]}", found == want, f"{found}, not {want}")
            racy += b": unordered: " in want[0]
    record("analyses: some random traces have unordered accesses, and some have none", len(texts) // 5 < racy < len(texts) * 9 // 5, f"{racy} of {len(texts)}")
    for seed in range(50):
        text = reference.random_trace(seed)
        record(f"lockset: random trace {seed}", run(["--analysis", "lockset", "-"], text) == run(["-"], text))


# ---- By sites ----


def expected_by_site(text, rules=None, trace=None):
    """What a replay by site writes to both streams, and its status: by each analysis, and of standard input or of a file, which may be this trace 4."""
    output, errors, status = reference.replay(text, rules or b"", explain=True)
    if status == 2:
        return dict.fromkeys(((analysis, is_file) for analysis in ("happens-before", "both") for is_file in (False, True)), (output.encode(), errors.encode(), status))
    ordered, ordered_status = unordered_report(text, reference.rules_of(rules or b""), True, trace.touched if trace else {})
    errors, wanted = (errors + order_note(text, ordered)).encode(), {}
    for is_file, said, places in ((False, None, {}), (True, trace, places_in(text, trace))):
        wanted["happens-before", is_file] = by_site_of_order(ordered, text, places, said).encode(), errors, ordered_status
        wanted["both", is_file] = by_site_of_both(output, ordered, text, places, said).encode(), errors, max(status, ordered_status)
    return wanted


def by_sites(record):
    """`--by-site` beside a second reading of docs/FORMATS.md, made from what the other readings say of the text."""
    texts = [(f"random trace {seed}", reference.random_trace(seed), rules) for seed in range(SITE_TRACES) for rules in (None, reference.random_rules(seed))]
    texts += [(f"random list {seed}", order_tests.random_list(seed), None) for seed in range(SITE_TRACES)]
    texts += [("two headings", TWO_HEADINGS, None), ("ordered by a start", STARTED, None), ("order alone", ORDER_ALONE, None), ("order beside", ORDER_BESIDE, None), ("given back", GIVEN_BACK, None), ("given back at sites", FREED, None)]
    kinds = set()
    for name, text, rules in texts:
        title = f"{name}{'' if rules is None else ' with suppressions'}"
        wanted = expected_by_site(text, rules)
        both, _, status = wanted["both", False]
        if status != 2:
            kinds.add((b"races in this run: none" in both, b"no common lock: no further site" in both))
        for (analysis, is_file), want in wanted.items():
            found = (run_file if is_file else run_with)(rules, text, "--analysis", analysis, "--by-site")
            record(f"{analysis} by site{', from a file' if is_file else ''}: {title}", found == want, f"{found}, not {want}")
    record("both by site: each part has sites in some text, and none in another", len(kinds) == 4, f"{kinds}")
    found = run([*BOTH, "--by-site", "-"], TWO_HEADINGS)
    record("both by site: the worked text", found == (TWO_HEADINGS_BY_SITE, b"", 1), f"{found}")
    found = run_file(None, GIVEN_BACK, *BOTH, "--by-site")
    record("both by site: memory that is given back while it is read", found == (GIVEN_BACK_BY_SITE, b"", 1), f"{found}")
    found = run_file(None, FREED, *HAPPENS_BEFORE, "--by-site")
    record("happens-before by site: memory that is given back at sites", found == (FREED_BY_SITE, b"", 1), f"{found}")
    place = b"  nothing orders this before it: t1 wrote it (line 2)\n    at count.c:3, holding no lock\n"
    for name, text in (("alone", ORDER_ALONE), ("beside races by locks", ORDER_BESIDE)):
        found = run_file(None, text, *BOTH, "--by-site")
        note = order_note(text, unordered_report(text, [])[0]).encode()
        record(f"both by site: the place of a reason of order {name}", place in found[0] and found[1:] == (note, 1), f"{found}")


# ---- What is made of a report besides ----


RACY = b"""eraser trace 3
t1 write 0x1000 a.c:1
t1 write 0x2000 a.c:2
t1 write 0x3000 a.c:3
t2 read 0x1000 b.c:1
t2 read 0x2000 b.c:2
t2 write 0x3000 b.c:3
t2 signal q
end
"""


# A lock is held from the second thread's first access on, so the lockset rule is content. The first access was not ordered before that one.
ORDER_ALONE = b"""eraser trace 3
t1 write 0x2000 count.c:3
t2 lock m
t2 write 0x2000 count.c:7
t2 unlock m
end
"""
# The same, beside a word that is reported by both.
ORDER_BESIDE = ORDER_ALONE.replace(b"t2 lock", b"t1 write 0x1000 flag.c:3\nt2 write 0x1000 flag.c:9\nt2 lock")


# No lock in common, and all in order.
STARTED = b"eraser trace 3\nt1 write 0x1000 a.c:1\nt1 start t2\nt2 write 0x1000 a.c:2\nend\n"


# The flag is handed on by a signal, and the counter has no lock at all.
TWO_HEADINGS = b"""eraser trace 3
t1 write 0x1000 flag.c:3
t1 signal q
t1 lock m
t1 write 0x2000 count.c:7
t1 unlock m
t2 write 0x2000 count.c:7
t2 await q
t2 write 0x1000 flag.c:9
end
"""


# A block is given back while its reader still runs.
GIVEN_BACK = b"""eraser trace 3
main write 0x1000 job.c:7
main start worker
worker read 0x1000 job.c:20
main reuse 0x1000 64
main join worker
end
"""


GIVEN_BACK_BY_SITE = b"""races in this run
0x000000001000:
  main gave back 64 bytes (line 5)
  nothing orders this before it: worker read it (line 4)
    at job.c:20, holding no lock

no common lock: no further site

steps 5, races 0, suppressed 0, refused 0
steps 5, unordered 1, suppressed 0, refused 0
"""


# Blocks are given back at two sites: at one beside a read, at the other over two pages, and once without a site.
FREED = b"""eraser trace 3
main write 0x1000 job.c:7
main lock pool
main start worker
worker write 0x1000 job.c:20
worker read 0x3ffc job.c:21
worker write 0x4000 job.c:21
worker read 0x5000 job.c:33
main reuse 0x1000 64 job.c:9
main reuse 0x3ff0 64 job.c:33
main reuse 0x5000 4 -
worker write 0x6000 job.c:9
main read 0x6000 job.c:33
end
"""


FREED_BY_SITE = b"""races in this run
words     kinds       threads   locks     site
3         read reuse  1         1         job.c:33
1         reuse       1         1         job.c:9

job.c:33 and job.c:21:
  main gave back 16 bytes (line 10)
  nothing orders this before it: worker read it (line 6)
    at job.c:21, holding no lock

job.c:9 and job.c:20:
  main gave back 64 bytes (line 9)
  nothing orders this before it: worker wrote it (line 5)
    at job.c:20, holding no lock

0x000000005000:
  main gave back 4 bytes (line 11)
  nothing orders this before it: worker read it (line 8)
    at job.c:33, holding no lock

steps 13, unordered 5, suppressed 0, refused 0
"""


TWO_HEADINGS_BY_SITE = b"""races in this run
words     kinds       threads   locks     site
1         write       1         0         count.c:7

count.c:7:
  t2 wrote the word at 0x000000002000 (line 7)
  t2 held no lock
  nothing orders this before it: t1 wrote it (line 5)

no common lock
words     kinds       threads   locks     site
1         write       1         0         flag.c:9

flag.c:9:
  t2 wrote the word at 0x000000001000 (line 9)
  t2 held no lock
  t1 used it first: it wrote it (line 2)
  t2 was the second: it wrote it (line 9)
  t2 has written it since then (line 9)
  So no lock protected all accesses from the second thread's first one on

steps 8, races 2, suppressed 0, refused 0
steps 8, unordered 1, suppressed 0, refused 0
"""


def more_of_a_report(record):
    with tempfile.TemporaryDirectory() as folder:
        rules = pathlib.Path(folder) / "known.rules"
        first = run([*HAPPENS_BEFORE, "--write-rules", str(rules), "-"], RACY)
        record("happens-before: rules are written", first == run([*HAPPENS_BEFORE, "-"], RACY) and rules.exists(), f"{first}")
        again = run([*HAPPENS_BEFORE, "--suppress", str(rules), "-"], RACY)
        want = b"suppression 1: 1\nsuppression 2: 1\nsuppression 3: 1\nsteps 7, unordered 0, suppressed 3, refused 0\n"
        record("happens-before: the rules that were written take all", again == (want, b"", 0), f"{again}")
        other = pathlib.Path(folder) / "other.rules"
        other.write_text("site nowhere.c:1\nsite b.c:2\n")
        found = run([*HAPPENS_BEFORE, "--suppress", str(other), "--unused-rules", "-"], RACY)
        plain = run([*HAPPENS_BEFORE, "--suppress", str(other), "-"], RACY)
        record("happens-before: unused rules are named", found[::2] == plain[::2] and b"1" in found[1] and found[1].count(b"\n") == 1, f"{found}")
        for name, taken in ((str(other), b"suppression 1: 0\nsuppression 2: 1\n"), (str(rules), b"suppression 1: 1\nsuppression 2: 1\nsuppression 3: 1\n")):
            alone = [run([*analysis, "--suppress", name, "-"], RACY) for analysis in ([], HAPPENS_BEFORE)]
            found = run([*BOTH, "--suppress", name, "-"], RACY)
            want = (alone[0][0] + alone[1][0], b"", max(one[2] for one in alone))
            record(f"both: the rules of {pathlib.Path(name).name}", found == want and taken in alone[1][0], f"{found}, not {want}")
    whole, found = run([*HAPPENS_BEFORE, "-"], RACY), run([*HAPPENS_BEFORE, "--max-races", "1", "-"], RACY)
    lines = whole[0].splitlines(keepends=True)
    record("happens-before: the first races alone", found[0] == lines[0] + lines[-1] and found[2] == 1 and found[1].count(b"\n") == 1, f"{found}")
    found = run([*HAPPENS_BEFORE, "--explain", "--max-races", "1", "-"], RACY)
    record("happens-before: the first races alone, with reasons", found[0] == lines[0] + b"  unordered with: line 2, t1 write\n" + lines[-1], f"{found}")


# ---- Want of memory, failed reads and writes, batches ----


def refusals(record, preloaded):
    with tempfile.TemporaryDirectory() as folder:
        library, trace = preloaded(folder, "refuse"), pathlib.Path(folder) / "trace"
        lines = ["eraser trace 3", "t1 start t2", *(f"t{1 + k % 3} {verb}" for k in range(12) for verb in ("lock m", f"write {4096 * k} s{k}", f"read {64 * k}", "unlock m", f"signal x{k}", f"await x{k - 1}"))]
        trace.write_text("\n".join([*lines, "end"]) + "\n")
        for analysis in WITH_AND_WITHOUT:
            words, met = [*analysis, str(trace)], set()
            whole = run(words)
            record(f"{' '.join(analysis[1:])}: the trace for refusals is a trace", whole[2] in (0, 1) and b"steps" in whole[0], f"{whole}")
            for nth, found, was_refused in each_refused(library, folder, lambda env: run(words, env=env)):
                is_told = was_refused and found == (b"", b"out of memory\n", 3)
                record(f"{' '.join(analysis[1:])}: without allocation {nth}", is_told or found == whole, f"{found}")
                met.add(found[2])
            record(f"{' '.join(analysis[1:])}: refused allocations are told", 3 in met, f"{met}")


def failures(record, preloaded):
    """Reads and writes of a few bytes at a time, and each of them failed in turn."""
    with tempfile.TemporaryDirectory() as folder:
        library, trace = preloaded(folder, "pieces"), pathlib.Path(folder) / "trace"
        trace.write_bytes(RACY)
        for analysis in WITH_AND_WITHOUT:
            words, fell = [*analysis, str(trace)], 0
            whole = run(words)
            found = run(words, env={**os.environ, "LD_PRELOAD": str(library), "PIECE": "1"})
            record(f"{' '.join(analysis[1:])}: byte by byte", found == whole, f"{found}")
            for nth, found, has_failed in each_failed(library, folder, "FAIL_READ", "FAIL_FOUND", lambda env: run(words, env={**env, "PIECE": "20"})):
                record(f"{' '.join(analysis[1:])}: with read {nth} failed", found == ((b"", b"read fault\n", 4) if has_failed else whole), f"{found}")
                fell += has_failed
            record(f"{' '.join(analysis[1:])}: with reads failed", fell > 2, f"{fell}")
            fell = 0
            for nth, found, has_failed in each_failed(library, folder, "FAIL_WRITE", "FAIL_FOUND", lambda env: run(words, env={**env, "PIECE": "1"})):
                record(f"{' '.join(analysis[1:])}: with write {nth} failed", found == ((whole[0][: nth - 1], b"write fault\n", 4) if has_failed else whole), f"{found}")
                fell += has_failed
            record(f"{' '.join(analysis[1:])}: with writes failed", fell == len(whole[0]), f"{fell}")


def batches(record):
    """What orders two accesses, and what doesn't, on both sides of the ends of batches, and a fault behind them."""
    for number in [*range(BATCH - 5, BATCH + 3), *range(2 * BATCH - 5, 2 * BATCH + 3)]:
        lines = ["t1 write 0x1000 a", "t1 write 0x2000 a", "t1 signal x", "t2 await x", "t2 write 0x1000 b", "t3 write 0x2000 c"]
        text = ("eraser trace 3\n" + "\n" * (number - 2) + "".join(line + "\n" for line in [*lines, "end"])).encode()
        want = f"line {number + 5}: unordered: t3 write 0x000000002000 at c, holds none\nsteps 6, unordered 1, suppressed 0, refused 0\n".encode()
        found = run([*HAPPENS_BEFORE, "-"], text)
        record(f"happens-before: steps from line {number} on", found == (want, b"", 1), f"{found}")
        found, told = run([*HAPPENS_BEFORE, "--explain", "-"], text), f"  unordered with: line {number + 1}, t1 write\n".encode()
        record(f"happens-before with reasons: steps from line {number} on", found == (want.replace(b"none\n", b"none\n" + told), b"", 1), f"{found}")
        found = run([*BOTH, "-"], text)
        record(f"both: steps from line {number} on", found == (run(["-"], text)[0] + want, b"", 1), f"{found}")
        for analysis in (HAPPENS_BEFORE, BOTH):
            found = run([*analysis, "-"], text.replace(b"end\n", b"t1 hop\n"))
            record(f"{analysis[1]}: a fault behind steps from line {number} on", found == (b"", f"line {number + 6}: bad verb\n".encode(), 2), f"{found}")


# ---- Other arguments ----


def other_arguments(record):
    found = run([*BOTH, "--explain", "-"], RACY)
    want = run(["--explain", "-"], RACY)[0] + run([*HAPPENS_BEFORE, "--explain", "-"], RACY)[0]
    record("both: each report has its reasons", found == (want, b"", 1), f"{found}, not {want}")
    output, errors, status = run(["--analysis", "neither", "-"], RACY)
    record("an analysis that there is not", (output, status) == (b"", 2) and b"invalid value 'neither'" in errors, f"{errors}")
    for more in (["--explain"], ["--by-site"], ["--format", "json"]):
        record(f"lockset with {more}", run(["--analysis", "lockset", *more, "-"], RACY) == run([*more, "-"], RACY))


def tests(record, preloaded):
    worked(record)
    worked_lists(record)
    random_traces(record)
    by_sites(record)
    more_of_a_report(record)
    refusals(record, preloaded)
    failures(record, preloaded)
    batches(record)
    other_arguments(record)


if __name__ == "__main__":
    run_alone(tests, preloaded)
