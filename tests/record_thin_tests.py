#!/usr/bin/env python3
"""What `record/run` leaves out: accesses that a thread repeats, without another event of its own or one that names it, another thread at that word, or a
new use of it in between.

- which recordings leave repeats out: those that nobody keeps, and with --thin others
- the rule, by a second reading of it: random traces have the same races with and without their repeats, and so has a recorded one
- what the writer's thin.c leaves out of random recordings is a repeat, and doesn't change a race (`tests/record/thin/any.c`)
- what the library's repeats.c finds repeated by random threads is a repeat, whenever others note their events (`tests/record/thin/notes.c`)
- what ends all that threads know may be interrupted at any instruction, and left there by a jump (`tests/record/thin/raises.c`)
- an access that comes when the recorder was interrupted at any instruction is there (`tests/record/thin/steps.c`)
- the programs of tests/record and tests/record/order race at the same lines when they are recorded so
- `tests/record/thin/repeats.c`: a comment READS n or WRITES n says how many words of a line are left

`tests/run` calls `tests`. By itself this file runs these tests alone.
"""

import concurrent.futures
import pathlib
import random
import re
import sys
import tempfile

sys.path.insert(0, str(pathlib.Path(__file__).parent))
sys.dont_write_bytecode = True
import analysis_tests
import record_order_tests
import record_tests
from alone import run_alone
from record_tests import RUN, SOURCES, WORKERS, Findings, build, command, marked

# Programs of tests/record that end otherwise than by themselves, need something else beside them, or have no race and no words to compare.
OTHERS = ("ends", "loads", "plugin", "busy", "jumps", "empty", "sizes")
SANITIZED = ("-fsanitize=address,undefined", "-fno-sanitize-recover=all")


def without_repeats(lines):
    """The lines of a trace that are no repeats, each with its number, by words of 4 bytes."""
    stretches, used = {}, {}
    for number, line in enumerate(lines, 1):
        words = line.split()
        if number > 1 and len(words) > 2 and words[1] in ("read", "write"):
            address, whose = int(words[2], 16) // 4, (words[0], stretches.get(words[0]))
            if used.get(address, (None,))[0] != whose:
                used[address] = whose, set()
            done = used[address][1]
            is_repeat = "write" in done or words[1] in done and words[1] == "read"
            done.add(words[1])
            if is_repeat:
                continue
        elif number > 1 and len(words) > 1 and not line.startswith("#"):
            stretches[words[0]] = number
            if words[1] in ("start", "join"):
                stretches[words[2]] = number
            if words[1] == "reuse":
                first, size = int(words[2], 16), int(words[3])
                for address in range(first // 4, (first + size - 1) // 4 + 1):
                    used.pop(address, None)
        yield number, line


def random_trace(source):
    """A trace with few words, so that they meet, and runs of accesses by one thread."""
    threads, locks, words = ["t1", "t2", "t3"][: source.randint(2, 3)], "abc"[: source.randint(1, 3)], [0x1000, 0x1004, 0x1008][: source.randint(1, 3)]
    held, depth = {thread: {} for thread in threads}, dict.fromkeys(threads, 0)
    lines, thread = ["eraser trace 3", *(f"t1 start {thread}" for thread in threads[1:])], "t1"
    for _ in range(source.choice([20, 50, 100])):
        thread = source.choice(threads) if source.random() < 0.4 else thread
        verb, lock = source.choices(["access", "lock", "unlock", "signal", "await", "reuse", "bracket", "join"], [72, 8, 8, 3, 3, 3, 3, 3])[0], source.choice(locks)
        if verb == "access":
            lines.append(f"{thread} {source.choice(['read', 'write'])} {source.choice(words):#x} f.c:{len(lines) % 5}")
        elif verb == "lock":
            mode = source.choice(["", "r"])
            if all(lock not in held[other] or other != thread and mode == held[other][lock] == "r" for other in threads):
                held[thread][lock] = mode
                lines.append(f"{thread} {mode}lock {lock}")
        elif verb == "unlock" and lock in held[thread]:
            lines.append(f"{thread} {held[thread].pop(lock)}unlock {lock}")
        elif verb in ("signal", "await"):
            lines.append(f"{thread} {verb} s{source.randint(1, 2)}")
        elif verb == "reuse":
            lines.append(f"{thread} reuse {source.choice(words):#x} {source.choice([1, 4, 8, 12])}")
        elif verb == "bracket":
            depth[thread] ^= 1
            lines.append(f"{thread} ignore-{'on' if depth[thread] else 'off'}")
        elif verb == "join":
            # Whoever is joined may go on, and then its accesses are in no order with what the other one does.
            lines.append(f"{thread} join {source.choice([other for other in threads if other != thread])}")
    return [*lines, "end"]


def report(lines, *options):
    """The report of a trace, without the number of steps, the errors and the status."""
    found = analysis_tests.run([*options, "-"], "".join(f"{line}\n" for line in lines).encode())
    return re.sub(r"^steps \d+", "steps", found[0].decode(), flags=re.M), *found[1:]


def by_site(text):
    """The parts of a report by site, and the lines of its table, in no order: sites with equally many words stand as the trace names them first."""
    return sorted("\n".join(sorted(part.splitlines())) if part.startswith("words ") else part for part in text.split("\n\n"))


def rule_fault(lines, kept=None):
    """What differs in the reports of a trace without its repeats, whose lines count as they did before. By locks the reasons are the same, too."""
    numbers, kept = zip(*(kept or without_repeats(lines)))
    for options in (["--analysis", "both"], ["--explain"], ["--by-site", "--explain"]):
        text, errors, status = report(kept, *options)
        text = re.sub(r"\bline (\d+)", lambda found: f"line {numbers[int(found[1]) - 1]}", text)
        whole, *rest = report(lines, *options)
        is_same = by_site(text) == by_site(whole) if "--by-site" in options else text == whole
        if not is_same or [errors, status] != rest:
            return f"{options}: {lines}: {text}, not {whole} {rest}"
    return None


def random_traces(findings, pool):
    faults = list(pool.map(lambda seed: rule_fault(random_trace(random.Random(seed))), range(100)))
    findings.check("random traces without their repeats have the same races", not any(faults), next(filter(None, faults), ""))
    left_out = sum(len(lines) - len(list(without_repeats(lines))) for lines in (random_trace(random.Random(seed)) for seed in range(100)))
    findings.check("random traces have repeats", left_out > 1000, f"{left_out}")
    # What a thread does after it was joined is in no order with what comes then, and what it did before is.
    goes_on = ["eraser trace 3", "t1 start t2", "t2 write 0x1000", "t1 join t2", "t2 write 0x1000", "t1 write 0x1000", "end"]
    is_right = rule_fault(goes_on) is None and "steps, unordered 1," in report(goes_on, "--analysis", "both")[0]
    findings.check("a thread that is joined and goes on", is_right, f"{rule_fault(goes_on)}")


def build_with(folder, findings, name, part, *options):
    """A program of tests/record/thin that is linked with a source of the recorder's."""
    program = folder / name
    words = ["gcc", "-std=gnu11", "-O1", "-g", "-Wall", "-Wextra", *options]
    built = command([*words, SOURCES / f"thin/{name}.c", record_tests.TOP / "record" / part, "-o", program])
    findings.check(f"{name} with {part} is built", built.returncode == 0 and built.stderr == "", built.stderr)
    return program


def writer_fault(program, seed):
    """What differs in the reports of a random recording without what the writer leaves out, and how many lines that is."""
    done = command([program, str(seed), str(random.Random(seed).choice([30, 100, 300]))])
    if done.returncode or done.stderr:
        return f"{seed}: {done.returncode} {done.stderr}", 0
    lines = ["eraser trace 3", *(line[1:] for line in done.stdout.splitlines()), "end"]
    is_kept = [True, *(line[0] == "+" for line in done.stdout.splitlines()), True]
    kept = [each for each, is_there in zip(enumerate(lines, 1), is_kept) if is_there]
    return rule_fault(lines, kept), len(lines) - len(kept)


def writer(folder, findings, pool):
    program = build_with(folder, findings, "any", "writer/thin.c", *SANITIZED)
    found = list(pool.map(lambda seed: writer_fault(program, seed), range(100)))
    findings.check("random recordings without what the writer leaves out", not any(fault for fault, _ in found), next((fault for fault, _ in found if fault), ""))
    findings.check("the writer leaves something out", sum(count for _, count in found) > 1000, f"{sum(count for _, count in found)}")


def library(folder, findings, pool):
    program = build_with(folder, findings, "notes", "library/repeats.c", "-mcx16", *SANITIZED)
    found = list(pool.map(lambda seed: command([program, str(seed), "3000"]), range(100)))
    findings.check("random threads without what the library finds repeated", all(done.returncode == 0 for done in found), next((f"{done}" for done in found if done.returncode), ""))
    findings.check("the library finds repeats", sum(int(done.stdout or 0) for done in found) > 1000, f"{found[0]}")
    done = command([build_with(folder, findings, "raises", "library/repeats.c", "-mcx16")])
    is_right = done.returncode == 0 and all(int(count) > 10 for count in done.stdout.split())
    findings.check("what is known is forgotten with an interrupt at each instruction", is_right, f"{done}")


def interrupted(folder, findings):
    """What the recorder is interrupted by, at each of its instructions, leaves no access out that is none of the repeats."""
    source, text = SOURCES / "thin/steps.c", {}
    program, built = build(folder, source, "gcc", "-O0")
    findings.check("steps is built", built.returncode == 0 and built.stderr == "", built.stderr)
    site = {mark: next(iter(marked(source, mark))) for mark in ("AGAIN", "BEHIND", "LOCKED", "TAKEN")}
    for way in ("handles", "locks", "jumps", "moves"):
        done = command([RUN, "-q", "--thin", "-o", folder / "steps.trace", program, way])
        text[way] = (folder / "steps.trace").read_text()
        findings.check(f"steps {way} ends", done.returncode == 0 and (way == "jumps" or done.stderr == ""), f"{done}")
        taken = done.stdout
    found = {way: {mark: len(re.findall(rf"^t\d+ write \S+ {site[mark]}$", text[way], re.M)) for mark in site} for way in text}
    turns = int(re.search(r"#define TURNS (\d+)", source.read_text())[1])
    findings.check("a handler that writes beside a word", found["handles"]["AGAIN"] == turns, f"{found}")
    findings.check("a handler that writes with a lock", found["locks"]["AGAIN"] == found["locks"]["LOCKED"] == turns, f"{found}")
    findings.check("another thread that gets memory before it is known to be given back", int(taken) > 10 and found["moves"]["TAKEN"] == int(taken), f"{taken} {found}")
    # A release that was left stands in the trace or it doesn't. If it does, the writes behind it are not with the lock.
    left = [turn for turn in text["jumps"].split(" lock lock\n") if " unlock lock\n" in turn.split(site["BEHIND"])[0]]
    findings.check("a handler that leaves a release by a jump", len(left) > 10 and all(f" {site['AGAIN']}\n" in turn for turn in left), f"{left}")


def repeats(folder, findings):
    source = SOURCES / "thin/repeats.c"
    for compiler in ("gcc", "clang"):
        program, built = build(folder, source, compiler, "-O0")
        findings.check(f"{program.name} is built", built.returncode == 0 and built.stderr == "", built.stderr)
        for form in "34":
            trace = folder / "repeats.trace"
            done = command([RUN, "--thin", "--order", "--trace", form, "-o", trace, program])
            text = record_tests.text_in(trace, form)
            wanted = record_tests.counts(source)
            found = {key: len(re.findall(rf"^t\d+ {key[0]} \S+ {re.escape(key[1])}$", text, re.M)) for key in wanted}
            is_told = re.fullmatch(r"record: \d+ events recorded, 0 lost, \d\d repeats left out\n", done.stderr)
            findings.check(f"{program.name} as a trace {form}", (done.returncode, found) == (0, wanted) and is_told, f"{done} {found}, not {wanted}")
            # Two words have four bytes each that are written once.
            left = len(text.splitlines()) - len(list(without_repeats(text.splitlines())))
            findings.check(f"{program.name} as a trace {form} has no repeat but of bytes", left == 6, f"{left} {text}")
            command([RUN, "-q", "--order", "--trace", form, "-o", trace, program])
            fault = rule_fault(record_tests.text_in(trace, form).splitlines())
            findings.check(f"{program.name} without --thin", fault is None, fault)


def defaults(folder, findings):
    """Repeats are left out of a trace that nobody keeps, and of others if that is asked for."""
    program, _ = build(folder, SOURCES / "thin/repeats.c", "gcc", "-O0")
    trace, found = folder / "default.trace", {}
    ways = {(): True, ("--thin=yes",): True, ("--trace", "3"): True, ("--analysis", "both", "--by-site"): True, ("--thin=no",): False, ("--thin", "--thin=no"): False,
            ("-o", trace): False, ("-o", trace, "--replay"): False, ("-o", trace, "--thin", "--replay"): True}
    for words, is_thin in ways.items():
        done = command([RUN, *words, program])
        counts = re.search(r"^record: (\d+) events recorded, 0 lost(?:, (\d+) repeats? left out)?\n\Z", done.stderr, re.M)
        steps = re.search(r"^steps (\d+), ", done.stderr, re.M)
        found[words] = int(counts[1]) + int(counts[2] or 0), steps and int(steps[1]) if counts else None
        findings.check(f"which recordings leave repeats out {words}", done.returncode == 0 and counts and bool(counts[2]) == is_thin, f"{done}")
    # An access of 8 bytes at most is one record.
    events = {found[words][0] for words in ways if "3" not in words and trace not in words and "both" not in words}
    steps = {is_thin: {found[words][1] for words in ways if ways[words] == is_thin and found[words][1] and "both" not in words} for is_thin in (False, True)}
    findings.check("how many there are with the repeats", len(events) == 1 and max(steps[True]) < min(steps[False]), f"{found}")


def racing(folder, findings, source):
    """A program has the races that are marked, by locks or by order."""
    program, _ = build(folder, source, "gcc", "-O0")
    if source.parent.name == "order":
        trace = folder / f"{source.stem}.trace"
        done = command([RUN, "-q", "--thin", "--order", "-o", trace, program])
        text = trace.read_text()
        fault = f"{done}" if done.returncode or done.stderr else record_order_tests.order_fault(text) or record_order_tests.program_fault(source, text)
    else:
        path = folder / f"{source.stem}.report"
        done = command([RUN, "-q", "--report", path, program])
        found = record_tests.races(path.read_text()) if path.exists() else None
        is_right = done.returncode == record_tests.STATUS.get(source.stem, 0) and found == marked(source, "RACE")
        fault = None if is_right else f"{done} {found}"
    findings.check(f"{source.name} without repeats", fault is None, fault)


def refused(findings):
    for word in ("--thin", "--thin=no"):
        done = command([RUN, "--online", word, "true"])
        findings.check(f"{word} with --online", (done.returncode, done.stdout) == (125, "") and "--thin" in done.stderr, f"{done}")
    done = command([RUN, "--thin=all", "true"])
    findings.check("--thin=all", (done.returncode, done.stdout, done.stderr) == (125, "", "record: --thin is 'yes' or 'no', not 'all'\n"), f"{done}")


def tests(record):
    findings = Findings(record)
    command([record_tests.TOP / "record/build"])
    with tempfile.TemporaryDirectory() as name, concurrent.futures.ThreadPoolExecutor(WORKERS) as pool:
        folder = pathlib.Path(name)
        random_traces(findings, pool)
        writer(folder, findings, pool)
        library(folder, findings, pool)
        interrupted(folder, findings)
        repeats(folder, findings)
        defaults(folder, findings)
        refused(findings)
        sources = [source for source in sorted(SOURCES.glob("*.c*")) + sorted((SOURCES / "order").glob("*.c*")) if source.stem not in OTHERS]
        for run in [pool.submit(racing, folder, findings, source) for source in sources]:
            run.result()


if __name__ == "__main__":
    run_alone(tests)
