#!/usr/bin/env python3
"""Records programs with `record/run --order`, and compares what the traces say of order with what must be true of them.

The programs of tests/record/order show one way to order threads each. A comment `UNORDERED` on a line says that an access there races by
happens-before, in every schedule. The sites at which tests/order_reference.py finds races are these lines and no others, and so are those that
`eraser replay --analysis happens-before` reports.

`tests/run` calls `tests`. By itself this file runs these tests alone.
"""

import collections
import concurrent.futures
import dataclasses
import functools
import os
import pathlib
import re
import sys
import tempfile

sys.path.insert(0, str(pathlib.Path(__file__).parent))
sys.dont_write_bytecode = True
import analysis_tests
import order_reference
import record_tests
import reference
from alone import run_alone
from record_tests import LEVELS, RUN, SOURCES, WORKERS, Findings, build, command, marked, text_in

RUNS = max(1, record_tests.RUNS // 4)
ORDER_VERBS = ("start", "join", "signal", "await")
# For each program: the objects that are signalled and then awaited, those that are signalled alone, and those that no line names.
OBJECTS = {
    "annotated": (["one", "gate"], [], ["neither"]),
    "barrier": (["rounds", "rounds_1"], [], []),
    "c11": (["flag"], ["changed"], []),
    "changes": (["counter", "spin_lock", "taken"], ["weak"], ["failed"]),
    "condition": (["changed"], [], []),
    "detached": (["ended"], [], []),
    "early": ([], [], []),
    "early_objects": ([], [], []),
    "ended": (["woken", "round_trip"], ["changed", "changed:2", "fresh", "fresh:2", "reused"], ["full"]),
    "fenced_queue": ([], [], []),
    "fences": (
        ["both_flag", "sent_flag", "taken_flag", "full_flag", "added_flag", "swapped_flag", "between_flag", "later_flag", "first_flag", "second_flag", "fence-1"],
        [],
        ["failed_flag"],
    ),
    "given": (["given"], [], []),
    "hung_up": (["socket-2", "socket-3", "socket-4"], ["pipe-1"], ["pipe-2", "pipe-3"]),
    "message": (["flag_8", "flag_16", "flag_32", "flag_64", "fenced_flag"], [], []),
    "once": (["pthread_flag", "call_flag", "thrown_flag", "get_made::only.guard"], [], []),
    "owned": (["head", "slot"], [], []),
    "piped": (["pipe-2", "pipe-3", "pipe-4", "pipe-5"], ["pipe-6"], ["pipe-7"]),
    "semaphore": (["full", "spare"], [], []),
    "shared": ([], [], []),
    "sockets": ([*(f"socket-{number}" for number in range(6, 15)), "epoll-1"], ["socket-15"], ["socket-16"]),
    "threads": ([], [], []),
    "thrown": (["exception-1", "exception-18"], [], ["exception-19"]),
}
STARTS = {"threads": 24, "detached": 28}
# Words of a page.
PAGE = 1024
# A trace of fewer bytes is read a second time whole, which is slow.
SHORT = 60_000
# Programs of tests/record that end otherwise than by themselves, or need something else beside them.
OTHERS = ("ends", "loads", "plugin", "busy", "jumps", "empty")


# ---- What must be true of every trace ----


class Threads:
    """Who was started and who was joined in the lines so far."""

    def __init__(self):
        self.started, self.joined = {"t1"}, set()

    def fault(self, step):
        if step.thread not in self.started:
            return "a thread that was not started"
        if step.thread in self.joined:
            return "a thread that was joined"
        if step.verb == "start" and step.name in self.started or step.verb == "join" and step.name in self.joined | {step.thread}:
            return f"a second {step.verb}"
        if step.verb in ("start", "join"):
            (self.started if step.verb == "start" else self.joined).add(step.name)
        return None


def await_fault(step, signallers):
    """An await is written only if it may order something: another thread has signalled the object."""
    if step.verb == "signal":
        signallers[step.name].add(step.thread)
    elif step.verb == "await" and not signallers[step.name] - {step.thread}:
        return "an await with no signal"
    return None


def order_fault(text):
    """What is wrong with a trace that has order, or None."""
    if not text.startswith("eraser trace 3\n") or not re.search(r"\n# complete: \d+ events, none lost\nend\n\Z", text):
        return f"begins {text[:20]!r}, ends {text[-60:]!r}"
    try:
        steps = order_reference.read(text.encode())
    except order_reference.Fault as fault:
        return str(fault)
    threads, signallers = Threads(), collections.defaultdict(set)
    for step in steps:
        fault = threads.fault(step) or await_fault(step, signallers)
        if fault:
            return f"line {step.line}: {fault}: {step.thread} {step.verb} {step.name}"
    refused = [item.step.line for item in order_reference.mark(steps) if item.is_refused]
    return f"line {refused[0]} is refused" if refused else record_tests.lock_fault(text)


class Clocks:
    """How far each thread knows the others: a second reading of the order, with clocks, since these traces are long."""

    def __init__(self):
        self.threads, self.objects = collections.defaultdict(lambda: collections.defaultdict(int)), {}

    def take(self, source, thread):
        for other, count in self.objects.get(source, {}).items():
            self.threads[thread][other] = max(self.threads[thread][other], count)

    def give(self, target, thread):
        known = self.objects.setdefault(target, {})
        for other, count in self.threads[thread].items():
            known[other] = max(known.get(other, 0), count)

    def step(self, step):
        thread, name = step.thread, step.name
        if ("start", thread) in self.objects:
            self.take(("start", thread), thread)
            del self.objects["start", thread]
        self.threads[thread][thread] += 1
        if step.verb in ("lock", "rlock"):
            self.take(("unlock", name), thread)
        if step.verb == "lock":
            self.take(("runlock", name), thread)
        if step.verb in ("await", "join"):
            self.take(("signal", name) if step.verb == "await" else ("end", name), thread)
        if step.verb in ("unlock", "runlock", "signal", "start"):
            self.give((step.verb, name), thread)
        self.objects["end", thread] = self.threads[thread]


class Era:
    """A word since its last reuse: each thread's last access and last write, and whether two of its accesses were a race."""

    def __init__(self):
        self.accesses, self.writes, self.is_racy = {}, {}, False

    def access(self, step, clock):
        earlier = self.accesses.values() if step.verb == "write" else self.writes.values()
        self.is_racy |= any(count > clock[thread] for thread, count, _ in earlier)
        self.accesses[step.thread] = step.thread, clock[step.thread], step.site
        if step.verb == "write":
            self.writes[step.thread] = self.accesses[step.thread]

    def apart(self, clock):
        """The sites of accesses that don't come before a step of this clock."""
        return {site for thread, count, site in self.accesses.values() if count > clock[thread]}


@dataclasses.dataclass
class Early:
    """The words of a page that are put to a new use, with accesses of other threads that don't come before: their sites, and whether one of these
    words has had no race."""

    step: order_reference.Step
    words: range
    sites: set
    is_reported: bool


def early_reuses(text):
    """The reuses that are not ordered after all accesses of their words, page by page. In brackets nothing counts."""
    clocks, pages, brackets = Clocks(), collections.defaultdict(dict), collections.Counter()
    for step in order_reference.read(text.encode()):
        clocks.step(step)
        clock = clocks.threads[step.thread]
        brackets[step.thread] += {"ignore-on": 1, "ignore-off": -1}.get(step.verb, 0)
        if step.verb in ("read", "write") and not brackets[step.thread]:
            word = step.words[0]
            pages[word // PAGE].setdefault(word, Era()).access(step, clock)
        for page in range(step.words.start // PAGE, (step.words.stop - 1) // PAGE + 1) if step.verb == "reuse" else ():
            eras = [pages[page].pop(word) for word in [word for word in pages.get(page, ()) if word in step.words]]
            late = [era for era in eras if era.apart(clock)]
            if late and not brackets[step.thread]:
                words = range(max(PAGE * page, step.words.start), min(PAGE * (page + 1), step.words.stop))
                yield Early(step, words, set().union(*(era.apart(clock) for era in late)), not all(era.is_racy for era in late))


def early_sites(text):
    """The sites of accesses after which a reuse of their word by another thread is not ordered."""
    return set().union(*(early.sites for early in early_reuses(text)))


# ---- What must be true of a program's ----


def objects_fault(name, steps):
    """The objects that the trace names are those that it should name."""
    both, signals, none = OBJECTS[name]
    firsts = {}
    for step in steps:
        firsts.setdefault((step.verb, step.name), step.line)
    for each in both + signals:
        if ("signal", each) not in firsts:
            return f"no signal of {each}"
    for each in both:
        if firsts.get(("await", each), 0) < firsts["signal", each]:
            return f"no await of {each} behind its signal"
    for verb, each in firsts:
        if verb in ("signal", "await") and each in none or verb == "await" and each in signals and name != "c11":
            return f"{verb} of {each}"
    return None


def program_fault(source, text):
    steps = order_reference.read(text.encode())
    sites = {race.marked.step.site for race in order_reference.races(order_reference.mark(steps)) if race.marked.step.verb != "reuse"}
    if sites != marked(source, "UNORDERED"):
        return f"unordered at {sorted(sites)}, not {sorted(marked(source, 'UNORDERED'))}"
    if early_sites(text) != marked(source, "EARLY"):
        return f"given to a new use before it was ordered: {sorted(early_sites(text))}, not {sorted(marked(source, 'EARLY'))}"
    starts = sum(step.verb == "start" for step in steps)
    if starts != STARTS.get(source.stem, starts):
        return f"{starts} starts"
    return objects_fault(source.stem, steps)


# ---- Runs ----


def record_trace(folder, nth, program, *options):
    """What the recorder says, and the text of the trace. Each second one is recorded in the binary form."""
    trace, form = folder / f"{program.name}.{nth}.trace", "4" if nth in range(1, RUNS, 2) else "3"
    done = command([RUN, "-q", "-o", trace, "--trace", form, *options, program])
    text = text_in(trace, form)
    trace.unlink()
    return done, text


@functools.cache
def knows_reuses():
    """Whether the program that is there reports memory that is given back too early."""
    trace = b"eraser trace 3\nt1 start t2\nt2 write 0x1000\nt1 reuse 0x1000 4\nend\n"
    return b"unordered: t1 reuse " in analysis_tests.run(["--analysis", "happens-before", "-"], trace)[0]


def reuse_fault(source, text):
    """Each reuse that is too early has a line for each page that is in use, with its site if it has one, and the reason for it is an access with a mark."""
    report = analysis_tests.run(["--analysis", "happens-before", "--explain", "-"], text.encode())[0].decode()
    lines, found = text.splitlines(), []
    for line, thread, address, size, site, reason in re.findall(r"^line (\d+): unordered: (\S+) reuse (0x[0-9a-f]+) (\d+)(?: at (\S+))?\n  unordered with: line (\d+), ", report, re.M):
        found.append((int(line), thread, int(address, 16), int(size)))
        if [site] != (lines[int(line) - 1].split()[4:] or [""]):
            return f"line {line} at {site!r}, and the trace has {lines[int(line) - 1]!r}"
        if lines[int(reason) - 1].split()[-1] not in marked(source, "EARLY"):
            return f"line {line} for the reason {lines[int(reason) - 1]!r}"
    wanted = [(early.step.line, early.step.thread, 4 * early.words.start, 4 * len(early.words)) for early in early_reuses(text) if early.is_reported]
    return f"reuses {found}, not {wanted}" if found != wanted or report.count(" reuse ") != len(wanted) else None


def analysis_fault(source, text):
    """The program reports the lines that are marked, and of a short trace each byte is as it should be."""
    found = analysis_tests.run(["--analysis", "happens-before", "-"], text.encode())
    sites = set(re.findall(r": unordered: .* at (\S+), holds", found[0].decode()))
    if found[1] or sites != marked(source, "UNORDERED"):
        return f"reported at {sorted(sites)}, {found[1]}"
    if len(text) < SHORT and found != analysis_tests.expected(text.encode(), None, "happens-before"):
        return f"reported {found}"
    return reuse_fault(source, text) if knows_reuses() else None


def run_often(folder, findings, program, source):
    for nth in range(RUNS):
        done, text = record_trace(folder, nth, program, "--order")
        fault = f"{done}" if done.returncode or done.stderr else order_fault(text) or program_fault(source, text) or analysis_fault(source, text)
        findings.check(f"{program.name} with --order, run {nth}", fault is None, fault)


def build_one(folder, findings, job):
    program, done = build(folder, *job)
    findings.check(f"{program.name} is built", done.returncode == 0 and done.stderr == "", done.stderr)
    return program


def order_programs(folder, findings, pool):
    sources = sorted((SOURCES / "order").glob("*.c*"))
    findings.check("each program has its objects", [source.stem for source in sources] == sorted(OBJECTS), f"{sources}")
    jobs = [(source, compiler, level) for source in sources for compiler in ("gcc", "clang") for level in LEVELS]
    made = list(pool.map(lambda job: build_one(folder, findings, job), jobs))
    for run in [pool.submit(run_often, folder, findings, program, job[0]) for job, program in zip(jobs, made)]:
        run.result()
    return made


def run_other(folder, findings, source):
    """A program that is recorded without order elsewhere: its trace has the same form."""
    program = build_one(folder, findings, (source, "gcc", "-O0"))
    done, text = record_trace(folder, 0, program, "--order")
    fault = f"{done}" if done.returncode != record_tests.STATUS.get(source.stem, 0) else order_fault(text)
    early = early_sites(text) if not fault else set()
    fault = fault or (f"given to a new use before it was ordered: {sorted(early)}" if early else None)
    findings.check(f"{program.name} with --order", fault is None, fault)


def other_programs(folder, findings, pool):
    sources = [source for source in sorted(SOURCES.glob("*.c*")) if source.stem not in OTHERS]
    for run in [pool.submit(run_other, folder, findings, source) for source in sources]:
        run.result()


def local_memory(folder, findings):
    """Thread-local memory of a library that was loaded later is not given to a new use before its thread has ended."""
    parts = [build_one(folder, findings, (SOURCES / "local" / name, "gcc", "-O0")) for name in ("host.c", "plugin.c")]
    trace = folder / "local.trace"
    for nth in range(RUNS):
        done = command([RUN, "-q", "-o", trace, "--order", *parts])
        text = trace.read_text()
        fault = f"{done}" if done.returncode or done.stderr else order_fault(text)
        has_words = len(set(re.findall(r"write (\S+) plugin\.c:8\n", text))) >= 100
        early = early_sites(text)
        findings.check(f"thread-local memory of a library that was loaded later, run {nth}", not fault and has_words and not early, f"{fault} {early}")


def build_late(folder, findings):
    """The environment in which some threads are late."""
    built = command(["gcc", "-shared", "-fPIC", *record_tests.WARNINGS, SOURCES / "parted/late.c", "-o", folder / "late.so"])
    findings.check("late.c is built", built.returncode == 0 and built.stderr == "", built.stderr)
    return {**os.environ, "LD_PRELOAD": str(folder / "late.so")}


def record_late(folder, settings, *words):
    """The text of a trace with threads that are late, and what is wrong with it, or None."""
    done = command([RUN, "-q", "-o", folder / "parted.trace", "--order", *words], env=settings)
    text = (folder / "parted.trace").read_text()
    return text, f"{done}" if done.returncode or done.stderr else order_fault(text)


def last_holder(folder, findings, settings):
    """Whoever destroys an exception comes after all who have let it go, also if it began to let it go before them."""
    for compiler in ("gcc", "clang"):
        program = build_one(folder, findings, (SOURCES / "parted/holds.cpp", compiler, "-O2"))
        text, fault = record_late(folder, settings, program)
        has_looked = re.search(r"^t1 read \S+ holds.cpp:33$", text, re.M)
        findings.check(f"{program.name} with --order", not fault and has_looked and not early_sites(text), f"{fault} {has_looked} {early_sites(text)}")


def late_leaver(folder, findings, settings):
    """Whoever leaves a barrier late comes after all who had arrived, also if by then the barrier was destroyed and its memory has another use."""
    source = SOURCES / "parted/leaves.c"
    site, = marked(source, "LATE")
    for compiler in ("gcc", "clang"):
        program = build_one(folder, findings, (source, compiler, "-O2"))
        for words in ([], ["anew"]):
            text, fault = record_late(folder, settings, program, *words)
            has_left = re.search(rf"^t2 write \S+ {re.escape(site)}$", text, re.M)
            fault = fault or analysis_fault(source, text)
            findings.check(f"{program.name} {words} with --order", not fault and has_left, f"{fault} {has_left}")


def openmp(folder, findings):
    """What OpenMP orders, as gcc has it, and the locks that its critical sections are."""
    source = SOURCES / "openmp/regions.c"
    for level in LEVELS:
        program = folder / f"regions{level}"
        built = command(["gcc", "-g", "-fsanitize=thread", "-std=gnu11", *record_tests.WARNINGS, "-fopenmp", level, source, "-o", program])
        findings.check(f"{program.name} is built", built.returncode == 0 and built.stderr == "", built.stderr)
        for nth in range(RUNS):
            done, text = record_trace(folder, nth, program, "--order")
            fault = f"{done}" if done.returncode or done.stderr else order_fault(text) or analysis_fault(source, text)
            missing = {"omp_critical", ".gomp_critical_user_named"} - set(re.findall(r"^t\d+ lock (\S+)$", text, re.M))
            findings.check(f"{program.name} with --order, run {nth}", not fault and not missing, f"{fault} {missing}")
        done = command([RUN, "-q", "--report", "-", program])
        raced = record_tests.races(done.stdout) & marked(source, "LOCKED")
        findings.check(f"{program.name} by locks", done.returncode == 0 and ": race: " in done.stdout and not raced, f"{done.returncode} {done.stderr} {raced}")


# ---- The option ----


def without_order(folder, findings, program):
    """Without the option a trace has no line of order, and the same head and end."""
    done, text = record_trace(folder, "plain", program)
    verbs = {line.split()[1] for line in text.splitlines()[1:-1] if not line.startswith("#")}
    is_plain = text.startswith("eraser trace 3\n") and text.endswith("none lost\nend\n") and verbs and not verbs & set(ORDER_VERBS)
    findings.check("a trace without --order", done.returncode == 0 and is_plain, f"{done} {verbs} {text[-60:]!r}")


def with_a_limit(folder, findings):
    """A trace that has lost something has no `end`."""
    program = build_one(folder, findings, (SOURCES / "busy.c", "gcc", "-O2"))
    trace = folder / "limited.trace"
    done = command([RUN, "-q", "-o", trace, "--order", "--limit", "100000", program, "300000"])
    text = trace.read_text()
    is_cut = re.search(r"\n# incomplete: \d+ events, [1-9]\d* lost\n\Z", text) and len(text) <= 100000
    findings.check("a limit with --order", done.returncode == 0 and is_cut and order_reference.read(text.encode()), f"{done} {text[-100:]}")
    done = command([RUN, "-q", "-o", trace, "--order", "--strict", "--exit-status", "report", "--limit", "100000", program, "300000"])
    is_told = re.search(r"^line \d+: no end$", done.stderr, re.M) and "steps" not in done.stderr
    findings.check("a limit with --order and --strict", done.returncode == 2 and is_told, f"{done}")
    # A replay that says with which words it was called.
    replay = folder / "replay"
    replay.write_text('#!/bin/sh\ncat > /dev/null\necho "$@"\n')
    replay.chmod(0o755)
    done = command([RUN, "-q", "--strict", "--until-fault", "--report", folder / "called", program, "300"], env={**os.environ, "ERASER": str(replay)})
    words = (folder / "called").read_text().split() if (folder / "called").exists() else []
    findings.check("--strict and --until-fault are passed on", done.returncode == 0 and words[0] == "replay" and words[-3:] == ["--strict", "--until-fault", "-"], f"{done} {words}")


def few_awaits(folder, findings, program):
    """A thread that looks at a flag until it is raised has one await of it."""
    _, text = record_trace(folder, "few", program, "--order")
    awaits = re.findall(r"^t\d+ await flag_\d+$", text, re.M)
    findings.check("a thread that looks at a flag again and again", len(awaits) == len(set(awaits)) == 4, f"{awaits}")


def replayed(folder, findings, program):
    """A replay reads text 3, and reports by the lockset rule as it would without what orders threads."""
    trace = folder / "order.trace"
    done = command([RUN, "-o", trace, "--order", "--replay", program])
    wanted = reference.replay(trace.read_bytes())
    findings.check("the report of a program that is recorded with --order", done.returncode == 0 and done.stderr.startswith(wanted[0]), f"{done} {wanted}")
    found = command([record_tests.TOP / "eraser", "replay", trace])
    findings.check("the replay of its trace", (found.stdout, found.stderr, found.returncode) == wanted, f"{found} {wanted}")


def analysed(folder, findings, program):
    """`--analysis` records what orders threads, and reports by it."""
    wanted = marked(SOURCES / "order/message.c", "UNORDERED")
    done = command([RUN, "-q", "--report", "-", "--analysis", "happens-before", program])
    sites = set(re.findall(r": unordered: .* at (\S+), holds", done.stdout))
    findings.check("record/run --analysis happens-before", (done.returncode, done.stderr, sites) == (0, "", wanted) and ": race: " not in done.stdout, f"{done}")
    done = command([RUN, "-q", "--report", "-", "--analysis", "happens-before", "--exit-status", "report", program])
    findings.check("record/run --analysis happens-before --exit-status report", done.returncode == 1, f"{done}")
    done = command([RUN, "-q", "--report", "-", "--analysis", "both", "--exit-status", "report", program])
    sites = set(re.findall(r": unordered: .* at (\S+), holds", done.stdout))
    totals = re.findall(r"^steps \d+, (races|unordered) \d+, suppressed 0, refused 0$", done.stdout, re.M)
    findings.check("record/run --analysis both", (done.returncode, sites, totals) == (1, wanted, ["races", "unordered"]) and ": race: " in done.stdout, f"{done}")
    trace = folder / "analysed.trace"
    done = command([RUN, "-q", "-o", trace, "--report", "-", "--analysis", "lockset", program])
    has_order = re.search(rf"^t\d+ ({'|'.join(ORDER_VERBS)}) ", trace.read_text(), re.M)
    findings.check("record/run --analysis lockset", done.returncode == 0 and not has_order and "races" in done.stdout, f"{done}")
    done = command([RUN, "-q", "--report", "-", "--analysis", "both", "--by-site", program])
    parts = [line.split(":")[0] for line in done.stdout.splitlines() if line.startswith(("races in this run", "no common lock"))]
    findings.check("record/run --analysis both --by-site", (done.returncode, parts) == (0, ["races in this run", "no common lock"]), f"{done}")
    done = command([RUN, "-q", "--report", "-", "--analysis", "happens-before", "--explain", program])
    findings.check("record/run --analysis happens-before --explain", done.returncode == 0 and "\n  unordered with: line " in done.stdout, f"{done}")
    for analysis in ("happens-before", "both"):
        for more, part in ((["--by-site"], "words "), (["--format", "json"], '"analysis":"happens-before"'), (["--strict"], ", unordered ")):
            done = command([RUN, "-q", "--report", "-", "--analysis", analysis, *more, program])
            findings.check(f"record/run --analysis {analysis} {more}", (done.returncode, done.stderr) == (0, "") and part in done.stdout, f"{done}")
    done = command([RUN, "--analysis", "neither", program])
    findings.check("record/run with another analysis", (done.returncode, done.stdout) == (125, "") and "'neither'" in done.stderr, f"{done}")


def tests(record):
    findings = Findings(record)
    command([record_tests.TOP / "record/build"])
    with tempfile.TemporaryDirectory() as name, concurrent.futures.ThreadPoolExecutor(WORKERS) as pool:
        folder = pathlib.Path(name)
        made = {program.name: program for program in order_programs(folder, findings, pool)}
        other_programs(folder, findings, pool)
        local_memory(folder, findings)
        settings = build_late(folder, findings)
        last_holder(folder, findings, settings)
        late_leaver(folder, findings, settings)
        openmp(folder, findings)
        without_order(folder, findings, made["message-gcc-O0"])
        with_a_limit(folder, findings)
        few_awaits(folder, findings, made["message-gcc-O0"])
        replayed(folder, findings, made["message-gcc-O0"])
        analysed(folder, findings, made["message-gcc-O0"])


if __name__ == "__main__":
    run_alone(tests)
