"""Records the programs of tests/record, and compares what record/run and the replay say of them.

A comment on a line of a program says what is expected there:
- RACE: a race is reported at this line. The reported sites are these lines and no others
- NEVER: the trace has no access of this line
- READS n, WRITES n: the trace has so many words read or written at this line
- GIVES: memory gets a new use by a call on this line, and the trace names it
"""

import concurrent.futures
import json
import os
import pathlib
import re
import select
import shlex
import shutil
import signal
import subprocess
import tempfile
import threading
import time

import trace4
from alone import PATIENCE, command, program, run_alone

TOP = pathlib.Path(__file__).resolve().parent.parent
SOURCES = TOP / "tests/record"
RUN = TOP / "record/run"
# Each built program is run so often, and so many at a time.
RUNS = int(os.environ.get("RECORD_RUNS", 20))
WORKERS = 4
LEVELS = ("-O0", "-O2")
WARNINGS = ["-Wall", "-Wextra"]
# What a program prints, and its exit status if it is not 0.
PRINTED = {
    "counter": "30\n",
    "queue": "50\n",
    "thread_pool": "same block 1\n",
    "handover": "malloc 1 realloc 1 delete 1 munmap 1 stack 1 own stack 1\n",
    "recycle": "7200\n",
    "operators": "12 operators, some with the same block\n",
    "replaced": "taken 4, given back 4\n",
}
STATUS = {"counter": 3}
# How ends.c can end, with the exit status that is passed on.
ENDS = {"abort": 134, "kill": 137, "fault": 139, "_exit": 5, "exit": 6, "exec": 7}


class Findings:
    """What failed, collected by any worker."""

    def __init__(self, record):
        self.record = record
        self.lock = threading.Lock()

    def check(self, name, is_right, detail=""):
        with self.lock:
            self.record(f"recorder: {name}", is_right, detail)


# ---- Expectations ----


def marked(source, mark):
    """The sites of a source's lines that have a mark."""
    lines = source.read_text().splitlines()
    return {f"{source.name}:{number}" for number, line in enumerate(lines, 1) if re.search(rf"/[/*].*\b{mark}\b", line)}


def counts(source):
    """How many words each marked line reads and writes."""
    found = {}
    for number, line in enumerate(source.read_text().splitlines(), 1):
        for verb, mark in (("read", "READS"), ("write", "WRITES")):
            match = re.search(rf"\b{mark} (\d+)", line)
            if match:
                found[verb, f"{source.name}:{number}"] = int(match[1])
    return found


def races(report):
    return {match[1] for match in re.finditer(r"^line \d+: race: \S+ \S+ \S+ at (\S+), holds", report, re.M)}


def lock_fault(trace):
    """The first line at which a lock is taken that another thread holds, or released by a thread that doesn't hold it."""
    holders = {}
    for number, line in enumerate(trace.splitlines(), 1):
        words = line.split()
        if len(words) < 3 or words[1] not in ("lock", "unlock", "rlock", "runlock"):
            continue
        thread, verb, lock = words
        held = holders.setdefault(lock, {})
        if verb == "lock" and held or verb == "rlock" and (thread in held or "lock" in held.values()):
            return f"line {number}: {line}"
        if verb in ("lock", "rlock"):
            held[thread] = verb
        elif held.pop(thread, None) != verb.removeprefix("run").removeprefix("un") and held.get(thread) != "r" + verb[3:]:
            if verb == "unlock":
                return f"line {number}: {line}"
    return None


# ---- Building ----


def build(folder, source, compiler, level):
    """Builds a program as a user would: for gcc as for ThreadSanitizer, for clang by the wrapper."""
    program = folder / f"{source.stem}-{compiler}{level}"
    is_cpp = source.suffix == ".cpp"
    if compiler == "gcc":
        words = ["g++" if is_cpp else "gcc", "-g", "-fsanitize=thread"]
        settings = os.environ
    else:
        words = [TOP / "record" / ("c++" if is_cpp else "cc")]
        settings = {**os.environ, "ERASER_CC": "clang", "ERASER_CXX": "clang++"}
    words += ["-std=c++17" if is_cpp else "-std=gnu11", level, *WARNINGS]
    words += ["-shared", "-fPIC"] if source.stem == "plugin" else []
    return program, command([*words, source, "-o", program], env=settings)


def build_all(folder, findings):
    """Every program as two compilers make it at two levels."""
    made = {}
    sources = sorted(SOURCES.glob("*.c")) + sorted(SOURCES.glob("*.cpp"))
    jobs = [(source, compiler, level) for source in sources for compiler in ("gcc", "clang") for level in LEVELS]
    with concurrent.futures.ThreadPoolExecutor(WORKERS) as pool:
        for job, (program, done) in zip(jobs, pool.map(lambda job: build(folder, *job), jobs)):
            findings.check(f"{program.name} is built", done.returncode == 0 and done.stderr == "", done.stderr)
            made[job] = program
    return made


# ---- Runs ----


class Recording:
    """One run of a program under record/run, with its trace, in one of the two forms, and its report."""

    def __init__(self, folder, nth, program, *words, form="3"):
        trace, report = folder / f"{program.name}.{nth}.trace", folder / f"{program.name}.{nth}.report"
        self.done = command([RUN, "-o", trace, "--trace", form, "--replay", "--report", report, program, *words])
        self.trace, self.report = text_in(trace, form), report.read_text()
        trace.unlink()
        report.unlink()

    def fault(self, status, printed, expected, may_lose=False):
        """What is wrong with it, or None."""
        if self.done.returncode != status or printed is not None and self.done.stdout != printed:
            return f"status {self.done.returncode}, printed {self.done.stdout!r}, {self.done.stderr!r}"
        if not re.search(r"^steps .*, refused 0(, lost \d+)?$", self.report, re.M):
            return f"report {self.report!r}"
        if races(self.report) != expected:
            return f"races {sorted(races(self.report))}, expected {sorted(expected)}"
        if not may_lose and not (re.search(r"^record: \d+ events recorded, 0 lost$", self.done.stderr, re.M) and self.trace.endswith("none lost\nend\n")):
            return f"lost: {self.done.stderr!r}"
        return lock_fault(self.trace)


def text_in(trace, form):
    """The text of a trace that was recorded in this form."""
    data = trace.read_bytes()
    return trace4.text_of(data).decode() if trace4.is_binary(data) == (form == "4") else f"not a trace {form}"


def run_often(folder, findings, program, source, words=(), status=0, printed=None, runs=RUNS, extra=None):
    expected = marked(source, "RACE")
    for nth in range(runs):
        name = f"{program.name} {' '.join(words)}run {nth}" if not words else f"{program.name} {words[-1]} run {nth}"
        try:
            recording = Recording(folder, f"{'-'.join(pathlib.Path(word).name for word in words)}{nth}", program, *words, form="34"[nth % 2])
            fault = recording.fault(status, printed, expected, may_lose=source.stem == "jumps") or (extra and extra(recording.trace))
        except subprocess.TimeoutExpired:
            fault = "hung"
        findings.check(name, fault is None, fault)


# ---- What single programs must show besides ----


def sizes_fault(trace):
    """Whether each line has as many words as it says. A compiler may leave a copy of a few words to single accesses, but not others."""
    wanted = counts(SOURCES / "sizes.c")
    found = {key: len(re.findall(rf"^t1 {key[0]} \S+ {re.escape(key[1])}$", trace, re.M)) for key in wanted}
    wrong = {key: (found[key], wanted[key]) for key in wanted if found[key] != wanted[key]}
    return f"words {wrong}" if wrong else None


def never_fault(trace):
    sites = marked(SOURCES / "forks.c", "NEVER")
    found = [line for line in trace.splitlines() if line.split()[-1] in sites]
    return f"{found[0]}" if found or not sites else None


def lives_fault(trace):
    locks = list(dict.fromkeys(re.findall(r"^t1 lock (\S+)$", trace, re.M)))
    return None if locks == ["again", "again:2", "mutex-1", "mutex-2"] else f"locks {locks}"


def table_fault(trace):
    """A lock that a thread holds twice in read mode is acquired once."""
    taken = len(re.findall(r"^t\d+ rlock other$", trace, re.M))
    return None if taken == 3 else f"{taken} acquires of other"


def cancelled_fault(trace):
    return None if "\n# t2 is named waiter\n" in trace else "no name of the thread"


def gives_fault(trace):
    """The places of calls that give memory back. What the C library gives back has none."""
    named = re.findall(r"^t1 reuse \S+ \d+(?: (\S+))?$", trace, re.M)
    is_right = set(named) == {"", *marked(SOURCES / "gives.cpp", "GIVES")} and len(named) == len(re.findall(r"^t1 reuse ", trace, re.M))
    return None if is_right else f"named {sorted(set(named))}"


EXTRA = {"gives": gives_fault, "sizes": sizes_fault, "forks": never_fault, "lives": lives_fault, "table": table_fault, "cancelled": cancelled_fault}


def programs(folder, findings, made):
    jobs = []
    for (source, compiler, level), program in made.items():
        if source.stem == "ends":
            jobs += [(program, source, (end,), status, None, max(1, RUNS // 5)) for end, status in ENDS.items()]
        elif source.stem == "loads":
            plugin = SOURCES / "plugin.c"
            jobs.append((program, plugin, (str(made[plugin, compiler, level]),), 0, None, RUNS))
        elif source.stem not in ("plugin", "busy", "empty"):
            jobs.append((program, source, (), STATUS.get(source.stem, 0), PRINTED.get(source.stem), RUNS))
    with concurrent.futures.ThreadPoolExecutor(WORKERS) as pool:
        runs = [pool.submit(run_often, folder, findings, *job[:5], runs=job[5], extra=EXTRA.get(job[1].stem)) for job in jobs]
        for run in runs:
            run.result()


# ---- record/run itself ----


def ways_to_use(folder, findings, counter, queue):
    """Its options, and what it passes on."""
    trace = folder / "paths.trace"
    for more in ([], ["--order"]):
        found = command([RUN, "-o", trace, "--replay", "--paths", *more, queue])
        kept = re.search(r"^steps .* refused 0$", found.stderr, re.M) and " /usr/include/c++/" in trace.read_text()
        findings.check(f"paths with characters that no name may have {more}", kept, f"{found}")
    found = command([RUN, counter])
    is_behind = re.search(r"\Aline \d+: race: .* at counter\.c:(?s:.*)\nsteps .*\nrecord: \d+ events recorded, 0 lost, \d+ repeats left out\n\Z", found.stderr)
    findings.check("the report is on standard error, and standard output is the program's", found.stdout == "30\n" and is_behind, f"{found}")
    found = command([RUN, "--report", "-", counter])
    is_behind = re.search(r"\A30\nline \d+: race: .* at counter\.c:(?s:.*)\nsteps .*\n\Z", found.stdout)
    findings.check("a report on standard output follows what the program prints", is_behind and re.fullmatch(r"record: .*\n", found.stderr), f"{found}")
    findings.check("the exit status of the program", command([RUN, "--exit-status", "program", counter]).returncode == 3)
    trace = folder / "kept.trace"
    found = command([RUN, "-o", trace, counter])
    findings.check("a trace alone", (found.stdout, found.returncode) == ("30\n", 3), f"{found}")
    replayed = command([TOP / "eraser", "replay", trace])
    findings.check("its replay", replayed.returncode == 1 and races(replayed.stdout) == marked(SOURCES / "counter.c", "RACE"), f"{replayed}")
    rules = folder / "rules"
    rules.write_text("".join(f"site {site}\n" for site in marked(SOURCES / "counter.c", "RACE")))
    found = command([RUN, "--suppress", rules, counter])
    findings.check("suppressions", found.returncode == 3 and "suppression 1: 1\n" in found.stderr and ", races 0," in found.stderr, f"{found}")
    found = command([RUN, "--suppress", folder / "nothing", "--exit-status", "report", queue])
    findings.check("rules that aren't there", found.returncode == 4 and "cannot open suppressions\n" in found.stderr, f"{found}")
    queue_rules = folder / "queue.rules"
    queue_rules.write_text("".join(f"site {site}\n" for site in marked(SOURCES / "queue.cpp", "RACE")))
    found = command([RUN, "--suppress", queue_rules, "--exit-status", "report", queue])
    findings.check("the exit status of a report without the races that rules take", found.returncode == 0 and ", races 0," in found.stderr, f"{found}")
    found = command([RUN, "--explain", "--suppress", rules, counter])
    findings.check("suppressions with --explain", found.returncode == 3 and "suppression 1: 1\n" in found.stderr, f"{found}")
    for rule, taken in (("function work", 1), ("variable bare", 1), ("frame counter.c:*", 1), ("function main", 0), ("variable guarded", 0)):
        facts = folder / "facts.rules"
        facts.write_text(f"eraser suppressions 2\n\n  {rule}\n")
        for words in ([], ["-o", folder / "facts.trace"], ["--by-site"]):
            found = command([RUN, "--suppress", facts, *words, counter])
            right = f", suppressed {taken}, " in found.stderr and f"races {1 - taken}," in found.stderr
            findings.check(f"suppressions of what the trace says: {rule} {words}", found.returncode == 3 and right, f"{found}")
    # Where the header stands, as docs/FORMATS.md says, and whether rules behind it ask what a trace 4 says.
    for text, asks in (
        ("# A comment.\n#\n\neraser suppressions 2\n# variable\nfunction work\n", True),
        (" \t \n\teraser  suppressions\t2 \nframe *", True),
        ("#eraser suppressions 2\nfunction work\n", False),
        ("site a\neraser suppressions 2\nfunction work\n", False),
        ("eraser suppressions 2\n# function work\nsite function\n", False),
    ):
        facts.write_text(text)
        found = command([RUN, "-o", trace, "--suppress", facts, counter])
        is_binary = not trace.read_bytes().startswith(b"eraser trace 3\n")
        findings.check(f"what rules ask of a recording: {text!r}", is_binary == asks, f"{found}")
    facts.write_text("eraser suppressions 2\nfunction work\n")
    found = command([RUN, "-o", trace, "--until-fault", "--suppress", facts, counter])
    is_text = trace.read_bytes().startswith(b"eraser trace 3\n")
    findings.check("rules that take nothing ask nothing of a recording", is_text and ", suppressed 0, " in found.stderr and "races 1," in found.stderr, f"{found}")
    # Nor is a trace kept for them: a limit is of one that is.
    for words in (["--until-fault"], ["--trace", "3"]):
        found = command([RUN, "--limit", "1000", *words, "--suppress", facts, counter])
        findings.check(f"no trace is kept for rules that take nothing {words}", "nothing is kept, and all is recorded\n" in found.stderr, f"{found}")
    found = command([RUN, "--trace", "3", "--suppress", facts, counter])
    findings.check("a text says nothing of the program", ", suppressed 0, " in found.stderr and "races 1," in found.stderr, f"{found}")
    facts.write_text("eraser suppressions 2\nfunction\n")
    found = command([RUN, "--suppress", facts, "--exit-status", "report", queue])
    findings.check("a rule with no pattern", found.returncode == 2 and "missing operand" in found.stderr, f"{found}")
    found = command([RUN, "--explain", counter])
    findings.check("reasons of a race", re.search(r"^line .* race: .*\n  first: line \d+, t\d ", found.stderr, re.M), f"{found}")
    found = command([RUN, "--explain", "--format", "json", "--report", "-", counter])
    document = json.loads(found.stdout.removeprefix("30\n") or "null")
    sites = {race["site"] for race in document["races"]} if document else set()
    findings.check("a report as JSON", found.returncode == 3 and sites == marked(SOURCES / "counter.c", "RACE"), f"{found}")
    found = command([RUN, "--format", "html", "--report", "-", counter])
    block = re.search(r'id="report">\n(.*?)</script>', found.stdout, re.S)
    sites = {race["site"] for race in json.loads(block[1])["races"]} if block else set()
    findings.check("a report as a page", found.returncode == 3 and sites == marked(SOURCES / "counter.c", "RACE"), f"{found}")
    found = command([RUN, "-q", "--paths", counter])
    findings.check("sites with paths, quietly", f"{SOURCES}/counter.c:" in found.stderr and "record:" not in found.stderr, f"{found}")
    found = command([RUN, "sh", "-c", 'cat; echo "$0" "$@" >&2; exit 9', "one", "two words"], input="given\n")
    passed_on = found.stdout == "given\n" and found.stderr.startswith("one two words\n") and found.returncode == 9
    findings.check("arguments, streams and status of any program", passed_on, f"{found}")
    findings.check("a program without the library has no report", "nothing was recorded" in found.stderr and "steps" not in found.stderr, f"{found}")
    found = command([RUN, "-q", "-o", trace, "sh", "-c", f"{counter}; {counter}; exit 0"])
    findings.check("two programs, and room for one trace", "record: 1 further program" in found.stderr and found.stdout == "30\n30\n", f"{found}")
    findings.check("a program that is not there", command([RUN, folder / "nothing"]).returncode == 127)
    findings.check("a program that can't be started", command([RUN, folder]).returncode == 126)
    for words in (["--wrong"], ["--limit", "10x"], ["--limit", "-1"], ["--limit", ""], ["--exit-status", "other"], ["--format", "xml"], ["--format", "json", "--by-site"]):
        found = command([RUN, *words, counter])
        findings.check(f"wrong options {words}", (found.stdout, found.returncode) == ("", 125) and "record: --" in found.stderr, f"{found}")
    found = command([RUN])
    findings.check("no program", (found.stdout, found.returncode) == ("", 125) and found.stderr.startswith("Usage: record/run "), f"{found}")
    found = command([RUN, "--help"])
    findings.check("help", found.stdout.startswith("Usage: record/run ") and (found.stderr, found.returncode) == ("", 0), f"{found}")
    found = command(["sh", "-c", '"$@" >/dev/full', "sh", RUN, "--help"])
    findings.check("help that can't be written", found.returncode == 125 and "cannot write standard output" in found.stderr, f"{found}")
    found = command([RUN, "--wrong"])
    findings.check("a wrong option's name", found.stderr.startswith("record/run: ") and "--wrong" in found.stderr.splitlines()[0], f"{found}")
    # Each of these options wants a report, also if the trace is kept.
    for words in (["--replay"], ["--suppress", rules], ["--explain"], ["--format", "text"], ["--exit-status", "report"]):
        found = command([RUN, "-o", trace, *words, counter])
        findings.check(f"a trace that is kept, and its report by {words[0]}", found.stdout == "30\n" and "\nsteps " in found.stderr and found.returncode == 3, f"{found}")
    # A report with places of reasons is made of the whole file.
    for words in (["--by-site"], ["--analysis", "both", "--by-site"], ["--format", "sarif"], ["--format", "json", "--explain"], ["--format", "html"]):
        found = command([RUN, "-q", "-o", trace, "--replay", *words, counter])
        replayed = command([TOP / "eraser", "replay", *words, trace])
        is_whole = found.stderr == replayed.stdout and len(re.findall(r'^    at counter.c|"relatedLocations":.*"uri":"counter.c"|"label":.*"site":"counter.c', replayed.stdout, re.M)) > 0
        findings.check(f"a trace that is kept, and the places of its report with {words}", is_whole and (found.stdout, found.returncode) == ("30\n", 3), f"{found} {replayed}")
    for analysis in ("lockset", "happens-before", "both"):
        for words in (["--by-site"], ["--format", "json"], ["--format", "sarif"], ["--format", "html"], ["--strict"]):
            found = command([RUN, "-q", "-o", trace, "--replay", "--analysis", analysis, *words, counter])
            replayed = command([TOP / "eraser", "replay", "--analysis", analysis, *words, trace])
            is_right = (found.stderr, found.returncode, replayed.returncode) == (replayed.stdout, 3, 1)
            findings.check(f"a report by {analysis} with {words}", is_right, f"{found} {replayed}")
    report = folder / "kept.report"
    found = command([RUN, "-o", trace, "--report", report, counter])
    kept = "\nsteps " in report.read_text() and re.fullmatch(r"record: \d+ events recorded, 0 lost\n", found.stderr)
    findings.check("a trace and a report that are kept", (found.stdout, found.returncode) == ("30\n", 3) and kept, f"{found}")
    findings.check("a trace that can't be written", command([RUN, "-o", folder / "no/where", counter]).returncode == 125)
    found = command([RUN, "-o", "/dev/full", counter])
    findings.check("a full disk", found.returncode == 125 and "cannot write /dev/full" in found.stderr, f"{found}")
    found = command([RUN, "-o", "/dev/full", "sh", "-c", "exit 9"])
    findings.check("a full disk, and a program that is not recorded", found.returncode == 125 and "cannot write /dev/full" in found.stderr, f"{found}")
    found = command([RUN, "-o", "/dev/full", "--report", report, counter])
    findings.check("a full disk, and a report", found.returncode == 125 and "\nsteps " in report.read_text(), f"{found} {report.read_text()}")
    for more in ([], ["--exit-status", "report"]):
        found = command(["sh", "-c", '"$@" 2>/dev/full', "sh", RUN, *more, counter])
        findings.check(f"a standard error that can't be written {more}", (found.returncode, found.stdout) == (125, "30\n"), f"{found}")
        found = command(["sh", "-c", '"$@" >/dev/full', "sh", RUN, "--report", "-", *more, queue])
        findings.check(f"a standard output that can't be written {more}", found.returncode == 125 and "cannot write standard output" in found.stderr, f"{found}")
        found = command(["sh", "-c", '"$@" 2>&-', "sh", RUN, "-o", trace, "--replay", *more, counter])
        is_alone = trace.read_text().endswith("none lost\nend\n") and ": race: " not in trace.read_text()
        findings.check(f"a standard error that is closed {more}", (found.returncode, found.stdout) == (125, "30\n") and is_alone, f"{found}")


def ways_to_end(folder, made):
    """A run of each row of the table in docs/RECORDING.md: options, the program with its arguments, settings of the environment.

    One row is of a checkout, which `unwritable` sees to.
    """

    def program(name):
        return next(path for (source, compiler, level), path in made.items() if (source.stem, compiler, level) == (name, "gcc", "-O0"))

    right, racy, ends, busy = program("recursive"), program("queue"), program("ends"), program("busy")
    command(["gcc", "-g", SOURCES / "late/host.c", "-o", folder / "host"])
    leaves, plugin = (build(folder, SOURCES / "late" / name, "gcc", "-O0")[0] for name in ("leaves.c", "plugin.c"))
    limited = ["-o", folder / "lost.trace", "--limit", "100000"]
    several = ["--report", f"{folder}/several/"]
    failing, ended = as_script(folder, "failing", "cat >/dev/null; exit 4\n"), as_script(folder, "ended", "cat >/dev/null; kill -TERM $$\n")
    return {
        "wrong options, or a file that can't be opened": (["-o", folder / "no/where"], [right], {}),
        "the replay can't be started": ([], [right], {"ERASER": str(folder / "nothing")}),
        "the program isn't there": ([], [folder / "nothing"], {}),
        "the program can't be executed": ([], [folder], {}),
        "the trace can't be written": (["-o", "/dev/full"], [right], {}),
        "the report can't be written": (["--report", "/dev/full"], [racy], {}),
        "a signal ended the program, here signal 6": ([], [ends, "abort"], {}),
        "the program ended with 2 or more, here with 6": ([], [ends, "exit"], {}),
        "the program ended with 1": ([], ["sh", "-c", f"{right}; exit 1"], {}),
        "the replay failed: 2, 3 or 4, as `eraser replay` has them": ([], [right], {"ERASER": failing}),
        "a signal ended the replay, here signal 15": ([], [right], {"ERASER": ended}),
        "the program is not instrumented": ([], ["true"], {}),
        "no instrumented code ran": ([], [program("empty")], {}),
        "events were lost": (limited, [busy, "3000"], {}),
        "one more instrumented program was started, and `-o FILE` is given": (["-o", folder / "one.trace"], ["sh", "-c", f"{right}; {right}"], {}),
        "`-o FILE` is given, and a forked child goes on after the command's end": (["-o", folder / "left.trace"], [leaves], {}),
        "a program that isn't instrumented loads what is, without `LD_PRELOAD`": ([], ["env", "-u", "LD_PRELOAD", folder / "host", plugin], {}),
        "of several programs one lost events": ([*limited[2:], "-o", f"{folder}/lost/"], ["sh", "-c", f"{right}; {busy} 3000"], {}),
        "of several programs one has a race": (several, ["sh", "-c", f"{right}; {racy}"], {}),
        "of several programs none has a race": (several, ["sh", "-c", f"{right}; {right}"], {}),
        "there is a race": ([], [racy], {}),
        "there is no race": ([], [right], {}),
    }


def exit_statuses(folder, findings, made):
    """Each row of the table of exit statuses, as it is run."""
    section = (TOP / "docs/RECORDING.md").read_text().partition("\n## The exit status\n")[2].partition("\n## ")[0]
    rows = [[cell.strip() for cell in line.strip("|").split(" | ")] for line in section.splitlines() if line.startswith("| ")][1:]
    wanted = ["the recorder can't be built", "125", "125", "`record: cannot write FILE, where the recorder is built`"]
    findings.check("the exit statuses: the row that needs another checkout", wanted in rows, f"{rows}")
    rows = [row for row in rows if row != wanted]
    ways = ways_to_end(folder, made)
    findings.check("the exit statuses: each row has a run", [row[0] for row in rows] == list(ways), f"{rows}")
    for title, by_default, by_report, line in rows:
        options, words, settings = ways[title]
        pattern = re.sub(r"\b(FILE|FOLDER|PROGRAM|REPLAY)\b", r"\\S+", re.sub(r"\bN\b", r"\\d+", re.escape(line.strip("`"))))
        plain, strict = re.fullmatch(r"(\d+)(?:, with `--strict` (\d+))?", by_report).groups()
        ends = ((["--exit-status", "report"], plain), (["--exit-status", "report", "--strict", "-q"], strict or plain), (["--replay"], by_default))
        for more, status in ends:
            found = command([RUN, *more, *options, *words], env={**os.environ, **settings})
            is_said = re.search(rf"^{pattern}$", found.stderr, re.M) or "-q" in more and ("0 lost" in line or "programs recorded" in line) or "--replay" in more
            findings.check(f"the exit status {more}: {title}", str(found.returncode) == status and is_said, f"{found}, not {status} {pattern}")


def workers(folder, findings, program):
    """How many threads replay: as many as are asked for, and by default two if four processors may be used. The report is the same."""
    replay = as_script(folder, "says-words", 'cat >/dev/null; echo "$@"\n')
    for asked in ("1", "2", "16"):
        found = command([RUN, "-q", "--report", "-", "--workers", asked, program], env={**os.environ, "ERASER": replay})
        words = re.findall(r"--workers (\d+)", found.stdout)
        findings.check(f"--workers {asked} is passed on", found.returncode == 3 and words == ([asked] if asked != "1" else []), f"{found}")
        found = command([RUN, "-q", "--report", "-", "--workers", asked, program])
        findings.check(f"the report by --workers {asked}", found.returncode == 3 and races(found.stdout) == marked(SOURCES / "counter.c", "RACE"), f"{found}")
    allowed = sorted(os.sched_getaffinity(0))
    for processors in (allowed[:1], allowed):
        found = command([RUN, "-q", "--report", "-", program], env={**os.environ, "ERASER": replay}, preexec_fn=lambda: os.sched_setaffinity(0, processors))
        is_right = (" --workers 2 " in found.stdout) == (len(processors) >= 4) and found.stdout.startswith("30\nreplay ")
        findings.check(f"the workers of {len(processors)} processors", found.returncode == 3 and is_right, f"{found}")
    for wrong in ("0", "17", "-1", "two", ""):
        found = command([RUN, "--workers", wrong, program])
        wanted = ("", 125, f"record: --workers wants a number from 1 to 16, not '{wrong}'\n")
        findings.check(f"--workers {wrong!r}", (found.stdout, found.returncode, found.stderr) == wanted, f"{found}")


def listed(folder):
    """What the list of a folder says of each file."""
    return dict(line.split(": ", 1) for line in (folder / "list.txt").read_text().splitlines())


def several_programs(folder, findings, made):
    """Each program that a command starts is recorded: one after the other, side by side, in another's place, one by another."""
    right, racy, forking, ends = (made[SOURCES / name, "gcc", "-O0"] for name in ("recursive.cpp", "queue.cpp", "forks.c", "ends.c"))
    place = folder / "eraser.out"
    orders = {
        "one after the other": (f"{right}; {racy}; {right}", {"recursive-gcc-O0", "queue-gcc-O0"}, 1),
        "side by side": (f"{right} & {racy} & {right} & {racy}; wait", {"recursive-gcc-O0", "queue-gcc-O0"}, 2),
        "of which one takes another's place": (f"{ends} exec; exec {racy}", {"ends-gcc-O0", "queue-gcc-O0"}, None),
    }
    for way, (text, wanted, racing) in orders.items():
        found = command([RUN, "sh", "-c", text], cwd=folder)
        has = listed(place)
        names = {name.split("-", 1)[1].removesuffix(".txt") for name in has}
        numbers = sorted(int(name.split("-")[0]) for name in has)
        is_told = all(f"eraser.out/{name}: {says}\n" in found.stderr for name, says in has.items())
        totals = re.search(rf"^record: {len(has)} programs recorded, (\d+) with races; reports in eraser\.out/$", found.stderr, re.M)
        findings.check(f"several programs, {way}", names == wanted and numbers == list(range(1, len(has) + 1)) and is_told and totals, f"{found} {has}")
        findings.check(f"how many have races, {way}", totals and racing in (None, int(totals[1])) and int(totals[1]) == sum(says.endswith(": races") for says in has.values()), f"{has}")
        files = {path.name for path in place.iterdir()}
        findings.check(f"their files, {way}", files == {*has, "list.txt"}, f"{files}")
        for name, says in has.items():
            lines = (place / name).read_text()
            sites = marked(SOURCES / "queue.cpp", "RACE") if "queue" in name else races(lines)
            is_whole = re.search(r"^steps .*, refused 0$", lines, re.M) and races(lines) == sites and bool(sites) == says.endswith(": races")
            findings.check(f"the report {name}, {way}", is_whole and re.match(r"\d+ events, 0 lost: ", says), f"{says} {lines}")
    (place / "mine.txt").write_text("")
    found = command([RUN, "-q", "--report", "-", "sh", "-c", f"{racy}; {right}"], cwd=folder)
    kept = {path.name for path in place.iterdir()} == {"01-queue-gcc-O0.txt", "02-recursive-gcc-O0.txt", "list.txt", "mine.txt"}
    findings.check("the files of the run before are gone, and no other", kept and found.stderr == "" and found.stdout.count("eraser.out/") == 2, f"{found}")
    found = command([RUN, "-o", "traces/", "sh", "-c", f"{right}; {racy}"], cwd=folder)
    has = {name: (folder / "traces" / name).read_text() for name in listed(folder / "traces")}
    is_whole = set(has) == {"01-recursive-gcc-O0.trace", "02-queue-gcc-O0.trace"} and all(text.endswith("none lost\nend\n") for text in has.values())
    findings.check("traces of several programs", is_whole and "record: 2 programs recorded; traces in traces/\n" in found.stderr and "steps" not in found.stderr, f"{found} {set(has)}")
    found = command([RUN, "-q", "-o", "traces/", "--format", "json", "--report", "forms/", "sh", "-c", f"{racy}; {racy}"], cwd=folder)
    documents = [json.loads((folder / "forms" / f"0{number}-queue-gcc-O0.json").read_text()) for number in (1, 2)]
    sites = [{race["site"] for race in document["races"]} for document in documents]
    findings.check("traces and reports of several programs", sites == 2 * [marked(SOURCES / "queue.cpp", "RACE")] and len(listed(folder / "traces")) == 2, f"{found} {sites}")
    found = command([RUN, "-q", "-o", "traces/", "--by-site", "--report", "places/", "sh", "-c", f"{racy}; {racy}"], cwd=folder)
    texts = [(folder / "places" / f"0{number}-queue-gcc-O0.txt").read_text() for number in (1, 2)]
    findings.check("the places of the reports of several traces", all("\n    at queue.cpp:" in text for text in texts), f"{found} {texts}")
    found = command([RUN, "-q", "--report", "one/", racy], cwd=folder)
    findings.check("a folder for the report of one program", list(listed(folder / "one")) == ["01-queue-gcc-O0.txt"], f"{found}")
    found = command([RUN, "--exit-status", "report", "--report", "-", "sh", "-c", f"{forking}; {right}; exit 7"], cwd=folder)
    is_told = "record: the program forked 1 time" in found.stderr and "\neraser.out/02-recursive-gcc-O0.txt: " in found.stdout
    findings.check("several programs, and a status of the command", found.returncode == 7 and is_told, f"{found}")
    many = f"i=0; while [ $i -lt 40 ]; do {right} & i=$((i+1)); done; wait"
    found = command([RUN, "-q", "--exit-status", "report", "--report", "many/", "sh", "-c", many], cwd=folder)
    findings.check("40 programs side by side", found.returncode == 0 and len(listed(folder / "many")) == 40, f"{found}")
    (folder / "taken").mkdir()
    (folder / "taken/eraser.out").write_text("")
    found = command([RUN, "--exit-status", "report", "sh", "-c", f"{right}; {right}"], cwd=folder / "taken")
    is_told = "record: cannot write eraser.out: Not a directory\n" in found.stderr and "record: 1 further program" in found.stderr
    findings.check("a file in the place of the folder", found.returncode == 125 and is_told, f"{found}")
    found = command([RUN, "--report", "taken/eraser.out/", racy], cwd=folder)
    findings.check("a file in the place of a folder that is named", (found.returncode, found.stdout) == (125, "") and "Not a directory" in found.stderr, f"{found}")


# ---- Several runs, and waits at random ----


def merged(text):
    """The head of a text of several runs, and its rows."""
    head, *rows = text.splitlines() or [""]
    return head, [row.split() for row in rows]


def several_runs(folder, findings, made):
    """A command that is run several times has a report of each run, and one text says of each site in how many runs it was reported."""
    right, racy, ends, busy = (made[SOURCES / name, "gcc", "-O0"] for name in ("recursive.cpp", "queue.cpp", "ends.c", "busy.c"))
    site = next(iter(marked(SOURCES / "queue.cpp", "RACE")))
    # What a command does in its nth run.
    nth = folder / "nth"
    turns = as_script(folder, "turns", f'n=$(cat {nth}); echo $((n+1)) >{nth}; shift $n; exec "$1"\n')
    both = as_script(folder, "both", f"{racy}; {right}\n")
    for analysis, more, columns in (("lockset", [], ["3"]), ("happens-before", [], ["3"]), ("both", [], ["3", "3"]), ("both", ["--by-site"], ["3", "3"]), ("lockset", ["--by-site"], ["3"])):
        nth.write_text("0")
        options = ["-q", "--runs", "5", "--analysis", analysis, *more, "--report", "runs.txt"]
        found = command([RUN, *options, turns, right, racy, right, racy, both], cwd=folder)
        head, rows = merged((folder / "runs.txt").read_text())
        wanted = [[*columns, "2", "02-queue-gcc-O0.txt", site]]
        is_right = head == "5 runs recorded, 3 with races" and rows[1:] == wanted and rows[0][-2:] == ["report", "site"] and len(rows[0]) == len(wanted[0])
        findings.check(f"several runs by {analysis} {more}", is_right and (found.returncode, found.stderr) == (0, ""), f"{found}, not {wanted}")
        findings.check(f"their reports by {analysis} {more}", len(listed(folder / "eraser.out")) == 6, f"{listed(folder / 'eraser.out')}")
    for more, status in (([], 6), (["--exit-status", "report"], 6)):
        nth.write_text("0")
        found = command([RUN, "--runs", "3", *more, "--report", "-", turns, right, as_script(folder, "six", f"{ends} exit\n"), racy], cwd=folder)
        is_told = "record: 3 runs of 1 program recorded, 2 with races; reports in eraser.out/\n" in found.stderr
        findings.check(f"several runs, and the worst of their exit statuses {more}", found.returncode == status and is_told, f"{found}")
    nth.write_text("0")
    found = command([RUN, "-q", "--runs", "2", "--exit-status", "report", "--report", "-", turns, right, racy], cwd=folder)
    findings.check("several runs, of which one has a race", found.returncode == 1, f"{found}")
    found = command([RUN, "-q", "--runs", "2", "--exit-status", "report", "--report", "-", right], cwd=folder)
    findings.check("several runs without a race", (found.returncode, found.stdout) == (0, "2 runs recorded, 0 with races\n"), f"{found}")
    found = command([RUN, "--runs", "2", "--report", "-", both], cwd=folder)
    findings.check("several runs of several programs", "record: 2 runs with 4 programs recorded, 2 with races; reports in eraser.out/\n" in found.stderr, f"{found}")
    nth.write_text("0")
    words = ["--exit-status", "report", "--limit", "100000", "-o", "lost/", turns, as_script(folder, "six", f"{ends} exit\n"), as_script(folder, "loses", f"{busy} 3000\n")]
    found = command([RUN, "--runs", "2", *words], cwd=folder)
    findings.check("several runs, of which one lost events and another one failed", found.returncode == 125, f"{found}")
    failing = as_script(folder, "failing", "cat >/dev/null; exit 4\n")
    found = command([RUN, "--runs", "2", "--report", "-", right], cwd=folder, env={**os.environ, "ERASER": failing})
    findings.check("several runs that were not replayed", found.stdout == "2 runs recorded, 0 with races, 2 not replayed\n", f"{found}")
    found = command([RUN, "--runs", "2", "--report", "-", "true"], cwd=folder)
    findings.check("several runs of nothing", found.stdout == "" and found.stderr.count("record: nothing was recorded: ") == 1, f"{found}")
    found = command([RUN, "--runs", "3", folder / "nothing"], cwd=folder)
    findings.check("several runs of a program that is not there", found.returncode == 127 and found.stderr.count("cannot start") == 1, f"{found}")
    found = command([RUN, "-q", "--runs", "3", "-o", "runs/", right], cwd=folder)
    findings.check("traces of several runs", len(list((folder / "runs").glob("0?-*.trace"))) == 3 and found.returncode == 0, f"{found}")
    for words, text in ((["--runs", "0"], "--runs wants a number"), (["--runs", "x"], "--runs wants a number"), (["--runs", "2", "-o", "file"], "-o names a folder"), (["--runs", "2", "--format", "json"], "--format"), (["--shake=x"], "--shake wants")):
        found = command([RUN, *words, right], cwd=folder)
        findings.check(f"wrong options {words}", (found.returncode, found.stdout) == (125, "") and text in found.stderr, f"{found}")


# What replays print of three runs: their lines, and the same by site.
LINES = [
    "line 5: race: t2 write 0x000000001000 at a,b.c:8, holds none\nline 9: race: t1 read 0x000000001004 at a,b.c:8, holds a at\nsteps 9, races 2, suppressed 0, refused 0\n"
    "line 9: unordered: t1 reuse 0x000000001000 64\n  unordered with: line 8, t2 write\nsteps 9, unordered 1, suppressed 0, refused 0\n",
    "steps 9, races 0, suppressed 0, refused 0\nline 9: unordered: t1 reuse 0x000000001000 64 at c.c:1\nline 9: unordered: t1 write 0x000000002000 at a,b.c:8, holds a b\n"
    "steps 9, unordered 2, suppressed 0, refused 0\n",
    "line 5: race: t2 write 0x000000001000 at -, holds none\nsteps 9, races 1, suppressed 0, refused 0\nsteps 9, unordered 0, suppressed 0, refused 0\n",
]
HEAD = "words     kinds       threads   locks     site\n"
BY_SITE = [
    "races in this run: none\n\n0x000000001000:\n  t1 gave back 64 bytes (line 9)\n  nothing orders this before it: t2 wrote it (line 8)\n\nno common lock\n"
    + HEAD + "2         read write  2         1         a,b.c:8\n\na,b.c:8:\n  t2 wrote the word at 0x000000001000 (line 5)\n\nsteps 9, races 2, suppressed 0, refused 0\n",
    "races in this run\n" + HEAD + "1         reuse       1         0         c.c:1\n1         write       1         2         a,b.c:8\n\nc.c:1:\n  t1 gave back 64 bytes (line 9)\n\n"
    "a,b.c:8:\n  t1 wrote the word at 0x000000002000 (line 9)\n\nno common lock: no further site\n\nsteps 9, races 0, suppressed 0, refused 0\n",
    "races in this run: none\n\nno common lock\n" + HEAD + "1         write       1         0         -\n\n-:\n  t2 wrote the word at 0x000000001000 (line 5)\n\nsteps 9, races 1, suppressed 0, refused 0\n",
]
ROWS = [["2", "1", "1", "01", "-"], ["2", "1", "1", "01", "a,b.c:8"], ["1", "1", "2", "02", "c.c:1"]]


def merged_texts(folder, findings, program):
    """Each form of a report's text is read as the other one, also where memory is given back."""
    # The trace of a further program says what its file is called.
    programs = [shutil.copy(program, folder / f"run.{number}") for number in range(len(LINES))]
    nth = folder / "nth"
    turns = as_script(folder, "turns", f'n=$(cat {nth}); echo $((n+1)) >{nth}; shift $n; exec "$1"\n')
    for name, texts in (("lines", LINES), ("sites", BY_SITE)):
        for number, text in enumerate(texts):
            (folder / f"{name}.{number}").write_text(text)
        nth.write_text("0")
        replay = as_script(folder, name, f"n=$(sed -n 's/^# recorded from run.//p'); cat {folder}/{name}.${{n:-0}}; exit 1\n")
        words = [RUN, "-q", "--runs", "3", "--trace", "3", "--analysis", "both", *(["--by-site"] if name == "sites" else []), "--report", "merged.txt", turns, *programs]
        found = command(words, cwd=folder, env={**os.environ, "ERASER": replay})
        head, rows = merged((folder / "merged.txt").read_text())
        rows = [[*row[:3], row[3][:2], *row[4:]] for row in rows[1:]]
        is_right = head == "3 runs recorded, 3 with races" and sorted(rows) == sorted(ROWS) and rows[-1] == ROWS[-1]
        findings.check(f"several runs whose reports have {name}", is_right and (found.returncode, found.stderr) == (0, ""), f"{head} {rows} {found}")


def interrupted_runs(folder, findings, busy):
    """After an interrupt the command is not run again."""
    begun = folder / "runs.begun"
    recorder = subprocess.Popen([RUN, "-q", "--runs", "1000", "--report", "-", busy, "100000000", begun], cwd=folder, stdout=subprocess.PIPE, stderr=subprocess.DEVNULL, text=True, start_new_session=True)
    is_begun = wait_for(begun)
    os.killpg(recorder.pid, signal.SIGINT)
    text, _ = recorder.communicate(timeout=PATIENCE)
    findings.check("an interrupt of several runs", is_begun and recorder.returncode == 130 and text == "1 runs recorded, 0 with races\n", f"{recorder.returncode} {text}")


def shaken(folder, findings):
    """With --shake threads wait, and by the same seed for the same times."""
    built = command(["gcc", "-shared", "-fPIC", *WARNINGS, SOURCES / "shaken/waits.c", "-o", folder / "waits.so"])
    findings.check("waits.c is built", built.returncode == 0 and built.stderr == "", built.stderr)
    for compiler in ("gcc", "clang"):
        program, built = build(folder, SOURCES / "shaken/meets.c", compiler, "-O0")
        findings.check(f"{program.name} is built", built.returncode == 0 and built.stderr == "", built.stderr)
        for more in ([], ["--order"]):
            found = {}
            for way in ("", "--shake=1", "--shake=1 ", "--shake=2"):
                noted = folder / "waits"
                noted.unlink(missing_ok=True)
                settings = {**os.environ, "LD_PRELOAD": str(folder / "waits.so"), "WAITS_NOTED": str(noted)}
                done = command([RUN, "-q", "-o", folder / "shaken.trace", *more, *way.split(), program], env=settings)
                found[way] = sorted(noted.read_text().splitlines()) if noted.exists() else []
                findings.check(f"{program.name} {more} {way}", (done.returncode, done.stderr) == (0, ""), f"{done}")
            findings.check(f"{program.name} {more} without --shake", found[""] == [], f"{found['']}")
            findings.check(f"{program.name} {more} shaken by one seed", len(found["--shake=1"]) > 30 and found["--shake=1"] == found["--shake=1 "], f"{found}")
            findings.check(f"{program.name} {more} shaken by another seed", found["--shake=2"] != found["--shake=1"], f"{found}")
    found = command([RUN, "-o", folder / "shaken.trace", "--shake", program])
    seed = re.search(r"^record: shaken by (--shake=\d+)$", found.stderr, re.M)
    findings.check("a seed that is drawn", seed and command([RUN, "-q", "-o", folder / "shaken.trace", seed[1], program]).returncode == 0, f"{found}")


# ---- Many threads, signals, and the order of all ----


def lane_programs(folder, findings):
    """The programs of tests/record/lanes by their names. Of turns.c one file is not instrumented."""
    part, made = folder / "unseen.o", {}
    command(["gcc", "-O2", *WARNINGS, "-c", SOURCES / "lanes/unseen.c", "-o", part])
    for name in ("nested", "left", "timed", "turns", "crowd"):
        made[name] = folder / f"lanes-{name}"
        more = [part] if name == "turns" else []
        built = command(["gcc", "-g", "-fsanitize=thread", "-O2", *WARNINGS, SOURCES / f"lanes/{name}.c", *more, "-o", made[name]])
        findings.check(f"lanes/{name}.c is built", built.returncode == 0 and built.stderr == "", built.stderr)
    return made


def whole_trace(folder, program, *words):
    """The run, and the text of its trace, which is empty if the program failed or anything was lost."""
    trace = folder / "lanes.trace"
    done = command([RUN, "-o", trace, "--trace", "3", "--limit", "0", program, *words])
    text = trace.read_text()
    is_whole = done.returncode == 0 and re.search(r"^record: \d+ events recorded, 0 lost$", done.stderr, re.M) and text.endswith("none lost\nend\n")
    return done, text if is_whole else ""


def site_of(name, mark):
    site, = marked(SOURCES / f"lanes/{name}.c", mark)
    return site


def writers(text, name, mark):
    """The thread and the address of each write at a marked line, in the order of the trace."""
    return re.findall(rf"^(t\d+) write (\S+) {re.escape(site_of(name, mark))}$", text, re.M)


def nested_signals(folder, findings, nested):
    """Handlers that interrupt a thread and each other: each write is in the trace once, also if a handler makes more events than a lane has room for."""
    for signals, writes, runs in ((10000, 20, max(1, RUNS // 10)), (20, 50000, max(1, RUNS // 5))):
        for nth in range(runs):
            done, text = whole_trace(folder, nested, str(signals), str(writes))
            found = [text.count(f" {site_of('nested', mark)}\n") for mark in ("ONE", "OTHER", "OWN")]
            wanted = [signals * writes, signals * writes, int(done.stdout or 0)]
            findings.check(f"{signals} signals of two kinds with {writes} writes each, run {nth}", found == wanted, f"{done} {found}, not {wanted}")


def left_events(folder, findings, left):
    """Handlers that leave events for good beside other handlers, and signals at a thread's end: nothing hangs, and each later write is in the trace."""
    for nth in range(max(1, RUNS // 5)):
        trace = folder / "left.trace"
        done = command([RUN, "-q", "-o", trace, "--trace", "3", "--limit", "0", left, "1000"])
        found = trace.read_text()
        writes = sum(found.count(f" {site}\n") for site in marked(SOURCES / "lanes/left.c", "LATER"))
        findings.check(f"events that handlers left, run {nth}", (done.returncode, done.stdout) == (0, f"{writes}\n") and writes > 0, f"{done} {writes}")


def unseen_ends(folder, findings, timed):
    """More threads of a timer than there are lanes: the recorder sees no end of theirs."""
    done, text = whole_trace(folder, timed, "9000")
    threads = {thread for thread, _ in writers(text, "timed", "TICK")}
    found = text.count(f" {site_of('timed', 'TICK')}\n")
    findings.check("threads of a timer", len(threads) == found == int(done.stdout or 0) >= 9000, f"{done} {len(threads)} threads, {found} writes")


def unseen_order(folder, findings, turns):
    """What orders threads is not recorded, and their writes are in the trace in that order."""
    for count in (2, 4, 7):
        done, text = whole_trace(folder, turns, str(count), "2000")
        threads = [thread for thread, _ in writers(text, "turns", "TURN")]
        is_round = len(threads) == 2000 * count and len(set(threads)) == count and threads == threads[:count] * 2000
        findings.check(f"{count} threads that take turns unseen", is_round, f"{done} {len(threads)} writes of {sorted(set(threads))}")


def crowds(folder, findings, crowd):
    """Some hundred threads at a time, each with more events than its lane has room for; and more threads than there are lanes, a hundred at a time."""
    for threads, rounds, writes in ((300, 1, 4500), (100, 90, 3)):
        done, text = whole_trace(folder, crowd, str(threads), str(rounds), str(writes))
        found = {}
        for thread, address in writers(text, "crowd", "ROW"):
            found.setdefault(thread, []).append(address)
        is_right = len(found) == threads * rounds and all(own == (sorted(own[:16]) * writes)[:writes] and len(set(own)) == min(16, writes) for own in found.values())
        findings.check(f"{rounds} times {threads} threads", is_right, f"{done} {len(found)} threads, {sum(map(len, found.values()))} writes")


def lanes(folder, findings):
    made = lane_programs(folder, findings)
    nested_signals(folder, findings, made["nested"])
    left_events(folder, findings, made["left"])
    unseen_ends(folder, findings, made["timed"])
    unseen_order(folder, findings, made["turns"])
    crowds(folder, findings, made["crowd"])


# ---- Programs that are recorded from later on, and other allocators ----


def hosts(folder, findings):
    """A program that isn't instrumented and loads what is: by record/run its locks and threads are recorded. Without the library in front of all others
    they are not, and that is said."""
    host, built = folder / "host", command(["gcc", "-g", *WARNINGS, SOURCES / "late/host.c", "-o", folder / "host"])
    findings.check("host.c is built", built.returncode == 0 and built.stderr == "", built.stderr)
    site = marked(SOURCES / "late/plugin.c", "RACE")
    for compiler in ("gcc", "clang"):
        plugin, built = build(folder, SOURCES / "late/plugin.c", compiler, "-O0")
        findings.check(f"{plugin.name} is built", built.returncode == 0 and built.stderr == "", built.stderr)
        for more in ([], ["--analysis", "happens-before"]):
            found = command([RUN, "-q", "--report", "-", "--exit-status", "report", *more, host, plugin])
            sites = set(re.findall(r"^line \d+: (?:race|unordered): .* at (\S+), holds", found.stdout, re.M))
            findings.check(f"{plugin.name} in a program that is not instrumented {more}", (found.returncode, found.stderr) == (1, "") and sites == site, f"{found}")
        found = command([RUN, "-q", "--report", "-", "--exit-status", "report", "env", "-u", "LD_PRELOAD", host, plugin])
        is_told = "record: LD_PRELOAD was taken from a program that isn't instrumented and loads what is: " in found.stderr
        findings.check(f"{plugin.name}, and no LD_PRELOAD", found.returncode == 125 and is_told, f"{found}")
        place = folder / f"a {compiler}"
        shutil.copytree(TOP / "record", place / "record", symlinks=True)
        found = command([place / "record/run", "-q", "--report", "-", host, plugin])
        findings.check(f"{plugin.name} from a folder with a blank", races(found.stdout) == site and ", refused 0" in found.stdout, f"{found}")


def daemons(folder, findings):
    """A forked child is recorded as a program of its own from its first thread on."""
    source = SOURCES / "late/daemon.c"
    for compiler in ("gcc", "clang"):
        program, built = build(folder, source, compiler, "-O0")
        findings.check(f"{program.name} is built", built.returncode == 0 and built.stderr == "", built.stderr)
        place = folder / f"{program.name}.reports"
        for more in ([], ["--analysis", "happens-before"]):
            found = command([RUN, "-q", "--exit-status", "report", *more, "--report", f"{place}/", program])
            text = (place / f"02-{program.name}.txt").read_text() if len(listed(place)) == 2 else ""
            sites = set(re.findall(r"^line \d+: (?:race|unordered): .* at (\S+), holds", text, re.M))
            wanted = "record: the program forked 1 time: a child is recorded from its first thread on\n"
            is_told = "".join(line for line in found.stderr.splitlines(True) if line.startswith("record:")) == wanted
            findings.check(f"{program.name} {more}", (found.returncode, is_told, sites) == (1, True, marked(source, "RACE")) and ", refused 0" in text, f"{found} {text}")
        found = command([RUN, "-q", "--exit-status", "report", "-o", folder / "daemon.trace", program])
        is_told = re.search(r"^record: (1 further program started by it was not recorded|a child that it forked goes on, and is not recorded)$", found.stderr, re.M)
        findings.check(f"{program.name}, and room for one trace", found.returncode == 125 and is_told, f"{found}")


def library(name):
    """Where the compiler finds a library."""
    return command(["gcc", f"-print-file-name={name}"]).stdout.strip()


def allocators(record):
    """Memory that goes through jemalloc or tcmalloc, linked as a library or an archive, or preloaded: what changes hands is no race. An allocator in the
    program's own file can't be seen, and that is said."""
    findings, source = Findings(record), SOURCES / "recycle.cpp"
    command([TOP / "record/build"])
    os.environ.setdefault("ERASER", str(program("eraser")))
    jemalloc, tcmalloc = "libjemalloc.so.2", "libtcmalloc_minimal.so.4"
    give_back = ["-include", "jemalloc/jemalloc.h", "-DGIVE_BACK(block)=sdallocx(block, 64, 0)", f"-l:{jemalloc}"]
    ways = {
        "jemalloc": ([f"-l:{jemalloc}"], {}),
        "tcmalloc": ([f"-l:{tcmalloc}"], {}),
        "jemalloc, by functions of its own": (give_back, {}),
        "jemalloc as an archive": ([library("libjemalloc.a"), "-ldl", "-lm"], {}),
        "jemalloc, preloaded": ([], {"LD_PRELOAD": library(jemalloc)}),
        "tcmalloc, preloaded": ([], {"LD_PRELOAD": library(tcmalloc)}),
    }
    within = ["-Wl,--whole-archive", library("libjemalloc.a"), "-Wl,--no-whole-archive", "-ldl", "-lm"]
    with tempfile.TemporaryDirectory() as name:
        made = pathlib.Path(name) / "recycle"
        for compiler, words in (("gcc", ["g++", "-g", "-fsanitize=thread"]), ("clang", [TOP / "record/c++"])):
            settings = {**os.environ, "ERASER_CXX": "clang++"}
            for way, (more, preloaded) in ways.items():
                built = command([*words, "-std=c++17", "-O1", source, *more, "-o", made], env=settings)
                findings.check(f"{way} with {compiler} is built", built.returncode == 0, built.stderr)
                for analysis in ("lockset", "happens-before"):
                    found = command([RUN, "-q", "--report", "-", "--analysis", analysis, made], env={**os.environ, **preloaded})
                    sites = set(re.findall(r": (?:race|unordered): .* at (\S+), holds", found.stdout))
                    is_right = (found.returncode, found.stderr, sites) == (0, "", marked(source, "RACE")) and found.stdout.startswith("7200\n")
                    findings.check(f"{way} with {compiler} by {analysis}", is_right, f"{sites} {found.returncode} {found.stderr}")
                found = command([RUN, "-q", "--online", "--report", "-", made], env={**os.environ, **preloaded})
                sites = set(re.findall(r"^race: (\S+): t", found.stdout, re.M))
                is_right = (found.returncode, found.stderr, sites) == (0, "", marked(source, "RACE")) and "7200\n" in found.stdout
                findings.check(f"{way} with {compiler} online", is_right, f"{sites} {found.returncode} {found.stderr} {found.stdout}")
                trace = pathlib.Path(name) / "recycle.trace"
                found = command([RUN, "-q", "--order", "-o", trace, made], env={**os.environ, **preloaded})
                brackets = trace.read_text().count(" ignore-on\n")
                findings.check(f"{way} with {compiler}: what is given out", brackets == 0 if "archive" in way else brackets > 4800, f"{brackets} {found}")
            built = command([*words, "-std=c++17", "-O1", source, *within, "-o", made], env=settings)
            found = command([RUN, "-q", "--report", "-", made])
            is_told = found.stderr == "record: what the program frees is not recorded, since it has a `free` of its own: memory that changes hands may be reported\n"
            findings.check(f"jemalloc in the program's own file with {compiler}", built.returncode == found.returncode == 0 and is_told, f"{built} {found.returncode} {found.stderr}")


# ---- Misuse of locks ----


def misuse(folder, findings):
    """What tests/record/misuse does wrong with locks is said on standard error and in the trace, and the steps are refused. Of right.c nothing is said."""
    for source in sorted((SOURCES / "misuse").glob("*.c")):
        wanted = [(source.name, number, *match) for number, line in enumerate(source.read_text().splitlines(), 1) for match in re.findall(r"MISUSE (\w+) (\S+) (\w+)", line)]
        wanted = {rf"t\d {verb} {lock} at {name}:{number}, which {'t.' if holder == 'another' else holder} holds" for name, number, verb, lock, holder in wanted}
        for compiler, level in (("gcc", "-O0"), ("clang", "-O0"), ("gcc", "-O2"), ("clang", "-O2")):
            program, built = build(folder, source, compiler, level)
            for more in ([], ["--order"]):
                trace = folder / "misuse.trace"
                found = command([RUN, "-o", trace, "--replay", *more, program])
                text = trace.read_text()
                said = [line.removeprefix("record: ") for line in found.stderr.splitlines() if " holds" in line]
                comments = [line.removeprefix("# ") for line in text.splitlines() if line.startswith("# ") and " holds" in line]
                fits = said == comments and len(said) == len(wanted) and all(any(re.fullmatch(one, line) for line in said) for one in wanted)
                lines = re.findall(r"^line \d+: refused: (t\d) (\w+) (\S+): ", found.stderr, re.M)
                held = sorted((line.split()[0], line.split()[2]) for line in said)
                is_refused = sorted((thread, lock) for thread, _, lock in lines) == held and f", refused {len(wanted)}\n" in found.stderr
                is_whole = text.endswith("none lost\nend\n") and found.returncode == built.returncode == 0 and built.stderr == ""
                findings.check(f"misuse of locks, {program.name} {more}", fits and is_refused and is_whole, f"{built.stderr} {found} {comments}, not {wanted}")
        findings.check(f"what {source.name} does wrong", bool(wanted) == (source.stem != "right"), f"{wanted}")
    program, _ = build(folder, SOURCES / "misuse/unlocks.c", "gcc", "-O0")
    found = command([RUN, "-q", "--report", "-", program])
    findings.check("misuse of locks, quietly", found.stderr == "" and re.search(r"refused: t\d unlock never: not held", found.stdout), f"{found}")


# ---- On a terminal ----


def on_terminal(words, **more):
    """Runs it with a terminal as standard error. Gives status, standard output, and what the terminal shows."""
    terminal, shown = os.openpty()
    recorder = subprocess.Popen([str(word) for word in words], stdout=subprocess.PIPE, stderr=shown, **more)
    os.close(shown)
    text = b""
    patience = threading.Timer(PATIENCE, recorder.kill)
    patience.start()
    while True:
        try:
            got = os.read(terminal, 65536)
        except OSError:
            break
        if not got:
            break
        text += got
    output = recorder.stdout.read()
    patience.cancel()
    os.close(terminal)
    return recorder.wait(), output.decode(), text.decode().replace("\r\n", "\n")


def terminal(folder, findings, counter, right, busy):
    """On a terminal the report is what `replay --analysis both --by-site --explain` prints of the trace, unless an option says how to report."""
    site = next(iter(marked(SOURCES / "counter.c", "RACE")))
    place, trace = folder / "temporary", folder / "terminal.trace"
    place.mkdir()
    settings = {**os.environ, "TMPDIR": str(place)}
    status, output, text = on_terminal([RUN, counter], env=settings)
    is_whole = re.match(rf"races in this run\nwords .*\n1 .* {site}\n\n{site}:\n(?s:.*)\n    at {site}", text) and re.search(r"\nsteps .*\nrecord: \d+ events recorded, 0 lost, \d+ repeats left out\n\Z", text)
    findings.check("on a terminal", (status, output) == (3, "30\n") and is_whole, f"{status} {output} {text}")
    led = r"    in work\n    called at meet\.h:\d+ in run_start\n"
    named = (rf"\n  t\d (?:read|wrote) bare, the word at 0x[0-9a-f]{{12}} \(line \d+\)\n{led}  t\d held no lock\n", rf"\n    at {site}, holding no lock\n{led}",
        r"\n\nthreads:\n(?:  t\d was started at meet\.h:\d+\n){2}\nsteps ")
    findings.check("on a terminal, the names of what raced", all(re.search(names, text) for names in named), text)
    status, output, text = on_terminal([RUN, "-o", trace, "--replay", counter], env=settings)
    replayed = command([TOP / "eraser", "replay", "--analysis", "both", "--by-site", "--explain", trace])
    is_whole = text.startswith(replayed.stdout) and len(replayed.stdout) > 100 and trace.read_text().endswith("none lost\nend\n")
    findings.check("on a terminal, with a trace that is kept", status == 3 and is_whole, f"{status} {text} {replayed}")
    findings.check("nothing is left of a temporary file", not list(place.iterdir()), f"{list(place.iterdir())}")
    status, output, text = on_terminal([RUN, "-q", "--exit-status", "report", right], env=settings)
    findings.check("on a terminal, the exit status of the report", status == 0 and text.startswith("races in this run: none\n"), f"{status} {text}")
    for words in (["--analysis", "lockset"], ["--explain"], ["--until-fault"], ["--strict"], ["--format", "text"]):
        status, output, text = on_terminal([RUN, *words, counter])
        findings.check(f"on a terminal, {words[0]}", status == 3 and races(text) == {site} and "unordered" not in text, f"{status} {text}")
    report = folder / "terminal.report"
    on_terminal([RUN, "--report", report, counter])
    findings.check("on a terminal, a report elsewhere", races(report.read_text()) == {site}, report.read_text())
    status, output, text = on_terminal([RUN, "-o", trace, counter])
    findings.check("on a terminal, a trace alone", re.fullmatch(r"record: \d+ events recorded, 0 lost\n", text), text)
    status, output, text = on_terminal([RUN, "--limit", "100000", busy, "30000"], env=settings)
    is_told = text.startswith("record: the trace has reached its limit of 100000 bytes") and re.search(r"^record: \d+ events? recorded, [1-9]\d* lost(?:, \d+ repeats? left out)?: the trace is incomplete", text, re.M)
    findings.check("on a terminal, a limit", (status, output) == (0, "done\n") and is_told, f"{status} {text}")
    status, output, text = on_terminal([RUN, counter], env={**os.environ, "TMPDIR": str(folder / "nowhere")})
    findings.check("on a terminal, no folder for temporary files", (status, output) == (125, "") and f"cannot write a temporary file in {folder}/nowhere" in text, f"{status} {text}")
    status, output, text = on_terminal([RUN, "sh", "-c", f"{counter}; {counter}"], cwd=folder)
    lines = (folder / "eraser.out/02-counter-gcc-O2.txt").read_text()
    findings.check("on a terminal, several programs", "record: 2 programs recorded, 2 with races" in text and lines.startswith("races in this run\n"), f"{status} {text} {lines}")


# ---- What a user sees first ----


def blocks(report):
    """The places that each block of a report by site names: those of its head, and those of the accesses below it."""
    found = re.findall(r"^(\S+(?: and \S+)?:\n(?:  .*\n?)+)", report, re.M)
    return [re.findall(r"(?:^|^    at |(?<=\d) and )(\S+?:\d+)(?=[:, \n]|$)", block, re.M) for block in found]


def default_blocks(program):
    """The blocks of the report that a user sees on a terminal: those about this run, and those of lines without a common lock."""
    _, _, text = on_terminal([RUN, program], cwd=program.parent)
    in_run, _, by_locks = text.partition("\nno common lock")
    return blocks(in_run), blocks(by_locks)


def bugs(source):
    """The name of the bug of each line that has a mark `RACE name`, by the line's place."""
    return {f"{source.name}:{number}": name for number, line in enumerate(source.read_text().splitlines(), 1) for name in re.findall(r"\bRACE (\w+)", line)}


# What the locks of rw.c order in some runs.
OFTEN = {"freed", "payload", "uses"}


def real_programs(folder, findings):
    """Each bug of the programs of tests/record/real is in the report, but for those that a run may order. What raced in this run is a bug, and a pointer
    that is read without its lock, or what a flag is to hand over, stands beside the other side's place."""
    for source in sorted((SOURCES / "real").glob("*.c*")):
        program, built = build(folder, source, "gcc", "-O0")
        findings.check(f"{source.stem} is built", built.returncode == 0, built.stderr)
        places = bugs(source)
        for _ in range(min(RUNS, 3)):
            in_run, by_locks = default_blocks(program)
            found = {places.get(place) for block in in_run + by_locks for place in block}
            findings.check(f"each bug of {source.name} is in the default report", found >= set(places.values()) - OFTEN, f"{in_run} {by_locks}")
            findings.check(f"what raced in a run of {source.name} is a bug", all(set(block) & set(places) for block in in_run), f"{in_run}")
            for name in ("pointer", "payload"):
                both = {place for place, bug in places.items() if bug == name}
                findings.check(f"both sides of {name} of {source.name}", all(both <= set(block) for block in in_run if both & set(block)), f"{in_run}")


# ---- Sites ----


def sites(folder, findings):
    """Sites are paths below the folder of all sources, or below the one that is named."""
    place = folder / "tree/src"
    for name in ("a", "b"):
        (place / name).mkdir(parents=True)
        (place / name / "util.c").write_text(f"extern int word_{name};\nvoid use_{name}(void);\nvoid use_{name}(void) {{ word_{name}++; }}\n")
    (place / "main.c").write_text("""#include <pthread.h>
int word_a, word_b;
void use_a(void);
void use_b(void);
static void *use(void *nothing) { use_a(); use_b(); return nothing; }
int main(void)
{
    pthread_t one, other;
    pthread_create(&one, NULL, use, NULL);
    pthread_create(&other, NULL, use, NULL);
    pthread_join(one, NULL);
    return pthread_join(other, NULL);
}
""")
    (place / "vector.cpp").write_text("""#include <thread>
#include <vector>
std::vector<int> words;
int main()
{
    std::thread one([] { words.push_back(1); });
    one.join();
    std::thread other([] { words.push_back(2); });
    other.join();
}
""")
    (folder / "link").symlink_to(folder / "tree")
    ways = {"gcc": ["gcc", "-g", "-fsanitize=thread"], "clang": [TOP / "record/cc"]}
    settings = {**os.environ, "ERASER_CC": "clang"}
    for compiler, words in ways.items():
        for where, paths in (("src", ["main.c", "a/util.c", "b/util.c"]), ("", ["src/main.c", "src/../src/a/util.c", "./src/b/util.c"])):
            built = command([*words, *paths, "-o", folder / "tree/program"], cwd=folder / "tree" / where, env=settings)
            for more, front in (([], ""), (["--root", folder / "tree"], "src/"), (["--root", ".."], f"{folder.name}/tree/src/"), (["--root", folder / "link"], "src/"), (["--root", place / "a"], None)):
                found = command([RUN, "-q", "--report", "-", *more, folder / "tree/program"], cwd=folder)
                wanted = {f"{front}a/util.c:3", f"{front}b/util.c:3"} if front is not None else {"util.c:3", f"{place}/b/util.c:3"}
                findings.check(f"sites by {compiler} in /{where} {more}", built.returncode == 0 and races(found.stdout) == wanted, f"{built} {found}, not {wanted}")
    found = command([RUN, "-q", "--report", "-", "--paths", folder / "tree/program"])
    findings.check("sites by --paths", {site.rsplit("/", 2)[-2] for site in races(found.stdout)} == {"a", "b"}, f"{found}")
    command(["sh", "-c", f"cd {folder}/link && gcc -g -fsanitize=thread src/main.c src/a/util.c src/b/util.c -o program"])
    for where in ("tree", "link"):
        found = command(["sh", "-c", f"cd {folder}/{where} && {RUN} -q --report - --root . ./program"])
        findings.check(f"the root is where a link leads, in {where}", races(found.stdout) == {"src/a/util.c:3", "src/b/util.c:3"}, f"{found}")
    found = command([RUN, "-q", "--report", "-", "--root", "tree", "--format", "sarif", "tree/program"], cwd=folder)
    places = set(re.findall(r'"uri": ?"([^"]*util[^"]*)"', found.stdout))
    findings.check("a code host finds the files", places == {"src/a/util.c", "src/b/util.c"} and all((folder / "tree" / path).exists() for path in places), f"{found}")
    found = command([RUN, "-q", "--report", "-", "--root", "tree", "--format", "html", "tree/program"], cwd=folder)
    command([RUN, "-o", "tree/trace", "--root", "tree", "tree/program"], cwd=folder)
    found = command([TOP / "eraser", "replay", "--format", "html", "--source", "tree", "tree/trace"], cwd=folder)
    findings.check("the page finds the source lines", "word_a++" in found.stdout and "word_b++" in found.stdout, f"{found.returncode}")
    built = command(["g++", "-g", "-fsanitize=thread", "src/vector.cpp", "-o", "program"], cwd=folder / "tree")
    found = command([RUN, "-q", "-o", "tree/trace", "tree/program"], cwd=folder)
    text = (folder / "tree/trace").read_text()
    findings.check("a file elsewhere has its whole path", " vector.cpp:6\n" in text and re.search(r" /usr/include/c\+\+/\S+\n", text) and " stl_" not in text, f"{built} {found}")
    found = command([RUN, "--root", "", "true"])
    findings.check("no root", (found.returncode, found.stderr) == (125, "record: --root wants a folder, not ''\n"), f"{found}")


def forks(findings, program):
    """What a forked child does isn't recorded before it has a thread, or at all if there is room for one program. A line says so. It changes no status."""
    found = command([RUN, "-q", "--report", "-", "--exit-status", "report", program])
    wanted = "record: the program forked 1 time: a child is recorded from its first thread on\n"
    findings.check("a program that forks", (found.returncode, found.stderr) == (1, wanted), f"{found}")
    found = command([RUN, "-q", "-o", "/dev/null", program])
    wanted = "record: the program forked 1 time: what its children did is not recorded\n"
    findings.check("a program that forks, and room for one trace", (found.returncode, found.stderr) == (0, wanted), f"{found}")


def hangups(folder, findings):
    """What is ignored when the recorder starts, as by `nohup` and by what a shell runs in the background, the program ignores too."""
    words = [RUN, "-q", "-o", folder / "hangup.trace", "grep", "SigIgn", "/proc/self/status"]
    for ignores, wanted in (("", 0), ("HUP", 1), ("INT", 2), ("QUIT", 4), ("TERM", 1 << 14), ("HUP INT QUIT TERM", 0x4007)):
        found = command(["sh", "-c", f'[ -z "{ignores}" ] || trap "" {ignores}; exec "$@"', "sh", *words])
        ignored = re.fullmatch(r"SigIgn:\s+([0-9a-f]+)\n", found.stdout)
        findings.check(f"signals that are ignored: {ignores}", ignored and int(ignored[1], 16) & 0x4007 == wanted, f"{found}")


def outlived(folder, findings, right, busy):
    """A program that outlives the command is waited for until an interrupt, and what was recorded up to there has a report."""
    for nth, before in (("02", f"{right};"), ("01", "")):
        place, begun = folder / f"outlived-{nth}", folder / f"outlives-{nth}"
        text = f"{before} {busy} 1000000000 {begun} & while [ ! -e {begun} ]; do sleep 0.01; done"
        words = [RUN, "-o", f"{place}/", "--limit", "100000000", "sh", "-c", text]
        recorder = subprocess.Popen([str(word) for word in words], stdout=subprocess.DEVNULL, stderr=subprocess.PIPE, text=True, start_new_session=True)
        deadline = time.monotonic() + PATIENCE
        while not any(path.stat().st_size > 1000000 for path in place.glob("*")) and time.monotonic() < deadline:
            time.sleep(0.05)
        while recorder.poll() is None and time.monotonic() < deadline:
            recorder.send_signal(signal.SIGINT)
            time.sleep(0.05)
        has = listed(place) if (place / "list.txt").exists() else {}
        has_part = any(name.startswith(f"{nth}-busy") and (place / name).read_text().startswith("eraser trace 3\n") for name in has)
        findings.check(f"a program that outlives the command, as number {nth}", recorder.poll() == 0 and has_part, f"{recorder.poll()} {has}")
        os.killpg(recorder.pid, signal.SIGKILL)
        recorder.communicate()


def late_interrupt(folder, findings, counter):
    """An interrupt after the program has ended stops the replay."""
    begun = folder / "replaying"
    replay = as_script(folder, "endless", f"cat >/dev/null; touch {begun}; exec sleep 1000\n")
    recorder = subprocess.Popen([RUN, counter], env={**os.environ, "ERASER": replay}, stdout=subprocess.DEVNULL, stderr=subprocess.PIPE, text=True)
    is_begun = wait_for(begun)
    recorder.send_signal(signal.SIGINT)
    _, errors = recorder.communicate(timeout=PATIENCE)
    findings.check("an interrupt stops the replay", is_begun and recorder.returncode == 3 and "record: the replay was ended by signal 15" in errors, f"{recorder.returncode} {errors}")


def hints(folder, findings, counter):
    """A replay that can say what helps against a fault is asked to."""
    for name, has in (("helps", True), ("helps-not", False)):
        line = "      --hints              Say what helps" if has else "      --explain  Also --hints"
        replay = as_script(folder, name, f'if [ "$2" = --help ]; then echo "{line}"; else cat >/dev/null; echo "$@"; fi\n')
        found = command([RUN, "-q", "--report", "-", counter], env={**os.environ, "ERASER": replay, "ERASER_RECORD_PREPARE": replay})
        words = found.stdout.split()
        findings.check(f"hints: {has}", ("--hints" in words) == has and words[-1] == "-", f"{found}")


def large_report(folder, findings, program):
    """Who reads standard output to its end first, and standard error after it, gets a report of any size."""
    replay = as_script(folder, "large", "cat >/dev/null; head -c 1000000 /dev/zero | tr '\\0' x\n")
    recorder = subprocess.Popen([RUN, "-q", program], stdout=subprocess.PIPE, stderr=subprocess.PIPE, env={**os.environ, "ERASER": replay})
    patience = threading.Timer(PATIENCE, recorder.kill)
    patience.start()
    output, errors = recorder.stdout.read(), recorder.stderr.read()
    patience.cancel()
    status = recorder.wait()
    findings.check("a large report", (status, output, errors) == (3, b"30\n", b"x" * 1000000), f"{status} {output[:100]} {len(errors)} {errors[-100:]}")


def as_script(folder, name, text):
    path = folder / name
    path.write_text("#!/bin/sh\n" + text)
    path.chmod(0o755)
    return str(path)


def wait_for(path):
    """True if the file is there in time."""
    deadline = time.monotonic() + PATIENCE
    while not path.exists() and time.monotonic() < deadline:
        time.sleep(0.05)
    return path.exists()


def early_ends(folder, findings, busy):
    """A replay that ends early, a limit, a recorder that is killed: the program goes on unharmed, and is told of where it can be."""
    for name, text in (("fault", "head -c 100000 >/dev/null; exit 2"), ("killed", "head -c 100000 >/dev/null; kill -TERM $$"), ("absent", "exit 0")):
        replay = as_script(folder, name, text)
        found = command([RUN, busy, "300000"], env={**os.environ, "ERASER": replay})
        lost = re.search(r"events? recorded, (\d+) lost(?:, \d+ repeats? left out)?: the trace is incomplete", found.stderr)
        unharmed = found.returncode == 0 and found.stdout == "done\n"
        findings.check(f"a replay that ends early, {name}", unharmed and lost and int(lost[1]) > 0 and "record: the replay" in found.stderr, f"{found}")
    trace = folder / "limited.trace"
    found = command([RUN, "-o", trace, "--limit", "100000", "--replay", busy, "300000"])
    text = trace.read_text()
    limited = len(text) <= 100000 and re.search(r"\n# incomplete: \d+ events, [1-9]\d* lost\n\Z", text) and found.stderr.count("limit of 100000 bytes") == 2
    findings.check("a limit", limited and found.returncode == 0 and re.search(r"^steps ", found.stderr, re.M), f"{found} {text[-200:]}")
    recorder = subprocess.Popen([RUN, "-o", trace, "--limit", "100000", busy, "1000000000"], stdout=subprocess.DEVNULL, stderr=subprocess.PIPE, text=True, start_new_session=True)
    line = recorder.stderr.readline()
    still_runs = recorder.poll() is None
    os.killpg(recorder.pid, signal.SIGINT)
    _, errors = recorder.communicate(timeout=PATIENCE)
    is_told = line == "record: the trace has reached its limit of 100000 bytes (--limit): from here on events are lost\n" and " lost: the trace is incomplete" in errors
    findings.check("a limit is told while the program runs", still_runs and is_told and recorder.returncode == 130, f"{line!r} {errors!r} {recorder.returncode}")
    found = command([RUN, "--limit", "100000", busy, "3000"])
    is_told = found.stderr.startswith("record: --limit is of a trace that -o keeps: ") and re.search(r"^record: \d{4,} events recorded, 0 lost, \d+ repeats left out\n\Z", found.stderr, re.M)
    findings.check("a limit without a trace that is kept", found.returncode == 0 and is_told, f"{found}")
    begun, went_on = folder / "begun", folder / "went-on"
    recorder = subprocess.Popen([RUN, "-o", "/dev/null", "--limit", "0", busy, "3000000", begun, went_on], stdout=subprocess.DEVNULL, stderr=subprocess.DEVNULL)
    is_begun = wait_for(begun)
    recorder.kill()
    recorder.wait()
    findings.check("a recorder that is killed", is_begun and wait_for(went_on))


def same_text(text):
    """A text of which two runs of a program of one thread have the same: an address is told by how many others came before it."""
    places = {}
    lines = [line for line in text.splitlines() if not line.startswith("# complete: ")]
    return re.sub(r" 0x([0-9a-f]+)", lambda found: f" {places.setdefault(int(found[1], 16), len(places))}", "\n".join(lines))


def binary_traces(folder, findings, made):
    """--trace 4 writes what --trace 3 writes, in its form, to a file and to the replay."""
    trace, report = folder / "binary.trace", folder / "binary.report"
    for source in ("lives.c", "sizes.c", "gives.cpp"):
        texts = []
        for form in ("3", "4"):
            done = command([RUN, "-o", trace, "--trace", form, "--order", made[SOURCES / source, "gcc", "-O0"]])
            texts.append(text_in(trace, form))
            count = re.search(r"^record: (\d+) events recorded, 0 lost$", done.stderr, re.M)
            events = len(trace4.Trace(trace.read_bytes()).events) if form == "4" else len([line for line in texts[0].splitlines() if line[0] != "#"]) - 2
            findings.check(f"how many events of {source} trace {form} has", count and int(count[1]) == events > 10, f"{done} {events}")
        findings.check(f"the two forms of a trace of {source}", same_text(texts[0]) == same_text(texts[1]), f"{texts}")
    done = command([RUN, "-o", trace, "--trace", "4", made[SOURCES / "queue.cpp", "gcc", "-O0"]])
    found = trace4.Trace(trace.read_bytes())
    flagged = {found.places[node.place] for node in found.nodes[1:] if node.flags & trace4.IN_HEADER}
    in_headers = {place for place in found.places if place.startswith((b"/usr/include/", b"/usr/lib/"))}
    findings.check("nodes in headers of the system", flagged == in_headers and 0 < len(flagged) < len(found.places), f"{done} {flagged ^ in_headers}")
    released = [next(found.stack(event.node), None) for event in found.events if event.kind == trace4.UNLOCK]
    findings.check("places of releases", released and None not in released, f"{released}")
    counter, busy = made[SOURCES / "counter.c", "gcc", "-O2"], made[SOURCES / "busy.c", "gcc", "-O2"]
    for words in ([], ["--explain"], ["--analysis", "both", "--by-site"], ["--strict"], ["-o", trace, "--replay", "--by-site", "--explain"], ["--runs", "2", "-o", f"{folder}/binary.runs/", "--replay"]):
        done = command([RUN, "--trace", "4", "--report", "-", *words, counter], cwd=folder)
        site, = marked(SOURCES / "counter.c", "RACE")
        findings.check(f"a report of a trace 4 {words}", done.returncode == 3 and site in done.stdout and ", 0 lost" in done.stderr or "--runs" in words and site in done.stdout, f"{done}")
    done = command([RUN, "-o", trace, "--trace", "4", "--limit", "20000", busy, "300000"])
    data = trace.read_bytes()
    found = trace4.Trace(data)
    is_cut = 15000 < len(data) <= 20000 and not found.damage and re.search(rb"\n# incomplete: \d+ events, [1-9]\d* lost\nend\n\Z", found.text())
    findings.check("a limit of a trace 4", is_cut and done.returncode == 0 and done.stderr.count("limit of 20000 bytes") == 2, f"{done} {len(data)} {found.lines[-3:]}")
    done = command([RUN, "-o", trace, "--trace", "4", busy, "30000"])
    found = trace4.Trace(trace.read_bytes())
    most = max(found.kinds.values())
    findings.check("blocks of a trace 4", not found.damage and 1 < found.blocks < len(found.data) / 5000 and 5 * len(found.data) < len(found.text()) and most == found.kinds["access"], f"{done} {found.blocks} {len(found.data)} {found.kinds}")
    begun, went_on = folder / "binary.begun", folder / "binary.on"
    recorder = subprocess.Popen([RUN, "-o", trace, "--trace", "4", "--limit", "0", busy, "3000000", begun, went_on], stdout=subprocess.DEVNULL, stderr=subprocess.DEVNULL)
    is_begun = wait_for(begun)
    recorder.kill()
    recorder.wait()
    has_gone_on = wait_for(went_on)
    data = trace.read_bytes()[:1_000_000]
    findings.check("a trace 4 whose recorder is killed", is_begun and has_gone_on and trace4.Trace(data).damage == b"cut off at byte %d" % len(data), f"{trace4.Trace(data).lines[-2:]}")
    done = command([RUN, "-o", "/dev/full", "--trace", "4", counter])
    findings.check("a trace 4 on a full disk", done.returncode == 125 and "cannot write /dev/full" in done.stderr, f"{done}")
    for form in ("2", "5", "44", ""):
        done = command([RUN, "--trace", form, counter])
        findings.check(f"--trace {form!r}", (done.stdout, done.returncode, done.stderr) == ("", 125, f"record: --trace is '3' or '4', not '{form}'\n"), f"{done}")


def memory(folder, findings, busy):
    """With the trace in a pipe, more than four times the events take no more memory, and the limit of a trace that is kept is none here."""
    used, sizes = [], []
    for rounds in ("200000", "900000"):
        # A replay whose report is the number of bytes that it got.
        settings = {**os.environ, "ERASER": as_script(folder, "sink", "exec wc -c\n")}
        with open(folder / "errors", "w+") as errors:
            recorder = subprocess.Popen([RUN, "--trace", "3", "--thin=no", busy, rounds], env=settings, stdout=subprocess.DEVNULL, stderr=errors)
            _, status, spent = os.wait4(recorder.pid, 0)
            recorder.returncode = status
            errors.seek(0)
            text = errors.read()
        whole = re.fullmatch(r"(\d+)\nrecord: \d+ events recorded, 0 lost\n", text)
        findings.check(f"{rounds} rounds into a pipe", status == 0 and whole, f"{status} {text!r}")
        used.append(spent.ru_maxrss)
        sizes.append(int(whole[1]) if whole else 0)
    findings.check("more text than is kept by default", sizes[1] > 268435456, f"{sizes}")
    findings.check("the recorder's memory is constant", used[1] < used[0] + 4096, f"{used} KiB")


def interrupts(folder, findings, busy):
    """The signal of a terminal goes to all of them: the program ends by it, and its report comes."""
    report, begun = folder / "interrupted.report", folder / "interrupted.begun"
    recorder = subprocess.Popen([RUN, "--report", report, busy, "100000000", begun], stdout=subprocess.DEVNULL, stderr=subprocess.DEVNULL, start_new_session=True)
    is_begun = wait_for(begun)
    os.killpg(recorder.pid, signal.SIGINT)
    status = recorder.wait(PATIENCE)
    findings.check("an interrupt", is_begun and status == 128 + signal.SIGINT and "steps " in report.read_text(), f"{status}")


def unusual_starts(folder, findings, counter):
    """Who starts the recorder may ignore that children end, and standard error may be a stream that doesn't wait."""
    found = command([RUN, "-q", "--report", "-", counter], preexec_fn=lambda: signal.signal(signal.SIGCHLD, signal.SIG_IGN))
    findings.check("a start that ignores the ends of children", found.returncode == 3 and "counter.c:" in found.stdout, f"{found}")
    long = as_script(folder, "long", "cat >/dev/null; yes line | head -n 50000\n")
    reading, writing = os.pipe()
    os.set_blocking(writing, False)
    recorder = subprocess.Popen([RUN, "-q", counter], env={**os.environ, "ERASER": long}, stdout=subprocess.DEVNULL, stderr=writing)
    # Nothing is read before the pipe is full.
    while recorder.poll() is None and select.select([], [writing], [], 0)[1]:
        time.sleep(0.01)
    os.close(writing)
    with open(reading, "rb") as stream:
        text = stream.read()
    status = recorder.wait(PATIENCE)
    findings.check("a long report to a stream that doesn't wait", status == 3 and text == b"line\n" * 50000, f"{status}, {len(text)} bytes")


def names(folder, findings):
    """Every name of ThreadSanitizer's library that a compiler or a program may ask for, and the two that differ in clang."""
    library = command(["gcc", "-print-file-name=libtsan.so"]).stdout.strip()
    pattern = re.compile(r"^(__tsan_|__sanitizer_|Annotate|WTFAnnotate|RunningOnValgrind|ValgrindSlowdown|_Zn[wa]|_Zd[la]|__cxa_guard_)")

    def exported(path):
        lines = command(["nm", "-D", "--defined-only", path]).stdout.splitlines()
        return {line.split()[-1].split("@")[0] for line in lines}

    ours = exported(TOP / "record/out/libtsan.so.2")
    theirs = {name for name in exported(library) if pattern.match(name)}
    findings.check("every name of libtsan.so.2", len(theirs) > 100 and theirs <= ours, f"{sorted(theirs - ours)}")
    both = exported(TOP / "record/out/liberaser_record.so")
    findings.check("one library under two names", both == ours)


def annotations_elsewhere(folder, findings):
    """The header is nothing without -fsanitize=thread, and does nothing under ThreadSanitizer's own library."""
    source, plain, watched = SOURCES / "annotations.c", folder / "plain", folder / "watched"
    for compiler in ("gcc", "clang"):
        done = command([compiler, "-std=gnu11", *WARNINGS, "-Werror", "-O1", source, "-o", plain])
        findings.check(f"annotations without the recorder, {compiler}", done.returncode == 0 and command([plain]).returncode == 0, done.stderr)
    done = command(["gcc", "-g", "-fsanitize=thread", source, "-o", watched])
    found = command([watched], env={**os.environ, "TSAN_OPTIONS": "exitcode=66"})
    findings.check("annotations under ThreadSanitizer", done.returncode == 0 and found.returncode in (0, 66), f"{found}")


def with_archives(folder, findings):
    """Programs that have the C++ library in their own file: its operators and its guards of static variables are the recorder's then."""
    ways = {"operators.cpp": ["-static-libstdc++", "-static-libgcc"], "replaced.cpp": ["-static-libstdc++", "-static-libgcc"], "queue.cpp": ["-static-libstdc++", "-static-libgcc"]}
    for name, more in {**ways, "order/once.cpp": ["-static-libstdc++"]}.items():
        for compiler, words in (("gcc", ["g++", "-g", "-fsanitize=thread"]), ("clang", [TOP / "record/c++"])):
            source, program = SOURCES / name, folder / f"{pathlib.Path(name).stem}-archive-{compiler}"
            built = command([*words, "-std=c++17", source, *more, "-o", program], env={**os.environ, "ERASER_CXX": "clang++"})
            found = command([RUN, "-q", "--report", "-", "--analysis", "happens-before", program])
            sites = set(re.findall(r": unordered: .* at (\S+), holds", found.stdout))
            is_right = (found.returncode, found.stderr) == (0, "") and found.stdout.startswith(PRINTED.get(source.stem, "")) and re.search(r"^steps \d+", found.stdout, re.M)
            findings.check(f"{name} with the C++ library within, {compiler}", built.returncode == 0 and is_right and sites == marked(source, "RACE"), f"{built} {found}")


def linked_by_hand(folder, findings):
    """clang as the documents say: compiled with -fsanitize=thread, linked without it."""
    source, part, program = SOURCES / "counter.c", folder / "counter.o", folder / "by-hand"
    compiled = command(["clang", "-g", "-fsanitize=thread", "-c", source, "-o", part])
    linked = command(["clang", part, "-o", program, f"-L{TOP}/record/out", "-leraser_record"])
    found = command([RUN, program])
    findings.check("clang, linked by hand", compiled.returncode == linked.returncode == 0 and "counter.c:" in found.stderr, f"{linked} {found}")
    place = pathlib.Path(library("libtsan.so")).resolve().parent
    linked = command(["gcc", "-g", "-fsanitize=thread", source, "-o", program, "-Wl,--disable-new-dtags", f"-Wl,-rpath,{place}"])
    found = command([RUN, program])
    findings.check("another library by the program's own path", linked.returncode == 0 and "counter.c:" in found.stderr, f"{linked} {found}")


def fresh_copy(folder, findings):
    """Without a compiler or libdw's headers, it says which package is missing; with them it is built without a warning, and again if a
    source is newer."""
    copy = folder / "copy"
    shutil.copytree(TOP / "record", copy, ignore=shutil.ignore_patterns("out"), symlinks=True)
    found = command([copy / "build"], env={**os.environ, "CC": "no-such-compiler"})
    findings.check("no compiler", found.returncode == 125 and "apt-get install gcc" in found.stderr, f"{found}")
    without = as_script(folder, "cc-without-libdw", 'case " $* " in *" -E "*) exit 1;; esac\nexec cc "$@"\n')
    found = command([copy / "build"], env={**os.environ, "CC": without})
    findings.check("no libdw", found.returncode == 125 and "apt-get install libdw-dev" in found.stderr, f"{found}")
    for compiler in ("gcc", "clang"):
        shutil.rmtree(copy / "out", ignore_errors=True)
        found = command([copy / "build"], env={**os.environ, "CC": compiler})
        made = sorted(path.name for path in (copy / "out").iterdir())
        clean = (found.returncode, found.stdout, found.stderr) == (0, "", "")
        findings.check(f"it is built by {compiler} without a warning", clean and made == ["liberaser_record.so", "libtsan.so.2", "lock", "stacks", "writer"], f"{found} {made}")
    writer = copy / "out/writer"
    for changed in (None, "ring.h"):
        before = writer.stat().st_ino
        if changed:
            os.utime(copy / changed)
        found = command([copy / "build"])
        is_new = writer.stat().st_ino != before
        findings.check(f"it is built again if {changed or 'nothing'} has changed", found.returncode == 0 and is_new == bool(changed), f"{found}")


def unwritable(folder, findings, counter):
    """A checkout that can't be written to, and that has no built recorder: one line says so, and the program does not run."""
    os.chmod(folder, 0o755)
    for way in ("read-only", "no folder"):
        copy = folder / way.replace(" ", "-")
        shutil.copytree(TOP / "record", copy, ignore=shutil.ignore_patterns("out"), symlinks=True)
        command(["chmod", "-R", "a+rX", copy])
        settings = {}
        if way == "no folder":
            (copy / "out").write_text("")
        else:
            os.chmod(copy, 0o555)
            settings = {"user": 65534} if os.geteuid() == 0 else {}
        found = command([copy / "run", counter], **settings)
        wanted = f"record: cannot write {copy}/out, where the recorder is built\n"
        findings.check(f"a checkout that can't be written to, {way}", (found.returncode, found.stdout, found.stderr) == (125, "", wanted), f"{found}")
        os.chmod(copy, 0o755)
    copy = folder / "read-only"
    broken = as_script(folder, "cc-that-fails", 'case " $* " in *" -c "*) echo wrong >&2; exit 1;; esac\nexec cc "$@"\n')
    found = command([copy / "run", counter], env={**os.environ, "CC": broken})
    is_told = found.stderr.endswith(f"\nrecord: the recorder cannot be built in {copy}/out\n") and not list((copy / "out").glob("new.*"))
    findings.check("a recorder that can't be built", (found.returncode, found.stdout) == (125, "") and is_told, f"{found}")


def as_the_readme_says(folder, findings):
    """The README's first commands, and its report on a terminal: addresses, lines' numbers, and which access came first differ, the rest doesn't."""
    readme = (TOP / "README.md").read_text()
    build, run = re.search(r"```sh\n(g\+\+ .*?) +#.*\n(record/run .*)\n```", readme).groups()
    shown = re.search(r"```text\n(2000 of.*?)```", readme, re.S)[1]
    built = command(["sh", "-c", build.replace("-o pool", f"-o {folder}/pool")], cwd=TOP)
    _, printed, shown_here = on_terminal(["sh", "-c", f"{shlex.quote(str(TOP))}/{run}"], cwd=folder)
    found = printed + shown_here

    def plain(text):
        text = re.sub(r"\b(read|write|wrote) +", "used ", text)
        return re.sub(r"0x[0-9a-f]+|\bline \d+|\bt\d+ |^\d+ of|\d+ events|\d+ repeats|steps \d+", "", text, flags=re.M).splitlines()

    findings.check("as the README says", built.returncode == 0 and plain(found) == plain(shown), f"{found}")
    trace = folder / "pool.trace"
    kept = command([RUN, "-o", trace, folder / "pool", "--jobs", "4"])
    replayed = command([TOP / "eraser", "replay", trace])
    findings.check("a kept trace as the README says", kept.returncode == 0 and replayed.returncode == 1 and "at pool.cpp:19, holds none" in replayed.stdout, f"{replayed}")


def tests(record):
    """Runs them all, and reports each by `record(name, is_right, detail)`."""
    findings = Findings(record)
    command([TOP / "record/build"])
    os.environ.setdefault("ERASER", str(program("eraser")))
    with tempfile.TemporaryDirectory() as name:
        folder = pathlib.Path(name)
        made = build_all(folder, findings)
        counter, busy = made[SOURCES / "counter.c", "gcc", "-O2"], made[SOURCES / "busy.c", "gcc", "-O2"]
        programs(folder, findings, made)
        ways_to_use(folder, findings, counter, made[SOURCES / "queue.cpp", "gcc", "-O0"])
        exit_statuses(folder, findings, made)
        workers(folder, findings, counter)
        forks(findings, made[SOURCES / "forks.c", "gcc", "-O0"])
        large_report(folder, findings, counter)
        several_programs(folder, findings, made)
        terminal(folder, findings, counter, made[SOURCES / "recursive.cpp", "gcc", "-O0"], busy)
        real_programs(folder, findings)
        sites(folder, findings)
        misuse(folder, findings)
        hosts(folder, findings)
        daemons(folder, findings)
        hangups(folder, findings)
        late_interrupt(folder, findings, counter)
        outlived(folder, findings, made[SOURCES / "recursive.cpp", "gcc", "-O0"], busy)
        hints(folder, findings, counter)
        early_ends(folder, findings, busy)
        binary_traces(folder, findings, made)
        memory(folder, findings, busy)
        interrupts(folder, findings, busy)
        several_runs(folder, findings, made)
        merged_texts(folder, findings, made[SOURCES / "recursive.cpp", "gcc", "-O0"])
        interrupted_runs(folder, findings, busy)
        shaken(folder, findings)
        lanes(folder, findings)
        unusual_starts(folder, findings, counter)
        names(folder, findings)
        annotations_elsewhere(folder, findings)
        with_archives(folder, findings)
        linked_by_hand(folder, findings)
        as_the_readme_says(folder, findings)
        fresh_copy(folder, findings)
        unwritable(folder, findings, counter)


if __name__ == "__main__":
    run_alone(tests)
