#!/usr/bin/env python3
"""Records programs with `record/run --flow`, and compares what no text has with what the programs say: tries, atomic operations that order
nothing, and facts of variables, threads and locks.

The programs of tests/record/told name these by the marks of their lines (tests/record/stacks/marks.h). They are built by two compilers at two levels, and
tests/trace4.py reads the traces.

`tests/run` calls `tests`. By itself this file runs these tests alone.
"""

import concurrent.futures
import pathlib
import re
import sys
import tempfile

sys.path.insert(0, str(pathlib.Path(__file__).parent))
sys.dont_write_bytecode = True
import trace4
from alone import run_alone
from record_stacks_tests import build, expected, lines_of, name_of, outside, preload, refused
from record_tests import LEVELS, RUN, SOURCES, TOP, WORKERS, Findings, command, same_text

PROGRAMS = SOURCES / "told"
# What no text shows, or shows as something else.
KINDS = {trace4.TRY: "try", trace4.READ_TRY: "try-read", trace4.FAILED_TRY: "failed-try", trace4.FAILED_READ_TRY: "failed-try-read", trace4.SENT: "stores", trace4.SAW: "loads"}


def record_it(folder, program, *words):
    """The trace of a run, what the program printed, and what is wrong with either, or None."""
    path = folder / f"{program.name}{''.join(words)}.trace"
    done = command([RUN, "-o", path, *words, program])
    trace = trace4.Trace(path.read_bytes())
    is_whole = done.returncode == 0 and not trace.damage and trace.has_ended and not trace.lost
    return trace, done.stdout, None if is_whole else f"{done} {trace.damage} {trace.lost}"


def told(trace, source):
    """What a trace has that no text shows: kind, mark and name."""
    marks = lines_of(source)
    for event in trace.events:
        if event.kind in KINDS:
            name = event.operand or trace.variable_at(event.address)
            place, _ = next(trace.stack(event.node), (b"-", 0))
            yield KINDS[event.kind], name_of(place.decode(), source, marks), (name or b"-").decode()


def tries(folder, findings, compiler, level):
    source = PROGRAMS / "tries.c"
    program = build(folder, findings, source, compiler, level)
    trace, _, fault = record_it(folder, program, "--flow")
    found, wanted = sorted(told(trace, source)), sorted(expected(source, "EVENT"))
    findings.check(f"what {program.name} tells", not fault and found == wanted, f"{fault} {found}, {wanted}")
    lies = {name: trace.variable_at(address) for name, address in trace.lock_addresses.items() if trace.variable_at(address) != name}
    findings.check(f"where the locks of {program.name} lie", len(trace.lock_addresses) > 4 and not lies, f"{trace.lock_addresses} {lies}")
    text = folder / f"{program.name}.text"
    command([RUN, "-o", text, "--order", program])
    printed = command([TOP / "eraser", "print", folder / f"{program.name}--flow.trace"]).stdout
    findings.check(f"the text of {program.name}", same_text(text.read_text()) == same_text(printed) == same_text(trace.text().decode()), f"{text.read_text()} {printed}")
    trace, _, fault = record_it(folder, program, "--order", "--trace", "4")
    found, wanted = sorted(told(trace, source)), [event for event in wanted if event[0] in ("try", "try-read")]
    findings.check(f"what {program.name} tells without --flow", not fault and found == wanted, f"{fault} {found}, {wanted}")
    # Without --stacks there are no calls, but who created each thread.
    marks = lines_of(source)
    created = [outside(trace, fact.created_at, source, marks) for fact in trace.thread_facts.values() if fact.created_at]
    findings.check(f"the threads of {program.name}", created == [["create"]] * 2, f"{trace.thread_facts} {created}")
    runs = {variable.name for variable in trace.variables if b"runs" in variable.name}
    findings.check(f"a static variable of {program.name}", runs == {b"runs" if compiler == "gcc" else b"run::runs"}, f"{runs}")


def names(folder, findings, compiler, level):
    source = PROGRAMS / "names.cpp"
    library = build(folder, findings, source, compiler, level, "-shared", "-fPIC", "-DLIBRARY", name="libnames")
    program = build(folder, findings, source, compiler, level, library)
    trace, printed, fault = record_it(folder, program, "--stacks")
    wanted = {(int(address, 16), int(size), name.encode()) for name, address, size in re.findall(r"^(\S+) (0x[0-9a-f]+) (\d+)$", printed, re.M)}
    missing = wanted - {tuple(variable) for variable in trace.variables}
    findings.check(f"the variables of {program.name}", not fault and len(wanted) == 11 and not missing, f"{fault} {missing} {trace.variables}")
    places = [variable.address for variable in trace.variables]
    findings.check(f"the variables of {program.name} are sorted", places == sorted(set(places)), f"{trace.variables}")
    written = {trace.variable_at(event.address) for event in trace.events if event.kind == "access" and event.is_write}
    findings.check(f"what {program.name} writes to", {b"table+7", b"pool::busy+4", b"in_library+12"} <= written, f"{written}")
    marks = lines_of(source)
    threads = {(fact.name.decode() or "-", *outside(trace, fact.created_at, source, marks)) for fact in trace.thread_facts.values()}
    findings.check(f"the threads of {program.name}", threads == expected(source, "THREAD") and len(trace.thread_facts) == 5, f"{trace.thread_facts} {threads}")


def born(folder, findings, compiler, level):
    source = PROGRAMS / "born.cpp"
    program = build(folder, findings, source, compiler, level)
    marks, wanted = lines_of(source), expected(source, "LOCK")
    for words in ("--stacks",), ("--trace", "4"):
        trace, _, fault = record_it(folder, program, *words)
        found = {("created" if fact.is_created else "taken", name.decode(), *outside(trace, fact.node, source, marks)) for name, fact in trace.lock_facts.items()}
        # Without --stacks there are no calls, and a place in a header of the system is that of no line here.
        shown = wanted if words == ("--stacks",) else {(*lock[:2], "*" if lock[2] == "guard" else lock[2]) for lock in wanted}
        found = found if words == ("--stacks",) else {lock[:3] if lock[2:] else (*lock, "*") for lock in found}
        findings.check(f"the births of the locks of {program.name} {' '.join(words)}", not fault and found == shown, f"{fault} {found} {shown}")
        lies = trace.lock_addresses
        findings.check(f"a lock where another one of {program.name} was", lies.get(b"mutex-1") == lies.get(b"mutex-2") is not None, f"{lies}")


def preloaded(folder, findings):
    """The writer has the program's preloaded allocator too, and is left with no block of another one."""
    source = PROGRAMS / "names.cpp"
    library = build(folder, findings, source, "gcc", "-O1", "-shared", "-fPIC", "-DLIBRARY", name="libpreloaded")
    program = build(folder, findings, source, "gcc", "-O1", library, name="preloaded")
    path = folder / "preloaded.trace"
    done = command([RUN, "-o", path, "--stacks", program], env=preload(folder, findings))
    trace = trace4.Trace(path.read_bytes())
    names = {variable.name for variable in trace.variables}
    is_right = (done.returncode, trace.damage, trace.lost) == (0, None, 0) and trace.has_ended
    findings.check("a preloaded allocator", is_right and {b"Box::made", b"Box::put::puts"} <= names, f"{done} {trace.damage} {names}")


def tests(record):
    findings = Findings(record)
    command([TOP / "record/build"])
    with tempfile.TemporaryDirectory() as name, concurrent.futures.ThreadPoolExecutor(WORKERS) as pool:
        folder = pathlib.Path(name)
        done = [pool.submit(test, folder, findings, compiler, level) for test in (tries, names, born) for compiler in ("gcc", "clang") for level in LEVELS]
        done.append(pool.submit(preloaded, folder, findings))
        done.append(pool.submit(refused, folder, findings, "--flow", "a text has no data flow"))
        for one in done:
            one.result()


if __name__ == "__main__":
    run_alone(tests)
