#!/usr/bin/env python3
"""The text of `eraser explain LINE TRACE` beside one made by tests/reference.py.

`tests/run` calls `tests`. By itself this file runs these tests alone.

- worked stories: each kind of answer, with the text worked out by hand
- random traces, and each line of them: the same text, or the line of the fault
- files that can't be opened, lines without a step, refused allocations and failed writes
- names are hashed by random keys, and if the system gives no random bytes the story is the same
"""

import os
import pathlib
import random
import subprocess
import sys
import tempfile

sys.dont_write_bytecode = True
import reference
from alone import each_refused, program, run_alone
from site_tests import preloaded

TOP = pathlib.Path(__file__).resolve().parent.parent
PROGRAM = program("eraser")
RANDOM_TRACES = 200

# The steps behind a header, the line that is explained, and what is written of it.
NARROWING = "t1 lock a; t1 lock b; t1 write 0x1000 x.c:1; t2 lock b; t2 lock c; t2 write 0x1002 x.c:2; t2 write 0x1000; t2 unlock b; t2 write 0x1000 x.c:3; t2 write 0x1000"
WORKED = {
    "the first access": (NARROWING, 4, """\
line 4: t1 write 0x000000001000 at x.c:1, holding a b
answer: no race: no second thread has used the word
before: virgin
after: exclusive t1
earlier accesses: 0
"""),
    "the access that a second thread joins with": (NARROWING, 7, """\
line 7: t2 write 0x000000001000 at x.c:2, holding b c
answer: no race: a candidate was held at each access since a second thread came
before: exclusive t1
after: shared-modified, candidates b c
earlier accesses: 1
  access 1: line 4, t1 write at x.c:1, holding a b: exclusive t1
"""),
    "a race": (NARROWING, 10, """\
line 10: t2 write 0x000000001000 at x.c:3, holding c
answer: no race: a candidate was held at each access since a second thread came
before: shared-modified, candidates b c
after: shared-modified, candidates c
earlier accesses: 3
  access 1: line 4, t1 write at x.c:1, holding a b: exclusive t1
  access 2: line 7, t2 write at x.c:2, holding b c: shared-modified, candidates b c
"""),
    "reads": ("t1 read 0x40; t2 rlock m; t2 read 0x40; t3 read 0x40; t2 write 0x40 s", 6, """\
line 6: t2 write 0x000000000040 at s, holding m (to read)
answer: race: the word was written, and no lock was held at each access since a second thread came
before: shared, candidates none
after: shared-modified, candidates none
earlier accesses: 3
  access 1: line 2, t1 read at -, holding none: exclusive t1
  access 2: line 4, t2 read at -, holding m (to read): shared, candidates m
  access 3: line 5, t3 read at -, holding none: shared, candidates none: this access left no candidate
"""),
    "an access behind the race": ("t1 write 0x40; t2 write 0x40; t1 write 0x40", 4, """\
line 4: t1 write 0x000000000040 at -, holding none
answer: no race: the word was reported by an earlier access
before: shared-modified, candidates none
after: shared-modified, candidates none
earlier accesses: 2
  access 1: line 2, t1 write at -, holding none: exclusive t1
  access 2: line 3, t2 write at -, holding none: shared-modified, candidates none: this access left no candidate
"""),
    "a reuse between": ("t1 write 0x40; t2 write 0x40; t1 reuse 0x40 4; t2 write 0x40", 5, """\
line 5: t2 write 0x000000000040 at -, holding none
answer: no race: no second thread has used the word
before: virgin
after: exclusive t2
earlier accesses: 0
"""),
    "a reuse": ("t1 write 0x40; t1 reuse 0x40 4", 3, "line 3: t1 reuse, holding none\nanswer: done\n"),
    "an ignored access": ("t1 write 0x40; t2 ignore-on; t2 write 0x40", 4, """\
line 4: t2 write 0x000000000040 at -, holding none
answer: not counted: the thread ignores its accesses
before: exclusive t1
after: exclusive t1
earlier accesses: 1
  access 1: line 2, t1 write at -, holding none: exclusive t1
"""),
    "a word that is shown": ("t1 lock m; t1 read 0x40; t2 read 0x40; t1 show 0x40", 5, """\
line 5: t1 show 0x000000000040, holding m
answer: shown
before: shared, candidates none
after: shared, candidates none
earlier accesses: 2
  access 1: line 3, t1 read at -, holding m: exclusive t1
  access 2: line 4, t2 read at -, holding none: shared, candidates none: this access left no candidate
"""),
    "a refused step": ("t1 rlock m; t1 unlock m", 3, "line 3: t1 unlock m, holding m (to read)\nanswer: refused: held in the other mode\n"),
    "a lock": ("t1 lock m; t1 lock n", 3, "line 3: t1 lock n, holding m\nanswer: done\n"),
}


def text_of(steps, version=1):
    return f"eraser trace {version}\n".encode() + steps.replace("; ", "\n").encode() + b"\n"


class Told(reference.Replay):
    """A replay that notes of each line the story of its first step."""

    def __init__(self):
        super().__init__([])
        self.stories, self.turns = {}, {}

    def state(self, at):
        word = self.words.get(at)
        if word is None or not word.accesses:
            return "virgin"
        if word.joining() is None:
            return "exclusive " + word.accesses[0][0].decode()
        return ("shared-modified" if word.written() else "shared") + ", candidates " + self.names(word.candidates())

    def holding(self, thread):
        held = self.held.get(thread, {})
        locks = self.in_order(list(held) + list(range(1, self.level.get(thread, 0) + 1)))
        return ", holding " + (" ".join(self.name(lock) + (" (to read)" if held.get(lock) == b"rlock" else "") for lock in locks) or "none")

    def step(self, line, thread, verb, operands):
        if line in self.stories or (verb == b"reuse" and reference.number(operands[1]) == 0):
            return super().step(line, thread, verb, operands)
        word = reference.number(operands[0]) // 4 if verb in (b"read", b"write", b"show") else None
        site = f" at {operands[1].decode() if len(operands) > 1 else '-'}" if verb in (b"read", b"write") else ""
        named = verb in (b"lock", b"unlock", b"rlock", b"runlock")
        what = f"{verb.decode()}" + (f" 0x{word * 4:012x}" if word is not None else f" {operands[0].decode()}" if named else "")
        holding, before, turns = self.holding(thread), self.state(word), self.turns.get(word, [])
        earlier = len(self.words[word].accesses) if word in self.words else 0
        was, races, refused = len(self.lines), self.races, self.refused
        ignores = self.depth.get(thread, 0) > 0
        super().step(line, thread, verb, operands)
        after = self.state(word)
        if self.refused > refused:
            answer = "refused: " + self.lines[was].rpartition(": ")[2]
        elif verb == b"show":
            answer = "shown"
        elif word is None:
            answer = "done"
        elif ignores:
            answer = "not counted: the thread ignores its accesses"
        elif self.races > races:
            answer = "race: the word was written, and no lock was held at each access since a second thread came"
        elif after.startswith("exclusive"):
            answer = "no race: no second thread has used the word"
        elif after.startswith("shared,"):
            answer = "no race: the word has not been written since a second thread came"
        elif after.endswith(" none"):
            answer = "no race: the word was reported by an earlier access"
        else:
            answer = "no race: a candidate was held at each access since a second thread came"
        told = [f"line {line}: {thread.decode()} {what}{site}{holding}", f"answer: {answer}"]
        emptied = ": this access left no candidate" if after.endswith(" none") and not before.endswith(" none") else ""
        if word is not None:
            told += [f"before: {before}", f"after: {after}{emptied}", f"earlier accesses: {earlier}", *turns]
        self.stories[line] = "".join(row + "\n" for row in told)
        if verb == b"reuse":
            first, last = reference.number(operands[0]) // 4, (reference.number(operands[0]) + reference.number(operands[1]) - 1) // 4
            self.turns = {at: told for at, told in self.turns.items() if not first <= at <= last}
        elif verb in (b"read", b"write") and not ignores and before != after:
            self.turns.setdefault(word, list(turns)).append(f"  access {earlier + 1}: line {line}, {thread.decode()} {verb.decode()}{site}{holding}: {after}{emptied}")


def wanted(text):
    """The stories of a text's lines, or the line of its fault."""
    try:
        events = reference.events_of(text)
    except reference.Fault as fault:
        return None, f"line {fault.line}: {fault.kind}\n"
    run = Told()
    for line, (thread, verb, operands) in events:
        run.step(line, thread, verb, operands)
    return run.stories, None


def run(words, text=b"", **more):
    done = subprocess.run([str(PROGRAM), *map(str, words)], input=text, capture_output=True, timeout=60, **more)
    return done.stdout, done.stderr, done.returncode


def worked_stories(record):
    for name, (steps, line, story) in WORKED.items():
        text = text_of(steps)
        found = run(["explain", line, "-"], text)
        record(f"story: {name}", found == (story.encode(), b"", 0), f"{found}")
        record(f"the second reading tells it too: {name}", wanted(text)[0][line] == story, f"{wanted(text)[0][line]}")


def random_stories(record):
    dice = random.Random(7)
    for seed in range(RANDOM_TRACES):
        text = reference.random_trace(seed)
        stories, fault = wanted(text)
        lines = range(text.count(b"\n") + 3)
        for line in dice.sample(lines, min(4, len(lines))):
            found = run(["explain", line, "-"], text)
            if fault:
                right = found == (b"", fault.encode(), 2)
            elif line in stories:
                right = found == (stories[line].encode(), b"", 0)
            else:
                right = found == (b"", f"line {line}: no step\n".encode(), 2)
            record(f"story of line {line} of random trace {seed}", right, f"{found}, {fault or stories.get(line)}")


def faults(record, preloaded):
    record("a trace that is not there", run(["explain", "2", "/nonexistent"]) == (b"", b"cannot open trace\n", 4))
    record("a folder", run(["explain", "2", TOP]) == (b"", b"read fault\n", 4))
    found = run(["explain", "15", TOP / "examples/explained.trace"])
    shown = [found[0].decode() in (TOP / path).read_text() for path in ("README.md", "docs/FORMATS.md")]
    record("the story that the documents show", found[1:] == (b"", 0) and all(shown), f"{found}")
    for words in (["explain"], ["explain", "3"], ["explain", "x", "-"], ["explain", "-1", "-"], ["explain", "3", "-", "-"], ["explain", "--byte-limit", "0", "3", "-"]):
        output, errors, status = run(words, text_of(NARROWING))
        record(f"{words} are wrong arguments", (output, status) == (b"", 2) and errors.startswith(b"error: "), f"{errors}")
    text = text_of(NARROWING)
    record("a text over the limit", run(["explain", "--byte-limit", "20", "3", "-"], text) == (b"", b"line 2: text too long\n", 2))
    with open("/dev/full", "wb") as full:
        done = subprocess.run([str(PROGRAM), "explain", "4", "-"], input=text, stdout=full, stderr=subprocess.PIPE, timeout=60)
        record("a failed write", (done.stderr, done.returncode) == (b"write fault\n", 4), f"{done}")
    whole = run(["explain", "10", "-"], text)
    with tempfile.TemporaryDirectory() as folder:
        library = preloaded(folder, "refuse")
        for nth, found, was_refused in each_refused(library, folder, lambda env: run(["explain", "10", "-"], text, env=env)):
            if not was_refused:
                record("a story with all allocations", found == whole and nth > 20, f"{nth}")
                break
            record(f"a story without allocation {nth}", found in (whole, (b"", b"out of memory\n", 3)), f"{found}")


def random_keys(record, preloaded):
    whole = run(["explain", "10", "-"], text_of(NARROWING))
    with tempfile.TemporaryDirectory() as folder:
        library, noted = preloaded(folder, "no_random"), pathlib.Path(folder) / "noted"
        found = run(["explain", "10", "-"], text_of(NARROWING), env={**os.environ, "LD_PRELOAD": str(library), "RANDOM_NOTED": str(noted)})
        record("a story asks for random bytes, and does without", found == whole and noted.exists(), f"{found}")


def tests(record, preloaded):
    worked_stories(record)
    random_stories(record)
    faults(record, preloaded)
    random_keys(record, preloaded)


if __name__ == "__main__":
    run_alone(tests, preloaded)
