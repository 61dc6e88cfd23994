#!/usr/bin/env python3
"""Happens-before as tests/order_reference.py reads it: no test of the program, but of what the program is compared with.

- the lists of tests/order/worked.txt, and those of tests/order/bytes.txt by bytes, have the answers beside them
- the texts of tests/order/faults.txt have the fault that stands below them
- random lists race at the same places by the definition's chains and by sets of steps, with bytes and without, and by bytes at no word that
  doesn't race without
- a random trace has its first fault at the line at which tests/reference.py finds it, or as many event lines
"""

import pathlib
import random
import sys

sys.path.insert(0, str(pathlib.Path(__file__).parent))
sys.dont_write_bytecode = True
import order_reference
import reference
from alone import run_alone

TOP = pathlib.Path(__file__).resolve().parent.parent
CASES = TOP / "tests/order"
RANDOM_LISTS = 400
RANDOM_TRACES = 300
WORDS = {"x": "0x1000", "y": "0x1004"}


def cases_of(path):
    """The rows of each case of a file, by its name."""
    found, name = {}, None
    for line in path.read_text().splitlines():
        if line.startswith("== "):
            name = line[3:]
            found[name] = []
        elif name:
            found[name].append(line)
    return found


# ---- Worked lists ----


def lists_of(path):
    """The name of each list of a file, with its text, the bytes that its lines touch, and the answers beside them."""
    for name, rows in cases_of(path).items():
        pairs = [row.split(" -> ") for row in rows if row and not row.startswith("#")]
        lines = [line.split() for line, _ in pairs]
        touched = {at: tuple(map(int, words[-1].split(".."))) for at, words in enumerate(lines, 2) if ".." in words[-1]}
        texts = [" ".join(WORDS.get(word, word) for word in words if ".." not in word) for words in lines]
        yield name, "".join(line + "\n" for line in ["eraser trace 3", *texts, "end"]).encode(), touched, [answer for _, answer in pairs]


def worked_lists():
    """The lists of tests/order/worked.txt, and those of tests/order/bytes.txt, whose lines touch parts of their words."""
    return [*lists_of(CASES / "worked.txt"), *lists_of(CASES / "bytes.txt")]


def worked(record):
    for name, text, touched, expected in worked_lists():
        found = order_reference.answers(order_reference.mark(order_reference.touch(order_reference.read(text), touched)))
        record(f"order: {name}", bool(found) and found == expected, f"{found}")


# ---- Faults ----


def told(text):
    try:
        return f"{len(order_reference.read(text))} steps"
    except order_reference.Fault as fault:
        return str(fault)


def faults(record):
    for name, rows in cases_of(CASES / "faults.txt").items():
        end = max(k for k, row in enumerate(rows) if row.startswith("-> "))
        found = told("".join(row + "\n" for row in rows[:end]).encode())
        record(f"order: text {name}", found == rows[end][3:], found)


def faults_beside_the_reference(record):
    for seed in range(RANDOM_TRACES):
        text = reference.random_trace(seed)
        try:
            expected = f"{len(reference.events_of(text))} steps"
        except reference.Fault as fault:
            expected = f"line {fault.line}: {fault.kind}"
        record(f"order: random trace {seed} is read", told(text) == expected, f"{told(text)}, not {expected}")


# ---- Random lists ----


def random_step(dice, threads):
    thread, other = dice.sample(threads, 2)
    verb = dice.choice(["read", "write", "write", "lock", "unlock", "rlock", "runlock", "join", "signal", "await", "reuse", "ignore-on", "ignore-off", "level"])
    operand = {"read": f" {4 * dice.randrange(3)}", "write": f" {4 * dice.randrange(3)}", "reuse": f" 0 {4 * dice.randrange(4)}{dice.choice(['', '', ' -', ' f.c:7'])}", "join": f" {other}",
               "ignore-on": "", "ignore-off": "", "level": f" {dice.randrange(3)}"}.get(verb, f" m{dice.randrange(2)}")
    return thread, f"{thread} {verb}{operand}"


def random_list(seed):
    """Some lines, and now and then the start of a thread that has none before it. Half of the lists have the line `end`."""
    dice, lines, acted = random.Random(seed), [], set()
    threads = [f"t{n}" for n in range(1, 3 + seed % 4)]
    for _ in range(dice.randrange(2, 45)):
        thread, line = random_step(dice, threads)
        fresh = [other for other in threads if other not in acted and other != thread]
        if fresh and dice.randrange(6) == 0:
            line = f"{thread} start {fresh[0]}"
        lines.append(line)
        acted.add(thread)
    return "".join(line + "\n" for line in ["eraser trace 3", *lines, *["end"] * (seed % 2)]).encode()


def random_bytes(seed, steps):
    """Parts of words for some of the steps."""
    dice = random.Random(seed)
    return {step.line: dice.choice([(0, 0), (0, 1), (1, 2), (2, 3), (3, 3)]) for step in steps if dice.randrange(3)}


def raced_words(marked):
    """The words of accesses that race."""
    return {race.marked.step.words.start for race in order_reference.races(marked) if race.marked.step.verb != "reuse"}


def random_lists(record):
    racy, fewer = 0, 0
    for seed in range(RANDOM_LISTS):
        text = random_list(seed)
        marked = order_reference.mark(order_reference.read(text))
        parted = order_reference.mark(order_reference.touch(order_reference.read(text), random_bytes(seed, order_reference.read(text))))
        for name, some in ("", marked), (" by bytes", parted):
            by_sets, by_chains = [race.place for race in order_reference.races(some)], order_reference.races_by_chains(some)
            record(f"order: random list {seed}{name}", by_sets == by_chains, f"{by_sets}, not {by_chains}")
        racy += bool(order_reference.races(marked))
        fewer += raced_words(parted) < raced_words(marked)
        record(f"order: bytes make no word of random list {seed} race", raced_words(parted) <= raced_words(marked), f"{raced_words(parted)}, not in {raced_words(marked)}")
    record("order: some random lists race, and some don't", RANDOM_LISTS // 10 < racy < RANDOM_LISTS * 9 // 10, f"{racy}")
    record("order: some words of random lists race by words alone", fewer > RANDOM_LISTS // 20, f"{fewer}")


def tests(record):
    worked(record)
    faults(record)
    faults_beside_the_reference(record)
    random_lists(record)


if __name__ == "__main__":
    run_alone(tests)
