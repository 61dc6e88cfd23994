#!/usr/bin/env python3
"""Happens-before, read a second time: by chains of steps, without clocks. Slow, plain and unproved, written for checking alone.

order_reference.py FILE           prints the accesses and reuses that race by happens-before, in the order of the trace
order_reference.py --sites FILE   prints how many races there are at each site
--bytes BYTES, before FILE: accesses touch parts of their words, as BYTES says by lines `LINE FIRST LAST` (`trace4.py touched` prints them)

It reads traces of the texts 1 to 3, and shares no code with the program nor with tests/reference.py.

An access races if an earlier counted access of its word, since the word's last reuse, conflicts with it, has a byte in common with it, and
doesn't come before it in order. Two accesses conflict if they are of two threads and one at least is a write. An access touches all four bytes of its
word, unless --bytes says otherwise. An era of a word is reported once, at its first race.

A reuse races too, outside ignore brackets: if some access of one of its words, since that word's last reuse, doesn't come before it in order,
and that era was not reported. It is asked page by page, and each page has one race at most.
"""

import collections
import dataclasses
import re
import sys

PAGE = 1024
NAME = re.compile(r"[A-Za-z0-9_.:/-]{1,128}")
WIDE_SITE = re.compile(r"[!-~]{1,128}")
NUMBER = re.compile(r"[0-9]+|0x[0-9a-fA-F]+")
LINE_BYTES, TEXT_BYTES = 1024, 268435456
MOST_LOCKS, MOST_BRACKETS = 64, 255

# The operands of each verb. A question mark: it may be missing.
VERBS = {"lock": "L", "unlock": "L", "rlock": "L", "runlock": "L", "read": "AS?", "write": "AS?", "reuse": "AN", "ignore-on": "",
         "ignore-off": "", "show": "A"}
VERBS_OF_TEXT = {"1": VERBS, "2": VERBS | {"level": "N"},
                 "3": VERBS | {"level": "N", "start": "T", "join": "T", "signal": "L", "await": "L", "reuse": "ANS?"}}


# ---- Reading ----


class Fault(Exception):
    def __init__(self, line, kind):
        super().__init__(f"line {line}: {kind}")
        self.line, self.kind = line, kind


@dataclasses.dataclass
class Step:
    """A line of a trace. A word is its address without the last two bits; the words of a reuse are a range. An access touches some bytes of its word."""

    line: int
    thread: str
    verb: str
    name: str = ""
    words: range = range(0)
    site: str = "-"
    bytes: range = range(4)


def number(text):
    if not NUMBER.fullmatch(text):
        return None
    value = int(text, 16 if text.startswith("0x") else 10)
    return value if value < 2**64 else None


def is_right(sort, text, version):
    """Whether an operand is what its place needs."""
    if sort in "AN":
        return number(text) is not None
    if sort == "S" and version == "3":
        return bool(WIDE_SITE.fullmatch(text))
    return bool(NAME.fullmatch(text)) and not (sort == "L" and text == "none")


def content(text):
    """The lines that aren't skipped, each with its number and words."""
    lines, start = text.split(b"\n"), 0
    if lines[-1] == b"":
        lines.pop()
    for at, line in enumerate(lines, 1):
        end = min(start + len(line) + 1, len(text))
        if len(line) > LINE_BYTES:
            raise Fault(at, "line too long")
        if end > TEXT_BYTES:
            raise Fault(at, "text too long")
        if not line.isascii():
            raise Fault(at, "not ascii")
        start = end
        words = [word for word in re.split("[ \t]+", line.decode()) if word]
        if words and not line.startswith(b"#"):
            yield at, words
    yield len(lines) + 1, None


def address_step(step, operands, line):
    """A step on words, whose operands are numbers."""
    address, size = number(operands[0]), number(operands[1]) if step.verb == "reuse" else 1
    if size > 4194304:
        raise Fault(line, "size too large")
    if address >= 2**48 or address + (size if step.verb == "reuse" else 0) > 2**48:
        raise Fault(line, "address out of range")
    step.words = range(address // 4, (address + size - 1) // 4 + 1) if size else range(0)
    sites = operands[2 if step.verb == "reuse" else 1:]
    step.site = sites[0] if sites and step.verb != "show" else "-"
    return step


def step_of(line, words, version, acted):
    """The step of a line. `acted` are the threads of the lines before."""
    if not NAME.fullmatch(words[0]):
        raise Fault(line, "bad name")
    if len(words) < 2:
        raise Fault(line, "missing operand")
    sorts = VERBS_OF_TEXT[version].get(words[1])
    if sorts is None:
        raise Fault(line, "bad verb")
    operands, most = words[2:], len(sorts.replace("?", ""))
    if len(operands) < most - sorts.count("?"):
        raise Fault(line, "missing operand")
    if len(operands) > most:
        raise Fault(line, "extra operand")
    for sort, operand in zip(sorts, operands):
        if not is_right(sort, operand, version):
            raise Fault(line, "bad number" if sort in "AN" else "bad name")
    step = Step(line, words[0], words[1])
    if sorts.startswith("A"):
        return address_step(step, operands, line)
    if step.verb == "level" and number(operands[0]) > 31:
        raise Fault(line, "level too high")
    step.name = operands[0] if operands else ""
    if step.verb in ("start", "join") and step.name == step.thread:
        raise Fault(line, "own thread")
    if step.verb == "start" and step.name in acted:
        raise Fault(line, "already running")
    return step


def read(text):
    """The steps of a trace, or its first fault."""
    steps, acted, version, is_ended = [], set(), None, False
    for at, words in content(text):
        if version is None:
            if words is None or words[:2] != ["eraser", "trace"] or words[2:] not in (["1"], ["2"], ["3"]):
                raise Fault(at, "no header")
            version = words[2]
        elif words is None:
            break
        elif is_ended:
            raise Fault(at, "after end")
        elif version == "3" and words == ["end"]:
            is_ended = True
        else:
            steps.append(step_of(at, words, version, acted))
            acted.add(words[0])
    return steps


def touch(steps, touched):
    """Has accesses touch parts of their words: the bytes from a first to a last one, by the numbers of their lines."""
    for step in steps:
        if step.line in touched:
            first, last = touched[step.line]
            step.bytes = range(first, last + 1)
    return steps


def read_bytes(text):
    """The parts of words that lines touch."""
    return {line: (first, last) for line, first, last in (map(int, row.split()) for row in text.splitlines())}


# ---- What a step does ----


class Holder:
    """What a thread holds: its locks with their modes, and its open brackets."""

    def __init__(self):
        self.locks, self.brackets = {}, 0

    def refuses(self, step):
        if step.verb in ("lock", "rlock"):
            return step.name in self.locks or len(self.locks) >= MOST_LOCKS
        if step.verb in ("unlock", "runlock"):
            return self.locks.get(step.name) != step.verb.replace("un", "")
        if step.verb == "ignore-on":
            return self.brackets >= MOST_BRACKETS
        return step.verb == "ignore-off" and self.brackets == 0

    def take(self, step):
        if step.verb in ("lock", "rlock"):
            self.locks[step.name] = step.verb
        elif step.verb in ("unlock", "runlock"):
            del self.locks[step.name]
        elif step.verb in ("ignore-on", "ignore-off"):
            self.brackets += 1 if step.verb == "ignore-on" else -1


@dataclasses.dataclass
class Marked:
    """A step with what its thread's own steps before make of it."""

    step: Step
    is_refused: bool
    is_counted: bool  # an access outside brackets
    is_asked: bool  # a reuse outside brackets
    held: tuple


def mark(steps):
    holders, found = collections.defaultdict(Holder), []
    for step in steps:
        holder = holders[step.thread]
        is_refused = holder.refuses(step)
        is_counted = step.verb in ("read", "write") and holder.brackets == 0
        is_asked = step.verb == "reuse" and holder.brackets == 0
        found.append(Marked(step, is_refused, is_counted, is_asked, tuple(holder.locks)))
        if not is_refused:
            holder.take(step)
    return found


# ---- Order ----


def leads(one, other):
    """Whether a step leads to a later one directly. Neither is refused."""
    if one.thread == other.thread or one.verb == "start" and one.name == other.thread or other.verb == "join" and other.name == one.thread:
        return True
    if one.name != other.name:
        return False
    if one.verb == "unlock":
        return other.verb in ("lock", "rlock")
    return (one.verb, other.verb) in (("runlock", "lock"), ("signal", "await"), ("start", "join"))


def reached(marked, place):
    """The places that the step at a place leads to by a chain, and itself: from the definition, for short lists."""
    found = [] if marked[place].is_refused else [place]
    for later in range(place + 1, len(marked)):
        if not marked[later].is_refused and any(leads(marked[k].step, marked[later].step) for k in found):
            found.append(later)
    return set(found)


def order_by_chains(marked):
    """For each place, the places that come before it in order."""
    after = [reached(marked, place) for place in range(len(marked))]
    return [{earlier for earlier in range(place) if place in after[earlier]} for place in range(len(marked))]


class Sources:
    """Sets of places, as numbers whose bit k stands for place k: what leads to each thread's next step, to an acquire, to an await."""

    def __init__(self):
        self.threads, self.releases, self.signals = (collections.defaultdict(int) for _ in range(3))

    def before(self, step):
        """All places that lead to this step, the next one of the list."""
        found = self.threads[step.thread]
        if step.verb in ("lock", "rlock"):
            found |= self.releases[step.name, "unlock"]
        if step.verb == "lock":
            found |= self.releases[step.name, "runlock"]
        elif step.verb == "await":
            found |= self.signals[step.name]
        elif step.verb == "join":
            found |= self.threads[step.name]
        return found

    def take(self, step, found):
        """The step leads on, and with it all that led to it."""
        self.threads[step.thread] = found
        if step.verb in ("unlock", "runlock"):
            self.releases[step.name, step.verb] |= found
        elif step.verb == "signal":
            self.signals[step.name] |= found
        elif step.verb == "start":
            self.threads[step.name] |= found


def order_by_sets(marked):
    """The same as by chains, for long lists: the places before each place, as the bits of a number."""
    sources = Sources()
    for place, item in enumerate(marked):
        found = 0 if item.is_refused else sources.before(item.step)
        if not item.is_refused:
            sources.take(item.step, found | 1 << place)
        yield found


# ---- Races ----


@dataclasses.dataclass
class Race:
    marked: Marked
    place: int
    earlier: int  # the place of the last access before it that conflicts with it and does not come before it in order
    words: range  # of an access its word, of a reuse those of a page


class Era:
    """A word since its last reuse: for each byte the places of the writes and of all accesses that touch it, as bits."""

    def __init__(self):
        self.writes, self.accesses, self.is_reported = [0] * 4, [0] * 4, False

    def conflicting(self, touched, is_write):
        """The places of the accesses that an access of these bytes conflicts with."""
        found, kept = 0, self.accesses if is_write else self.writes
        for byte in touched:
            found |= kept[byte]
        return found

    def add(self, touched, is_write, place):
        for byte in touched:
            self.accesses[byte] |= 1 << place
            self.writes[byte] |= is_write << place


def pages_of(words):
    """The parts of a run of words, one for each page."""
    return [range(max(start, words.start), min(start + PAGE, words.stop)) for start in range(words.start // PAGE * PAGE, words.stop, PAGE)]


def races_of_reuse(item, place, eras, before):
    """For each page of a reuse the lowest word that is in use, if there is one."""
    for words in pages_of(item.step.words):
        used = [word for word in sorted(eras) if word in words and not eras[word].is_reported and eras[word].conflicting(range(4), True) & ~before]
        if used:
            yield Race(item, place, (eras[used[0]].conflicting(range(4), True) & ~before).bit_length() - 1, words)


def races(marked):
    """The accesses and reuses that are reported, in the order of the trace."""
    eras, found = collections.defaultdict(Era), []
    for place, (item, before) in enumerate(zip(marked, order_by_sets(marked))):
        if item.step.verb == "reuse":
            found += races_of_reuse(item, place, eras, before) if item.is_asked else []
            for word in [word for word in eras if word in item.step.words]:
                del eras[word]
        if not item.is_counted:
            continue
        era, is_write = eras[item.step.words.start], item.step.verb == "write"
        apart = era.conflicting(item.step.bytes, is_write) & ~before
        if apart and not era.is_reported:
            era.is_reported = True
            found.append(Race(item, place, apart.bit_length() - 1, item.step.words))
        era.add(item.step.bytes, is_write, place)
    return found


def era_of(marked, word, place):
    """The counted accesses of a word before a place, since its last reuse."""
    start = max((k + 1 for k in range(place) if marked[k].step.verb == "reuse" and word in marked[k].step.words), default=0)
    return [k for k in range(start, place) if marked[k].is_counted and marked[k].step.words.start == word]


def races_by_chains(marked):
    """The places that are reported, from the definition alone, for short lists."""
    order = order_by_chains(marked)

    def is_apart(place, earlier):
        step, other = marked[place].step, marked[earlier].step
        return "write" in (step.verb, other.verb) and set(step.bytes) & set(other.bytes) and earlier not in order[place]

    def is_race(place):
        return any(is_apart(place, k) for k in era_of(marked, marked[place].step.words.start, place))

    def is_reported(place):
        return is_race(place) and not any(is_race(k) for k in era_of(marked, marked[place].step.words.start, place))

    def is_in_use(word, place):
        era = era_of(marked, word, place)
        return any(k not in order[place] for k in era) and not any(is_race(k) for k in era)

    found = []
    for place, item in enumerate(marked):
        if item.is_counted and is_reported(place):
            found.append(place)
        if item.is_asked:
            words = {other.step.words.start for other in marked if other.is_counted}
            found += [place for page in pages_of(item.step.words) if any(word in page and is_in_use(word, place) for word in words)]
    return found


def answers(marked):
    """A word for each step."""
    racy = {race.place for race in races(marked)}

    def answer(place, item):
        if item.is_refused:
            return "refused"
        if item.step.verb in ("read", "write"):
            return "race" if place in racy else "quiet" if item.is_counted else "ignored"
        return "race" if place in racy else "done"

    return [answer(place, item) for place, item in enumerate(marked)]


# ---- The command ----


def line_of(race):
    step, held = race.marked.step, " ".join(race.marked.held) or "none"
    if step.verb == "reuse":
        site = "" if step.site == "-" else f" at {step.site}"
        return f"line {step.line}: unordered: {step.thread} reuse 0x{race.words.start * 4:012x} {len(race.words) * 4}{site}"
    return f"line {step.line}: unordered: {step.thread} {step.verb} 0x{step.words.start * 4:012x} at {step.site}, holds {held}"


def main():
    *options, name = sys.argv[1:]
    touched = {}
    if "--bytes" in options:
        at = options.index("--bytes")
        with open(options[at + 1], encoding="ascii") as file:
            touched = read_bytes(file.read())
        del options[at:at + 2]
    with open(name, "rb") as file:
        try:
            marked = mark(touch(read(file.read()), touched))
        except Fault as fault:
            sys.exit(f"{name}: {fault}")
    found = races(marked)
    if options == ["--sites"]:
        for site, count in collections.Counter(race.marked.step.site for race in found).most_common():
            print(f"{count:6} {site}")
    else:
        for race in found:
            earlier = marked[race.earlier].step
            print(f"{line_of(race)}\n  unordered with: line {earlier.line}, {earlier.thread} {earlier.verb}")
    print(f"races {len(found)}, refused {sum(item.is_refused for item in marked)}")


if __name__ == "__main__":
    main()
