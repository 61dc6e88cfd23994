#!/usr/bin/env python3
"""A second reading of docs/FORMATS.md and docs/DEFINITIONS.md, written for checking alone: slow, plain and unproved.

reference.py replay [--explain] FILE [RULES]   prints the report of a trace and ends with its exit status
reference.py random SEED           prints a short random trace, with faults now and then
reference.py rules SEED            prints a short random text of suppressions, with faults now and then

It shares no code with the program, so that a misreading of the documents shows as a difference.
"""

import collections
import random
import re
import sys

NAME = re.compile(rb"[A-Za-z0-9_.:/-]{1,128}\Z")
WIDE_SITE = re.compile(rb"[!-~]{1,128}\Z")
NUMBER = re.compile(rb"([0-9]+|0x[0-9a-fA-F]+)\Z")
VERBS = {
    b"lock": (1, 1), b"unlock": (1, 1), b"rlock": (1, 1), b"runlock": (1, 1), b"read": (1, 2), b"write": (1, 2),
    b"reuse": (2, 2), b"ignore-on": (0, 0), b"ignore-off": (0, 0), b"show": (1, 1),
}
LEVEL_VERB = {b"level": (1, 1)}
ORDER_VERBS = {b"start": (1, 1), b"join": (1, 1), b"signal": (1, 1), b"await": (1, 1)}
VERBS_OF = {b"1": VERBS, b"2": VERBS | LEVEL_VERB, b"3": VERBS | LEVEL_VERB | ORDER_VERBS | {b"reuse": (2, 3)}}
BYTE_LIMIT = 268435456


class Fault(Exception):
    def __init__(self, line, kind):
        self.line, self.kind = line, kind


def number(word):
    if not NUMBER.match(word):
        return None
    value = int(word, 16 if word.startswith(b"0x") else 10)
    return value if value < 2**64 else None


def is_name(word, of_lock=False):
    return bool(NAME.match(word)) and not (of_lock and word == b"none")


def is_site(word, version):
    """A suppression has no version: its sites are those of text 3."""
    return bool((WIDE_SITE if version == b"3" else NAME).match(word))


def operands_fault(verb, words, version):
    """The kind of the leftmost operand that isn't what its place asks."""
    for place, word in enumerate(words):
        if verb in (b"lock", b"unlock", b"rlock", b"runlock", b"signal", b"await"):
            if not is_name(word, of_lock=True):
                return "bad name"
        elif verb in (b"start", b"join"):
            if not is_name(word):
                return "bad name"
        elif (verb in (b"read", b"write") and place == 1) or (verb == b"reuse" and place == 2):
            if not is_site(word, version):
                return "bad name"
        elif number(word) is None:
            return "bad number"
    return None


def event_of(line, words, version):
    if not is_name(words[0]):
        raise Fault(line, "bad name")
    if len(words) < 2:
        raise Fault(line, "missing operand")
    verbs = VERBS_OF[version]
    if words[1] not in verbs:
        raise Fault(line, "bad verb")
    least, most = verbs[words[1]]
    operands = words[2:]
    if len(operands) < least:
        raise Fault(line, "missing operand")
    if len(operands) > most:
        raise Fault(line, "extra operand")
    kind = operands_fault(words[1], operands, version)
    if kind:
        raise Fault(line, kind)
    if words[1] == b"reuse":
        address, size = number(operands[0]), number(operands[1])
        if size > 4194304:
            raise Fault(line, "size too large")
        if address >= 2**48 or address + size > 2**48:
            raise Fault(line, "address out of range")
    elif words[1] in (b"read", b"write", b"show") and number(operands[0]) >= 2**48:
        raise Fault(line, "address out of range")
    elif words[1] == b"level" and number(operands[0]) > 31:
        raise Fault(line, "level too high")
    return words[0], words[1], operands


def content_of(text):
    """The lines of a text that aren't skipped, each with its number and words, up to a line that no text may have."""
    lines = text.split(b"\n")
    if lines[-1] == b"":
        lines.pop()
    start = 0
    for at, line in enumerate(lines, 1):
        width = len(line) + 1 if start + len(line) < len(text) else len(line)
        if len(line) > 1024:
            raise Fault(at, "line too long")
        if start <= BYTE_LIMIT < start + width:
            raise Fault(at, "text too long")
        if any(byte >= 128 for byte in line):
            raise Fault(at, "not ascii")
        start += width
        words = [word for word in re.split(rb"[ \t]+", line) if word]
        if words and not line.startswith(b"#"):
            yield at, words
    yield len(lines) + 1, None


def events_of(text):
    """The event lines of a trace, each with its line, or its first fault."""
    events, version, ended = [], None, False
    for at, words in content_of(text):
        if version is None:
            if words is None or len(words) != 3 or words[:2] != [b"eraser", b"trace"] or words[2] not in VERBS_OF:
                raise Fault(at, "no header")
            version = words[2]
        elif words is not None:
            if ended:
                raise Fault(at, "after end")
            if version == b"3" and words == [b"end"]:
                ended = True
                continue
            thread, verb, operands = event_of(at, words, version)
            if verb in (b"start", b"join") and operands[0] == thread:
                raise Fault(at, "own thread")
            if verb == b"start" and any(other == operands[0] for _, (other, _, _) in events):
                raise Fault(at, "already running")
            events.append((at, (thread, verb, operands)))
    return events


def loss_of(text):
    """The line of the last comment, and how many events it says were lost. None if it says nothing of the sort."""
    comments = [(line, comment) for line, comment in enumerate(text.split(b"\n"), 1) if comment.startswith(b"#")]
    line, comment = comments[-1] if comments else (0, b"")
    found = re.fullmatch(rb"# incomplete: ([0-9]+) events, ([0-9]+) lost", comment)
    counts = [int(count) for count in found.groups()] if found else [0, 0]
    return (line, counts[1]) if counts[1] > 0 and max(counts) < 2**64 else None


def lost_of(text):
    """How many events a report says were lost: those that the last comment of a text 3 says."""
    version, loss = next((words[-1] for _, words in content_of(text) if words), None), loss_of(text)
    return loss[1] if loss and version == b"3" else None


def lost_part(text):
    """What the line of totals ends with."""
    lost = lost_of(text)
    return "" if lost is None else f", lost {lost}"


def note_of(text):
    """What standard error gets behind the report of a text that has no fault: a note if it is a text 3 without the line `end`."""
    words = [words for _, words in content_of(text) if words]
    return "note: the trace has no end: it may be cut off\n" if words[0][-1] == b"3" and words[-1] != [b"end"] else ""


def order_note_of(text, unordered, hints=False):
    """What standard error gets behind a report by happens-before that has so many lines of races: a note if it has some, and the text, which
    has no fault, no line of order. Only people get it of a text that has no such verbs."""
    words = [words for _, words in content_of(text) if words]
    has_order = any(line[1:2] and line[1] in (b"start", b"join", b"signal", b"await") for line in words[1:])
    is_noted = unordered > 0 and not has_order and (hints or words[0][-1] == b"3")
    return f"note: this trace records no order: record it with --order; {unordered} unordered accesses may be ordered\n" if is_noted else ""


class Pattern(collections.namedtuple("Pattern", "text")):
    """A pattern of sites' names: a star stands for any run of bytes."""

    def takes(self, site):
        pieces = (re.escape(piece) for piece in self.text.split(b"*"))
        return site != b"-" and re.fullmatch(b".*".join(pieces), site, re.DOTALL) is not None


class FactPattern(collections.namedtuple("FactPattern", "kind text")):
    """A pattern of what a trace 4 may say of a race: no site tells it."""

    def takes(self, site):
        return False


FACTS = (b"frame", b"function", b"variable")


def rule_of(line, words, is_second):
    """A site, or in the second edition a pattern of sites or of what a trace says, or the first and the last word of a run of bytes, which are the
    wrong way round where it is of no byte."""
    wanted = {b"site": 1, b"words": 2, **dict.fromkeys(FACTS if is_second else (), 1)}.get(words[0])
    if wanted is None:
        raise Fault(line, "bad verb")
    operands = words[1:]
    if len(operands) != wanted:
        raise Fault(line, "missing operand" if len(operands) < wanted else "extra operand")
    if wanted == 1:
        if not is_site(operands[0], b"3"):
            raise Fault(line, "bad name")
        if words[0] in FACTS:
            return FactPattern(words[0], operands[0])
        return Pattern(operands[0]) if is_second and b"*" in operands[0] else operands[0]
    address, size = number(operands[0]), number(operands[1])
    if address is None or size is None:
        raise Fault(line, "bad number")
    if address >= 2**48 or address + size > 2**48:
        raise Fault(line, "address out of range")
    return (address // 4, (address + size - 1) // 4) if size else (1, 0)


def rules_of(text):
    rules, is_second = [], False
    for at, words in content_of(text):
        if words is None:
            continue
        if not rules and not is_second and words == [b"eraser", b"suppressions", b"2"]:
            is_second = True
        else:
            rules.append(rule_of(at, words, is_second))
    return rules


def takes(rule, site, word):
    if isinstance(rule, (Pattern, FactPattern)):
        return rule.takes(site)
    return rule == site if isinstance(rule, bytes) else rule[0] <= word <= rule[1]


class Word:
    """What is remembered of a word: every counted access of its era, with the locks that cover it."""

    def __init__(self):
        self.accesses = []
        self.reported = False

    def joining(self):
        return next((k for k, a in enumerate(self.accesses) if a[0] != self.accesses[0][0]), None)

    def candidates(self):
        return set.intersection(*(set(a[2]) for a in self.accesses[self.joining():]))

    def written(self):
        return self.joining() is not None and any(a[1] == b"write" for a in self.accesses[self.joining():])

    def racy(self):
        return self.written() and not self.candidates()


class Replay:
    def __init__(self, rules, explain=False):
        self.rules, self.taken = rules, [0] * len(rules)
        # Every counted access and every reuse so far, to be looked back on: its line, thread, verb, words and cover.
        self.explain, self.marks = explain, []
        self.locks, self.held, self.depth, self.level, self.words = {}, {}, {}, {}, {}
        self.lines, self.steps, self.races, self.refused = [], 0, 0, 0

    def in_order(self, locks):
        """By number; a level's lock is its level here, and comes behind all named ones."""
        named = sorted((lock for lock in locks if isinstance(lock, bytes)), key=lambda lock: self.locks[lock])
        return named + sorted(lock for lock in locks if isinstance(lock, int))

    @staticmethod
    def name(lock):
        return lock.decode() if isinstance(lock, bytes) else f"!{lock}"

    def names(self, locks):
        return " ".join(self.name(lock) for lock in self.in_order(locks)) or "none"

    def reasons(self, at):
        """Why the last access of a word is a race: looked for among all accesses since the word's last reuse."""
        reuses = [k for k, (_, _, verb, words, _) in enumerate(self.marks) if verb == b"reuse" and words[0] <= at <= words[1]]
        era = self.marks[max(reuses, default=-1) + 1:]
        found = [mark for mark in era if mark[2] != b"reuse" and mark[3] == (at, at)]
        joined = next(k for k, mark in enumerate(found) if mark[1] != found[0][1])
        told = [("first", found[0]), ("joined", found[joined]), ("write", next(mark for mark in found[joined:] if mark[2] == b"write"))]
        for lock in self.in_order(found[joined][4]):
            told.append((f"{self.name(lock)} not covering", next(mark for mark in found[joined + 1:] if lock not in mark[4])))
        return [f"  {label}: line {line}, {thread.decode()} {verb.decode()}" for label, (line, thread, verb, _, _) in told]

    def cover(self, thread, verb):
        held = self.held[thread]
        acquired = list(held) if verb == b"read" else [lock for lock, how in held.items() if how == b"lock"]
        return acquired + list(range(1, self.level.get(thread, 0) + 1))

    def refusal(self, thread, verb, operands):
        held, depth = self.held.setdefault(thread, {}), self.depth.setdefault(thread, 0)
        if verb in (b"lock", b"rlock"):
            return "already held" if operands[0] in held else "too many locks held" if len(held) >= 64 else None
        if verb in (b"unlock", b"runlock"):
            if operands[0] not in held:
                return "not held"
            return None if held[operands[0]] == verb.replace(b"un", b"") else "held in the other mode"
        if verb == b"ignore-on":
            return "ignore too deep" if depth >= 255 else None
        if verb == b"ignore-off":
            return "ignore not on" if depth == 0 else None
        return None

    def access(self, line, thread, verb, operands):
        if self.depth[thread]:
            return
        at = number(operands[0]) // 4
        word = self.words.setdefault(at, Word())
        word.accesses.append((thread, verb, self.cover(thread, verb)))
        self.marks.append((line, thread, verb, (at, at), self.cover(thread, verb)))
        if word.racy() and not word.reported:
            word.reported = True
            site = operands[1] if len(operands) > 1 else b"-"
            taker = next((k for k, rule in enumerate(self.rules) if takes(rule, site, at)), None)
            if taker is not None:
                self.taken[taker] += 1
                return
            self.races += 1
            self.lines.append(f"line {line}: race: {thread.decode()} {verb.decode()} 0x{at * 4:012x} at {site.decode()}, holds {self.names(self.cover(thread, b'read'))}")
            if self.explain:
                self.lines += self.reasons(at)

    def show(self, line, operands):
        at = number(operands[0]) // 4
        word = self.words.get(at, Word())
        if not word.accesses:
            state = "virgin"
        elif word.joining() is None:
            state = "exclusive " + word.accesses[0][0].decode()
        else:
            state = ("shared-modified" if word.written() else "shared") + ", candidates " + self.names(word.candidates())
        self.lines.append(f"line {line}: state 0x{at * 4:012x}: {state}")

    def step(self, line, thread, verb, operands):
        if verb in (b"lock", b"unlock", b"rlock", b"runlock", b"signal", b"await"):
            self.locks.setdefault(operands[0], len(self.locks))
        why = self.refusal(thread, verb, operands)
        if why:
            self.steps, self.refused = self.steps + 1, self.refused + 1
            what = b" ".join([thread, verb] + operands).decode()
            self.lines.append(f"line {line}: refused: {what}: {why}")
            return
        if verb == b"reuse":
            address, size = number(operands[0]), number(operands[1])
            if size:
                first, last = address // 4, (address + size - 1) // 4
                self.marks.append((line, thread, verb, (first, last), []))
                for at in [at for at in self.words if first <= at <= last]:
                    del self.words[at]
                self.steps += last // 1024 - first // 1024 + 1
            return
        self.steps += 1
        if verb in (b"lock", b"rlock"):
            self.held[thread][operands[0]] = verb
        elif verb in (b"unlock", b"runlock"):
            del self.held[thread][operands[0]]
        elif verb == b"ignore-on":
            self.depth[thread] += 1
        elif verb == b"ignore-off":
            self.depth[thread] -= 1
        elif verb == b"level":
            self.level[thread] = number(operands[0])
        elif verb == b"show":
            self.show(line, operands)
        elif verb in ORDER_VERBS:
            pass  # It is Done, and no lockset changes.
        else:
            self.access(line, thread, verb, operands)


def replay(text, rules=b"", explain=False):
    """Standard output, standard error and exit status."""
    try:
        found = rules_of(rules)
    except Fault as fault:
        return "", f"suppressions line {fault.line}: {fault.kind}\n", 2
    try:
        events = events_of(text)
    except Fault as fault:
        return "", f"line {fault.line}: {fault.kind}\n", 2
    run = Replay(found, explain)
    for line, (thread, verb, operands) in events:
        run.step(line, thread, verb, operands)
    run.lines += [f"suppression {number}: {count}" for number, count in enumerate(run.taken, 1)]
    run.lines.append(f"steps {run.steps}, races {run.races}, suppressed {sum(run.taken)}, refused {run.refused}{lost_part(text)}")
    return "".join(line + "\n" for line in run.lines), note_of(text), 1 if run.races else 0


# Sites that only a text 3 may have, with bytes that mean something in JSON, URIs, HTML, regular expressions and shells.
WIDE_SITES = ["std::vector<int>::push_back(int&&)@a+b.cpp:3", "\"q\\u'%41#$`;|.c++:12", "&lt;{x}[y]~^!*,=?:7"]


def random_line(dice, version, acting):
    """A line of a text of this version, behind lines in which these threads act."""
    thread = f"t{dice.randrange(4)}"
    address = dice.choice(["0x1000", "0x1004", "4100", "0x1ffc", "0x2000", "0x00003000", "0xffffffffffff"])
    lock = f"m{dice.randrange(3)}"
    verb = dice.choices(
        ["lock", "unlock", "rlock", "runlock", "read", "write", "reuse", "ignore-on", "ignore-off", "show", "level", "start", "join", "signal", "await"],
        [8, 8, 5, 5, 14, 14, 2, 1, 2, 4, 3 if version > "1" else 0] + [2 if version > "2" else 0] * 4)[0]
    if verb in ("lock", "unlock", "rlock", "runlock", "signal", "await"):
        return f"{thread} {verb} {lock}"
    if verb in ("start", "join"):
        # Most of them have no fault. The last two threads never act.
        others = [f"t{n}" for n in range(6) if f"t{n}" != thread and (verb == "join" or f"t{n}" not in acting)]
        return f"{thread} {verb} {dice.choice(others) if dice.randrange(40) else f't{dice.randrange(4)}'}"
    if verb in ("read", "write"):
        return f"{thread} {verb} {address}" + dice.choice(["", " a.c:7", "\tb/c.rs:12"] + ([f" {site}" for site in WIDE_SITES] if version > "2" else []))
    if verb == "reuse":
        site = dice.choice(["", "", " a.c:7", "\t-", f" {dice.choice(WIDE_SITES)}"]) if version > "2" or dice.randrange(40) == 0 else ""
        return f"{thread} reuse {dice.choice(['0x1000', '0x1003', '0x1ffc'])} {dice.choice([0, 1, 8, 4096, 9000])}{site}"
    if verb == "level":
        return f"{thread} level {dice.choice([0, 0, 1, 2, 3, 31])}"
    return f"{thread} {verb}" + (f" {address}" if verb == "show" else "")


def dense_trace():
    """Accesses of each word of some blocks. What is kept of a word is found again after a reuse of several blocks."""
    dice, lines = random.Random(7), ["eraser trace 1"]
    for _ in range(3):
        for thread in ("t1", "t2"):
            lines += [f"{thread} write {4 * place}" for place in dice.sample(range(260), 260)]
        lines.append(f"t1 reuse {4 * dice.randrange(100)} 512")
    return ("\n".join(lines) + "\n").encode()


def random_trace(seed):
    dice = random.Random(seed)
    version = dice.choice("11122333333")
    lines, acting = [f"eraser trace {version}"], set()
    for _ in range(dice.randrange(120)):
        lines.append(random_line(dice, version, acting))
        acting.add(lines[-1].split(" ")[0])
    if version == "3" and dice.randrange(2):
        lines += [dice.choice(["end", " end\t"])] + [random_line(dice, version, acting)] * (dice.randrange(6) == 0)
    for _ in range(dice.randrange(3)):
        lossy = f"# incomplete: {len(lines)} events, {dice.choice([0, 1, 30175])} lost"
        lines.insert(dice.randrange(len(lines) + 1), dice.choice(["", "# a comment", "  \t", lossy]))
    text = "\n".join(lines).encode() + dice.choice([b"", b"\n"])
    if dice.randrange(4) == 0:
        at = dice.randrange(len(text) + 1)
        text = text[:at] + dice.choice([b" ", b"\n", b"0", b"x", b"!", b"\x80", b"-", b"a" * 1100, b" none ", b"\r", b"+", b"\x7f"]) + text[at + dice.randrange(3):]
    return text


def random_rules(seed):
    dice = random.Random(seed)
    lines = []
    for _ in range(dice.randrange(6)):
        address, size = dice.choice(["0x1000", "4100", "0x2000", "0xffffffffffff", "0"]), dice.choice(["0", "1", "4", "4097", "0x10000", "99999999"])
        site = dice.choice(["a.c:7", "b/c.rs:12", "-", "other", *WIDE_SITES, "*", "a.c:*", "*c*:*", "b*12", "*7*7"])
        lines.append(dice.choice([f"site {site}", f"words {address} {size}", "", "# a comment"]))
    if dice.randrange(2):
        lines.insert(dice.choice([0, 0, 0, dice.randrange(len(lines) + 1)]), dice.choice(["eraser suppressions 2", " eraser\tsuppressions 2 ", "eraser suppressions 1"]))
        lines += [f"{kind.decode()} {dice.choice(['a.c:7', '*', 'main'])}" for kind in FACTS if dice.randrange(3) == 0]
    text = "\n".join(lines).encode() + dice.choice([b"", b"\n"])
    if dice.randrange(5) == 0:
        at = dice.randrange(len(text) + 1)
        text = text[:at] + dice.choice([b" ", b"\n", b"0", b"x", b"!", b"\x80", b"a" * 1100, b" none ", b"\r", b"+", b"\x7f"]) + text[at + dice.randrange(3):]
    return text


def main():
    if sys.argv[1] == "replay":
        explain = sys.argv[2] == "--explain"
        texts = [open(name, "rb").read() for name in sys.argv[2 + explain:4 + explain]]
        output, errors, status = replay(*texts, explain=explain)
        sys.stdout.write(output)
        sys.stderr.write(errors)
        sys.exit(status)
    made = random_trace if sys.argv[1] == "random" else random_rules
    sys.stdout.buffer.write(made(int(sys.argv[2])))


if __name__ == "__main__":
    main()
