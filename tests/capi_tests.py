#!/usr/bin/env python3
"""The library for C: the proved calls and the layer over POSIX threads, called by programs in C, C++ and Rust.

- 1,000 random lists of calls, by the proved calls and by the layer: each answer is that of tests/reference.py, and so is which accesses leave all as it was.
  With each allocation of some of them refused in turn, the answers are the same once a refused call is made again
- the same lists in audit mode: the same answers, and all calls settle into a run of as many steps as the reference counts
- what a thread remembers of its accesses: the layer finds what it has to, and doesn't if one of some bugs is planted in it. In audit mode a settlement names
  what other bugs come to, but for those that none can see
- a million words take at most 5 bytes each, and nothing more when they are used again
- the programs of tests/capi, plain and with AddressSanitizer, UndefinedBehaviorSanitizer and ThreadSanitizer: many threads, wrong handles, lives of locks,
  threads and detectors, signal handlers, forks. In audit mode too: they settle, many threads into as many steps as they made
- no proved call asks anything of its caller by a contract, and the header has all of them
- the headers have no warning in C11 and in C++17, by gcc and clang, and the statuses in Rust are the header's
- capi/build makes the library of the archive and the sources that are there, also of older ones
- the address in a race's line is that of the call, by addr2line
- the programs of docs/LIBRARY.md build by its commands with what ./install puts, and print what it shows

`tests/run` calls `tests`. By itself this file runs these tests alone. ERASER_PROVED is the path of another archive of the proved calls.
"""

import concurrent.futures
import os
import pathlib
import random
import re
import shutil
import sys
import tempfile

sys.dont_write_bytecode = True
import reference
from alone import TOP, command, each_refused, program, run_alone

CAPI = TOP / "capi"
SOURCES = TOP / "tests/capi"
LISTS = 1000
# Lists whose allocations are refused in turn.
REFUSED_LISTS = 4
WARNINGS = ["-Wall", "-Wextra", "-Wpedantic", "-Werror"]
COMPILERS = {"c": ("gcc", "clang"), "c++": ("g++", "clang++")}
AFTER = re.compile(r"after (\S+) holding")
LIMIT = 2**48
LEVEL_LOCKS = 4294967264


def archive():
    return os.environ.get("ERASER_PROVED") or str(program("eraser_c"))


def build(folder, name, *flags, layer=CAPI / "eraser_pthread.c"):
    """A program of tests/capi with the layer's sources, by gcc with these flags."""
    target = folder / f"{name}{''.join(flags).replace('=', '-').replace('/', '-')}"
    flags = [*WARNINGS, *flags, *LINKED.get(name, [])]
    sources = [SOURCES / f"{name}.c", layer, CAPI / "eraser_memory.c"]
    done = command(["gcc", "-std=c11", "-D_GNU_SOURCE", "-g", "-O1", *flags, f"-I{CAPI}", *sources, archive(), "-o", target, "-pthread"])
    return target, done


# ---- lists of calls, and their answers by the reference


class Expected:
    """Answers calls by the reference. Locks are numbers, and recursive for the layer, which no trace is."""

    def __init__(self, of_layer, audits):
        self.run, self.of_layer, self.audits = reference.Replay([]), of_layer, audits
        self.rounds = {}
        # The threads that used a word since it was freed, and the words of each slot of a shard, in which the layer remembers a word's last users.
        self.users, self.slots = {}, {}
        # The steps of the run that an audit settles: what is accepted and counts, a reuse for each page.
        self.steps = 0

    def step(self, thread, verb, *operands):
        """What the reference says of one step: a refusal, `race`, a state, or nothing."""
        lines, races = len(self.run.lines), self.run.races
        self.run.step(1, b"t%d" % thread, verb, [b"%d" % it if isinstance(it, int) else it for it in operands])
        new = self.run.lines[lines:]
        if new and ": refused: " in new[0]:
            return new[0].rsplit(": ", 1)[1]
        if verb == b"reuse":
            first, size = operands
            self.steps += (first + size - 1) // 4096 - first // 4096 + 1 if size else 0
        elif verb != b"show":
            self.steps += 1
        if new and ": state " in new[0]:
            return re.match(r".*: state \w+: ([\w-]+)", new[0])[1]
        return "race" if self.run.races > races else None

    def held(self, thread):
        return self.run.held.get(b"t%d" % thread, {})

    def is_ignoring(self, thread):
        return self.run.depth.get(b"t%d" % thread, 0) > 0

    def lock(self, thread, lock, writes):
        if not self.of_layer:
            return "level lock" if lock > LEVEL_LOCKS else self.step(thread, b"lock" if writes else b"rlock", b"m%d" % lock) or "quiet"
        mode = self.held(thread).get(b"m%d" % lock)
        if mode:
            if (mode == b"lock") != bool(writes):
                return "held in the other mode"
            self.rounds[thread, lock] += 1
            return "quiet"
        answer = self.step(thread, b"lock" if writes else b"rlock", b"m%d" % lock)
        if answer is None:
            self.rounds[thread, lock] = 1
        return answer or "quiet"

    def unlock(self, thread, lock, writes):
        if not self.of_layer:
            return "level lock" if lock > LEVEL_LOCKS else self.step(thread, b"unlock" if writes else b"runlock", b"m%d" % lock) or "quiet"
        mode = self.held(thread).get(b"m%d" % lock)
        if mode is None:
            return "not held"
        self.rounds[thread, lock] -= 1
        return (self.step(thread, b"un" + mode if mode == b"lock" else b"runlock", b"m%d" % lock) if self.rounds[thread, lock] == 0 else None) or "quiet"

    def access(self, thread, address, size, writes):
        if address >= LIMIT or address + size > LIMIT:
            return "address out of range", None
        if size == 0:
            return "quiet", None
        if self.is_ignoring(thread):
            return "ignored", None
        first, others = None, None
        words = range(address // 4, (address + size - 1) // 4 + 1)
        before = [self.state(word) for word in words]
        for word in words:
            is_race = self.step(thread, b"write" if writes else b"read", 4 * word) == "race"
            known = self.others(thread, word)
            if is_race and first is None:
                first, others = 4 * word, known
        is_settled = not self.of_layer and not self.audits and before == [self.state(word) for word in words]
        return (f"race 0x{first:x}" if first is not None else "quiet settled" if is_settled else "quiet"), others

    def state(self, word):
        of = self.run.words.get(word)
        if not of or not of.accesses:
            return None
        return of.accesses[0][0] if of.joining() is None else (of.written(), frozenset(of.candidates()))

    def slot(self, word):
        return (word // 1024 * (2**40 if self.audits else 0x9E3779B97F4A7C15) % 2**64 >> 40) % 4, word % 128

    def others(self, thread, word):
        """Which other threads may be told to have used the word before: 4 if that may be unknown."""
        users = self.users.setdefault(word, set())
        known = users - {thread}
        users.add(thread)
        slot = self.slots.setdefault(self.slot(word), set())
        slot.add(word)
        return sorted(known | ({4} if len(slot) > 1 or not known else set()))

    def free(self, thread, address, size):
        if address >= LIMIT or address + size > LIMIT:
            return "address out of range"
        self.step(thread, b"reuse", address, size)
        words = range(address // 4, (address + size - 1) // 4 + 1) if size else ()
        self.users = {word: users for word, users in self.users.items() if word not in words}
        return "quiet"

    def answer(self, thread, verb, first, second):
        others = None
        if verb == "lock":
            found = self.lock(thread, first, second)
        elif verb == "unlock":
            found = self.unlock(thread, first, second)
        elif verb in ("ignore-on", "ignore-off"):
            found = self.step(thread, verb.encode()) or "quiet"
        elif verb == "level":
            found = "level too high" if first > 31 else self.step(thread, b"level", first) or "quiet"
        elif verb == "free":
            found = self.free(thread, first, second)
        elif verb == "look":
            found = "address out of range" if first >= LIMIT else self.step(thread, b"show", first)
        elif verb.startswith("one-"):
            # This call has no place for the word, which the caller knows.
            found = self.access(thread, first, 1, verb == "one-write")[0].removesuffix(" settled").split(" 0x")[0]
        else:
            found, others = self.access(thread, first, second, verb == "write")
        held = self.held(thread)
        if not self.of_layer:
            return found + " holding" + "".join(f" {lock}" for lock in sorted(int(lock[1:]) for lock in held))
        if found.startswith("race"):
            locks = "".join(f" {lock.decode()[1:]}{'' if mode == b'lock' else 'r'}" for lock, mode in held.items())
            return f"{found} after {'|'.join(map(str, others))} holding{locks}"
        return found


def random_calls(seed, of_layer):
    dice = random.Random(f"{seed} {of_layer}")
    # Few threads, locks and words, so that they meet; sometimes many locks.
    locks = dice.choice([2, 3, 3, 70])
    # Whole pages and more take the reference long.
    longer = [4096, 9000] if of_layer and seed % 40 == 0 else []
    verbs = ["lock", "unlock", "read", "write", "free", "look", "ignore-on", "ignore-off"] + ([] if of_layer else ["level", "one-read", "one-write"])
    weights = [12 if locks < 70 else 30, 9, 14, 14, 1, 5, 1, 2] + ([] if of_layer else [3, 6, 6])
    calls, last = [], {}
    for _ in range(dice.randrange(20, 160)):
        thread, verb = dice.randrange(4), dice.choices(verbs, weights)[0]
        if thread in last and dice.randrange(4) == 0:
            calls.append(last[thread])
        elif verb in ("lock", "unlock"):
            lock = dice.randrange(locks)
            if not of_layer and dice.randrange(40) == 0:
                lock = dice.choice([LEVEL_LOCKS, LEVEL_LOCKS + 1, 2**32 - 1])
            calls.append((thread, verb, lock, int(dice.randrange(4) > 0)))
        elif verb == "level":
            calls.append((thread, verb, dice.choice([0, 0, 1, 2, 31, 32]), 0))
        elif verb in ("read", "write", "free"):
            address = dice.choice([4096, 4096, 4097, 4100, 4608, 8188, 8190, 20480, LIMIT - 4, LIMIT - 1, LIMIT])
            sizes = [1, 4, 4, 4, 8, 16, 3, 0] + longer
            size = dice.choice(sizes)
            calls.append((thread, verb, address, size if verb != "free" or of_layer else min(size, 8192 - address if address < 8192 else 4)))
            if verb != "free":
                last[thread] = calls[-1]
        else:
            calls.append((thread, verb, dice.choice([4096, 4098, 4100, 8188, 8192, 20480, LIMIT - 1, LIMIT]), 0))
    return calls


def answers(calls, of_layer, audits):
    """What the calls are answered, and how many steps an audit of them has, which it says in a last line."""
    expected = Expected(of_layer, audits)
    lines = [expected.answer(*call) for call in calls]
    return "".join(line + "\n" for line in lines + [f"quiet {expected.steps}"] * audits), expected.steps


def texts(of_layer, audits, seeds):
    for seed in seeds:
        calls = random_calls(seed, of_layer)
        yield seed, "".join(" ".join(map(str, call)) + "\n" for call in calls), *answers(calls, of_layer, audits)


def told(found, wanted):
    """What was printed, with the threads that may be told after a race in place of one of them."""
    lines = found.splitlines()
    for at, (line, other) in enumerate(zip(lines, wanted.splitlines())):
        one, several = AFTER.search(line), AFTER.search(other)
        if one and several and one[1] in several[1].split("|"):
            lines[at] = line.replace(one[0], several[0])
    return "".join(line + "\n" for line in lines)


def differing(found, wanted):
    """The first line that isn't the wanted one, to say so."""
    pairs = list(zip(found.splitlines(), wanted.splitlines()))
    return next((f"line {at}: {a!r}, not {b!r}" for at, (a, b) in enumerate(pairs, 1) if a != b), f"{len(found.splitlines())} lines")


AUDIT = {**os.environ, "ERASER_AUDIT": "1"}
MODES = ((False, ""), (True, ", audited"))


def random_lists(record, driver, of_layer, name=None):
    name = name or ("layer" if of_layer else "proved calls")
    races = 0

    def run(asked):
        text, env = asked
        return command([driver], input=text, env=env)

    with concurrent.futures.ThreadPoolExecutor(len(os.sched_getaffinity(0))) as pool:
        for audits, how in MODES:
            lists = list(texts(of_layer, audits, range(LISTS)))
            for (seed, _, wanted, _), found in zip(lists, pool.map(run, [(text, AUDIT if audits else os.environ) for _, text, _, _ in lists])):
                races += wanted.count("race")
                answered = told(found.stdout, wanted)
                is_right = (found.returncode, answered, found.stderr) == (0, wanted, "")
                record(f"capi: random list {seed} by the {name}{how}", is_right, f"{found.returncode} {found.stderr} {differing(answered, wanted)}")
    record(f"capi: the random lists by the {name} have races", races > 2 * LISTS, f"{races}")


def own_pages(record, folder):
    """The same over pages of its own, as record/run --online has it."""
    driver, built = build(folder, "layer", "-O1", "-DERASER_OWN_PAGES", f"-include{CAPI}/eraser_memory.h")
    record("capi: the layer over pages of its own is built", built.returncode == 0 and built.stderr == "", f"{built}")
    if built.returncode == 0:
        random_lists(record, driver, True, "layer over pages of its own")


def refused_lists(record, folder, driver, of_layer):
    """With each allocation refused in turn: a call that finds no memory says so and can be made again."""
    library = folder / "refuse.so"
    if not library.exists():
        built = command(["cc", "-shared", "-fPIC", "-O1", "-o", library, TOP / "tests/refuse.c", "-ldl"])
        record("capi: what refuses memory is built", built.returncode == 0, f"{built}")
    name = "layer" if of_layer else "proved calls"
    for audits, more in MODES:
        audit = {"ERASER_AUDIT": "1"} if audits else {}
        for seed, text, wanted, steps in texts(of_layer, audits, range(LISTS, LISTS + REFUSED_LISTS)):
            refused = 0
            for nth, found, has_refused in each_refused(library, folder, lambda env: command([driver], input=text, env={**env, **audit})):
                refused += has_refused
                # An access that is made again has its first words twice.
                again = re.search(r"^quiet (\d+)\n\Z", found.stdout, re.MULTILINE)
                printed = found.stdout[: again.start()] + f"quiet {steps}\n" if again and int(again[1]) >= steps else found.stdout
                # eraser_stop settles too, once, and says so if there is no memory for that.
                said = re.sub(r"\Aeraser: the calls of 4 threads don't settle: out of memory\n\Z", "", found.stderr) if audits and of_layer else found.stderr
                answered = told(printed, wanted)
                is_right, how = (found.returncode, answered, said) == (0, wanted, ""), differing(answered, wanted)
                record(f"capi: list {seed} by the {name}{more} with allocation {nth} refused", is_right, f"{found.returncode} {found.stderr} {how}")
            record(f"capi: list {seed} by the {name}{more} has allocations", refused > 5, f"{refused}")


# ---- programs

# Each with its words, and with those under ThreadSanitizer.
NO_WORDS = ([], [])
PROGRAMS = {
    **dict.fromkeys(("handles", "audits", "crowd", "lives"), NO_WORDS),
    "breaks": ([], ["apart"]),
    "threads": (["64", "1500"], ["8", "1500"]),
    "settled": (["16", "20"], ["4", "5"]),
    **dict.fromkeys(("grows", "starts"), NO_WORDS),
}
# They are run in audit mode too, which keeps each call. These have fewer then.
AUDITED = {**PROGRAMS, "threads": (["16", "1500"], ["4", "1500"]), "settled": (["8", "5"], ["4", "2"])}
# A sanitizer's malloc doesn't say what is taken, and ThreadSanitizer has handlers of forks of its own. In audit mode `grows` measures other memory, and
# `starts` makes no call that is kept.
PLAIN = {"grows", "starts"}
# What a program is linked with besides.
LINKED = {
    "settled": ["-Wl,--wrap=eraser_access_span,--wrap=eraser_record"],
    "audits": ["-Wl,--wrap=malloc,--wrap=realloc"],
    **dict.fromkeys(("lives", "starts"), ["-Wl,--wrap=pthread_atfork"]),
}
BUILDS = {
    "plain": ["-O2"],
    "AddressSanitizer and UndefinedBehaviorSanitizer": ["-fsanitize=address,undefined", "-fno-sanitize-recover=all"],
    "ThreadSanitizer": ["-fsanitize=thread"],
}


def programs(record, folder):
    def run(asked):
        name, kind = asked
        target, built = build(folder, name, *BUILDS[kind])
        # AddressSanitizer's locks may be held by a thread that a forked child hasn't, so that the child waits for ever if it starts one.
        which = kind == "ThreadSanitizer" or (name == "breaks" and kind != "plain")
        runs = [command([target, *PROGRAMS[name][which]])] if built.returncode == 0 else []
        if runs and name not in PLAIN:
            runs.append(command([target, *AUDITED[name][which]], env=AUDIT))
        return built, runs

    asked = [(name, kind) for kind in BUILDS for name in PROGRAMS if kind == "plain" or name not in PLAIN]
    with concurrent.futures.ThreadPoolExecutor(2) as pool:
        for (name, kind), (built, found) in zip(asked, pool.map(run, asked)):
            record(f"capi: {name} ({kind}) is built", built.returncode == 0 and built.stderr == "", f"{built}")
            for run, how in zip(found or [None], ("", ", audited")):
                record(f"capi: {name} ({kind}){how}", run and (run.returncode, run.stdout, run.stderr) == (0, "fine\n", ""), f"{run}"[:3000])


# Bugs of what a thread remembers, each as the text that it takes the place of.
PLANTED = {
    "a reset keeps the version": ("    change_version(place);\n    leave", "    leave"),
    "an access keeps the version": ("    else if (status != ERASER_IGNORED)\n        change_version(place);\n", ""),
    "a version isn't compared": (" || known->version != version_of(known->place)", ""),
    "a release is forgotten": ("        number_locks(self);\n    }\n    return end(status);\n}\n\n/* ---- Forks", "    }\n    return end(status);\n}\n\n/* ---- Forks"),
    "an acquire is forgotten": ("        self->count++;\n        number_locks(self);", "        self->count++;"),
    "the older lock's release is one of the younger": ("            number_lock(self, at);\n        }\n        number_locks", "        }\n        number_locks"),
    "modes are one": (" && self->writes[at] == writes && self->held", " && self->held"),
    "locks are one": ("self->held[at].number == number && self->writes", "self->held[at].number != UINT32_MAX && self->writes"),
    "what was held below is forgotten": (" && self->held[at].below == locks_below(self, at);", " && self->held[at].below;"),
    "an ignore bracket is forgotten": ("self->ignoring ? IGNORING : locks_below", "locks_below"),
    "an inner end is the end of ignoring": ("self->ignoring -= status == ERASER_QUIET", "self->ignoring *= status != ERASER_QUIET"),
    "kinds are one": (" + writes * (BLOCKS / 2)", " + 0 * writes"),
    "blocks are one": ("known->block != first / BLOCK || ", ""),
    "locks aren't compared": ("first / BLOCK || known->locks != self->locks", "first / BLOCK"),
    "a first word stands for all": ("(words & bits) == bits", "(words & bits)"),
    "a first word stands for two": (" && words >> last % GROUP & 1", ""),
    "a second word stands for two": ("words >> first % GROUP & 1 && ", ""),
    "groups are one": ("return word / GROUP % (BLOCK / GROUP);", "return word * 0;"),
    "two groups are one": ("first / GROUP == last / GROUP", "last - first < GROUP"),
    "a new version isn't remembered": ("known->block != block || known->version != version ||", "known->block != block ||"),
    "bits of older versions stay": (
        "        *known = (struct settled){",
        "        if (known->block == block && known->locks == self->locks)\n            known->version = version;\n        else\n            *known = (struct settled){",
    ),
    "it never rests": ("        self->rest = 64 * self->misses;", "        self->rest = 0;"),
    "it rests for ever": ("        self->rest--;\n", "        ;\n"),
    "nothing is remembered": ("|= bits_of(first, last);", "|= 0;"),
}
# Bugs of an audit, with what the calls then come to.
SPAN = "eraser_record(&place->shard, &self->thread, draw(e), word * 4, writes)"
MISTAKES = {
    "none": ("e->threads++;", "e->threads++;", "quiet"),
    "the shard of the next page": ("address / PAGE * e->spread", "(address / PAGE + 1) * e->spread", "entries"),
    "the shard of the page before": ("self->page == at / PAGE ?", "self->page != UINT64_MAX ?", "entries"),
    "shards as without an audit": ("e->audits ? UINT64_C(1) << 40 : ", "", "entries"),
    "an access of two pages in the shard of the first": ("return page_end < end ? page_end : end;", "return end + 0 * page_end;", "entries"),
    "shards in another order": (
        "*(back ? &e->places[at].shard : &shards[at]) = *(back ? &shards[at] :",
        "*(back ? &e->places[at].shard : &shards[e->shards - 1 - at]) = *(back ? &shards[e->shards - 1 - at] :",
        "entries",
    ),
    "each ticket twice": ("draw(e), word * 4", "draw(e) / 2, word * 4", "order"),
    "a ticket of its own for each shard": ("draw(e), word * 4", "place->version++, word * 4", "order"),
    "the lock given up between a ticket and its access": (
        f"uint32_t status = {SPAN};",
        f"""uint64_t ticket = draw(e);
        void between(uint32_t thread);
        leave(&place->lock);
        between(self->number);
        take(&place->lock);
        uint32_t status = {SPAN.replace("draw(e)", "ticket")};""",
        "order",
    ),
    "threads of one number": ("e->threads++;", "", "seat twice"),
    "a thread that ended and isn't kept": ("e->ended = self;", "", "seat missing"),
    "seats of another detector": ("name_of(e), number - 1", "name_of(e) + 1, number - 1", "foreign seat"),
    "shards of another detector": ("name_of(e), sets", "name_of(e) + 1, sets", "foreign shard"),
    # What no settlement can see: that the events are not what the program did.
    "a release that isn't told": ("eraser_release(&self->thread, self->held[at].number, self->writes[at])", "ERASER_QUIET", "quiet"),
    "an access that isn't told": (f"uint32_t status = {SPAN};", f"uint32_t status = word % 2 ? {SPAN} : ERASER_QUIET;", "quiet"),
    "an access of another word": ("draw(e), word * 4", "draw(e), (word ^ 1) * 4", "quiet"),
}
# How many steps these settle into.
UNSEEN = {"none": 16, "a release that isn't told": 13, "an access that isn't told": 11, "an access of another word": 16}


def bugs():
    """Each bug: its name, the program that is to find it, with its words, the text in whose place it stands, itself, and what the program then says."""
    for name, (old, new) in PLANTED.items():
        yield name, ["settled", "2", "2"], old, new, (1, r"wrong: .*\n", r".*")
    for name, (old, new, wanted) in MISTAKES.items():
        # ERASER_AUDIT makes eraser_stop say it too.
        said = "" if wanted == "quiet" else rf"eraser: the calls of \d threads don't settle: {wanted}\n"
        yield f"{name}, audited", ["planted"], old, new, (0, f"{wanted} {UNSEEN.get(name, 0)}\n", said)


def planted(record, folder):
    """Programs with a bug in the layer: `settled` finds those of what a thread remembers, and a settlement names the others or can't see them."""
    text = (CAPI / "eraser_pthread.c").read_text()

    def run(asked):
        at, (_, (name, *words), old, new, _) = asked
        place = folder / f"planted{at}"
        place.mkdir()
        layer = place / "eraser_pthread.c"
        layer.write_text(text.replace(old, new))
        target, built = build(place, name, "-Wno-unused", layer=layer)
        found = command([target, *words], env=AUDIT if name == "planted" else os.environ) if built.returncode == 0 else None
        return built, text.count(old), found

    with concurrent.futures.ThreadPoolExecutor(2) as pool:
        for (name, *_, wanted), (built, times, found) in zip(bugs(), pool.map(run, enumerate(bugs()))):
            record(f"capi: planted: {name}: is built", times == 1 and built.returncode == 0, f"{times} {built}")
            status, printed, said = wanted
            is_right = found and found.returncode == status and re.fullmatch(printed, found.stdout) and re.fullmatch(said, found.stderr, re.DOTALL)
            record(f"capi: planted: {name}", is_right, f"{found}"[:3000])


def headers(record, folder):
    for language, names in (("c", ["eraser_detector.h"]), ("c++", ["eraser_detector.h", "eraser_detector.hpp"])):
        for compiler in filter(shutil.which, COMPILERS[language]):
            for name in names:
                text, standard = f"#include <{name}>\n#include <{name}>\n", "c11" if language == "c" else "c++17"
                done = command([compiler, "-x", language, f"-std={standard}", *WARNINGS, f"-I{CAPI}", "-c", "-", "-o", folder / "header.o"], input=text)
                record(f"capi: {name} by {compiler}", (done.returncode, done.stderr) == (0, ""), f"{done}")
    code = "".join(path.read_text() for path in sorted((TOP / "crates/eraser_c/src").glob("*.rt")))
    exports = re.findall(r'^pub extern "C" fn (\w+)(.*?)^\{', code, re.M | re.S)
    declared = set(re.findall(r"^uint32_t (\w+)\(", (CAPI / "eraser_detector.h").read_text(), re.M))
    asks = [name for name, contract in exports if "requires" in contract or name not in declared]
    record("capi: no proved call asks anything", len(exports) == code.count("no_mangle") > 15 and not asks, f"{len(exports)} {asks}")
    line = re.compile(r"^ *(?:pub const )?(ERASER_[A-Z_]+)(?:: u32)? = (\d+)[,;]? *(?:/\*.*)?$", re.M)
    statuses = [dict(line.findall((CAPI / name).read_text())) for name in ("eraser_detector.h", "rust/src/lib.rs")]
    record("capi: the statuses in Rust", len(statuses[0]) > 20 and statuses[0] == statuses[1], f"{statuses}")
    for compiler in filter(shutil.which, COMPILERS["c"]):
        for source in ("eraser_pthread.c", "eraser_memory.c"):
            done = command([compiler, "-std=c11", *WARNINGS, "-O2", "-c", CAPI / source, "-o", folder / "source.o"])
            record(f"capi: {source} by {compiler}", (done.returncode, done.stderr) == (0, ""), f"{done}")


# ---- docs/LIBRARY.md

BLOCK = re.compile(r"```(\w+)\n(.*?)```", re.S)


def shown():
    """The commands of docs/LIBRARY.md for C, each with what is printed below it."""
    blocks = BLOCK.findall((TOP / "docs/LIBRARY.md").read_text())
    return [(text, blocks[at + 1][1]) for at, (kind, text) in enumerate(blocks[:-1]) if kind == "sh" and blocks[at + 1][0] == "text"]


def printed_place(record, folder):
    """The line that a race prints without on_race has the address of the call, as docs/LIBRARY.md says, and addr2line gives its line."""
    text = (CAPI / "examples/counter.c").read_text()
    (folder / "printed.c").write_text(text.replace(".on_race = tell", ".on_race = NULL"))
    line = text[: text.index("eraser_write(detector, &bare")].count("\n") + 1
    sources = [folder / "printed.c", CAPI / "eraser_pthread.c", CAPI / "eraser_memory.c"]
    for level in ("-O0", "-O2"):
        built = command(["gcc", "-g", "-no-pie", level, "-w", f"-I{CAPI}", *sources, archive(), "-o", folder / "printed", "-pthread"])
        found = command([folder / "printed"])
        match = re.fullmatch(r"race: thread 2 writes 4 bytes at (\S+), the word at \1, after thread 1, holding 0 locks, called from (\S+)\n", found.stderr)
        told = command(["addr2line", "-e", folder / "printed", match[2] if match else "0"]).stdout
        record(f"capi: the place of a race that is printed {level}", re.search(rf"/printed\.c:{line}\b", told), f"{built} {found} {told}")


def library(record, folder):
    """capi/build renews the library if it is of another archive, also of an older one, and refuses one that isn't there."""
    (folder / "tree/capi").mkdir(parents=True)
    for path in (*CAPI.glob("eraser_*.[ch]"), CAPI / "build"):
        shutil.copy2(path, folder / "tree/capi")
    made, archives = folder / "tree/capi/out/liberaser.a", [folder / "first.a", folder / "second.a"]
    for at, path in enumerate(archives):
        (folder / "member").write_text(f"{at}\n")
        command(["ar", "rcsD", path, folder / "member"])
        os.utime(path, (at, at))

    def built(path):
        done = command([folder / "tree/capi/build"], env={**os.environ, "ERASER_PROVED": str(path)})
        return (done.returncode, done.stderr), made.stat().st_mtime_ns, command(["ar", "p", made, "member"]).stdout

    second, again, first = built(archives[1]), built(archives[1]), built(archives[0])
    record("capi: capi/build of an archive", (second[0], second[2]) == ((0, ""), "1\n") and again == second, f"{second} {again}")
    record("capi: capi/build of an older archive", (first[0], first[2]) == ((0, ""), "0\n"), f"{first}")
    (folder / "tree/capi/eraser_memory.c").write_text("int eraser_memory;\n")
    os.utime(folder / "tree/capi/eraser_memory.c", (0, 0))
    record("capi: capi/build of an older source", built(archives[0])[1] != first[1])
    status, _, kept = built(folder / "no.a")
    record("capi: capi/build of no archive", status[0] == 125 and status[1].startswith("capi: ") and kept == "0\n", f"{status} {kept}")


def document(record, folder):
    """Its commands print what it shows, with what ./install puts below a prefix."""
    not_run, prefix = [], folder / "prefix"
    done = command([CAPI / "build"])
    record("capi: capi/build", done.returncode == 0 and done.stderr == "", f"{done}")
    installed = command([TOP / "install", prefix], env={**os.environ, "HOME": str(folder)})
    record("capi: ./install", installed.returncode == 0 and (prefix / "lib/liberaser.a").exists(), f"{installed}")
    shutil.copytree(CAPI / "examples", folder / "examples")
    shutil.copytree(CAPI / "rust", folder / "rust", ignore=shutil.ignore_patterns("target"))
    env = {**os.environ, "PKG_CONFIG_PATH": str(prefix / "lib/pkgconfig"), "CARGO_TARGET_DIR": str(folder / "target")}
    commands = shown()
    record("capi: docs/LIBRARY.md has three programs", len(commands) == 3, f"{commands}")
    for words, wanted in commands:
        needed = "cargo" if "cargo" in words else "pkg-config"
        if not shutil.which(needed):
            not_run.append(f"the library for C: {words.splitlines()[0]} (no {needed})")
            continue
        found = command(["bash", "-euc", words], cwd=folder, env=env)
        record(f"capi: {words!r} of docs/LIBRARY.md", (found.returncode, found.stdout) == (0, wanted), f"{found}")
    removed = command([TOP / "install", "--remove", prefix])
    left = [path for path in prefix.rglob("*") if path.is_file()]
    record("capi: ./install --remove", removed.returncode == 0 and not left, f"{removed} {left}")
    return not_run


def tests(record):
    with tempfile.TemporaryDirectory() as folder:
        folder = pathlib.Path(folder)
        headers(record, folder)
        for name, of_layer in (("calls", False), ("layer", True)):
            driver, built = build(folder, name, "-O2")
            record(f"capi: {name} is built", built.returncode == 0 and built.stderr == "", f"{built}")
            if built.returncode == 0:
                random_lists(record, driver, of_layer)
                refused_lists(record, folder, driver, of_layer)
        own_pages(record, folder)
        programs(record, folder)
        planted(record, folder)
        printed_place(record, folder)
        library(record, folder)
        return document(record, folder)


if __name__ == "__main__":
    run_alone(tests)
