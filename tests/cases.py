"""Worked traces with the whole text that the program writes of each, by name. `tests/run` passes each by standard input and by path.

Lines are parted by `; ` here, and `x` stands for the address 0x1000 (0x000000001000 in what is written). A trace's header is
`eraser trace 1` unless it gives its own `header`. A case with `rules` is replayed with them as suppressions. Those of `EXPLAINED` are
replayed with `--explain`.
"""

from dataclasses import dataclass, field

IN, OUT = "0x1000", "0x000000001000"


@dataclass
class Case:
    name: str
    text: bytes
    output: bytes
    errors: bytes = b""
    status: int = 0
    rules: bytes = field(default=None)


def lines(joined):
    return [line for line in joined.split("; ") if line]


def spelled(line, address):
    return " ".join(address if word == "x" else word for word in line.split(" "))


def text_of(joined, header="eraser trace 1"):
    return "".join(f"{spelled(line, IN)}\n" for line in [header, *lines(joined)]).encode()


def output_of(joined):
    return "".join(f"{line.replace(' x', ' ' + OUT)}\n" for line in lines(joined)).encode()


def totals(steps, races, suppressed, refused, lost=None):
    return f"steps {steps}, races {races}, suppressed {suppressed}, refused {refused}" + ("" if lost is None else f", lost {lost}")


def told(name, joined, report, counts, status=0, header="eraser trace 1", rules=None):
    """A trace that is replayed: the lines before the totals, and the totals."""
    output = output_of("; ".join([*lines(report), totals(*counts)]))
    rules = None if rules is None else "".join(f"{spelled(line, IN)}\n" for line in lines(rules)).encode()
    return Case(name, text_of(joined, header), output, status=status, rules=rules)


def faulty(name, text, line, kind):
    """A text with a fault: nothing is written but the fault."""
    return Case(name, text, b"", f"line {line}: {kind}\n".encode(), 2)


RACE = "race: t2 write x at -, holds none"
DEEP = "; ".join(["t1 ignore-on"] * 256)
LOCKS = "; ".join(f"t1 lock l{n}" for n in range(1, 66))
ORDERED = "eraser trace 3"
NO_END = b"note: the trace has no end: it may be cut off\n"
WIDE = "std::vector<int>::push_back(int&&)@a+b.cpp:3"
PAGES = range(0, 32768, 4096)
EIGHT = "; ".join(f"{thread} write {page}" for thread in ("t1", "t2") for page in PAGES)
SHRINK = (
    "t1 lock a; t1 lock b; t1 write x; t1 unlock b; t2 lock b; t2 lock c; t2 write x; t2 unlock c; t1 lock c; t1 write x; "
    "t1 unlock a; t2 lock a; t2 write x"
)
LEVELS = "t1 level 2; t1 write x; t1 level 0; t2 level 1; t2 write x; t2 show x"
LEVEL_AND_LOCK = "t1 write x; t2 level 3; t2 lock m; t2 write x; t2 show x; t1 level 2; t1 write x; t1 show x"

REPLAYED = [
    told("header_alone", "", "", (0, 0, 0, 0)),
    told("two_writers", "t1 write x; t2 write x", f"line 3: {RACE}", (2, 1, 0, 0), 1),
    told("one_lock_protects", "t1 lock m; t1 write x; t1 unlock m; t2 lock m; t2 write x; t2 unlock m; t1 show x",
         "line 8: state x: shared-modified, candidates m", (7, 0, 0, 0)),
    told("wide_site", f"t1 write x !; t2 write x {WIDE}; end", f"line 3: race: t2 write x at {WIDE}, holds none", (2, 1, 0, 0), 1, header=ORDERED),
    told("site_of_the_first_byte", "t1 write x ~; t2 write x !; end", "line 3: race: t2 write x at !, holds none", (2, 1, 0, 0), 1, header=ORDERED),
    told("site_of_the_last_byte", "t1 write x !; t2 write x ~; end", "line 3: race: t2 write x at ~, holds none", (2, 1, 0, 0), 1, header=ORDERED),
    told("site_of_128_wide_bytes", f"t1 write x; t2 write  x {'+' * 128}; end", f"line 3: race: t2 write x at {'+' * 128}, holds none", (2, 1, 0, 0), 1, header=ORDERED),
    told("wide_site_like_the_missing_one", "t1 write x -; t2 write x --; end", "line 3: race: t2 write x at --, holds none", (2, 1, 0, 0), 1, header=ORDERED),
    told("read_sharing", "t1 write x; t2 read x; t3 read x; t1 write x", "line 5: race: t1 write x at -, holds none", (4, 1, 0, 0), 1),
    told("read_sharing_alone", "t1 write x; t2 read x; t3 read x", "", (3, 0, 0, 0)),
    told("read_mode_lock", "t1 lock m; t1 write x; t1 unlock m; t2 rlock m; t2 write x", "line 6: race: t2 write x at -, holds m", (5, 1, 0, 0), 1),
    told("read_mode_lock_for_a_read", "t1 lock m; t1 write x; t1 unlock m; t2 rlock m; t2 read x; t2 show x",
         "line 7: state x: shared, candidates m", (6, 0, 0, 0)),
    told("reported_once_between_reuses", "t1 write x; t2 write x; t1 write x; t1 reuse x 4; t1 write x; t2 write x",
         f"line 3: {RACE}; line 7: {RACE}", (6, 2, 0, 0), 1),
    told("ignore_brackets", "t1 write x; t2 ignore-on; t2 write x; t2 ignore-off; t2 ignore-off; t1 write x; t1 show x",
         "line 6: refused: t2 ignore-off: ignore not on; line 8: state x: exclusive t1", (7, 0, 0, 1)),
    told("ignore_too_deep", DEEP, "line 257: refused: t1 ignore-on: ignore too deep", (256, 0, 0, 1)),
    told("lock_refusals", "t1 unlock m; t1 lock m; t1 runlock m; t1 rlock m; t1 unlock m; t1 unlock m",
         "line 2: refused: t1 unlock m: not held; line 4: refused: t1 runlock m: held in the other mode; "
         "line 5: refused: t1 rlock m: already held; line 7: refused: t1 unlock m: not held", (6, 0, 0, 4)),
    told("sixty_five_locks", f"{LOCKS}; t1 lock l1; t1 unlock l1; t1 lock l65",
         "line 66: refused: t1 lock l65: too many locks held; line 67: refused: t1 lock l1: already held", (68, 0, 0, 2)),
    told("candidates_shrink", SHRINK, "line 14: race: t2 write x at -, holds a b", (13, 1, 0, 0), 1),
    told("lock_taken_too_late", "t1 write x; t2 read x; t2 lock m; t2 write x", "line 5: race: t2 write x at -, holds m", (4, 1, 0, 0), 1),
    told("reuse_of_nothing", "t1 reuse x 0", "", (0, 0, 0, 0)),
    told("reuse_of_one_byte", "t1 write x; t1 write 0x1004; t1 reuse 0x1003 1; t1 show x; t1 show 0x1004",
         "line 5: state x: virgin; line 6: state 0x000000001004: exclusive t1", (5, 0, 0, 0)),
    told("reuse_across_pages", "t1 write 0x1ffc; t1 write 0x2000; t1 reuse 0x1ffc 8; t1 show 0x1ffc; t1 show 0x2000",
         "line 5: state 0x000000001ffc: virgin; line 6: state 0x000000002000: virgin", (6, 0, 0, 0)),
    told("reuse_of_1025_pages", "t1 reuse 4 4194304", "", (1025, 0, 0, 0)),
    told("reuse_of_1024_pages", "t1 reuse 0 4194304", "", (1024, 0, 0, 0)),
    told("last_address", "t1 read 0xffffffffffff; t1 show 0xffffffffffff", "line 3: state 0xfffffffffffc: exclusive t1", (2, 0, 0, 0)),
    told("eight_pages", EIGHT, "; ".join(f"line {10 + at}: race: t2 write 0x{page:012x} at -, holds none" for at, page in enumerate(PAGES)),
         (16, 8, 0, 0), 1),
    told("levels", LEVELS, "line 7: state x: shared-modified, candidates !1", (6, 0, 0, 0), header="eraser trace 2"),
    told("levels_and_a_race", f"{LEVELS}; t1 write x",
         "line 7: state x: shared-modified, candidates !1; line 8: race: t1 write x at -, holds none", (7, 1, 0, 0), 1, header="eraser trace 2"),
    told("level_and_lock", LEVEL_AND_LOCK,
         "line 6: state x: shared-modified, candidates m !1 !2 !3; line 9: state x: shared-modified, candidates !1 !2", (8, 0, 0, 0),
         header="eraser trace 2"),
    told("locks_at_the_highest_level", f"t1 level 31; {LOCKS}", "line 67: refused: t1 lock l65: too many locks held", (66, 0, 0, 1),
         header="eraser trace 2"),
    told("order_changes_no_lockset", "t1 write x; t1 start t2; t2 write x; t2 signal q; t1 await q; t1 join t2; t1 write x; t1 show x; end",
         f"line 4: {RACE}; line 9: state x: shared-modified, candidates none", (8, 1, 0, 0), 1, header=ORDERED),
    told("order_is_never_refused", "t1 await q; t1 signal q; t1 lock q; t2 signal q; t1 join t9; t1 join t9; t1 start t9; t3 start t9; t9 ignore-on; t9 start t8; end",
         "", (10, 0, 0, 0), header=ORDERED),
    told("joins_a_thread_that_acts", "t2 write x; t1 join t2; t2 write x; t2 show x; end", "line 5: state x: exclusive t2", (4, 0, 0, 0), header=ORDERED),
    told("levels_in_text_three", "t1 level 1; t1 write x; t2 write x; t1 show x; end",
         "line 4: race: t2 write x at -, holds none; line 5: state x: shared-modified, candidates none", (4, 1, 0, 0), 1, header=ORDERED),
    told("a_thread_named_end", "end write x; t1 start t2; end", "", (2, 0, 0, 0), header=ORDERED),
    Case("comments_behind_the_end", b"eraser trace 3\nt1 write 4\n\tend \n# c\n\n  ", output_of(totals(1, 0, 0, 0))),
    Case("an_end_without_line_feed", b"eraser trace 3\nend", output_of(totals(0, 0, 0, 0))),
    Case("no_end", b"eraser trace 3\nt1 write 4\nend write 8\n# end\n", output_of(totals(2, 0, 0, 0)), NO_END),
    Case("no_end_and_a_race", text_of("t1 write x; t2 write x", ORDERED), output_of(f"line 3: {RACE}; {totals(2, 1, 0, 0)}"), NO_END, 1),
    Case("no_end_of_a_header", b"# c\neraser trace 3", output_of(totals(0, 0, 0, 0)), NO_END),
    Case("no_last_end", b"eraser trace 1\nt1 write 0x1000", output_of(totals(1, 0, 0, 0))),
    Case("skipped_lines", b"\n# c\neraser trace 1\nt1 show 4\n", output_of(f"line 4: state 0x000000000004: virgin; {totals(1, 0, 0, 0)}")),
    told("lost_events", "t1 write x; t2 write x; # incomplete: 2 events, 30175 lost; end", f"line 3: {RACE}", (2, 1, 0, 0, 30175), 1, header=ORDERED),
    told("a_lost_event_and_a_rule", "t1 write 0; t2 write 0; # incomplete: 2 events, 1 lost; end", "suppression 1: 1", (2, 0, 1, 0, 1), header=ORDERED, rules="words 0 4"),
    Case("lost_events_without_line_feed", b"eraser trace 3\nt1 unlock a\n# incomplete: 1 events, 9007199254740991 lost",
         output_of(f"line 2: refused: t1 unlock a: not held; {totals(1, 0, 0, 1, 2**53 - 1)}"), NO_END),
    told("no_lost_event", "t1 write x; # complete: 1 events, none lost; end", "", (1, 0, 0, 0), header=ORDERED),
    told("lost_events_of_text_two", "t1 write x; # incomplete: 1 events, 2 lost", "", (1, 0, 0, 0), header="eraser trace 2"),
    Case("longest_comment", b"eraser trace 1\n#" + b"a" * 1023 + b"\n", output_of(totals(0, 0, 0, 0))),
]

FAULTY = [
    faulty("empty_input", b"", 1, "no header"),
    faulty("bad_verb", text_of("t1 wri"), 2, "bad verb"),
    faulty("line_too_long", b"eraser trace 1\n#" + b"a" * 1024 + b"\n", 2, "line too long"),
    faulty("not_ascii", b"eraser trace 1\nt1 read 0x1000 \x80\n", 2, "not ascii"),
    faulty("missing_operand", text_of("t1 write"), 2, "missing operand"),
    faulty("missing_verb", text_of("t1"), 2, "missing operand"),
    faulty("extra_operand", text_of("t1 unlock m n"), 2, "extra operand"),
    faulty("bad_thread_name", text_of("t! lock m"), 2, "bad name"),
    faulty("bad_lock_name", text_of("t1 lock none"), 2, "bad name"),
    *(faulty(f"wide_site_in_text_{word}", text_of(f"t1 write x S; t1 write x {site}", f"eraser trace {number}"), 3, "bad name")
      for site in ("a+b.cpp:3", "!", "~", WIDE) for word, number in (("one", 1), ("two", 2))),
    *(faulty(f"site_{byte}_in_text_three", text_of(f"t1 write x a{byte}", ORDERED), 2, "bad name") for byte in ("\x1f", "\x7f", "\r")),
    faulty("site_of_two_words_in_text_three", text_of("t1 write x a\tb", ORDERED), 2, "extra operand"),
    faulty("site_of_129_wide_bytes", text_of(f"t1 write x {'+' * 129}", ORDERED), 2, "bad name"),
    faulty("wide_thread_in_text_three", text_of("t+ write x S", ORDERED), 2, "bad name"),
    faulty("wide_lock_in_text_three", text_of("t1 lock a+", ORDERED), 2, "bad name"),
    faulty("bad_digit", text_of("t1 read 0xg"), 2, "bad number"),
    faulty("number_too_great", text_of("t1 read 18446744073709551616"), 2, "bad number"),
    faulty("header_of_no_version", b"eraser trace 4\n", 1, "no header"),
    faulty("size_too_large", text_of("t1 reuse x 4194305"), 2, "size too large"),
    faulty("address_out_of_range", text_of("t1 read 0x1000000000000"), 2, "address out of range"),
    faulty("reuse_out_of_range", text_of("t1 reuse 0xffffffffffff 2"), 2, "address out of range"),
    *(faulty(f"reuse_at_a_site_in_text_{word}", text_of(f"t1 reuse x 4 {site}", f"eraser trace {number}"), 2, "extra operand")
      for site in ("a.c:7", "-") for word, number in (("one", 1), ("two", 2))),
    faulty("reuse_at_two_sites", text_of("t1 reuse x 4 a.c:7 a.c:7", ORDERED), 2, "extra operand"),
    faulty("reuse_at_a_site_of_129_bytes", text_of(f"t1 reuse x 4 {'+' * 129}", ORDERED), 2, "bad name"),
    *(faulty(f"reuse_at_a_site_of_{byte}", text_of(f"t1 reuse x 4 a{byte}", ORDERED), 2, "bad name") for byte in ("\x1f", "\x7f", "\r")),
    faulty("reuse_at_a_bad_site_of_too_many_bytes", text_of(f"t1 reuse 0xffffffffffff 4194305 \x7f", ORDERED), 2, "bad name"),
    faulty("reuse_of_no_number_at_a_bad_site", text_of("t1 reuse x a \x7f", ORDERED), 2, "bad number"),
    faulty("level_too_high", text_of("t1 level 32", "eraser trace 2"), 2, "level too high"),
    faulty("level_in_text_one", text_of("t1 level 3"), 2, "bad verb"),
    faulty("level_in_text_one_by_a_known_thread", text_of("t1 write 4; t1 level 3"), 3, "bad verb"),
    *(faulty(f"{verb}_in_text_{word}", text_of(f"t1 {verb} a", f"eraser trace {number}"), 2, "bad verb")
      for verb in ("start", "join", "signal", "await") for word, number in (("one", 1), ("two", 2))),
    *(faulty(f"{verb}_of_nothing", text_of(f"t1 {verb}", ORDERED), 2, "missing operand") for verb in ("start", "join", "signal", "await")),
    *(faulty(f"{verb}_of_two", text_of(f"t1 {verb} a b", ORDERED), 2, "extra operand") for verb in ("start", "join", "signal", "await")),
    *(faulty(f"{verb}_of_a_bad_name", text_of(f"t1 {verb} a!", ORDERED), 2, "bad name") for verb in ("start", "join", "signal", "await")),
    *(faulty(f"{verb}_of_none", text_of(f"t1 {verb} none", ORDERED), 2, "bad name") for verb in ("signal", "await")),
    faulty("starts_itself", text_of("t1 start t1", ORDERED), 2, "own thread"),
    faulty("starts_itself_late", text_of("t1 write x; t1 start t1", ORDERED), 3, "own thread"),
    faulty("joins_itself", text_of("t1 write x; t1 join t1", ORDERED), 3, "own thread"),
    faulty("starts_a_thread_with_a_step", text_of("t2 write x; t1 start t2", ORDERED), 3, "already running"),
    faulty("starts_a_thread_that_reused_nothing", text_of("t2 reuse x 0; t1 start t2", ORDERED), 3, "already running"),
    faulty("starts_a_thread_that_was_started_and_acts", text_of("t1 start t2; t3 start t2; t2 write x; t1 start t2", ORDERED), 5, "already running"),
    faulty("starts_a_thread_that_acts_by_a_rare_verb", text_of("t1 join t2; t2 show x; t1 start t2", ORDERED), 4, "already running"),
    faulty("starts_the_first_thread", text_of("t1 start t2; t2 start t1", ORDERED), 3, "already running"),
    faulty("a_step_behind_the_end", text_of("t1 write x; end; t1 write x", ORDERED), 4, "after end"),
    faulty("a_second_end", text_of("end; end", ORDERED), 3, "after end"),
    faulty("no_line_behind_the_end", text_of("end; t1", ORDERED), 3, "after end"),
    faulty("not_ascii_behind_the_end", b"eraser trace 3\nend\n# \x80\n", 3, "not ascii"),
    faulty("end_with_an_operand", text_of("end 1", ORDERED), 2, "bad verb"),
    faulty("end_in_text_two", text_of("end", "eraser trace 2"), 2, "missing operand"),
    faulty("end_for_a_header", b"end\n", 1, "no header"),
]

# Lines of a trace that have one fault, or two of which the earlier kind is reported.
LINE_FAULTS = [
    (b"# \xff", "not ascii"),
    (b"t1 reuse 4", "missing operand"),
    (b"t1 ignore-on m", "extra operand"),
    (b"t1 write 0 s s", "extra operand"),
    (b"t1 lock m\r", "bad name"),
    (b"t1 read 0 !", "bad name"),
    (b"t1 read 0x", "bad number"),
    (b"t1 read 0xg !", "bad number"),
    (b"t1 reuse 18446744073709551615 x", "bad number"),
    (b"t1 show 0x1000000000000", "address out of range"),
    (b"t1 reuse 0x1000000000000 0", "address out of range"),
]
FAULTY += [faulty(f"line {line}", b"eraser trace 1\n" + line + b"\n", 2, kind) for line, kind in LINE_FAULTS]
FAULTY += [
    faulty("header_with_more", b"eraser trace 1 1\n", 1, "no header"),
    faulty("nothing_but_comments", b"\n# c\n \t", 4, "no header"),
]

# Each beginning of a text of 31 bytes: its fault, or the lines that are left of it.
SHORT = b"eraser trace 1\nt1 write 0x1000\n"


def beginning(size):
    text = SHORT[:size]
    if size < 14:
        return faulty(f"first {size} bytes", text, 1, "no header")
    if 16 <= size <= 18 or size in (23, 24):
        return faulty(f"first {size} bytes", text, 2, "missing operand")
    if 19 <= size <= 22:
        return faulty(f"first {size} bytes", text, 2, "bad verb")
    if size == 26:
        return faulty(f"first {size} bytes", text, 2, "bad number")
    return Case(f"first {size} bytes", text, output_of(totals(int(size > 24), 0, 0, 0)))


BEGINNINGS = [beginning(size) for size in range(len(SHORT) + 1)]

EVERY_VERB = (
    "a lock m; b rlock n; a write 7 s; a read 0x8 -; # a comment; a read 010; b runlock n; a unlock m; a ignore-on; a ignore-off; a show 0xFFC; "
    "b level 3; c reuse 0x1000 0; a reuse 0xffc 0x1008; d read 0 t; a show 4; a show 8; a show 0; b write 4 u; a show 4"
)
REPLAYED += [
    told("every_verb", EVERY_VERB,
         "line 12: state 0x000000000ffc: virgin; line 17: state 0x000000000004: exclusive a; line 18: state 0x000000000008: exclusive a; "
         "line 19: state 0x000000000000: exclusive d; line 21: state 0x000000000004: shared-modified, candidates !1 !2 !3",
         (20, 0, 0, 0), header="eraser trace 2"),
    told("words_of_the_header", "", "", (0, 0, 0, 0), header="eraser\ttrace  2"),
    told("greatest_level", "t1 level 31", "", (1, 0, 0, 0), header="eraser trace 2"),
    told("greatest_addresses", "t1 show 281474976710655; t1 reuse 0xffffffffffff 1; t1 reuse 0xffffffffffff 0; t1 reuse 0x1 4194304",
         "line 2: state 0xfffffffffffc: virgin", (1027, 0, 0, 0)),
    # A race has the locks that its thread holds then: those in either mode, and those of its level.
    told("locks_at_each_race", "t2 write x; t2 write 0x1004; t3 lock c; t3 write x; t3 write 0x1004; t3 unlock c; t1 rlock a; t1 lock b; t1 write x; "
         "t1 unlock b; t1 write 0x1004",
         "line 10: race: t1 write x at -, holds a b; line 12: race: t1 write 0x000000001004 at -, holds a", (11, 2, 0, 0), 1),
    told("level_locks_at_a_race", "t2 write x; t3 lock c; t3 write x; t3 unlock c; t1 level 2; t1 write x",
         "line 7: race: t1 write x at -, holds !1 !2", (6, 1, 0, 0), 1, header="eraser trace 2"),
    told("races_under_locks", "t1 write x; t1 write 0x1004; t2 rlock a; t2 level 2; t2 read x; t2 level 0; t1 write x; t2 rlock b; t2 write 0x1004",
         "line 8: race: t1 write x at -, holds none; line 10: race: t2 write 0x000000001004 at -, holds a b", (9, 2, 0, 0), 1, header="eraser trace 2"),
    told("each_refusal", "t1 rlock b; t1 lock b; t1 rlock b; t1 unlock b; t1 unlock m; t1 runlock m; t1 ignore-off",
         "line 3: refused: t1 lock b: already held; line 4: refused: t1 rlock b: already held; line 5: refused: t1 unlock b: held in the other mode; "
         "line 6: refused: t1 unlock m: not held; line 7: refused: t1 runlock m: not held; line 8: refused: t1 ignore-off: ignore not on", (7, 0, 0, 6)),
    told("each_state", "t1 show x; t1 read x; t1 show x; t1 lock a; t2 lock a; t2 read x; t1 show x; t1 unlock a; t1 write x; t1 show x",
         "line 2: state x: virgin; line 4: state x: exclusive t1; line 8: state x: shared, candidates a; line 10: race: t1 write x at -, holds none; "
         "line 11: state x: shared-modified, candidates none", (10, 1, 0, 0), 1),
]

RULES = "site S; words x 4"
SUPPRESSED = [
    told("suppressions", "t1 write x S; t2 write x S", "suppression 1: 1; suppression 2: 0", (2, 0, 1, 0), rules=RULES),
    told("suppressions_of_another_site", "t1 write x S; t2 write x T", "suppression 1: 0; suppression 2: 1", (2, 0, 1, 0), rules=RULES),
    told("suppressions_that_take_nothing", "t1 write x S; t2 write x", "line 3: race: t2 write x at -, holds none; suppression 1: 0; suppression 2: 0",
         (2, 1, 0, 0), 1, rules="site S; words x 0"),
    told("suppression_of_a_wide_site", f"t1 write x {WIDE}; t2 write x {WIDE}; end", "suppression 1: 0; suppression 2: 1", (2, 0, 1, 0), header=ORDERED,
         rules=f"site #x; site {WIDE}"),
    told("suppression_of_a_number_sign", "t1 write x #x; t2 write x #x; end", "suppression 1: 1", (2, 0, 1, 0), header=ORDERED, rules="site #x"),
    told("suppression_of_a_wide_site_in_text_one", "t1 write x a__b; t2 write x a__b", "line 3: race: t2 write x at a__b, holds none; suppression 1: 0",
         (2, 1, 0, 0), 1, rules="site a++b"),
    told("suppression_of_the_missing_site", "t1 write x S; t2 write x", "suppression 1: 1", (2, 0, 1, 0), rules="site -"),
    told("no_suppressions", "t1 write x; t2 write x", f"line 3: {RACE}", (2, 1, 0, 0), 1, rules=""),
    told("every_rule", "; ".join(f"t1 write {word}; t2 write {word}" for word in (
        "0x2000 save.c:12", "0x2004", "x z", "0x1004 z", "0xffffffffffff z", "0x3000 z")),
         "; ".join(f"suppression {rule + 1}: {count}" for rule, count in enumerate((1, 1, 0, 1, 1, 0, 1, 0, 1))), (12, 0, 6, 0),
         rules="# rules; site save.c:12; site -;  site\tnone; words x 4; words 0x1003 2; words 4096 0; words 0xfffffffffffc 4; "
         "words 0xffffffffffff 0; words 0 281474976710656"),
    told("comments_are_no_rules", "t1 write x; t2 write x", f"line 3: {RACE}", (2, 1, 0, 0), 1, rules="# c; \t; #"),
    told("patterns", "; ".join(f"t1 write {word}; t2 write {word}" for word in (
        "0x2000 src/vendor/zlib/a.c:7", "0x3000 src/vendor/", "0x4000 lib/list.h:12", "0x5000 aXbYc", "0x6000 abc", "0x7000 exact", "0x8000 acb", "0x9000 ab:b")),
         "; ".join(f"suppression {rule + 1}: {count}" for rule, count in enumerate((2, 1, 2, 1, 1, 0, 1))), (16, 0, 8, 0),
         rules="# known; eraser suppressions 2; site src/vendor/*; site *.h:*; site a*b*c; site exact; words 0x8000 4; site a*c*; site a*b"),
    told("pattern_that_takes_no_longer_name", "t1 write x a.c:70; t2 write x a.c:70", "line 3: race: t2 write x at a.c:70, holds none; suppression 1: 0; suppression 2: 0",
         (2, 1, 0, 0), 1, rules="eraser suppressions 2; site *.c:7; site *:0"),
    told("pattern_takes_no_missing_site", "t1 write x S; t2 write x", f"line 3: {RACE}; suppression 1: 0", (2, 1, 0, 0), 1, rules="eraser suppressions 2; site *"),
    told("stars_without_a_header", "t1 write x a*b; t2 write x a*b; t1 write 0x2000 a++b; t2 write 0x2000 a++b; end",
         "line 5: race: t2 write 0x000000002000 at a++b, holds none; suppression 1: 1", (4, 1, 1, 0), 1, header=ORDERED, rules="site a*b"),
    told("facts_of_a_text", "t1 write x a.c:1; t2 write x a.c:1", "line 3: race: t2 write x at a.c:1, holds none; suppression 1: 0; suppression 2: 0; suppression 3: 0",
         (2, 1, 0, 0), 1, rules="eraser suppressions 2; frame a.c:1; function *; variable *"),
    told("header_alone", "t1 write x; t2 write x", f"line 3: {RACE}", (2, 1, 0, 0), 1, rules="\teraser  suppressions 2 ; # c"),
    told("suppressions_of_all_words", "t1 write 0xffffffffffff; t2 write 0xffffffffffff", "suppression 1: 1", (2, 0, 1, 0), rules="words 0 281474976710656"),
]


def reasons(first, joined, write, *uncovered):
    """The lines behind a race: each reason is a line and a step, and each lock that covers the joining has one."""
    told = [("first", first), ("joined", joined), ("write", write), *((f"{lock} not covering", step) for lock, step in uncovered)]
    return "; ".join(f"  {label}: line {step}" for label, step in told)


SHRINK_RACE = "line 14: race: t2 write x at -, holds a b; " + reasons(
    "4, t1 write", "8, t2 write", "8, t2 write", ("b", "11, t1 write"), ("c", "14, t2 write"))
EXPLAINED = [
    told("candidates_shrink", SHRINK, SHRINK_RACE, (13, 1, 0, 0), 1),
    told("two_writers", "t1 write x; t2 write x", f"line 3: {RACE}; " + reasons("2, t1 write", "3, t2 write", "3, t2 write"), (2, 1, 0, 0), 1),
    told("read_sharing", "t1 write x; t2 read x; t3 read x; t1 write x",
         "line 5: race: t1 write x at -, holds none; " + reasons("2, t1 write", "3, t2 read", "5, t1 write"), (4, 1, 0, 0), 1),
    told("read_mode_lock", "t1 lock m; t1 write x; t1 unlock m; t2 rlock m; t2 write x",
         "line 6: race: t2 write x at -, holds m; " + reasons("3, t1 write", "6, t2 write", "6, t2 write"), (5, 1, 0, 0), 1),
    told("lock_taken_too_late", "t1 write x; t2 read x; t2 lock m; t2 write x",
         "line 5: race: t2 write x at -, holds m; " + reasons("2, t1 write", "3, t2 read", "5, t2 write"), (4, 1, 0, 0), 1),
    told("reported_once_between_reuses", "t1 write x; t2 write x; t1 write x; t1 reuse x 4; t1 write x; t2 write x",
         f"line 3: {RACE}; " + reasons("2, t1 write", "3, t2 write", "3, t2 write")
         + f"; line 7: {RACE}; " + reasons("6, t1 write", "7, t2 write", "7, t2 write"), (6, 2, 0, 0), 1),
    told("locks_by_number", "t1 write x; t2 lock m; t2 lock n; t2 write x; t2 unlock n; t2 read x; t3 rlock m; t3 write x",
         "line 9: race: t3 write x at -, holds m; "
         + reasons("2, t1 write", "5, t2 write", "5, t2 write", ("m", "9, t3 write"), ("n", "7, t2 read")), (8, 1, 0, 0), 1),
    told("ignored_access_is_no_reason", "t1 write x; t2 ignore-on; t2 write x; t2 ignore-off; t1 write x; t2 write x",
         f"line 7: {RACE}; " + reasons("2, t1 write", "7, t2 write", "7, t2 write"), (6, 1, 0, 0), 1),
    told("levels_and_a_race", f"{LEVELS}; t1 write x",
         "line 7: state x: shared-modified, candidates !1; line 8: race: t1 write x at -, holds none; "
         + reasons("3, t1 write", "6, t2 write", "6, t2 write", ("!1", "8, t1 write")), (7, 1, 0, 0), 1, header="eraser trace 2"),
    told("eight_pages", EIGHT, "; ".join(
        f"line {10 + at}: race: t2 write 0x{page:012x} at -, holds none; " + reasons(f"{2 + at}, t1 write", f"{10 + at}, t2 write", f"{10 + at}, t2 write")
        for at, page in enumerate(PAGES)), (16, 8, 0, 0), 1),
    # A race that a rule takes has no reasons, and leaves the next race its own.
    told("race_after_a_suppressed_one", "t1 write x S; t2 write x S; t1 write 0x2000; t2 write 0x2000",
         "line 5: race: t2 write 0x000000002000 at -, holds none; " + reasons("4, t1 write", "5, t2 write", "5, t2 write") + "; suppression 1: 1",
         (4, 1, 1, 0), 1, rules="site S"),
    told("suppressions", "t1 write x S; t2 write x S", "suppression 1: 1; suppression 2: 0", (2, 0, 1, 0), rules=RULES),
    told("one_lock_protects", "t1 lock m; t1 write x; t1 unlock m; t2 lock m; t2 write x; t2 unlock m; t1 show x",
         "line 8: state x: shared-modified, candidates m", (7, 0, 0, 0)),
    faulty("bad_verb", text_of("t1 wri"), 2, "bad verb"),
]


def faulty_rules(name, rules, line, kind):
    """Suppressions with a fault: the trace, which has one too, isn't looked at."""
    return Case(name, b"no header\n", b"", f"suppressions line {line}: {kind}\n".encode(), 2, rules)


FAULTY_RULES = [
    faulty_rules("rule_of_no_verb", b"sites S\n", 1, "bad verb"),
    faulty_rules("rule_without_operand", b"# c\n\nsite\n", 3, "missing operand"),
    faulty_rules("words_without_size", b"words 0x1000\n", 1, "missing operand"),
    faulty_rules("rule_of_two_sites", b"site a b\n", 1, "extra operand"),
    faulty_rules("words_with_a_site", b"words 0x1000 4 a\n", 1, "extra operand"),
    faulty_rules("bad_site_name", b"site a\x7f\n", 1, "bad name"),
    faulty_rules("long_site_name", b"site " + b"!" * 129 + b"\n", 1, "bad name"),
    faulty_rules("bad_rule_address", b"words 0xg 4\n", 1, "bad number"),
    faulty_rules("bad_rule_size", b"words 0x1000 four\n", 1, "bad number"),
    faulty_rules("rule_out_of_range", b"words 0xffffffffffff 2\n", 1, "address out of range"),
    faulty_rules("empty_rule_out_of_range", b"words 0x1000000000000 0\n", 1, "address out of range"),
    faulty_rules("rule_not_ascii", b"site a\nsite \x80\n", 2, "not ascii"),
    faulty_rules("header_behind_a_rule", b"site a\neraser suppressions 2\n", 2, "bad verb"),
    faulty_rules("second_header", b"eraser suppressions 2\neraser suppressions 2\n", 2, "bad verb"),
    faulty_rules("header_of_a_later_edition", b"eraser suppressions 3\n", 1, "bad verb"),
    faulty_rules("header_of_four_words", b"eraser suppressions 2 2\n", 1, "bad verb"),
    faulty_rules("rule_of_a_later_kind", b"eraser suppressions 2\nthread main\n", 2, "bad verb"),
    faulty_rules("frame_in_the_first_edition", b"# frame a\nframe a\n", 2, "bad verb"),
    faulty_rules("function_in_the_first_edition", b"site a\nfunction a\n", 2, "bad verb"),
    faulty_rules("frame_without_a_pattern", b"eraser suppressions 2\nframe\n", 2, "missing operand"),
    faulty_rules("function_of_two_patterns", b"eraser suppressions 2\nsite a\nfunction a b\n", 3, "extra operand"),
    faulty_rules("variable_of_a_long_name", b"eraser suppressions 2\nvariable " + b"x" * 129 + b"\n", 2, "bad name"),
    faulty_rules("bad_pattern", b"eraser suppressions 2\nsite " + b"*" * 129 + b"\n", 2, "bad name"),
    faulty_rules("rule_too_long", b"#" + b"a" * 1024 + b"\n", 1, "line too long"),
]

RULE_FAULTS = [
    (b"# \xff", "not ascii"),
    (b"rule S \x80", "not ascii"),
    (b"rule", "bad verb"),
    (b"t! S T U", "bad verb"),
    (b"Site S", "bad verb"),
    (b"\t# c", "bad verb"),
    (b"words", "missing operand"),
    (b"words 0xg", "missing operand"),
    (b"site ! T", "extra operand"),
    (b"words 0xg 4 4", "extra operand"),
    (b"site \x1f", "bad name"),
    (b"site S\r", "bad name"),
    (b"words 0x1000000000000 4x", "bad number"),
    (b"words 0 18446744073709551616", "bad number"),
    (b"words 0xfffffffffffc 5", "address out of range"),
    (b"words 1 281474976710656", "address out of range"),
    (b"words 18446744073709551615 18446744073709551615", "address out of range"),
]
FAULTY_RULES += [faulty_rules(f"rule {rule}", b"# c\nsite S\n" + rule + b"\n", 3, kind) for rule, kind in RULE_FAULTS]

# Lines with two faults, of which the earlier kind is told.
FIRST_FAULTS = [
    faulty("line_too_long_before_not_ascii", b"eraser trace 1\n#" + b"a" * 1024 + b"\x80\n", 2, "line too long"),
    faulty("not_ascii_before_no_header", b"t! \x80\n", 1, "not ascii"),
    faulty("no_header_before_bad_name", b"t! lock m\n", 1, "no header"),
    faulty("bad_name_before_missing_verb", text_of("t!"), 2, "bad name"),
    faulty("bad_name_before_bad_verb", text_of("t! wri"), 2, "bad name"),
    faulty("missing_operand_before_bad_number", text_of("t1 reuse 0xg"), 2, "missing operand"),
    faulty("extra_operand_before_bad_name", text_of("t1 unlock none n"), 2, "extra operand"),
    faulty("bad_number_before_bad_name", text_of("t1 write 0xg !"), 2, "bad number"),
    faulty("bad_number_before_size_too_large", text_of("t1 reuse 0xg 4194305"), 2, "bad number"),
    faulty("size_too_large_before_address", text_of("t1 reuse 0x1000000000000 4194305"), 2, "size too large"),
    faulty("bad_name_before_address", text_of("t1 write 0x1000000000000 !"), 2, "bad name"),
    faulty("extra_operand_before_level", text_of("t1 level 32 x", "eraser trace 2"), 2, "extra operand"),
]



def many_locksets():
    """65,537 words, each read by a second thread under a set of locks of its own, and then shown: more sets than 16 bits can number.

    The reader takes or gives back one of 17 locks before each read, in the order of a Gray code, so that no set comes twice.
    """
    count, locks = 65537, 17
    trace, report = ["eraser trace 1"], []
    trace += [f"t2 {verb} m{n}" for n in range(locks) for verb in ("lock", "unlock")]
    for k in range(1, count + 1):
        code, last = k ^ k >> 1, (k - 1) ^ (k - 1) >> 1
        lock = (code ^ last).bit_length() - 1
        trace += [f"t1 write {4 * k}", f"t2 {'lock' if code > last else 'unlock'} m{lock}", f"t2 read {4 * k}"]
    for k in range(1, count + 1):
        held = " ".join(f"m{n}" for n in range(locks) if (k ^ k >> 1) >> n & 1)
        trace.append(f"t1 show {4 * k}")
        report.append(f"line {len(trace)}: state 0x{4 * k:012x}: shared, candidates {held}")
    report.append(totals(len(trace) - 1, 0, 0, 0))
    return Case("many_locksets", "".join(f"{line}\n" for line in trace).encode(), "".join(f"{line}\n" for line in report).encode())


def many_meets():
    """65,703 words, each shared under one of 363 locks and then written under another, beside a lock that is held at both.

    Each pair of locksets comes once, and has that lock in common: more intersections than an owner remembers.
    """
    count = 363
    pairs = [(first, second) for second in range(count) for first in range(second)]
    words = {pair: 4 * place for place, pair in enumerate(pairs)}
    trace, report = ["eraser trace 1", "t2 lock m"] + [f"t1 write {word}" for word in words.values()], []
    for first in range(count):
        trace += [f"t2 lock m{first}", *(f"t2 read {words[first, second]}" for second in range(first + 1, count)), f"t2 unlock m{first}"]
    for second in range(count):
        trace += [f"t2 lock m{second}", *(f"t2 write {words[first, second]}" for first in range(second)), f"t2 unlock m{second}"]
    for word in words.values():
        trace.append(f"t1 show {word}")
        report.append(f"line {len(trace)}: state 0x{word:012x}: shared-modified, candidates m")
    report.append(totals(len(trace) - 1, 0, 0, 0))
    return Case("many_meets", "".join(f"{line}\n" for line in trace).encode(), "".join(f"{line}\n" for line in report).encode())


def many_rules():
    """1,000 rules, by turns of a site and of a word, each of which takes a race of its own; one race is left."""
    count = 1000
    rules = [f"words {4 * k} 4" if k % 2 else f"site a.c:{k}" for k in range(count)]
    trace = ["eraser trace 1"] + [f"{thread} write {4 * k} a.c:{k}" for k in range(count + 1) for thread in ("t1", "t2")]
    report = [f"line {len(trace)}: race: t2 write 0x{4 * count:012x} at a.c:{count}, holds none"]
    report += [f"suppression {k}: 1" for k in range(1, count + 1)] + [totals(2 * (count + 1), 1, count, 0)]
    text, output, rules = ("".join(f"{line}\n" for line in lines).encode() for lines in (trace, report, rules))
    return Case("many_rules", text, output, status=1, rules=rules)


def many_pages():
    """5,000 pages, each with a race at its last word; each second page is put to a new use afterwards, and each is shown."""
    count = 5000
    trace, report = ["eraser trace 1"], []
    words = [4096 * k + 4092 for k in range(count)]
    trace += [f"t1 write {word}" for word in words]
    for word in words:
        trace.append(f"t2 write {word}")
        report.append(f"line {len(trace)}: race: t2 write 0x{word:012x} at -, holds none")
    trace += [f"t1 reuse {word} 4" for word in words[1::2]]
    for k, word in enumerate(words):
        trace.append(f"t1 show {word}")
        report.append(f"line {len(trace)}: state 0x{word:012x}: {'virgin' if k % 2 else 'shared-modified, candidates none'}")
    report.append(totals(len(trace) - 1, count, 0, 0))
    return Case("many_pages", "".join(f"{line}\n" for line in trace).encode(), "".join(f"{line}\n" for line in report).encode(), status=1)


def many_races():
    """65,600 words, locks, sites and races, by 65,601 threads, and behind them as many accesses in a bracket.

    Thread k writes word k. Thread k + 1 takes lock k, which it keeps, and writes the word too. Then thread k writes it once more.
    """
    count = 65600
    trace, report = ["eraser trace 1"], []
    for k in range(count):
        owner, other, word = f"t{k}", f"t{k + 1}", 4096 + 4 * k
        trace += [f"{owner} write {word}", f"{other} lock m{k}", f"{other} write {word}", f"{owner} write {word} s{k}"]
        last = len(trace)
        first, joined, again = f"{last - 3}, {owner} write", f"{last - 1}, {other} write", f"{last}, {owner} write"
        report.append(f"line {last}: race: {owner} write 0x{word:012x} at s{k}, holds {f'm{k - 1}' if k else 'none'}")
        report += lines(reasons(first, joined, joined, (f"m{k}", again)))
    trace += ["t0 ignore-on", *["t0 read 0"] * count]
    report.append(totals(len(trace) - 1, count, 0, 0))
    return Case("many_races", "".join(f"{line}\n" for line in trace).encode(), "".join(f"{line}\n" for line in report).encode(), status=1)


# Each has more of something than a limit that nobody asked for would let through.
MANY = [many_locksets(), many_meets(), many_rules(), many_pages()]

CASES = REPLAYED + BEGINNINGS + FAULTY + FIRST_FAULTS + SUPPRESSED + FAULTY_RULES + MANY
