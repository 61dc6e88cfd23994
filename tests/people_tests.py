#!/usr/bin/env python3
"""What is written behind a fault's line if standard error is a terminal or `--hints` is given, and that nothing is else.

`tests/run` calls `tests`. By itself this file runs these tests alone. A row has a file's bytes, and what a person is shown of it below the fault's line.

- each frequent cause of a fault: the file, the line with a mark under the place, the hint
- files that can't be opened or read: the system's reason
- the standard input and a FIFO aren't read again
- notes on how a text ends, which stand behind a report
- a byte that a terminal could take for a command is escaped, and no line is over 120 columns
- each allocation refused in turn: the exact text that comes for want of memory for the replay, for the line, for what follows it
"""

import os
import pathlib
import subprocess
import sys
import tempfile
import threading

sys.dont_write_bytecode = True
import reference
from alone import each_refused, on_terminal, program, run_alone
from site_tests import preloaded

TOP = pathlib.Path(__file__).resolve().parent.parent
PROGRAM = program("eraser")
VERBS = "verbs are lock, unlock, rlock, runlock, read, write, reuse, ignore-on, ignore-off, show"
NAMES = "a name has 1 to 128 letters, digits and _ . : / - and no lock is named none"
SITES = "a name has 1 to 128 letters, digits and _ . : / - and a site of a trace 3 has any printable bytes"
REUSE_SITES = "a reuse has one site at most, and needs the header eraser trace 3 for that"
RULE_SITES = "a site has 1 to 128 printable bytes"
ORDER_VERBS = "the verbs start, join, signal and await need the header eraser trace 3"
HEADER = b"eraser trace 1\n"



def over_a_piece(cut):
    """A text whose last line has so many bytes in the first 4,096 of the file, as many as are read at a time, and is as long as a line may be."""
    filler = 4096 - cut - len(HEADER)
    lines = [b"##\n"] * (filler % 2) + [b"#\n"] * (filler // 2 - filler % 2)
    text = HEADER + b"".join(lines) + b"t1" + b" " * 1019 + b"hop\n"
    return text, f"line {len(lines) + 2}: bad verb", (".." + " " * 20 + "hop", 22), VERBS


# The file's bytes, the fault's line, the line as it is shown and how many columns stand before the mark in it (None: no line is shown), the hint.
TRACES = {
    "CR LF": (b"eraser trace 1\r\nt1 write 0x1000\r\n", "line 1: no header", (r"eraser trace 1\r", 14),
              r"the line ends with CR LF; take the CRs away: tr -d '\r' < FILE"),
    "CR LF behind the header": (HEADER + b"t1 write 0x1000\r\n", "line 2: bad number", (r"t1 write 0x1000\r", 15),
                                r"the line ends with CR LF; take the CRs away: tr -d '\r' < FILE"),
    "byte-order mark": (b"\xef\xbb\xbf" + HEADER, "line 1: not ascii", (r"\xef\xbb\xbferaser trace 1", 0),
                        "the file begins with a byte-order mark; take its first three bytes away"),
    "byte-order mark and CR LF": (b"\xef\xbb\xbferaser trace 1\r\n", "line 1: not ascii", (r"\xef\xbb\xbferaser trace 1\r", 26),
                                  "the file begins with a byte-order mark; take its first three bytes away"),
    "UTF-16": (b"\xff\xfee\0r\0", "line 1: not ascii", (r"\xff\xfee\x00r\x00", 0), "the file is in UTF-16; convert it: iconv -f UTF-16 -t ASCII FILE"),
    "UTF-16 with the great byte first": (b"\xfe\xff\0e", "line 1: not ascii", (r"\xfe\xff\x00e", 0),
                                         "the file is in UTF-16; convert it: iconv -f UTF-16 -t ASCII FILE"),
    "gzip": (b"\x1f\x8b\x08\x00", "line 1: not ascii", (r"\x1f\x8b\x08\x00", 4), "the file is compressed by gzip; try: gzip -dc FILE | eraser replay -"),
    "zstd": (b"\x28\xb5\x2f\xfd\x04", "line 1: not ascii", (r"(\xb5/\xfd\x04", 1), "the file is compressed by zstd; try: zstd -dc FILE | eraser replay -"),
    "xz": (b"\xfd7zXZ\0\0", "line 1: not ascii", (r"\xfd7zXZ\x00\x00", 0), "the file is compressed by xz; try: xz -dc FILE | eraser replay -"),
    "zip": (b"PK\x03\x04\x14\0", "line 1: no header", (r"PK\x03\x04\x14\x00", 0), "the file is a zip archive; unpack it first"),
    "no header": (b"# a comment\n\nt1 write 0x1000\n", "line 3: no header", ("t1 write 0x1000", 0), "the first line of a trace is its header, eraser trace 1"),
    "an empty file": (b"", "line 1: no header", None, "the first line of a trace is its header, eraser trace 1"),
    "an unknown version": (b"eraser trace 9\n", "line 1: no header", ("eraser trace 9", 0), "the header has a version that this program does not know"),
    "a verb of text 2": (HEADER + b"t1 level 3\n", "line 2: bad verb", ("t1 level 3", 3), "the verb level needs the header eraser trace 2"),
    "a verb of text 2 behind gaps": (HEADER + b" \tt1\t level 3\n", "line 2: bad verb", (r" \tt1\t level 3", 8), "the verb level needs the header eraser trace 2"),
    "an unknown verb": (HEADER + b"t1  wirte 0x1000\n", "line 2: bad verb", ("t1  wirte 0x1000", 4), VERBS),
    "a plus in a thread": (HEADER + b"t+1 lock m\n", "line 2: bad name", ("t+1 lock m", 1), NAMES),
    "a plus in a site": (HEADER + b"t1 write 0x1000 f+3\n", "line 2: bad name", ("t1 write 0x1000 f+3", 17), SITES),
    "a thread of an access": (b"eraser trace 3\nt+1 write 0x1000 f+3\n", "line 2: bad name", ("t+1 write 0x1000 f+3", 1), SITES),
    "a site of a read": (HEADER + b"t1 read 0x1000 f+3\n", "line 2: bad name", ("t1 read 0x1000 f+3", 16), SITES),
    "a control byte in a site": (b"eraser trace 3\nt1 write 0x1000 f+\x7f\n", "line 2: bad name", (r"t1 write 0x1000 f+\x7f", 18), SITES),
    "a control byte in a site of a reuse": (b"eraser trace 3\nt1 reuse 4 8 f+\x7f\n", "line 2: bad name", (r"t1 reuse 4 8 f+\x7f", 15), SITES),
    "a long site": (b"eraser trace 3\nt1 write 4 " + b"+" * 129 + b"\n", "line 2: bad name", ("t1 write 4 " + "+" * 89 + "..", 11), SITES),
    "a lock named none": (HEADER + b"t1 lock none\n", "line 2: bad name", ("t1 lock none", 0), NAMES),
    "a command to the terminal": (HEADER + b"t1 lock \x1b[2J\n", "line 2: bad name", (r"t1 lock \x1b[2J", 8), NAMES),
    "a tab": (HEADER + b"t1\tlock a+\n", "line 2: bad name", (r"t1\tlock a+", 10), NAMES),
    "a letter with an accent": (HEADER + b"t1 lock caf\xc3\xa9\n", "line 2: not ascii", (r"t1 lock caf\xc3\xa9", 11), "a text has bytes of ASCII alone"),
    "no number": (HEADER + b"t1 write 0y10\n", "line 2: bad number", ("t1 write 0y10", 0),
                  "a number has decimal digits, or 0x and hexadecimal digits, and is below 2^64"),
    "a site of a reuse in a text 1": (HEADER + b"t1 reuse 0x1000 8 pool.c:9\n", "line 2: extra operand", ("t1 reuse 0x1000 8 pool.c:9", 18), REUSE_SITES),
    "two sites of a reuse": (b"eraser trace 3\nt1 reuse 0x1000 8 pool.c:9 pool.c:9\n", "line 2: extra operand", ("t1 reuse 0x1000 8 pool.c:9 pool.c:9", 27), REUSE_SITES),
    "a comment behind a step": (HEADER + b"t1 write 0x1000 # init\n", "line 2: extra operand", ("t1 write 0x1000 # init", 16), "a comment needs a line of its own"),
    "a word too many": (HEADER + b"t1 ignore-on now\n", "line 2: extra operand", ("t1 ignore-on now", 13), None),
    "a word too few": (HEADER + b"t1 write\n", "line 2: missing operand", ("t1 write", 8), "the line ends early; was the file cut off?"),
    "a large reuse": (HEADER + b"t1 reuse 0x1000 4194305\n", "line 2: size too large", ("t1 reuse 0x1000 4194305", 16), "a reuse has at most 4194304 bytes; write several"),
    "a great address": (HEADER + b"t1 read 0x1000000000000\n", "line 2: address out of range", ("t1 read 0x1000000000000", 8), "addresses are below 2^48"),
    "a verb of text 3": (b"eraser trace 2\nt1 start t2\n", "line 2: bad verb", ("t1 start t2", 3), ORDER_VERBS),
    **{f"a verb of text 3: {verb}": (b"eraser trace 2\nt1 " + verb.encode() + b" x\n", "line 2: bad verb", (f"t1 {verb} x", 3), ORDER_VERBS)
       for verb in ("join", "signal", "await")},
    "a thread that joins itself": (b"eraser trace 3\nt1 join t1\n", "line 2: own thread", ("t1 join t1", 8), "a thread neither starts nor joins itself"),
    "a thread that runs": (b"eraser trace 3\nt2 write 4\nt1 start t2\n", "line 3: already running", ("t1 start t2", 9),
                           "a thread is started before its first line; was its name used before?"),
    "two traces": (b"eraser trace 3\nend\neraser trace 3\n", "line 3: after end", ("eraser trace 3", 0),
                   "nothing but comments follows the line end; are these two traces?"),
    "a high level": (b"eraser trace 2\nt1 level 32\n", "line 2: level too high", ("t1 level 32", 9), "levels are 0 to 31"),
    "a binary trace that is cut off": (b"\xe5eraser\x04", "line 2: bad verb", ("cut off at byte 8", 0),
                                       "the option --until-fault reports what the binary trace has before this byte"),
    "a long line": (HEADER + b"a" * 1100 + b"\n", "line 2: line too long", ("a" * 100 + "..", 0), "a line has at most 1024 bytes; is this a text?"),
    "a very long line": (HEADER + b"\0" * 300000, "line 2: line too long", (r"\x00" * 25 + "..", 0), "a line has at most 1024 bytes; is this a text?"),
    "a place far to the right": (HEADER + b"t1 write 0x1000 " + b"a" * 100 + b"+\n", "line 2: bad name", (".." + "a" * 20 + "+", 22), SITES),
    "the last line": (HEADER + b"t1 read 4\n" * 5000 + b"t1 hop", "line 5002: bad verb", ("t1 hop", 3), VERBS),
    **{f"a line with {cut} bytes in the first piece of the file": over_a_piece(cut) for cut in (1, 64, 65, 128, 512, 1000, 1023)},
}

RULES = {
    "an unknown rule": (b"# known\nsites a.c:1\n", "suppressions line 2: bad verb", ("sites a.c:1", 0), "a rule is: site SITE, or: words ADDRESS BYTES"),
    "a rule of the second edition": (b"site a.c:1\n  variable jobs\n", "suppressions line 2: bad verb", ("  variable jobs", 2),
                                     "the rules frame, function and variable need the header eraser suppressions 2"),
    "a header behind a rule": (b"site a.c:1\neraser suppressions 2\n", "suppressions line 2: bad verb", ("eraser suppressions 2", 0),
                               "the one header of rules is eraser suppressions 2, in front of all of them"),
    "an unknown rule of the second edition": (b"eraser suppressions 2\nframes a.c:1\n", "suppressions line 2: bad verb", ("frames a.c:1", 0),
                                              "a rule is: site SITE, or: words ADDRESS BYTES"),
    "an address of a rule": (b"words 0x1000000000000 4\n", "suppressions line 1: address out of range", ("words 0x1000000000000 4", 6), "addresses are below 2^48"),
    "a control byte in a rule": (b"site a+\x7f\n", "suppressions line 1: bad name", (r"site a+\x7f", 7), RULE_SITES),
    "a rule too short": (b"site\n", "suppressions line 1: missing operand", ("site", 4), "the line ends early; was the file cut off?"),
    "no number in a rule": (b"words 0x1000 0y4\n", "suppressions line 1: bad number", ("words 0x1000 0y4", 0),
                            "a number has decimal digits, or 0x and hexadecimal digits, and is below 2^64"),
    "rules with CR LF": (b"site a.c:1\r\n", "suppressions line 1: bad name", (r"site a.c:1\r", 10), r"the line ends with CR LF; take the CRs away: tr -d '\r' < FILE"),
}


def shown(words, folder, text=b"", **more):
    """What the program writes to a terminal as its errors, its output and its exit status."""
    return on_terminal([PROGRAM, *words], text, cwd=folder, **more)


def piped(words, folder, text=b""):
    """The same if the errors are no terminal."""
    done = subprocess.run([str(PROGRAM), *words], cwd=folder, input=text, capture_output=True, timeout=120)
    return done.stderr, done.stdout, done.returncode


def with_hints(words, folder, text=b""):
    return piped([words[0], "--hints", *words[1:]], folder, text)


def advice(path, line, hint):
    told = f"  in {path}:\n" if path else ""
    if line:
        told += f"    {line[0]}\n    {' ' * line[1]}^\n"
    return told + (f"  hint: {hint}\n" if hint else "")


def is_tame(text):
    return all(byte == 10 or 32 <= byte <= 126 for byte in text) and all(len(line) <= 120 for line in text.split(b"\n"))


def texts(record, folder):
    for rows, path, before in ((TRACES, "t.trace", []), (RULES, "t.rules", ["--suppress", "t.rules"])):
        (folder / "t.trace").write_bytes(HEADER)
        for name, (text, fault, line, hint) in rows.items():
            (folder / path).write_bytes(text)
            words = ["replay", *before, "t.trace"]
            wanted = f"{fault}\n{advice(path, line, hint)}".encode()
            found = shown(words, folder)
            record(f"for people: {name}", found == (wanted, b"", 2) and is_tame(wanted), f"{found[0].decode()}\nwanted {wanted.decode()}")
            record(f"not for people: {name}", piped(words, folder) == (f"{fault}\n".encode(), b"", 2), f"{piped(words, folder)}")
            record(f"with --hints: {name}", with_hints(words, folder) == found, f"{with_hints(words, folder)}")
    (folder / "t.trace").write_bytes(HEADER + b"t1 read 4\n")
    found = shown(["replay", "--byte-limit", "20", "t.trace"], folder)
    wanted = b"line 2: text too long\n" + advice("t.trace", ("t1 read 4", 0), "the option --byte-limit BYTES takes a longer text").encode()
    record("for people: the limit of bytes", found == (wanted, b"", 2), f"{found}")


def files(record, folder):
    (folder / "good.trace").write_bytes(HEADER)
    (folder / "folder").mkdir()
    (folder / "good.rules").write_bytes(b"site a.c:1\n")
    (folder / "bad.rules").write_bytes(b"sites a.c:1\n")
    (folder / "loop.trace").symlink_to("loop.trace")
    folder_text = "    it is a folder\n"
    rows = (
        (["none.trace"], "cannot open trace", "none.trace", "    No such file or directory (os error 2)\n", 4),
        (["loop.trace"], "cannot open trace", "loop.trace", "    Too many levels of symbolic links (os error 40)\n", 4),
        (["good.trace/x"], "cannot open trace", "good.trace/x", "    Not a directory (os error 20)\n", 4),
        (["folder"], "read fault", "folder", folder_text, 4),
        (["--suppress", "folder", "good.trace"], "read fault", "folder", folder_text, 4),
        (["--suppress", "good.rules", "--suppress", "folder", "good.trace"], "read fault in suppressions file 2", "folder", folder_text, 4),
        (["--suppress", "none.rules", "good.trace"], "cannot open suppressions", "none.rules", "    No such file or directory (os error 2)\n", 4),
        (["--suppress", "good.rules", "--suppress", "bad.rules", "good.trace"], "suppressions file 2 line 1: bad verb", "bad.rules",
         "    sites a.c:1\n    ^\n  hint: a rule is: site SITE, or: words ADDRESS BYTES\n", 2),
    )
    for words, fault, path, more, status in rows:
        found = shown(["replay", *words], folder)
        record(f"for people: {words}", found[0] == f"{fault}\n  in {path}:\n{more}".encode() and found[2] == status, f"{found}")
        record(f"with --hints: {words}", with_hints(["replay", *words], folder) == found, f"{with_hints(['replay', *words], folder)}")
    found = shown(["replay", "--write-rules", "none/w.rules", "good.trace"], folder)
    wanted = b"cannot write rules\n  in none/w.rules:\n    No such file or directory (os error 2)\n"
    record("for people: rules that can't be written", (found[0], found[2]) == (wanted, 4), f"{found}")
    found = shown(["replay", "-"], folder, HEADER + b"t1 hop\n")
    record("for people: the standard input", found[0] == f"line 2: bad verb\n  hint: {VERBS}\n".encode(), f"{found}")
    record("with --hints: the standard input", with_hints(["replay", "-"], folder, HEADER + b"t1 hop\n") == found)
    text = HEADER + b"t1 write 0\nt2 write 0\nt1 hop\n"
    found = shown(["replay", "--hints", "--until-fault", "-"], folder, text)
    wanted = f"line 4: bad verb\n  hint: {VERBS}\n".encode(), b"line 3: race: t2 write 0x000000000000 at -, holds none\nsteps 2, races 1, suppressed 0, refused 0\n", 2
    record("for people: the lines before a fault", found == wanted, f"{found}")
    record("with --hints: the lines before a fault", with_hints(["replay", "--until-fault", "-"], folder, text) == wanted)
    for words in (["explain", "--hints", "2", "-"], ["demo", "--hints", "racy-counter"]):
        found = piped(words, folder, text)
        record(f"with --hints: {words[0]} has no such option", found[1:] == (b"", 2) and b"unexpected argument" in found[0], f"{found}")
    os.mkfifo(folder / "fifo")
    feeder = threading.Thread(target=lambda: (folder / "fifo").write_bytes(HEADER + b"t1 hop\n"))
    feeder.start()
    found = shown(["replay", "fifo"], folder)
    feeder.join()
    record("for people: a FIFO is opened once", found[0] == f"line 2: bad verb\n  in fifo:\n  hint: {VERBS}\n".encode(), f"{found}")
    found = shown(["demo", "racy-counter"], folder)
    record("for people: a demo has nothing to say", found[0] == b"", f"{found}")


NO_LINE_FEED = b"note: the last line has no line feed: it may be cut off\n"
NOTED = ([], ["--explain"], ["--by-site"], ["--format", "json"], ["--format", "html"], ["--workers", "2"], ["--until-fault"], ["--max-races", "0"],
    ["--write-rules", "known.rules"], ["--analysis", "both"], ["--analysis", "both", "--by-site"], ["--analysis", "happens-before"],
    ["--analysis", "happens-before", "--max-races", "1"], ["--analysis", "both", "--max-races", "0"], ["--analysis", "happens-before", "--by-site"],
    ["--analysis", "happens-before", "--format", "html"], ["--analysis", "both", "--format", "sarif", "--max-races", "0"])


def notes(record, folder):
    """How a text ends, by a second reading: each header, with the line `end` and without, with the last line feed and without."""
    for version in (1, 2, 3):
        for end in ([], ["# end"], ["end"], ["end", "# behind"])[: 4 if version == 3 else 2]:
            for feed in ("\n", ""):
                text = ("\n".join([f"eraser trace {version}", "t1 write 0", "t2 write 0", *end]) + feed).encode()
                (folder / "n.trace").write_bytes(text)
                lines = reference.note_of(text).encode()
                more, name = lines + (b"" if feed else NO_LINE_FEED), f"notes: text {version} {end} {bool(feed)}"
                for options in NOTED:
                    left, words, title = b"races left out: %d\n" % (1 + ("both" in options)) if "0" in options else b"", ["replay", *options, "n.trace"], f"{name} {' '.join(options)}"
                    asks = "--analysis" in options
                    order, order_too = [reference.order_note_of(text, int(asks), hints).encode() for hints in (False, True)]
                    plain = piped(words, folder)
                    record(title, (plain[0], plain[2]) == (left + lines + order, 1), f"{plain}")
                    record(f"{title} with --hints", with_hints(words, folder) == (left + more + order_too, *plain[1:]), f"{with_hints(words, folder)}")
                    record(f"{title} from standard input", piped([*words[:-1], "-"], folder, text)[0] == left + lines + order)
                record(f"{name} on a terminal", shown(["replay", "n.trace"], folder)[0] == more)
                strict = piped(["replay", "--strict", "n.trace"], folder)
                record(f"{name} --strict", (b"note" in strict[0], strict[2]) == (False, 2 if lines or not feed else 1), f"{strict}")
    order_notes(record, folder)
    # The lines before a fault end there, and the text goes on.
    found = piped(["replay", "--until-fault", "-"], folder, b"eraser trace 3\nt1 write 0\nfault\n")
    record("notes: the lines before a fault", found[0] == b"line 3: missing operand\n", f"{found}")


# The event lines of a text 3, and how many of its unordered accesses and reuses the note on its order says, if it has that note.
ORDERS = {
    "an access": ("t1 write 0,t2 write 0", 1),
    "two accesses and a reuse": ("t1 write 0,t2 write 0,t1 write 4,t2 write 4,t1 write 8,t2 reuse 8 4", 3),
    "locks": ("t1 lock m,t1 write 0,t1 unlock m,t2 write 0", 1),
    "none": ("t1 write 0,t1 write 0", None),
    "none behind locks": ("t1 lock m,t1 write 0,t1 unlock m,t2 lock m,t2 write 0,t2 unlock m", None),
    "a start": ("t1 write 0,t1 start t3,t2 write 0", None),
    "a join": ("t1 write 0,t1 join t3,t2 write 0", None),
    "a signal": ("t1 write 0,t2 write 0,t1 signal x", None),
    "an await": ("t1 await x,t1 write 0,t2 write 0", None),
}


def order_notes(record, folder):
    """The note on a trace that records no order, in each analysis."""
    for name, (lines, count) in ORDERS.items():
        text = ("\n".join(["eraser trace 3", *lines.split(","), "end"]) + "\n").encode()
        note = f"note: this trace records no order: record it with --order; {count} unordered accesses may be ordered\n".encode() if count else b""
        for options in ([], ["--analysis", "happens-before"], ["--analysis", "both"], ["--analysis", "both", "--format", "sarif"]):
            found, title = piped(["replay", *options, "-"], folder, text), f"note on order: {name} {' '.join(options)}"
            record(title, found[0] == (note if options else b"") and found[2] in (0, 1), f"{found}")
    (folder / "all.rules").write_bytes(b"words 0 64\n")
    found = piped(["replay", "--analysis", "both", "--suppress", "all.rules", "-"], folder, text := b"eraser trace 3\nt1 write 0\nt2 write 0\nend\n")
    record("note on order: not of accesses that a rule takes", found[0] == b"", f"{found}")
    found = piped(["replay", "--analysis", "both", "--until-fault", "-"], folder, text[:-4] + b"fault\n")
    wanted = b"note: this trace records no order: record it with --order; 1 unordered accesses may be ordered\nline 4: missing operand\n"
    record("note on order: of the lines before a fault", (found[0], found[2]) == (wanted, 2), f"{found}")


def refused(record, folder, build):
    (folder / "t.trace").write_bytes(HEADER + b"t1 hop\n")
    more = advice("t.trace", ("t1 hop", 3), VERBS)
    whole = f"line 2: bad verb\n{more}".encode()
    # What is lacking, the exact text that comes then, and the status.
    outcomes = {
        "nothing": (whole, b"", 2),
        "memory for the replay": (b"out of memory\n", b"", 3),
        "memory for the fault's line": (f"out of memory\n{more}".encode(), b"", 2),
        "memory for what follows it": (b"line 2: bad verb\n", b"", 2),
    }
    library, met = build(folder, "refuse"), set()
    for nth, found, was_refused in each_refused(library, folder, lambda env: shown(["replay", "t.trace"], folder, env=env)):
        if not was_refused:
            record("for people: with all allocations", found == outcomes["nothing"], f"{found}")
            break
        lacking = [name for name, outcome in outcomes.items() if found == outcome]
        record(f"for people: without allocation {nth}", lacking, f"{found}")
        met.update(lacking)
    for name in list(outcomes)[1:]:
        record(f"for people: some allocation was {name}", name in met, f"{met}")


def tests(record, build):
    with tempfile.TemporaryDirectory() as folder:
        for part in (texts, files, notes, lambda record, folder: refused(record, folder, build)):
            with tempfile.TemporaryDirectory(dir=folder) as inner:
                part(record, pathlib.Path(inner))


if __name__ == "__main__":
    run_alone(tests, preloaded)
