"""What the files of tests share: they find a program and run it, on a terminal too, run by themselves, as `tests/run` runs those of all, and refuse a program's
calls one by one."""

import contextlib
import functools
import os
import pathlib
import pty
import signal
import subprocess
import sys
import threading
import tty

TOP = pathlib.Path(__file__).resolve().parent.parent
AT_FIRST = dict(os.environ)
# Seconds after which a command counts as hung. On a very busy machine a build takes minutes.
PATIENCE = 600


@functools.lru_cache(maxsize=None)
def program(name):
    """The path of a program that is there, shipped or built. If it is an older one, this says so, and no script that a test calls says it again."""
    done = subprocess.run([TOP / "tools/program", name], stdout=subprocess.PIPE, text=True, env=AT_FIRST)
    if done.returncode:
        sys.exit(done.returncode)
    os.environ["ERASER_TOLD"] = "1"
    return pathlib.Path(done.stdout.rstrip("\n"))


def command(words, **more):
    """A run of a command, with its output and its errors as text."""
    return subprocess.run([str(word) for word in words], capture_output=True, text=True, timeout=PATIENCE, **more)


def read_all(master, pieces):
    # Reading fails once nobody has the other side of a terminal.
    with contextlib.suppress(OSError):
        while piece := os.read(master, 65536):
            pieces.append(piece)


@contextlib.contextmanager
def terminal():
    """A terminal to write to, and the pieces that it shows, all of which are there at the end."""
    master, slave = pty.openpty()
    tty.setraw(slave)
    pieces = []
    reader = threading.Thread(target=read_all, args=(master, pieces))
    reader.start()
    try:
        yield slave, pieces
    finally:
        os.close(slave)
        reader.join()
        os.close(master)


def on_terminal(words, text=b"", **more):
    """What a command writes to a terminal as its errors, and its output and exit status."""
    with terminal() as (slave, pieces):
        done = subprocess.run(words, input=text, stdout=subprocess.PIPE, stderr=slave, timeout=PATIENCE, **more)
    return b"".join(pieces), done.stdout, done.returncode


def heed_signals():
    """A shell's `&` and `nohup` have signals ignored, and whatever is started here would ignore them too. Some tests send them, and would wait for long."""
    for number in (signal.SIGHUP, signal.SIGINT, signal.SIGQUIT):
        if signal.getsignal(number) is signal.SIG_IGN:
            signal.signal(number, signal.SIG_DFL)


def run_alone(tests, *more):
    """Calls `tests` with a recorder and what else it wants. Prints each test that fails and what was not run, and ends with 1 if one fails or none ran."""
    totals = [0, 0]
    heed_signals()

    def record(name, is_right, detail=""):
        totals[not is_right] += 1
        if not is_right:
            print(f"FAILED {name} {detail}")

    for part in tests(record, *more) or []:
        print(f"not run: {part}")
    print(f"{totals[0]} passed, {totals[1]} failed")
    sys.exit(1 if totals[1] or not totals[0] else 0)


def each_failed(library, folder, setting, found_setting, run):
    """Yields what `run` gives with the program's first call of a sort failed, with its second, and so on.

    `run` takes the environment that makes the library fail a call. What it gives comes with the number of the call, and whether there was
    such a call. The last run has none left to fail.
    """
    noted = pathlib.Path(folder) / "noted"
    for nth in range(1, 100000):
        found = run({**os.environ, "LD_PRELOAD": str(library), setting: str(nth), found_setting: str(noted)})
        has_failed = noted.exists()
        noted.unlink(missing_ok=True)
        yield nth, found, has_failed
        if not has_failed:
            return


def each_refused(library, folder, run):
    """`each_failed` for allocations, by tests/refuse.c."""
    return each_failed(library, folder, "REFUSE", "REFUSE_FOUND", run)


# What a run may give if an allocation was refused: all that it gives otherwise, a report that stopped, or the line of a want of memory.
OUTCOMES = {"whole", "stopped", "out of memory"}


def outcome_of(found, whole, is_stopped, bare=None):
    """The outcome of a run, or None if it is none of them. `is_stopped` says whether a text is that of a report that stopped. `bare` is the run whose
    reasons have no places, as memory was refused to the second reading."""
    if found == whole:
        return "whole"
    if found == bare:
        return "bare"
    if found == (b"", b"out of memory\n", 3):
        return "out of memory"
    return "stopped" if found[1:] == (b"", 3) and is_stopped(found[0]) else None
