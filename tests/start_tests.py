#!/usr/bin/env python3
"""Tries what chooses, packs, proves and checks the programs, in small trees with programs and a toolchain that are shell scripts.

- tools/program and ./eraser: the built program or the one in dist/, what is said of an older one, what is damaged, where nothing can be written
- the keys of sources: what changes them and what doesn't
- tools/dist and tools/prove: what they put into dist/, and what they leave; a static library as well
- ./check and ./test: how far the gate is, its status through the filter, an older or another program in dist/, the last line
- tests/run: parts that can't run are named
- dist/ of this tree fits its MANIFEST

`tests/run` calls `tests`. By itself this file runs these tests alone.
"""

import concurrent.futures
import gzip
import hashlib
import os
import pathlib
import re
import shutil
import subprocess
import sys
import tempfile
import time

sys.dont_write_bytecode = True
from alone import TOP, run_alone

SCRIPTS = ("eraser", "check", "test", "tools/program", "tools/dist", "tools/prove")
CRATES = "# Crates.\nlow:\nhigh may_wait=1: low smallvec # the upper one\neraser: high\nprobe: low\nother: low\n"
TOOLCHAIN = "kit 1 logic abc"
KIT = """#!/bin/sh
# Stands for the toolchain: what it makes of a crate is a script that prints the crate's source.
make() { mkdir -p "$1/out" && printf '#!/bin/sh\\necho built: %s\\n' "$(cat "$1"/src/*)" >"$1/out/$2" && chmod 755 "$1/out/$2"; }
case $1 in
version) echo 'kit 1' && echo ' logic abc' ;;
lib) mkdir -p out/rlib
    [ "$(basename "$PWD")" != eraser_c ] || printf '!<arch>\\nof its sources\\n' >out/liberaser_c.a
    ;;
run) make . "$(basename "$PWD")" ;;
ci)
    for it in crates/*; do
        rm -rf $it/out
        name=$(basename $it)
        [ ! -e $it/src/main.rt ] || make $it $name
        echo "== $name"
        echo "rt: $name proved"
    done
    echo 'rt: low: trying its must-fail edits (2)'
    echo 'rt: high is kept: an earlier run'
    [ ! -e ci-also ] || . ./ci-also
    echo "7 passed, ${FAILS:-0} failed"
    exit ${FAILS:-0}
    ;;
esac
"""


def program_text(says):
    return f"#!/bin/sh\necho {says} \"$@\"\n".encode()


class Tree:
    """A tree with the scripts, five crates, and `eraser` and `probe` in dist/, which say `shipped`. No package can be installed."""

    def __init__(self, folder):
        self.top = pathlib.Path(folder) / "a tree"
        self.home = pathlib.Path(folder) / "home"
        for name in ("home/kit", "home/bin", "a tree/tools", "a tree/tests", "a tree/dist"):
            (pathlib.Path(folder) / name).mkdir(parents=True)
        for name in SCRIPTS:
            shutil.copy(TOP / name, self.top / name)
        for crate in ("low", "high", "eraser", "probe", "other"):
            (self.top / "crates" / crate / "src").mkdir(parents=True)
            (self.top / "crates" / crate / "src" / ("main.rt" if crate in ("eraser", "probe") else "lib.rt")).write_text(f"{crate} 1\n")
        (self.top / "crates/low/proofs").mkdir()
        (self.top / "crates/low/must-fail").mkdir()
        for name in ("one", "two"):
            (self.top / f"crates/low/must-fail/{name}.edit").write_text("file: src/lib.rt\n")
        self.write("crates.txt", CRATES)
        self.write("HANDLES", "Handles allowed: none.\n")
        self.write("tests/run", "#!/bin/sh\necho 'one line'\n[ -z \"$TEST_FAILS\" ] || { echo '4 passed, 1 failed'; exit 1; }\necho '5 passed, 0 failed'\n")
        self.write("../home/kit/rt", KIT)
        self.write("../home/bin/apt-get", "#!/bin/sh\necho $* >>\"$HOME/asked\"\n[ $1 = update ]\n")
        for path in (self.top / "tests/run", self.home / "kit/rt", self.home / "bin/apt-get"):
            path.chmod(0o755)
        keys = self.run("tools/program", "--key", "eraser", "probe").stdout.split()
        for name, key in zip(("eraser", "probe"), keys):
            (self.top / f"dist/{name}.gz").write_bytes(gzip.compress(program_text("shipped"), mtime=0))
            with open(self.top / "dist/MANIFEST", "a") as manifest:
                manifest.write(f"{name} {hashlib.sha256(program_text('shipped')).hexdigest()} {key} abc123 {TOOLCHAIN}\n")

    def write(self, name, text):
        (self.top / name).write_text(text)

    def built(self, key=None):
        """Puts a built `eraser` there, of the sources as they stand or with another key."""
        out = self.top / "crates/eraser/out"
        out.mkdir(exist_ok=True)
        (out / "eraser").write_bytes(program_text("built"))
        (out / "eraser").chmod(0o755)
        (out / "proved").write_text(f"{key or self.key()}\n{TOOLCHAIN}\n")

    def key(self, crate="eraser"):
        return self.run("tools/program", "--key", crate).stdout.strip()

    def run(self, script, *words, kit=False, before=(), **settings):
        # Git looks for no repository above the tree.
        env = {"PATH": f"{self.home / 'bin'}:{os.environ['PATH']}", "HOME": str(self.home), "GIT_CEILING_DIRECTORIES": str(self.top.parent), **settings}
        if kit:
            env["PATH"] = f"{self.home / 'kit'}:{env['PATH']}"
        return subprocess.run([*before, self.top / script, *words], capture_output=True, text=True, env=env, cwd=self.top.parent, timeout=120)

    def start(self, *words, **more):
        done = self.run("eraser", *words, **more)
        return done.stdout, done.stderr, done.returncode

    def unpacked(self, place=None):
        """The files below the place where `eraser` is unpacked."""
        place = place or self.top / "crates/eraser/out/shipped"
        return [str(path.relative_to(place)) for path in sorted(place.rglob("*")) if path.is_file()]


SUM = hashlib.sha256(program_text("shipped")).hexdigest()
OLDER = "eraser: this program is of commit abc123, and its sources have changed since: tools/prove eraser builds this tree's, in about an hour\n"


def choice_tests(record, tree):
    with concurrent.futures.ThreadPoolExecutor(8) as pool:
        found = list(pool.map(lambda at: tree.start(str(at), "b  c"), range(8)))
    record("start: eight at a time unpack the program", found == [(f"shipped {at} b  c\n", "", 0) for at in range(8)], f"{found}")
    record("start: nothing but the program is unpacked", tree.unpacked() == [f"{SUM}/eraser"], f"{tree.unpacked()}")
    noted = sorted(path.name for path in (tree.top / "crates/eraser/out").iterdir())
    record("start: one note of the sources stays", noted == ["shipped", "sources"], f"{noted}")
    link = tree.top.parent / "link"
    link.symlink_to(tree.top / "eraser")
    done = subprocess.run([link, "x"], capture_output=True, text=True, cwd="/")
    record("start: by a link", (done.stdout, done.stderr) == ("shipped x\n", ""), f"{done}")

    # Sources that have changed, also if nothing shows it but the time that the system keeps. The first start of each two makes the note.
    source = tree.top / "crates/low/src/lib.rt"
    was = source.stat()
    time.sleep(1.1)
    for text, wanted in (("low 2\n", OLDER), ("low 1\n", ""), ("low 3\n", OLDER), ("low 1\n", "")):
        tree.start()
        source.write_text(text)
        os.utime(source, ns=(was.st_atime_ns, was.st_mtime_ns))
        for time_ in ("first", "second"):
            found = tree.start("x")
            record(f"start: the sources are {text.strip()}, {time_}", found == ("shipped x\n", wanted, 0), f"{found}")
    # A folder that goes leaves no other one's time changed.
    specs = tree.top / "crates/low/specs"
    specs.mkdir()
    (specs / "Low.antt").write_text("low 1\n")
    time.sleep(1.1)
    record("start: a folder of the sources more", tree.start("x") == ("shipped x\n", OLDER, 0), f"{tree.start('x')}")
    shutil.rmtree(specs)
    record("start: this folder is gone", tree.start("x") == ("shipped x\n", "", 0), f"{tree.start('x')}")
    source.write_text("low 2\n")
    record("start: a line that was passed on isn't said again", tree.start("x", ERASER_TOLD="1") == ("shipped x\n", "", 0))
    record("start: the other program says it of itself", tree.run("tools/program", "probe").stderr == OLDER.replace("eraser", "probe"))

    # A built one counts if it is of these sources.
    tree.built()
    record("start: the built program", tree.start("x") == ("built x\n", "", 0), f"{tree.start('x')}")
    path = tree.run("tools/program", "eraser").stdout
    record("start: its path", path == f"{tree.top}/crates/eraser/out/eraser\n", path)
    built = tree.top / "crates/eraser/out/eraser"
    is_at = built.stat()
    os.utime(built, ns=(is_at.st_atime_ns, is_at.st_mtime_ns + 10**10))
    record("start: a program that was built again since the stamp", tree.start("x") == ("shipped x\n", OLDER, 0), f"{tree.start('x')}")
    os.utime(built, ns=(is_at.st_atime_ns, is_at.st_mtime_ns))
    record("start: the built program once more", tree.start("x") == ("built x\n", "", 0), f"{tree.start('x')}")
    source.write_text("low 1\n")
    record("start: a built program of other sources", tree.start("x") == ("shipped x\n", "", 0), f"{tree.start('x')}")
    (tree.top / "crates/eraser/out/proved").unlink()
    record("start: a built program of which nothing is known", tree.start("x") == ("shipped x\n", "", 0))
    found = tree.run("tools/program", "none")
    record("start: no such crate", (found.returncode, found.stdout, found.stderr) == (70, "", "none: there is no crate of this name\n"), f"{found}")
    found = tree.run("tools/program", "--built", "none")
    record("start: no such crate is built", found.returncode == 70 and not (tree.top / "crates/none").exists(), f"{found}")


def damage_tests(record, tree):
    """What is wrong in dist/ is one line and 70, and leaves nothing to run."""
    manifest, packed = tree.top / "dist/MANIFEST", tree.top / "dist/eraser.gz"
    lines, whole = manifest.read_text(), packed.read_bytes()
    other = gzip.compress(program_text("other"))
    wrong = hashlib.sha256(program_text("other")).hexdigest()
    told = f"eraser: dist/eraser.gz isn't the program that dist/MANIFEST names: its SHA-256 is {wrong}, and not {SUM}\n"
    for name, text, wanted in (("another program", other, told), ("a cut file", whole[:-9], None), ("no file", None, None)):
        packed.unlink(missing_ok=True)
        if text is not None:
            packed.write_bytes(text)
        found = tree.start("x")
        is_told = found[1] == wanted if wanted else re.fullmatch(r"eraser: dist/eraser\.gz can't be unpacked into .*\n", found[1])
        record(f"damaged dist/: {name}", found[0] == "" and is_told and found[2] == 70 and tree.unpacked() == [], f"{found} {tree.unpacked()}")
    packed.write_bytes(whole)
    none = "eraser: neither a built program of these sources is there nor one in dist/: tools/prove eraser builds it, in about an hour\n"
    for name, text in (("no line", lines.replace("eraser ", "reaser ")), ("nothing", None)):
        manifest.unlink()
        if text is not None:
            manifest.write_text(text)
        found = tree.start("x")
        record(f"no program: {name} in dist/", found == ("", none, 70), f"{found}")
    manifest.write_text(lines)
    record("dist/ is mended", tree.start("x") == ("shipped x\n", "", 0))


def unwritable_tests(record, tree):
    """A tree that can't be written to: the program is unpacked into the user's cache."""
    (tree.top / "crates/eraser/out").write_text("no folder\n")
    cache = tree.home / ".cache/eraser"
    for time_ in ("first", "second"):
        found = tree.start("x")
        record(f"a tree without room, {time_} start", found == ("shipped x\n", "", 0) and tree.unpacked(cache) == [f"{SUM}/eraser"], f"{found}")
    found, other = tree.start("x", XDG_CACHE_HOME=str(tree.home / "else")), tree.home / "else/eraser"
    record("the cache of XDG_CACHE_HOME", found == ("shipped x\n", "", 0) and tree.unpacked(other) == [f"{SUM}/eraser"], f"{found}")
    found = tree.start("x", XDG_CACHE_HOME="cache")
    is_told = found[0] == "" and "can be written to" in found[1] and found[2] == 70
    record("a cache whose path doesn't begin at the root", is_told and not (tree.top / "cache").exists(), f"{found}")
    (tree.home / "file").write_text("")
    found = tree.start("x", XDG_CACHE_HOME=str(tree.home / "file"))
    record("no place at all", found[0] == "" and found[1].count("\n") == 1 and "can be written to" in found[1] and found[2] == 70, f"{found}")
    (tree.top / "crates/eraser/out").unlink()
    # Another user's tree. Root may write anywhere, so nobody runs it.
    as_nobody = ["setpriv", "--reuid=65534", "--regid=65534", "--clear-groups"] if os.geteuid() == 0 else []
    subprocess.run(["chmod", "-R", "a+rX", tree.top.parent], check=True)
    (tree.home / "open").mkdir()
    (tree.home / "open").chmod(0o777)
    if not as_nobody:
        (tree.top / "crates/eraser").chmod(0o555)
    for time_ in ("first", "second"):
        found = tree.start("x", before=as_nobody, XDG_CACHE_HOME=str(tree.home / "open"))
        there = tree.unpacked(tree.home / "open/eraser")
        is_clean = not (tree.top / "crates/eraser/out").exists()
        record(f"another user's tree, {time_} start", found == ("shipped x\n", "", 0) and there == [f"{SUM}/eraser"] and is_clean, f"{found} {there}")
    (tree.top / "crates/eraser").chmod(0o755)


def key_tests(record, tree):
    names = ("low", "high", "eraser", "probe", "other")

    def keys():
        return dict(zip(names, tree.run("tools/program", "--key", *names).stdout.split()))

    first = keys()
    record("keys: one for each crate", len(set(first.values())) == len(names) and all(re.fullmatch("[0-9a-f]{64}", key) for key in first.values()), f"{first}")
    record("keys: alone as beside others", all(tree.key(name) == first[name] for name in names))
    below_low, above_high = set(names), {"high", "eraser"}
    for name, path, text, wanted in (
        ("a source of a crate below", "crates/low/src/lib.rt", "low 2\n", below_low),
        ("a proof", "crates/low/proofs/Lib.antt", "p\n", below_low),
        ("definitions in a folder", "crates/high/specs/deep/Lib.antt", "s\n", above_high),
        ("a source of a crate that isn't below", "crates/other/src/lib.rt", "other 2\n", {"other"}),
        ("a file that is no source", "crates/eraser/args", "x\n", set()),
        ("a comment of crates.txt", "crates.txt", CRATES.replace("# Crates.", "# Other words.").replace("upper", "higher"), set()),
        ("spaces in crates.txt", "crates.txt", CRATES.replace("low smallvec", "low   smallvec"), set()),
        ("a word in crates.txt", "crates.txt", CRATES.replace("may_wait=1", "may_wait=2"), above_high),
        ("a library in crates.txt", "crates.txt", CRATES.replace("smallvec", "indexmap"), above_high),
        ("another name of a file", "crates/high/src/other.rt", None, above_high),
    ):
        path, source = tree.top / path, tree.top / "crates/high/src/lib.rt"
        old = path.read_text() if path.exists() else None
        if text is None:
            source.rename(path)
        else:
            path.parent.mkdir(parents=True, exist_ok=True)
            path.write_text(text)
        found = keys()
        changed = {crate for crate in names if found[crate] != first[crate]}
        record(f"keys: {name}", changed == wanted, f"{changed}")
        if text is None:
            path.rename(source)
        elif old is None:
            path.unlink()
        else:
            path.write_text(old)
    record("keys: all as at first", keys() == first)
    found = tree.run("tools/program", "--key", "low", "none")
    record("keys: no such crate", found.returncode == 70 and found.stderr == "none: crates.txt has no crate of this name\n", f"{found}")


def dist_tests(record, tree):
    manifest, packed = tree.top / "dist/MANIFEST", tree.top / "dist/eraser.gz"
    before = manifest.read_text()
    found = tree.run("tools/dist", "eraser")
    record("dist: nothing is built", found.returncode == 1 and "isn't built" in found.stderr and manifest.read_text() == before, f"{found}")
    tree.built()
    found = tree.run("tools/dist", "--compare")
    told = f"dist/ has another eraser than these sources make: its SHA-256 is {SUM}, and that of the built one is {hashlib.sha256(program_text('built')).hexdigest()}\n"
    record("dist: another program of the same sources", (found.returncode, found.stdout) == (1, told + "probe isn't built of these sources\n"), f"{found}")
    found = tree.run("tools/dist")
    line, other = manifest.read_text().splitlines()[1:]
    wanted = f"eraser {hashlib.sha256(program_text('built')).hexdigest()} {tree.key()} - {TOOLCHAIN}"
    is_right = line == wanted and other == before.splitlines()[1] and gzip.decompress(packed.read_bytes()) == program_text("built")
    record("dist: the built one of two is put there", found.returncode == 1 and is_right, f"{found} {line}")
    shutil.rmtree(tree.top / "crates/eraser/out")
    record("dist: what was put there runs", tree.start("x") == ("built x\n", "", 0), f"{tree.start('x')}")
    tree.built()
    stamp, files = packed.stat().st_ino, sorted(path.name for path in (tree.top / "dist").iterdir())
    found = tree.run("tools/dist", "eraser")
    record("dist: what is there already stays", found.returncode == 0 and packed.stat().st_ino == stamp and manifest.read_text().splitlines()[1] == line, f"{found}")
    record("dist: nothing else lies there", files == ["MANIFEST", "eraser.gz", "probe.gz"], f"{files}")
    # The same bytes of other sources.
    tree.write("crates/low/src/lib.rt", "low 2\n")
    tree.built()
    found = tree.run("tools/dist", "--compare")
    record("dist: of other sources", found.stdout.startswith("dist/ has eraser of commit -, of other sources or by another toolchain"), f"{found}")
    found = tree.run("tools/dist", "eraser")
    record("dist: the line of other sources", found.returncode == 0 and manifest.read_text().splitlines()[1].split()[2] == tree.key(), f"{found}")
    manifest.unlink()
    found = tree.run("tools/dist", "--compare")
    record("dist: no line", found.stdout == "dist/ has no eraser: tools/dist puts it there\nprobe isn't built of these sources\n", f"{found}")


def library_tests(record, tree):
    """A static library is chosen, put into dist/ and compared as a program is, once its crate is there."""
    list_ = tree.run("tools/program", "--list").stdout.split()
    record("library: a tree without its crate", list_ == ["eraser", "probe"], f"{list_}")
    (tree.top / "crates/eraser_c/src").mkdir(parents=True)
    (tree.top / "crates/eraser_c/src/lib.rt").write_text("eraser_c 1\n")
    tree.write("crates.txt", CRATES + "eraser_c staticlib: low\n")
    list_ = tree.run("tools/program", "--list").stdout.split()
    record("library: a tree with its crate", list_ == ["eraser", "probe", "eraser_c"], f"{list_}")
    found = tree.run("tools/program", "eraser_c")
    record("library: neither built nor shipped", found.returncode == 70 and "tools/prove eraser_c builds it" in found.stderr, f"{found}")
    found = tree.run("tools/dist", "--compare", "eraser_c")
    record("library: not built", (found.returncode, found.stdout) == (1, "eraser_c isn't built of these sources\n"), f"{found}")
    out, archive = tree.top / "crates/eraser_c/out", b"!<arch>\nof its sources\n"
    found = tree.run("tools/prove", "eraser_c", kit=True)
    shipped = tree.top / "dist/eraser_c.gz"
    is_shipped = shipped.exists() and gzip.decompress(shipped.read_bytes()) == archive
    record("library: a proof puts it into dist/", found.returncode == 0 and is_shipped and found.stderr.endswith("dist: eraser_c is renewed\n"), f"{found}")
    path = tree.run("tools/program", "eraser_c").stdout
    record("library: the built one", path == f"{out}/liberaser_c.a\n", path)
    record("library: dist/ has the built one", tree.run("tools/dist", "--compare", "eraser_c").returncode == 0)
    (out / "liberaser_c.a").write_bytes(b"!<arch>\nanother\n")
    os.utime(out / "liberaser_c.a", (0, 0))
    found = tree.run("tools/dist", "--compare", "eraser_c")
    record("library: dist/ has another one", found.returncode == 1 and "dist/ has another eraser_c than" in found.stdout, f"{found}")
    shutil.rmtree(out)
    found = tree.run("tools/program", "eraser_c")
    text = pathlib.Path(found.stdout.strip()).read_bytes() if found.returncode == 0 else None
    record("library: the shipped one", (found.stderr, text) == ("", archive), f"{found} {text}")
    found = tree.run("check", kit=True)
    record("library: the gate makes its archive and compares it", (out / "liberaser_c.a").exists() and "eraser_c" not in found.stderr, f"{found}")
    shipped.write_bytes(gzip.compress(b"!<arch>\nanother\n"))
    found = tree.run("check", kit=True)
    record("library: the gate sees another one in dist/", found.returncode == 1 and "check: dist/ has another eraser_c than" in found.stderr, f"{found}")


def prove_tests(record, tree):
    manifest = tree.top / "dist/MANIFEST"
    before = manifest.read_text()
    found = tree.run("tools/prove", "eraser", PATH=few_commands(tree.home / "bin"))
    record("prove: no toolchain", found.returncode == 70 and "toolchain is missing" in found.stderr, f"{found}")
    found = tree.run("tools/prove", "none", kit=True)
    record("prove: no such crate", (found.returncode, found.stderr) == (70, "eraser: crates.txt has no crate none\n"), f"{found}")
    found = tree.run("tools/prove", "high", kit=True)
    record("prove: a library renews nothing", found.returncode == 0 and manifest.read_text() == before and "proved 2 of 2 crates" in found.stderr, f"{found}")
    cost = "eraser: processor minutes: 0 below high, of which 0 by low; 0 by high\n"
    record("prove: what a proof from nothing cost", found.stderr.endswith(cost), f"{found}")
    found = tree.run("tools/prove", "eraser", kit=True)
    text = gzip.decompress((tree.top / "dist/eraser.gz").read_bytes())
    is_told = "1 of 3 crates" in found.stderr and "proved 3 of 3 crates (eraser" in found.stderr and found.stderr.endswith("dist: eraser is renewed\n")
    record("prove: a program renews its line", found.returncode == 0 and is_told and b"built: eraser 1" in text and tree.key() in manifest.read_text(), f"{found} {text}")
    record("prove: the built program runs", tree.start("x") == ("built: eraser 1\n", "", 0), f"{tree.start('x')}")
    found = tree.run("tools/prove", "eraser", kit=True)
    record("prove: nothing to do", found.returncode == 0 and found.stderr == "dist: eraser is there already\n", f"{found}")
    for crate in ("low", "high", "eraser"):
        stamp = tree.top / f"crates/{crate}/out/proved"
        record(f"prove: the stamp of {crate}", stamp.read_text() == f"{tree.key(crate)}\n{TOOLCHAIN}\n", stamp.read_text())
    tree.write("crates/high/src/lib.rt", "high 2\n")
    found = tree.run("tools/prove", "eraser", kit=True)
    record("prove: what changed and what is above", "sources of high have changed" in found.stderr and "2 of 3 crates" in found.stderr and found.returncode == 0, f"{found}")
    kit, stamp = tree.home / "kit/rt", tree.top / "crates/high/out/proved"
    was = stamp.read_text()
    kit.write_text(KIT.replace("lib) ", f"lib) echo high 4 >'{tree.top}/crates/high/src/lib.rt' && "))
    tree.write("crates/high/src/lib.rt", "high 3\n")
    found = tree.run("tools/prove", "eraser", kit=True)
    is_told = "eraser: sources of high, or of a crate below it, changed meanwhile" in found.stderr
    record("prove: sources that change meanwhile", found.returncode == 70 and is_told and stamp.read_text() == was, f"{found}")
    kit.write_text(KIT.replace("'kit 1'", "'kit 2'"))
    found = tree.run("tools/prove", "eraser", kit=True)
    record("prove: another toolchain", "and is now kit 2 logic abc: 3 of 3 crates" in found.stderr and " kit 2 logic abc\n" in manifest.read_text(), f"{found}")


def gate_tests(record, tree):
    manifest = tree.top / "dist/MANIFEST"
    found = tree.run("check", kit=True)
    lines = found.stdout.splitlines()
    record("check: rt's output comes whole", lines[:4] == ["== eraser", "rt: eraser proved", "== high", "rt: high proved"] and "rt: high is kept: an earlier run" in lines, f"{found}")
    told = re.findall(r"^check: (?:proved|begun) .*$", found.stderr, re.M)
    steps = [f"check: proved {number} of 5 crates" for number in range(1, 6)] + ["check: begun 2 of 2 must-fail edits", "check: proved 6 of 5 crates"]
    record("check: how far it is", told == steps, f"{told}")
    record("check: what it cost", len(re.findall(r"^check: (rt ci|the whole gate): \d+ processor minutes in \d+ minutes$", found.stderr, re.M)) == 2, f"{found.stderr}")
    sums = hashlib.sha256((tree.top / "crates/eraser/out/eraser").read_bytes()).hexdigest(), SUM
    differs = [line for line in found.stderr.splitlines() if line.startswith("check: dist/ has another eraser than") and all(it in line for it in sums)]
    record("check: another program in dist/", found.returncode == 1 and len(differs) == 2 and lines[-2:] == ["one line", "12 passed, 1 failed"], f"{found}")
    record("check: what it built is run", tree.start("x") == ("built: eraser 1\n", "", 0))
    done = tree.run("tools/dist")
    found = tree.run("check", kit=True)
    record("check: all is well", done.returncode == found.returncode == 0 and found.stdout.endswith("\n13 passed, 0 failed\n") and "dist/" not in found.stderr, f"{found}")
    tree.write("crates/low/src/lib.rt", "low 2\n")
    found = tree.run("check", kit=True)
    older = [at for at, line in enumerate(found.stderr.splitlines()) if line.startswith("check: dist/ has eraser of commit -, of other sources")]
    last = len(found.stderr.splitlines()) - 2
    is_told = len(older) == 2 and older[1] == last and found.stdout.endswith("\none line\n12 passed, 0 failed\n")
    record("check: an older program in dist/", found.returncode == 0 and is_told, f"{found}")
    found = tree.run("check", kit=True, FAILS="3")
    record("check: rt ci fails", found.returncode == 3 and found.stdout.endswith("\n7 passed, 3 failed\n") and "one line" not in found.stdout, f"{found}")
    found = tree.run("check", kit=True, TEST_FAILS="1")
    record("check: a test fails", found.returncode != 0 and found.stdout.endswith("\n11 passed, 1 failed\n"), f"{found}")
    tree.write("ci-also", "echo low 3 >crates/low/src/lib.rt\n")
    found = tree.run("check", kit=True)
    record("check: sources that change meanwhile", found.returncode == 1 and "changed while the gate ran" in found.stderr and found.stdout.endswith("\n7 passed, 1 failed\n"), f"{found}")
    tree.write("ci-also", "exit 5\n")
    found = tree.run("check", kit=True)
    record("check: rt ci ends early", found.returncode != 0 and found.stdout.endswith("\n0 passed, 1 failed\n"), f"{found}")
    packages_tests(record, tree)
    manifest.unlink()
    shutil.rmtree(tree.top / "crates/eraser/out")
    found = tree.run("test")
    record("test: no program", found.returncode == 70 and found.stdout == "0 passed, 1 failed\n" and "tools/prove eraser" in found.stderr, f"{found}")


FEW = "python3 sh bash env find sort xargs awk sha256sum touch mv rm mkdir gzip chmod mktemp uname readlink dirname id git"


def few_commands(folder):
    """A folder of commands, none of them a compiler or a browser, as a PATH."""
    for name in filter(shutil.which, FEW.split()):
        (folder / name).symlink_to(shutil.which(name))
    return str(folder)


def packages_tests(record, tree):
    """Packages that can't be installed are named, and the tests run."""
    found = tree.run("test", PATH=few_commands(tree.home / "bin"))
    asked = (tree.home / "asked").read_text() if os.geteuid() == 0 else ""
    names = ("gcc libc6-dev g++ clang libdw-dev", "libjemalloc-dev libtcmalloc-minimal4", "pkg-config", "valgrind",
             "--no-install-recommends chromium fonts-dejavu-core")
    is_told = all(f"on Debian: apt-get install {name}\n" in found.stderr and (asked == "" or f"install -y -qq {name}\n" in asked) for name in names)
    record("test: no package can be installed", (found.returncode, found.stdout) == (0, "one line\n5 passed, 0 failed\n") and is_told, f"{found} {asked}")


def parts_tests(record, folder):
    """Without a compiler, a part that wants one is named, and another one runs."""
    env = {**os.environ, "PATH": few_commands(folder), "ERASER_TOLD": "1"}
    found = subprocess.run([sys.executable, TOP / "tests/run", "pieces", "documents", "the recorder"], capture_output=True, text=True, env=env, timeout=1200)
    *_, first, second, last = found.stdout.splitlines() or [""] * 3
    named = ["not run: pieces (no C compiler)", "not run: the recorder (no gcc, g++ or clang, or no headers of libdw)"]
    record("tests/run names what it can't run", [first, second] == named and re.fullmatch(r"[1-9]\d* passed, \d+ failed", last) and found.stderr == "test: documents\n", f"{found}")


def shipped_tests(record):
    """Each program of the list is in dist/, as MANIFEST says."""
    names = subprocess.run([TOP / "tools/program", "--list"], capture_output=True, text=True).stdout.split()
    path = TOP / "dist/MANIFEST"
    lines = [line.split() for line in path.read_text().splitlines() if not line.startswith("#")] if path.exists() else []
    record("dist/MANIFEST has a line for each program", [line[0] for line in lines] == names and all(len(line) > 4 for line in lines), f"{lines} {names}")
    for name, wanted, *_ in lines:
        text = gzip.decompress((TOP / f"dist/{name}.gz").read_bytes())
        file = subprocess.run([TOP / "tools/program", "--file", name], capture_output=True, text=True).stdout.strip()
        begins = b"!<arch>\n" if file.endswith(".a") else b"\x7fELF"
        record(f"dist/{name}.gz is what MANIFEST says", hashlib.sha256(text).hexdigest() == wanted and text.startswith(begins))


def tests(record):
    for part in (choice_tests, damage_tests, unwritable_tests, key_tests, dist_tests, library_tests, prove_tests, gate_tests):
        with tempfile.TemporaryDirectory() as folder:
            part(record, Tree(folder))
    with tempfile.TemporaryDirectory() as folder:
        parts_tests(record, pathlib.Path(folder))
    shipped_tests(record)


if __name__ == "__main__":
    run_alone(tests)
