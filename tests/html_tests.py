#!/usr/bin/env python3
"""Reads the page of `eraser replay --format html` back, and opens it in a browser.

- the page is the same for every report, but for two blocks of JSON: one is the document of `--format json --explain`, the other the lines
  of source files that `--source` finds
- in a headless Chromium the page has the sites of a second reading, its filter and its examples work by keyboard, it loads nothing, and no
  name and no source line is ever markup
- a page of two reports has two parts, and a picture of two accesses that nothing orders has a broken line and no candidate set
- a page of a trace 4 from a file has the calls that led to each access below its sentence

`tests/run` calls `tests`. By itself this file runs these tests alone, or with `--screenshot FILE` makes a picture of a page.
"""

import base64
import hashlib
import json
import pathlib
import re
import subprocess
import sys
import tempfile

sys.path.insert(0, str(pathlib.Path(__file__).parent))
sys.dont_write_bytecode = True
import browser
import reference
import site_tests
import trace4
from alone import OUTCOMES, each_refused, outcome_of, run_alone
from json_tests import ANALYSES, LOSSY, REUSED, document_of
from site_tests import TOP, preloaded, run, run_with

PAGE = re.compile(rb'(.*<script type="application/json" id="report">\n)(.*)(</script>\n<script type="application/json" id="sources">\n)(.*)(\n</script>\n<script>.*)', re.S)
BUSY = b"""eraser trace 1
main lock queue_lock
main write 0x406180 pool.cpp:12
main unlock queue_lock
w1 lock queue_lock
w1 lock stats_lock
w1 rlock table
w1 write 0x406180 pool.cpp:18
w1 runlock table
w1 unlock stats_lock
w1 unlock queue_lock
w2 lock queue_lock
w2 write 0x406180 pool.cpp:18
w2 unlock queue_lock
w1 lock stats_lock
w1 lock table
w1 write 0x406180 pool.cpp:35
w1 unlock table
w1 unlock stats_lock
w1 read 0x5000 pool.cpp:40
w2 write 0x5000 pool.cpp:41
w1 write 0x5004 pool.cpp:41
w2 write 0x5004 pool.cpp:41
w2 write 0x5008
w1 write 0x5008
w2 unlock queue_lock
w2 show 0x5008
"""
POOL = """// A pool of workers.
#include <mutex>

std::mutex queue_lock, stats_lock, table;
int done;
int jobs, spare;

void open_pool()
{
    std::lock_guard hold(queue_lock);
    // No worker has started yet.
    done = 0;
}

void finish_job()
{
    std::scoped_lock hold(queue_lock, stats_lock);
    done++;
}

void report()
{
    std::lock_guard hold(stats_lock);
    show("<b>jobs</b>", done);
}

// Starts a new round,
// with all workers at rest.
void restart()
{
    std::scoped_lock hold(stats_lock, table);
    // The workers count under queue_lock,
    // which is not held here.
    spare = 0;
    done = 0;
}

int look()
{
    if (jobs > 0) return spare;
    jobs = 1;
    return 0;
}
"""
# The same with lines that would be markup, if a page took them so.
TRAPS = {"under queue_lock,": "</script><script>window.hostile = 1</script>", "which is not held here.": '<!-- <img src=x onerror="window.hostile = 2"> &lt;'}
HOSTILE = ["</script><script>window.hostile = 3</script>", "<img src=x onerror='window.hostile = 4'>:7", "<!-- <script>", "&lt;b&gt;", "]]>", "javascript:window.hostile=5", "__proto__", "constructor"]


# ---- The bytes of a page

def blocks_of(page):
    """What is the same in every page, the report, and the excerpts."""
    before, report, between, sources, behind = PAGE.fullmatch(page).groups()
    return (before, between, behind), report, sources


def page_tests(record):
    shells, raced = set(), 0
    for name, text, rules in site_tests.texts():
        page, errors, status = run_with(rules, text, "--format", "html")
        document = run_with(rules, text, "--format", "json", "--explain")
        record(f"{name} as a page, errors and status", (errors, status) == document[1:], f"{errors}, {status}")
        if status >= 2:
            record(f"{name} as a page is nothing", page == document[0] == b"", f"{page}")
            continue
        shell, report, sources = blocks_of(page)
        shells.add(shell)
        record(f"{name} as a page has the document", b"<" not in report and json.loads(report) == json.loads(document[0]), f"{report}, {document[0]}")
        record(f"{name} as a page has its bytes", report.replace(b"\\u003c", b"<") == document[0] and sources == b"[]", f"{report}, {sources}")
        record(f"{name} as a page with --explain", run_with(rules, text, "--format", "html", "--explain")[0] == page)
        wanted = reference.replay(text, rules or b"", explain=True)[0]
        record(f"{name} as a page has the reference's report", json.loads(report) == document_of(wanted), f"{report}")
        raced += status
        for analysis in ANALYSES[1:]:
            page, *ended = run_with(rules, text, "--analysis", analysis, "--format", "html")
            documents, *wanted = run_with(rules, text, "--analysis", analysis, "--format", "json", "--explain")
            shell, report, _ = blocks_of(page)
            shells.add(shell)
            record(f"{name} as a page by {analysis}", report.replace(b"\\u003c", b"<") == documents and ended == wanted, f"{report}, {documents}")
    record("pages have races", raced > 50, f"{raced}")
    record("all pages have one shell", len(shells) == 1, f"{len(shells)}")
    by_workers = run(["replay", "--format", "html", "--workers", "3", "-"], BUSY)
    record("a page by several workers", by_workers == run(["replay", "--format", "html", "-"], BUSY))
    return shells.pop()


def digest(text):
    return "'sha256-" + base64.b64encode(hashlib.sha256(text).digest()).decode() + "'"


def shell_tests(record, shell):
    """The page loads nothing, and the browser is told to use this style and this script alone."""
    before, _, behind = shell
    policy = re.search(rb'http-equiv="Content-Security-Policy" content="([^"]*)"', before)[1].decode()
    style = re.search(rb"<style>(.*)</style>", before, re.S)[1]
    script = re.fullmatch(rb"\n</script>\n<script>(.*)</script>\n</body>\n</html>\n", behind, re.S)[1]
    wanted = f"default-src 'none'; style-src {digest(style)}; script-src {digest(script)}; base-uri 'none'; form-action 'none'"
    record("the page's policy", policy == wanted, f"it should be: {wanted}")
    whole = b"".join(shell)
    for word in (b"src=", b"url(", b"@import", b"href=\"", b"innerHTML", b"insertAdjacentHTML", b"document.write", b"eval(", b"fetch(", b"XMLHttpRequest"):
        record(f"the page has no {word.decode()}", word not in whole)
    links = set(re.findall(rb"https?://[^\"' ]*", whole))
    record("the page names no address but that of SVG", links == {b"http://www.w3.org/2000/svg"}, f"{links}")


# ---- Source files

def excerpt(site, text, line):
    """The lines around a line of a text, by a second reading of docs/FORMATS.md."""
    lines = text.split(b"\n")
    kept = lines[max(0, line - 6) : line + 5]
    plain = b"\n".join(one[:400] for one in kept).decode(errors="replace")
    return {"site": site, "line": max(1, line - 5), "text": re.sub(r"[\0-\x08\x0b-\x1f]", " ", plain)}


def source_tests(record):
    with tempfile.TemporaryDirectory() as name:
        folder = pathlib.Path(name) / "tree"
        (folder / "sub").mkdir(parents=True)
        rows = b"".join(b"\t%d\x01 \\ \" <%s>\r\n" % (k, b"z" * (k * 40)) for k in range(1, 31))
        files = {"pool.cpp": POOL.encode(), "sub/rows.c": rows, "one.c": b"one", "bad.c": b"a\nb\xff\xfec\xe2\x82\n\xc3\xa9\n" * 9, "empty.c": b"", "sub/dot..c": b"x"}
        for path, text in files.items():
            (folder / path).write_bytes(text)
        (folder / "sub/secret.c").write_bytes(b"1\n2\n3\n")
        (pathlib.Path(name) / "outside.c").write_bytes(b"secret\n" * 9)
        lines = {"pool.cpp": [1, 12, 35, 41], "sub/rows.c": [1, 6, 25, 30], "one.c": [1], "bad.c": [2, 14]}
        there = [(f"{path}:{line}", path, line) for path, wanted in lines.items() for line in wanted]
        there.append((f"{folder}/sub/secret.c:2", "sub/secret.c", 2))
        missing = ["pool.cpp", "pool.cpp:", "pool.cpp:0", "pool.cpp:99", "pool.cpp:x", "pool.cpp:1:", "none.c:1", "sub:1", "../outside.c:1", "sub/../../outside.c:1",
                   "sub/dot..c:1", f"{name}/outside.c:1", "empty.c:2", ":1", "1", "pool.cpp:99999999999999999999", "pool.cpp:18446744073709551615"]
        sites = [site for site, _, _ in there] + missing
        text = "eraser trace 1\n" + "".join(f"{thread} write {4 * place} {site}\n" for place, site in enumerate(sites) for thread in ("t1", "t2"))
        for options in (["--source", str(folder)], ["--source", f"{folder}/"], ["--max-races", "100", "--source", str(folder)]):
            page, errors, status = run(["replay", "--format", "html", *options, "-"], text.encode())
            _, report, sources = blocks_of(page)
            wanted = [excerpt(site, (folder / path).read_bytes(), line) for site, path, line in there]
            found = json.loads(sources)
            record(f"source lines of {options[:-1]}", (found, errors, status) == (wanted, b"", 1), f"{found}, {wanted}, {errors}, {status}")
            record(f"source lines have no sign of markup with {options[:-1]}", b"<" not in sources and b"<" not in report)
            record(f"the report beside source lines of {options[:-1]}", report.replace(b"\\u003c", b"<") == run(["replay", "--format", "json", "--explain", "-"], text.encode())[0])
        found = run(["replay", "--format", "html", "--source", "/nonexistent", "-"], text.encode())
        record("no folder of sources", found == run(["replay", "--format", "html", "-"], text.encode()))
        many = "eraser trace 1\n" + "".join(f"{thread} write {4 * k} pool.cpp:{k % 40 + 1}0{k}\n" for k in range(1200) for thread in ("t1", "t2")) + "t1 write 0 pool.cpp:3\nt1 write 8000 pool.cpp:3\nt2 write 8000 pool.cpp:3\n"
        found = json.loads(blocks_of(run(["replay", "--format", "html", "--source", str(folder), "-"], many.encode())[0])[2])
        record("sites are looked up to a limit", found == [], f"{found}"[:200])
    for words in (["--source", "."], ["--source", ".", "--format", "json"], ["--source", ".", "--by-site"], ["--source"], ["--format", "html", "--by-site"]):
        output, errors, status = run(["replay", *words, "-"], b"eraser trace 1\n")
        record(f"{words} are wrong arguments", (output, status) == (b"", 2) and errors.startswith(b"error: "), f"{output}, {errors}, {status}")


# How many bytes of a source file are read.
MOST_BYTES = 1 << 24


def far_lines(record):
    """Lines far behind the beginning of a file, up to where it is no longer read: the last one is cut there."""
    with tempfile.TemporaryDirectory() as folder:
        text = b"".join(b"%-999d\n" % number for number in range(1, MOST_BYTES // 1000 + 10))
        (pathlib.Path(folder) / "far.c").write_bytes(text)
        # A line has 1,000 bytes, so the last one that is read is cut behind 216.
        cut = MOST_BYTES // 1000 + 1
        there, missing = [1, 66, 67, 132, 1100, cut - 8, cut - 3, cut], [cut + 1, cut + 5]
        trace = "eraser trace 1\n" + "".join(f"{thread} write {4 * line} far.c:{line}\n" for line in (*there, *missing) for thread in ("t1", "t2"))
        page = run(["replay", "--format", "html", "--source", folder, "-"], trace.encode())[0]
        found, wanted = json.loads(blocks_of(page)[2]), [excerpt(f"far.c:{line}", text[:MOST_BYTES], line) for line in there]
        record("source lines far behind the beginning of a file", found == wanted, f"{found}, {wanted}"[:2000])
        record("the last source line that is read", len(wanted[-1]["text"].split("\n")[-1]) == 216, f"{wanted[-1]}"[:2000])


def refusal_tests(record, preloaded):
    """Each allocation refused in turn, each write failed."""
    with tempfile.TemporaryDirectory() as folder:
        library, met = preloaded(folder, "refuse"), set()
        (pathlib.Path(folder) / "work.c").write_bytes(b"line\n" * 30)
        words = ["replay", "--format", "html", "--source", folder, str(TOP / "examples/explained.trace")]
        whole, bare = run(words), run([*words[:-1], "-"], (TOP / "examples/explained.trace").read_bytes())
        for nth, found, was_refused in each_refused(library, folder, lambda env: run(words, env=env)):
            outcome = outcome_of(found, whole, lambda page: json.loads(blocks_of(page)[1])["stop"]["why"] == "out of memory", bare)
            met.add(outcome)
            if was_refused:
                record(f"a page without allocation {nth}", outcome, f"{found}"[-300:])
            else:
                record("a page with all allocations", outcome == "whole" and nth > 20 and b'"line":15,"text"' in whole[0], f"{nth}")
        record("a page without an allocation: each outcome", met >= OUTCOMES | {"bare"}, f"{met}")
    with open("/dev/full", "wb") as full:
        done = subprocess.run([str(site_tests.PROGRAM), *words[:3], words[-1]], stdout=full, stderr=subprocess.PIPE, timeout=120)
        record("a page on a full device", (done.stderr, done.returncode) == (b"write fault\n", 4), f"{done}")


# ---- The page in a browser

def table_of(document):
    """The rows of the sites, by a second reading: words, kinds, threads, locks, site."""
    sites = {}
    for race in document["races"]:
        sites.setdefault("-" if race["site"] is None else race["site"], []).append(race)
    rows = sorted(sites.items(), key=lambda one: -len(one[1]))
    for site, races in rows:
        kinds = ", ".join(kind for kind in ("read", "write") if any(race["kind"] == kind for race in races))
        yield [f"{len(races):,}", kinds, str(len({race["thread"] for race in races})), str(len({lock for race in races for lock in race["held"]})), site]


def candidates_of(race):
    """What the last column of a picture says: the candidate set after each access that the race names."""
    reasons = race["reasons"]
    joined = next(reason["line"] for reason in reasons if reason["label"] == "joined")
    lost = {reason["lock"]: reason["line"] for reason in reasons if reason["label"] == "not covering"}
    for line in sorted({reason["line"] for reason in reasons}):
        left = [lock for lock, at in lost.items() if at > line]
        yield f"line {line}", "one thread so far" if line < joined else ", ".join(left) or "empty"


TABLE = "[...document.querySelectorAll('main > section table')][0]"
ROWS = f"[...{TABLE}.tBodies[0].rows].map(row => [...row.cells].map(cell => cell.textContent))"
PICTURES = "[...document.querySelectorAll('svg.picture')].map(svg => [...svg.querySelectorAll('text')].map(text => text.lastChild.textContent))"


def opened(page, folder, one, fragment=""):
    path = pathlib.Path(folder) / "page.html"
    path.write_bytes(page)
    one.open(path.as_uri() + fragment)


def is_calm(one):
    """The page is made, nothing went wrong, and nothing but the page was loaded."""
    return one.value("document.getElementById('page').dataset.ready") == "true" and not one.troubles and len(one.loaded) == 1


def content_tests(record, one, folder):
    texts = [(name, text, rules) for name, text, rules in site_tests.texts() if not name.startswith("random")][:25] + [("a busy trace", BUSY, None)]
    for name, text, rules in texts:
        page, _, status = run_with(rules, text, "--format", "html")
        if status >= 2:
            continue
        document = json.loads(run_with(rules, text, "--format", "json", "--explain")[0])
        opened(page, folder, one)
        record(f"the page of {name} is made", is_calm(one), f"{one.troubles}, {one.loaded}")
        wanted = list(table_of(document))
        if len(wanted) <= 500 and wanted:
            found = one.value(ROWS)
            record(f"the sites of the page of {name}", found == wanted, f"{found}, {wanted}")
            shown = {race["site"] or "-": race for race in reversed(document["races"])}
            pictures = one.value(PICTURES)
            for row, picture in zip(wanted[:3], pictures):
                race = shown[row[4]]
                pairs = [(picture[k], picture[k + 2]) for k in range(len(picture) - 2) if picture[k].startswith("line ")]
                record(f"a picture of {name}", pairs == list(candidates_of(race)), f"{picture}, {pairs}")
        totals = one.value("[...document.querySelectorAll('.totals dd')].map(dd => dd.textContent)")
        record(f"the totals of the page of {name}", totals == [f"{count:,}" for count in document["totals"].values()], f"{totals}")


def keyboard_tests(record, one, folder):
    """The filter and the examples, by the keys of a keyboard alone."""
    opened(run(["replay", "--format", "html", "-"], BUSY)[0], folder, one)
    for _ in range(10):
        if one.value("document.activeElement.id") == "filter":
            break
        one.press("Tab")
    record("the filter by keyboard", one.value("document.activeElement.id") == "filter")
    one.type("POOL.cpp table")
    record("the filter leaves the sites with its words", [row[4] for row in one.value(ROWS)] == ["pool.cpp:35"], f"{one.value(ROWS)}")
    record("the filter counts", one.value("document.getElementById('matches').textContent") == "1 site of 3", one.value("document.getElementById('matches').textContent"))
    for _ in range(10):
        if one.value("document.activeElement.tagName") == "SUMMARY":
            break
        one.press("Tab")
    for wanted in (False, True):
        one.press("Enter", "\r")
        record(f"an example by keyboard, open {wanted}", one.value("document.activeElement.parentElement.open") is wanted)
    record("the page with a filter is calm", not one.troubles, f"{one.troubles}")
    opened(run(["replay", "--format", "html", "-"], BUSY)[0], folder, one, "#filter=pool.cpp%3A41")
    record("a filter in the address", [row[4] for row in one.value(ROWS)] == ["pool.cpp:41"] and is_calm(one), f"{one.value(ROWS)}, {one.troubles}")
    opened(run(["replay", "--format", "html", "-"], BUSY)[0], folder, one, "#filter=%")
    record("a damaged filter in the address", is_calm(one) and len(one.value(ROWS)) in (0, 3), f"{one.troubles}")
    opened(run(["replay", "--format", "html", "-"], BUSY)[0], folder, one, "#site-2")
    record("an example in the address", one.value("document.getElementById('site-2').open") is True and is_calm(one), f"{one.troubles}")


def is_harmless(one):
    """No script of a name ran, and no name became an element."""
    return one.value("[typeof window.hostile, document.scripts.length, document.images.length, document.querySelectorAll('b, iframe, object').length]") == ["undefined", 3, 0, 0]


def hostile_tests(record, one, folder):
    """Names and source lines that would be markup, if a page took them so."""
    source = POOL
    for plain, trap in TRAPS.items():
        source = source.replace(plain, trap)
    (pathlib.Path(folder) / "pool.cpp").write_text(source)
    page = run(["replay", "--format", "html", "--source", folder, "-"], BUSY)[0]
    opened(page, folder, one)
    shown = one.value("[...document.querySelectorAll('pre.source')].map(pre => pre.textContent).join('')")
    record("hostile source lines are text", is_calm(one) and is_harmless(one) and all(trap in shown for trap in TRAPS.values()), f"{one.troubles}, {shown}")
    marked = one.value("[...document.querySelectorAll('pre.source .here')].map(line => line.textContent)")
    record("the line of the site is marked", marked == ["41    jobs = 1;", "35    done = 0;"], f"{marked}")
    # No trace has such names, so they are put into a page as the program would put them.
    (before, between, behind), report, _ = blocks_of(page)
    document = json.loads(report)
    document["races"] = [{"line": 9 * place + 9, "thread": name, "kind": "write", "address": name, "site": name, "held": [name], "reasons": [
        {"line": 1, "thread": name, "kind": "read", "label": "first", "lock": None, "calls": [name], "functions": [name, name]}, {"line": 2, "thread": "t" + name, "kind": "write", "label": "joined", "lock": None},
        {"line": 9 * place + 9, "thread": name, "kind": "write", "label": "not covering", "lock": name}],
        **({"block": {"size": 8, "offset": 4, "site": name}} if place % 2 else {"variable": {"name": name, "offset": 4}})} for place, name in enumerate(HOSTILE)]
    document["threads"] = [{"thread": name, "name": name, "site": name} for name in HOSTILE]
    document["locks"] = [{"lock": name, "site": name, "created": place % 2 == 0} for place, name in enumerate(HOSTILE)]
    document["refused"] = [{"line": 1, "thread": name, "event": name, "lock": name, "why": name} for name in HOSTILE]
    document["shown"] = [{"line": 1, "address": name, "state": name, "owner": name, "candidates": [name]} for name in HOSTILE]
    sources = json.dumps([{"site": name, "line": 1, "text": name} for name in HOSTILE]).encode()
    block = json.dumps(document).encode()
    opened(b"".join((before, block.replace(b"<", b"\\u003c"), between, sources.replace(b"<", b"\\u003c"), behind)), folder, one)
    one.value("document.querySelectorAll('details').forEach(part => { part.open = true; })")
    one.value("new Promise(done => setTimeout(done, 300))")
    sites = [row[4] for row in one.value(ROWS)]
    record("hostile names are text", is_calm(one) and is_harmless(one) and sites == HOSTILE, f"{one.troubles}, {sites}")
    record("hostile names have pictures", len(one.value(PICTURES)) == len(HOSTILE), f"{len(one.value(PICTURES))}")
    calls = one.value("[...document.querySelectorAll('ul.calls > li')].map(call => call.textContent)")
    record("hostile names of calls are text", calls == [text for name in HOSTILE for text in (f"in {name}", f"called at {name} in {name}")], f"{calls}")
    told = one.value("[...document.querySelectorAll('ul.threads > li')].map(start => start.textContent)")
    wanted = [text for place, name in enumerate(HOSTILE) for text in (f'{name} "{name}" was started at {name}', f"{name} was {'first taken' if place % 2 else 'created'} at {name}")]
    record("hostile names of threads and locks are text", told == wanted, f"{told}")
    told = one.value("[...document.querySelectorAll('details.site > .body > p:first-child')].map(first => first.textContent)")
    wanted = [f"byte 4 of a block of 8 bytes allocated at {name}, the word" if place % 2 else f"{name}+4, the word" for place, name in enumerate(HOSTILE)]
    record("hostile names of variables and blocks are text", len(told) == len(wanted) and all(words in text for words, text in zip(wanted, told)), f"{told}")
    # And if a block were not escaped, the policy would keep the script from running.
    opened(b"".join((before, b"{}</script><script>window.hostile = 6</script><img src=x onerror='window.hostile = 7'>", between, b"[]", behind)), folder, one)
    record("the policy lets no other script run", one.value("typeof window.hostile") == "undefined" and any("Content Security Policy" in trouble for trouble in one.troubles), f"{one.troubles}")


def screen_tests(record, one, folder):
    """A phone's width, dark mode, and paper."""
    (pathlib.Path(folder) / "pool.cpp").write_text(POOL)
    page = run(["replay", "--format", "html", "--source", folder, "-"], BUSY)[0]
    for width in (320, 390, 1280):
        one.call("Emulation.setDeviceMetricsOverride", width=width, height=800, deviceScaleFactor=1, mobile=False)
        opened(page, folder, one)
        found = one.value("document.documentElement.scrollWidth")
        record(f"the page is {width} wide and no wider", found <= width, f"{found}")
    colours = []
    for scheme in ("light", "dark"):
        one.call("Emulation.setEmulatedMedia", media="screen", features=[{"name": "prefers-color-scheme", "value": scheme}])
        opened(page, folder, one)
        colours.append(one.value("getComputedStyle(document.body).backgroundColor + getComputedStyle(document.querySelector('svg text')).fill"))
    record("dark mode has other colours", len(set(colours)) == 2, f"{colours}")
    one.call("Emulation.setEmulatedMedia", media="print", features=[{"name": "prefers-color-scheme", "value": "dark"}])
    opened(page, folder, one)
    paper = one.value("[getComputedStyle(document.body).backgroundColor, getComputedStyle(document.querySelector('form')).display]")
    record("paper is white and has no filter", paper == ["rgb(255, 255, 255)", "none"], f"{paper}")
    one.value("document.querySelectorAll('details').forEach(part => { part.open = false; })")
    printed = base64.b64decode(one.call("Page.printToPDF")["data"])
    opens = one.value("[...document.querySelectorAll('details.site')].every(part => part.open)")
    record("every example is open on paper", printed.startswith(b"%PDF") and opens, f"{len(printed)}")
    one.call("Emulation.setEmulatedMedia", media="screen", features=[])


def first_races_tests(record, one, folder):
    """A page that lacks races says so, and has the exit status of all; a site of many races has a row for each of the first 50."""
    racy = "eraser trace 1\n" + "".join(f"{thread} write {4 * k} part{k}.cpp:1\n" for k in range(2) for thread in ("t1", "t2"))
    lacking = [(["--max-races", "0"], ["This page has the first 0 races alone."]), (["--max-races", "1"], ["This page has the first 1 race alone."])]
    for options, notice in (*lacking, (["--max-races", "2"], []), ([], [])):
        opened(run(["replay", "--format", "html", *options, "-"], racy.encode())[0], folder, one)
        found = one.value("[...document.querySelectorAll('header p')].map(part => part.textContent)")
        wanted = ["The exit status is 1, as there is a race that no suppression takes.", *notice]
        record(f"the head of a page with {options}", is_calm(one) and found == wanted, f"{found}, {one.troubles}")
    opened(run(["replay", "--format", "html", "-"], b"eraser trace 1\nt1 write 0\n")[0], folder, one)
    found = one.value("[...document.querySelectorAll('header p')].map(part => part.textContent)")
    record("the head of a page without races", found == ["The exit status is 0, as there is no race that no suppression takes."], f"{found}")
    for count, caption in ((1, "1 race"), (50, "50 races"), (51, "The first 50 of 51 races"), (1200, "The first 50 of 1,200 races")):
        trace = "eraser trace 1\n" + "".join(f"{thread} write {4 * k} part.cpp:1\n" for k in range(count) for thread in ("t1", "t2"))
        opened(run(["replay", "--format", "html", "-"], trace.encode())[0], folder, one)
        found = one.value("(table => [table.caption.textContent, [...table.tBodies[0].rows].map(row => row.cells[0].textContent)])(document.querySelector('details.site table'))")
        record(f"the rows of a site of {count} races", found == [caption, [f"{2 * k + 3}" for k in range(min(count, 50))]], f"{found}")


def lost_tests(record, one, folder):
    """A page of a part of a run says so before all else."""
    for lost, notice in ((1, "1 event was lost"), (30175, "30,175 events were lost")):
        opened(run(["replay", "--format", "html", "-"], LOSSY.replace(b"30175", str(lost).encode()))[0], folder, one)
        first, is_seen = one.value("(part => [part.textContent, part.checkVisibility() && part.getBoundingClientRect().bottom <= innerHeight])(document.querySelector('main :is(h1, p)'))")
        record(f"the first line of a page of {lost} lost events", is_calm(one) and (first, is_seen) == (f"{notice}: this page shows a part of the run.", True), f"{first}, {is_seen}, {one.troubles}")


def part_tests(record, one, folder):
    """Pages by happens-before and by both: their parts, and the pictures and sentences of what nothing orders."""
    example = str(TOP / "examples/both_analyses.trace")
    parts = "[...document.querySelectorAll('main > section > h2')].map(head => head.textContent)"
    firsts = "[...document.querySelectorAll('main > section > div > div.wide > table')].map(table => [...table.tBodies[0].rows].map(row => row.cells[4].textContent))"
    marks = "[...document.querySelectorAll('svg.picture')].map(svg => [svg.querySelectorAll('.cut').length, svg.querySelectorAll('.broken').length, svg.querySelectorAll('rect.write').length])"
    stories = "[...document.querySelectorAll('ol.story')].map(story => [...story.children].map(line => line.textContent))"
    opened(run(["replay", "--analysis", "both", "--format", "html", example])[0], folder, one)
    title = one.value("document.querySelector('h1').textContent")
    record("the title of two parts", is_calm(one) and title == "1 race in this run at 1 site, 1 further site with no common lock", f"{title}, {one.troubles}")
    record("two parts have headings", one.value(parts) == ["Sites with races", "Races in this run", "No common lock"], f"{one.value(parts)}")
    record("each of two parts has its sites", one.value(firsts) == [["job.c:33"], ["job.c:40"]], f"{one.value(firsts)}")
    record("each of two parts has its totals", one.value("document.querySelectorAll('.totals').length") == 2)
    pictures = one.value(PICTURES)
    wanted = [["worker", "main", "trace", "line 14", "write", "line 16", "read: race"],
              ["main", "worker", "trace", "candidate set", "line 5", "write", "one thread so far", "line 12", "write: race", "empty"]]
    record("a picture of what nothing orders has no candidate set", pictures == wanted, f"{pictures}")
    record("a picture of what nothing orders has a broken line with two crosses", one.value(marks) == [[4, 1, 0], [0, 0, 0]], f"{one.value(marks)}")
    told = one.value(stories)
    wanted = ["Line 14: worker wrote the word at job.c:42, holding flag.", "Line 16: main read the word, holding no lock. Nothing orders this after the access above: this is the race."]
    record("what nothing orders in sentences", told[0] == wanted, f"{told}")
    one.value("document.getElementById('filter').focus()")
    one.type("job.c:40")
    count = one.value("document.getElementById('matches').textContent")
    record("one filter for two parts", (one.value(firsts), count) == ([[], ["job.c:40"]], "1 site of 2"), f"{one.value(firsts)}, {count}")
    opened(run(["replay", "--analysis", "both", "--format", "html", example])[0], folder, one, "#site-2")
    record("an example of the second part in the address", one.value("document.getElementById('site-2').querySelector('.name').textContent") == "job.c:40" and is_calm(one))
    opened(run(["replay", "--analysis", "happens-before", "--format", "html", example])[0], folder, one)
    found = [one.value("document.querySelector('h1').textContent"), one.value(parts), one.value(firsts)]
    record("a page by happens-before", is_calm(one) and found == ["1 race in this run at 1 site", ["Sites with races", "An example of each"], [["job.c:33"]]], f"{found}")
    opened(run(["replay", "--analysis", "both", "--format", "html", "-"], REUSED)[0], folder, one)
    found = [one.value("document.querySelector('h1').textContent"), one.value(firsts), one.value(marks)]
    wanted = ["3 races in this run at 1 site and 2 addresses that were given back, no further site with no common lock",
              [["0x000000001ff0", "0x000000002000", "pool.c:33"]], [[4, 1, 1], [4, 1, 1], [4, 1, 1]]]
    record("a page of reuses", is_calm(one) and found == wanted, f"{found}")
    told = one.value(stories)
    wanted = ["Line 3: worker wrote the word.", "Line 7: main gave the memory back, holding list, size. Nothing orders this after the access above: this is the race."]
    record("a reuse in sentences", told[0] == wanted, f"{told}")


def calls_tests(record, one, folder):
    """A page of a trace 4 from a file has the calls that led to each access below its sentence, the innermost first. From standard input it has none."""
    writer = trace4.Writer()
    of_reader, of_writer = writer.node_of(b"pool.c:5", writer.node_of(b"main.c:7")), writer.node_of(b"main.c:9")
    for thread, is_write, place, caller in ((b"main", True, b"job.c:3", 0), (b"w1", False, b"job.c:20", of_reader), (b"w2", True, b"job.c:30", of_writer)):
        writer.access(thread, is_write, 0x1000, 4, writer.node_of(place, caller))
    # Of the reader the function, of its caller none; where a thread was started, and the variable.
    writer.record(trace4.FUNCTION, 8, (4).to_bytes(4, "little") + b"take")
    writer.record(trace4.THREAD_FACTS, 14, (1).to_bytes(4, "little") + of_writer.to_bytes(4, "little") + b"reader")
    writer.record(trace4.VARIABLE, 16, (0xff8).to_bytes(6, "little") + (16).to_bytes(6, "little") + b"jobs")
    path = pathlib.Path(folder) / "calls.trace"
    path.write_bytes(writer.finish())
    stories = "[...document.querySelectorAll('ol.story')].map(story => [...story.children].map(line => [line.firstChild.textContent, ...[...line.querySelectorAll('ul.calls > li')].map(call => call.textContent)]))"
    # What is unordered in the run, and then the race by locks.
    unordered = [["Line 2: "], ["Line 3: ", "in take", "called at pool.c:5", "called at main.c:7"]]
    for way, trace, text, wanted in (
        ("a file", str(path), b"", [unordered, [*unordered, ["Line 4: ", "called at main.c:9"]]]),
        ("standard input", "-", path.read_bytes(), [[["Line 2: "], ["Line 3: "]], [["Line 2: "], ["Line 3: "], ["Line 4: "]]]),
    ):
        opened(run(["replay", "--analysis", "both", "--format", "html", trace], text)[0], folder, one)
        found = one.value(stories)
        record(f"the calls on a page of {way}", is_calm(one) and found == wanted, f"{found}, {one.troubles}")
        told = one.value("[document.body.textContent.includes('jobs+8, the word at '), [...document.querySelectorAll('ul.threads > li')].map(start => start.textContent)]")
        known = [True, ['w1 "reader" was started at main.c:9'] * 2] if way == "a file" else [False, []]
        record(f"what raced and who, on a page of {way}", told == known, f"{told}")


def large_tests(record, one, folder):
    """300,000 races: the page groups them, and makes rows and pictures as they are asked for."""
    lines = [f"{thread} write {4 * k} part{k % 2000}.cpp:{k % 700 + 1}" for k in range(300_000) for thread in ("t1", "t2")]
    page = run(["replay", "--format", "html", "-"], ("eraser trace 1\n" + "\n".join(lines) + "\n").encode())[0]
    opened(page, folder, one)
    sites = len({(k % 2000, k % 700) for k in range(300_000)})
    title = one.value("document.querySelector('h1').textContent")
    record("a page of 300,000 races", is_calm(one) and title == f"300,000 races at {sites:,} sites", f"{title}, {one.troubles}")
    counts = []
    for _ in range(2):
        counts.append(one.value(f"{TABLE}.tBodies[0].rows.length"))
        one.value(f"{TABLE}.parentElement.querySelector('button').click()")
    record("rows are made as they are asked for", counts == [500, 1000] and one.value("document.querySelectorAll('svg.picture').length") == 3, f"{counts}")
    one.value("document.getElementById('filter').focus()")
    one.type("part7.cpp")
    found = one.value(ROWS)
    record("the filter of a large page", found and all(row[4].startswith("part7.cpp:") for row in found), f"{found}"[:300])
    one.value(f"location.hash = '#site-{sites}'; new Promise(done => setTimeout(done, 300))")
    record("the last site of a large page by its address", one.value(f"document.getElementById('site-{sites}').open") is True)


def browser_tests(record):
    with tempfile.TemporaryDirectory() as folder, browser.Browser() as one:
        content_tests(record, one, folder)
        keyboard_tests(record, one, folder)
        hostile_tests(record, one, folder)
        screen_tests(record, one, folder)
        first_races_tests(record, one, folder)
        lost_tests(record, one, folder)
        part_tests(record, one, folder)
        calls_tests(record, one, folder)
        large_tests(record, one, folder)


def screenshot(path):
    """The picture of docs/: the busy trace, with its source."""
    with tempfile.TemporaryDirectory() as folder, browser.Browser() as one:
        (pathlib.Path(folder) / "pool.cpp").write_text(POOL)
        one.call("Emulation.setDeviceMetricsOverride", width=1000, height=1420, deviceScaleFactor=1, mobile=False)
        opened(run(["replay", "--format", "html", "--source", folder, "-"], BUSY)[0], folder, one, "#filter=table")
        pathlib.Path(path).write_bytes(base64.b64decode(one.call("Page.captureScreenshot", format="png")["data"]))


def tests(record, preloaded):
    """Returns what could not be run, for want of a browser."""
    shell_tests(record, page_tests(record))
    source_tests(record)
    far_lines(record)
    refusal_tests(record, preloaded)
    if browser.found() is None:
        return ["the page in a browser (no chromium)"]
    browser_tests(record)
    return []


if __name__ == "__main__":
    if sys.argv[1:2] == ["--screenshot"]:
        screenshot(sys.argv[2])
    else:
        run_alone(tests, preloaded)
