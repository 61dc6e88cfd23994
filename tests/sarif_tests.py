#!/usr/bin/env python3
"""Compares `eraser replay --format sarif` with a log made from the documents of tests/json_tests.py, byte for byte, and reads it back.

`tests/run` calls `tests`. By itself this file runs these tests alone.
"""

import itertools
import json
import pathlib
import re
import subprocess
import sys
import tempfile
import urllib.parse

sys.path.insert(0, str(pathlib.Path(__file__).parent))
sys.dont_write_bytecode = True
import order_tests
import reference
import site_tests
from alone import each_refused, run_alone
from json_tests import ANALYSES, REUSED, documents_of, order_note, plain
from site_tests import DID, NOWHERE, PLACED, TOP, places_in, preloaded, run, run_fifo, run_file, run_with, subject

# What differs between the runs: what the rules begin with, what they say of each kind, why a race is one, and the name of the run.
BY_LOCKS = ("race/", {"read": "A read that no lock protects", "write": "A write that no lock protects"}, "no lock protects it", {})
BY_ORDER = ("unordered/", {"read": "A read that nothing orders after an earlier write", "write": "A write that nothing orders after an earlier access",
                           "reuse": "A reuse of memory that nothing orders after an earlier access"}, "nothing orders this after an earlier access",
            {"automationDetails": {"id": "happens-before/"}})
# Sites, with the file and the line that they name.
PLACES = {
    "pool.c:8": ("pool.c", 8),
    "src/a:b.c:123456789": ("src/a%3Ab.c", 123456789),
    "c++/a+b.cpp:3": ("c++/a+b.cpp", 3),
    "!$&'()*+,;=@~:1": ("!$&'()*+,;=@~", 1),
    "\"#%<>?[\\]^`{|}:2": ("%22%23%25%3C%3E%3F%5B%5C%5D%5E%60%7B%7C%7D", 2),
    "f<int>(g&&)": None,
    "a:1": ("a", 1),
    "pool.c": None,
    "pool.c:": None,
    "pool.c:0": None,
    "pool.c:08": None,
    "pool.c:8x": None,
    "pool.c:8:": None,
    "pool.c:1234567890": None,
    ":8": None,
    "8": None,
    "-": None,
}


# ---- The log of a report's text

def location(site, function=None):
    place = re.fullmatch(r"(.+):([1-9]\d{0,8})", site)
    inside = [{"fullyQualifiedName": function, "kind": "function"}] if function else []
    if not place:
        return {"logicalLocations": [{"fullyQualifiedName": site}, *inside]}
    uri = urllib.parse.quote(place[1], safe="/!$&'()*+,;=@")
    return {"physicalLocation": {"artifactLocation": {"uri": uri}, "region": {"startLine": int(place[2])}}, **({"logicalLocations": inside} if inside else {})}


def function_of(place):
    return next(iter(place.functions), None)


def reason(found, places):
    label = found["label"] if found["lock"] is None else f"{found['lock']} {found['label']}"
    text = f"{label}: {found['thread']} {found['kind']} on line {found['line']} of the trace"
    if str(found["line"]) not in places:
        return {"message": {"text": text}}
    place = places[str(found["line"])]
    site, locks, *_ = place
    held = ", ".join(lock + ("" if writes else " (to read)") for lock, writes in locks) or "no lock"
    return {**({} if site == "-" else location(site, function_of(place))), "message": {"text": f"{text}, holding {held}"}}


def stacks_of(race, places):
    """The stacks of a race's access, if it isn't a reuse, and of those that its reasons name, as far as the calls that led there are known."""
    lines = [race["line"]] * ("kind" in race) + [found["line"] for found in race["reasons"] if found["line"] != race["line"]]
    called = [(line, places[str(line)]) for line in lines if str(line) in places and places[str(line)].calls]
    stacks = [{"message": {"text": f"line {line} of the trace"}, "frames": [{"location": location(*frame)} for frame in itertools.zip_longest((place.site, *place.calls), place.functions)]} for line, place in called]
    return {"stacks": stacks} if stacks else {}


def words_of(document):
    """What differs between the runs, of the run of this document."""
    return BY_ORDER if "analysis" in document else BY_LOCKS


def results_of(document, places, trace):
    """The results, each with the first race of its site and kind. Each reuse without a site is one of its own, at its address."""
    front, _, why, _ = words_of(document)
    sorts = {}
    for race in document["races"]:
        is_alone = "reuse" in race and "site" not in race
        sort = (race["line"], race["reuse"], "reuse") if is_alone else (race["site"] or "-", race.get("kind", "reuse"))
        sorts.setdefault(sort, []).append(race)
    for (*_, site, kind), races in sorts.items():
        race = races[0]
        deed = f"gave back {race['bytes']} bytes at {race['reuse']}" if kind == "reuse" else f"{DID[kind]}{subject(trace, race['line'], race['address'], 1000)} the word at {race['address']}"
        function = None if kind == "reuse" else function_of(places.get(str(race["line"]), NOWHERE))
        yield {
            "ruleId": front + kind,
            "level": "error",
            "message": {"text": f"{race['thread']} {deed}, and {why}"},
            "occurrenceCount": len(races),
            "locations": [location(site, function)],
            "partialFingerprints": {"siteAndKind/v1": f"{site} {kind}"},
            "relatedLocations": [reason(found, places) for found in race["reasons"]],
            **stacks_of(race, places),
            "properties": {"line": race["line"], "held": race["held"]},
        }


def rule_text(rule):
    if isinstance(rule, bytes):
        return f"site {rule.decode()}"
    if isinstance(rule, reference.Pattern):
        return f"site {rule.text.decode()}"
    if isinstance(rule, reference.FactPattern):
        return f"{rule.kind.decode()} {rule.text.decode()}"
    first, last = rule
    return f"words 0x{4 * first:012x} {4 * (last + 1 - first)}" if first <= last else "words 0 0"


def suppressed_of(rules, document):
    """The results of the rules that took races."""
    assert len(rules) == len(document["suppressions"])
    for number, (rule, count) in enumerate(zip(rules, document["suppressions"]), 1):
        if count:
            text = rule_text(rule)
            yield {
                "ruleId": words_of(document)[0] + "suppressed",
                "level": "error",
                "message": {"text": f"Races that a rule takes: {text}"},
                "occurrenceCount": count,
                **({"locations": [location(rule.decode())]} if isinstance(rule, bytes) and rule != b"-" else {}),
                "partialFingerprints": {"rule/v1": text},
                "suppressions": [{"kind": "external", "justification": f"rule {number}"}],
            }


def run_text(document, places, rules, trace=None):
    """The run of a document: its races are explained, and these rules took the others."""
    front, kinds, _, named = words_of(document)
    kinds = {**kinds, "suppressed": "Races that a rule of suppressions takes"}
    driver = {"name": "eraser", "rules": [{"id": front + kind, "shortDescription": {"text": text}} for kind, text in kinds.items()]}
    rows = ",".join("\n" + plain(result) for result in [*results_of(document, places, trace), *suppressed_of(rules, document)])
    members = [f'"{name}":{plain(value)}' for name, value in {"tool": {"driver": driver}, **named}.items()] + [f'"results":[{rows}]']
    if "lost" in document["totals"]:
        notice = {"level": "warning", "message": {"text": f"{document['totals']['lost']} events were lost: the report is of a part of the run"}}
        members.append('"invocations":' + plain([{"executionSuccessful": True, "toolExecutionNotifications": [notice]}]))
    return "{\n" + ",\n".join(members) + "}"


def log_of(runs):
    return '{"$schema":"https://json.schemastore.org/sarif-2.1.0.json",\n"version":"2.1.0",\n"runs":[' + ",".join(runs) + "]}\n"


def expected(text, rules, is_file=False, analysis="lockset", trace=None):
    output, errors, status = reference.replay(text, rules or b"", explain=True)
    if status < 2:
        documents, said = documents_of(text, rules, True, analysis, trace=trace), trace if is_file else None
        output = log_of(run_text(document, places_in(text, said) if is_file else {}, reference.rules_of(rules or b""), said) for document in documents)
        errors, status = errors + order_note(text, documents), 1 if any(document["totals"]["races"] for document in documents) else 0
    return output.encode(), errors.encode(), status


# ---- What SARIF requires

def faults(log):
    """What is wrong with a log by the required parts of SARIF 2.1.0, and by the ranges of the members that are used here."""
    if log.get("version") != "2.1.0" or not isinstance(log.get("runs"), list):
        yield "no version or no runs"
        return
    for each in log["runs"]:
        driver = each.get("tool", {}).get("driver", {})
        if not driver.get("name"):
            yield "no name of the tool"
        for invocation in each.get("invocations", []):
            notices = invocation.get("toolExecutionNotifications", [])
            if not isinstance(invocation.get("executionSuccessful"), bool) or not all(notice.get("message", {}).get("text") for notice in notices):
                yield "no success of the invocation, or no message of a notification"
        rules = [rule.get("id") for rule in driver.get("rules", [])]
        for result in each.get("results", []):
            if not result.get("message", {}).get("text"):
                yield "no message"
            if result.get("ruleId") not in rules or rules.count(result.get("ruleId")) != 1:
                yield "no rule"
            if result.get("level") not in ("none", "note", "warning", "error") or result.get("occurrenceCount", 0) < 1:
                yield "no level or no count"
            frames = [frame for stack in result.get("stacks", []) for frame in stack.get("frames", [{}])]
            if not all(frames) or result.get("stacks") == []:
                yield "no frames"
            for found in [*result.get("locations", []), *result.get("relatedLocations", []), *(frame.get("location", {}) for frame in frames)]:
                place = found.get("physicalLocation")
                if place and (not place.get("artifactLocation", {}).get("uri") or place.get("region", {}).get("startLine", 0) < 1):
                    yield "no place"
            if not all(found.get("kind") in ("inSource", "external") for found in result.get("suppressions", [])):
                yield "no kind of suppression"
            if not all(isinstance(value, str) for value in result.get("partialFingerprints", {"": None}).values()):
                yield "no fingerprints"
            if not all(found.get("message", {}).get("text") for found in result.get("relatedLocations", [] if "suppressions" in result else [{}])):
                yield "no related message"


# ---- The program

def log_tests(record):
    results = doubles = taken = 0
    for name, text, rules in site_tests.texts():
        wanted, found = expected(text, rules), run_with(rules, text, "--format", "sarif")
        record(f"{name} as SARIF", found == wanted, f"{found}, {wanted}"[:2000])
        record(f"{name} as SARIF, status", found[1:] == run_with(rules, text)[1:], f"{found[1:]}")
        record(f"{name} as SARIF, explained or by several workers", found == run_with(rules, text, "--format", "sarif", "--explain", "--workers", "3"))
        wanted, found = expected(text, rules, True), run_file(rules, text, "--format", "sarif")
        record(f"{name} as SARIF, from a file", found == wanted, f"{found}, {wanted}"[:2000])
        if found[2] < 2:
            log = json.loads(found[0])
            wrong = list(faults(log))
            record(f"{name} as SARIF by what SARIF requires", not wrong, f"{wrong}")
            shown = [result["occurrenceCount"] for result in log["runs"][0]["results"] if "suppressions" not in result]
            hidden = [result["occurrenceCount"] for result in log["runs"][0]["results"] if "suppressions" in result]
            results, doubles, taken = results + len(shown), doubles + sum(count > 1 for count in shown), taken + len(hidden)
            races, suppressed = (int(count) for count in re.search(rb"races (\d+), suppressed (\d+)", run_with(rules, text)[0]).groups())
            record(f"{name} as SARIF has each race once", (sum(shown), sum(hidden)) == (races, suppressed), f"{shown}, {hidden}")
    lists = [(f"random list {seed}", order_tests.random_list(seed), None) for seed in range(100)]
    for name, text, rules in [*site_tests.texts(), *lists, ("reuses", REUSED, None)]:
        for analysis in ANALYSES[1:]:
            for wanted, found in ((expected(text, rules, False, analysis), run_with(rules, text, "--analysis", analysis, "--format", "sarif")),
                                  (expected(text, rules, True, analysis), run_file(rules, text, "--analysis", analysis, "--format", "sarif"))):
                record(f"{name} as SARIF by {analysis}", found == wanted, f"{found}, {wanted}"[:2000])
                wrong = list(faults(json.loads(found[0] or b"null"))) if wanted[2] < 2 else []
                record(f"{name} as SARIF by {analysis} by what SARIF requires", not wrong, f"{wrong}")
    record("logs have results, results that stand for several races, and suppressed ones", results > 100 and doubles > 20 and taken > 20, f"{results}, {doubles}, {taken}")
    lines = ["eraser trace 3"] + [f"t{who} write {4 * k} {site}" for who in (1, 2) for k, site in enumerate(PLACES)] + ["end"]
    log = json.loads(run(["replay", "--format", "sarif", "-"], "\n".join(lines).encode())[0])
    found = [result["locations"][0] for result in log["runs"][0]["results"]]
    record("each site has its location", len(found) == len(PLACES), f"{found}")
    for (site, place), one in zip(PLACES.items(), found):
        named = {"logicalLocations": [{"fullyQualifiedName": site}]}
        wanted = named if place is None else {"physicalLocation": {"artifactLocation": {"uri": place[0]}, "region": {"startLine": place[1]}}}
        record(f"the location of {site}", one == wanted, f"{one}")
    record("related locations from a FIFO have no places", run_fifo(PLACED, "--format", "sarif") == expected(PLACED, None))
    record("related locations from a file have places", b'"startLine":8}},"message"' in run_file(None, PLACED, "--format", "sarif")[0])
    formats = (TOP / "docs/FORMATS.md").read_text()
    shown = run(["replay", "--format", "sarif", str(TOP / "examples/explained.trace")])[0].decode()
    record("the log of the formats", shown and shown in formats, shown)
    shown = run(["replay", "--analysis", "both", "--format", "sarif", str(TOP / "examples/both_analyses.trace")])[0].decode()
    record("the log of two runs of the formats", shown and shown in formats, shown)
    output, errors, status = run(["replay", "--format", "sarif", "--by-site", "-"], b"eraser trace 1\n")
    record("SARIF by site is wrong arguments", (output, status) == (b"", 2) and errors.startswith(b"error: "), f"{output}, {errors}, {status}")
    # A pass over the races for each result would take minutes.
    many = "eraser trace 1\n" + "".join(f"t{who} write {4 * k} s:{k + 1}\n" for who in (1, 2) for k in range(100_000))
    output, errors, status = run(["replay", "--format", "sarif", "-"], many.encode())
    record("many results", (errors, status) == (b"", 1) and output.count(b'"occurrenceCount":1,') == 100_000)


def refusal_tests(record, preloaded):
    """Each allocation refused in turn, and a failed write."""
    with tempfile.TemporaryDirectory() as folder:
        library = preloaded(folder, "refuse")
        words = ["replay", "--format", "sarif", str(TOP / "examples/explained.trace")]
        whole, bare = run(words), run([*words[:-1], "-"], (TOP / "examples/explained.trace").read_bytes())
        record("the example's related locations have places", whole != bare)
        for nth, found, was_refused in each_refused(library, folder, lambda env: run(words, env=env)):
            if not was_refused:
                record("SARIF with all allocations", found == whole and nth > 20, f"{nth}")
                break
            is_stopped = found[1:] == (b"", 3) and not list(faults(json.loads(found[0])))
            record(f"SARIF without allocation {nth}", found in (whole, bare, (b"", b"out of memory\n", 3)) or is_stopped, f"{found}")
    with open("/dev/full", "wb") as full:
        done = subprocess.run([str(site_tests.PROGRAM), *words], stdout=full, stderr=subprocess.PIPE, timeout=120)
        record("SARIF on a full device", (done.stderr, done.returncode) == (b"write fault\n", 4), f"{done}")


def required_tests(record):
    """The check of what SARIF requires finds what is missing."""
    good = json.loads(expected(b"eraser trace 3\nt1 write 0 a:1\nt2 write 0 a:1\nt1 write 4 b:1\nt2 write 4 b:1\n# incomplete: 4 events, 2 lost\nend\n", b"site b:1\n")[0])
    record("a log with one result and a suppressed one", not list(faults(good)) and len(good["runs"][0]["results"]) == 2)
    for path in (["version"], ["runs"], ["runs", 0, "tool"], ["runs", 0, "tool", "driver", "name"], ["runs", 0, "tool", "driver", "rules", 1], ["runs", 0, "results", 0, "message"],
                 ["runs", 0, "results", 0, "level"], ["runs", 0, "results", 0, "occurrenceCount"], ["runs", 0, "results", 0, "partialFingerprints"],
                 ["runs", 0, "results", 0, "locations", 0, "physicalLocation", "artifactLocation"], ["runs", 0, "results", 0, "locations", 0, "physicalLocation", "region"],
                 ["runs", 0, "results", 0, "relatedLocations", 0, "message"], ["runs", 0, "results", 1, "suppressions", 0, "kind"],
                 ["runs", 0, "invocations", 0, "executionSuccessful"], ["runs", 0, "invocations", 0, "toolExecutionNotifications", 0, "message"]):
        other = json.loads(json.dumps(good))
        owner = other
        for name in path[:-1]:
            owner = owner[name]
        del owner[path[-1]]
        record(f"a log without {path}", list(faults(other)))


def tests(record, preloaded):
    required_tests(record)
    log_tests(record)
    refusal_tests(record, preloaded)


if __name__ == "__main__":
    run_alone(tests, preloaded)
