#!/usr/bin/env python3
"""Compares `eraser replay --format json` with documents made from the reports of tests/reference.py and of tests/analysis_tests.py, byte for byte,
and reads them back.

`tests/run` calls `tests`. By itself this file runs these tests alone.
"""

import copy
import json
import pathlib
import re
import subprocess
import sys
import tempfile

sys.path.insert(0, str(pathlib.Path(__file__).parent))
sys.dont_write_bytecode = True
import order_tests
import reference
import site_tests
from alone import OUTCOMES, each_refused, outcome_of, run_alone
from analysis_tests import unordered_report
from site_tests import NOWHERE, RACE, REASON, REUSE, TOP, holds_of, locks_in, places_in, plain_name, preloaded, run, run_file, run_with, starts, births

SCHEMA = TOP / "docs/report.schema.json"
REFUSED = re.compile(r"line (\d+): refused: (\S+) (\S+)(?: (\S+))?: ([^:]+)")
SHOWN = re.compile(r"line (\d+): state (0x[0-9a-f]{12}): (\S+?)(?:, candidates (.*)| (\S+))?")
STOPPED = re.compile(r"line (\d+): stopped: (.*)")
LOSSY = b"eraser trace 3\nt1 write 0\n# incomplete: 1 events, 30175 lost\nend\n"
TOTALS = re.compile(r"steps (\d+), (?:races|unordered) (\d+), suppressed (\d+), refused (\d+)(?:, lost (\d+))?")
ANALYSES = ("lockset", "happens-before", "both")
# Unordered reuses: one under locks of which one is held to read, one over two pages, and one at a site.
REUSED = b"""eraser trace 3
main start worker
worker write 0x1ffc pool.c:9
worker write 0x2000 pool.c:10
main lock list
main rlock size
main reuse 0x1ff0 64
worker read 0x3000 pool.c:9
main unlock list
main reuse 0x1ff0 64
main reuse 0x3000 64 pool.c:33
end
"""


# ---- The document of a report's text

def document_of(report, holds=()):
    """What the lines of a report say, as the document. A report by happens-before needs the locks that are held on each line."""
    is_order = ", unordered " in report.splitlines()[-1]
    found = {"format": 1, **({"analysis": "happens-before"} if is_order else {}), "races": [], "refused": [], "shown": [], "stop": None, "suppressions": [], "totals": None}
    for line in report.splitlines():
        race, reuse, reason, refused, shown = (pattern.fullmatch(line) for pattern in (RACE, REUSE, REASON, REFUSED, SHOWN))
        stopped, totals = STOPPED.fullmatch(line), TOTALS.fullmatch(line)
        if race:
            site = None if race[5] == "-" else race[5]
            found["races"].append({"line": int(race[1]), "thread": race[2], "kind": race[3], "address": race[4], "site": site, "held": locks_in(race[6]), "reasons": []})
        elif reuse:
            found["races"].append({"line": int(reuse[1]), "thread": reuse[2], "reuse": reuse[3], "bytes": int(reuse[4]), **({"site": reuse[5]} if reuse[5] else {}), "held": locks_in(holds[reuse[1]]), "reasons": []})
        elif reason:
            label, lock = ("not covering", reason[1].removesuffix(" not covering")) if reason[1].endswith(" not covering") else (reason[1], None)
            found["races"][-1]["reasons"].append({"line": int(reason[2]), "thread": reason[3], "kind": reason[4], "label": label, "lock": lock})
        elif refused:
            found["refused"].append({"line": int(refused[1]), "thread": refused[2], "event": refused[3], "lock": refused[4], "why": refused[5]})
        elif shown:
            candidates = None if shown[4] is None else locks_in(shown[4])
            found["shown"].append({"line": int(shown[1]), "address": shown[2], "state": shown[3], "owner": shown[5], "candidates": candidates})
        elif stopped:
            found["stop"] = {"line": int(stopped[1]), "why": stopped[2]}
        elif totals:
            counts = zip(("steps", "races", "suppressed", "refused", "lost"), totals.groups())
            found["totals"] = {name: int(count) for name, count in counts if count is not None}
        else:
            found["suppressions"].append(int(re.fullmatch(r"suppression \d+: (\d+)", line)[1]))
    return found


def plain(value):
    return json.dumps(value, separators=(",", ":"))


def text_of(document):
    """The bytes of a document: one line for each member and for each item of its first three lists. An analysis stands on the first line."""
    members = []
    for name, value in document.items():
        rows = "[" + ",".join("\n" + plain(row) for row in value) + "]" if name in ("races", "refused", "shown", "threads", "locks") else plain(value)
        members.append(f'"{name}":{rows}')
    if "analysis" in document:
        members[:2] = [",".join(members[:2])]
    return "{" + ",\n".join(members) + "}\n"


def placed(reason, places):
    """A reason with the site of its access, the locks that its thread held and the calls that led there, if they are known."""
    if str(reason["line"]) not in places:
        return reason
    place = places[str(reason["line"])]
    held = {"held": [lock for lock, _ in place.locks], "held_to_read": [lock for lock, writes in place.locks if not writes]}
    return {**reason, "site": None if place.site == "-" else place.site, **held, **led(place)}


def led(place):
    """The calls that led to an access, and the functions, if one is known."""
    return {**({"calls": place.calls} if place.calls else {}), **({"functions": place.functions} if any(place.functions) else {})}


def subject(race, trace, words, lines):
    """The variable or the block of a race's word, if it is looked up."""
    memory = trace and "kind" in race and (trace.variable_of(int(race["address"], 16)) if race["address"] in words else None)
    if memory:
        return {"variable": {"name": memory.name.decode(), "offset": memory.offset}}
    block = trace and "kind" in race and race["line"] in lines and trace.block_of(race["line"], int(race["address"], 16))
    return {"block": {"size": block.size, "offset": block.offset, "site": plain_name(block.place)}} if block else {}


def mentions_of(document, places, trace):
    """Where the threads of a document's races were started and the lives of their locks began, in front of its totals, if a trace 4 says it of one."""
    accesses = [access for race in document["races"] for access in (race, *race["reasons"])]
    threads = [{"thread": thread, "name": name, "site": site} for thread, name, site in starts([access["thread"] for access in accesses], trace)]
    found = births([str(access["line"]) for access in accesses], places, trace)
    locks = [{"lock": lock, "site": site, "created": is_created} for lock, site, is_created in found]
    totals = document.pop("totals")
    document.update({**({"threads": threads} if threads else {}), **({"locks": locks} if locks else {}), "totals": totals})


def wanted_lines(races):
    """The lines whose places are looked up: those of the first race of each site and kind and of its reasons, and those of the reasons of reuses."""
    known = set()
    for race in races:
        sort = (race.get("reuse", race.get("site")), race.get("kind"), race["line"] if "reuse" in race else None)
        if sort not in known:
            known.add(sort)
            yield from [] if "reuse" in race else [race["line"]]
            yield from (reason["line"] for reason in race["reasons"])


def documents_of(text, rules, explain, analysis="lockset", is_file=False, trace=None):
    """The documents of a text that has no fault, which may be that of this trace 4. Reasons have places if it is a file, which can be read twice, with what the
    trace says."""
    documents, said = [], trace if is_file else None
    if analysis != "happens-before":
        documents.append(document_of(reference.replay(text, rules or b"", explain=explain)[0]))
    if analysis != "lockset":
        documents.append(document_of(unordered_report(text, reference.rules_of(rules or b""), explain, trace.touched if trace else {})[0], holds_of(text)))
    wanted = {str(line) for document in documents for line in wanted_lines(document["races"])}
    places = {line: place for line, place in (places_in(text, said) if is_file else {}).items() if line in wanted}
    races = [race for document in documents for race in document["races"]]
    words = {race["address"] for race in races if "kind" in race and str(race["line"]) in wanted}
    for race in races:
        race["reasons"] = [placed(reason, places) for reason in race["reasons"]]
        race.update(led(places.get(str(race["line"]), NOWHERE)) if "kind" in race else {})
        race.update(subject(race, said, words, {int(line) for line in wanted}))
    for document in documents:
        mentions_of(document, places, said)
    return documents


def order_note(text, documents):
    """The note on a trace that records no order, behind these documents of it."""
    return reference.order_note_of(text, sum(document["totals"]["races"] for document in documents if "analysis" in document))


def expected(text, rules, explain, analysis="lockset", is_file=False, trace=None):
    output, errors, status = reference.replay(text, rules or b"", explain=explain)
    if status == 2:
        return output.encode(), errors.encode(), status
    documents = documents_of(text, rules, explain, analysis, is_file, trace)
    texts = [text_of(document) for document in documents]
    output = "[\n" + ",\n".join(texts) + "]\n" if len(texts) > 1 else texts[0]
    return output.encode(), (errors + order_note(text, documents)).encode(), 1 if any(document["totals"]["races"] for document in documents) else 0


# ---- The schema

KINDS = {"object": dict, "array": list, "string": str, "boolean": bool, "null": type(None)}
IGNORED = {"$schema", "$defs", "title"}


def is_of(value, kind):
    return isinstance(value, int) and not isinstance(value, bool) if kind == "integer" else isinstance(value, KINDS[kind])


def faults(value, schema, root, where="$"):
    """What is wrong with a value by a schema. A word of JSON Schema that this doesn't know ends the tests."""
    for word, wants in schema.items():
        if word == "$ref":
            yield from faults(value, root["$defs"][wants.removeprefix("#/$defs/")], root, where)
        elif word in ("anyOf", "oneOf"):
            fits = sum(not list(faults(value, one, root, where)) for one in wants)
            if not fits or word == "oneOf" and fits > 1:
                yield f"{where}: {fits} of the choices"
        elif word == "type":
            if not is_of(value, wants):
                yield f"{where}: no {wants}"
        elif word == "const":
            if value != wants:
                yield f"{where}: not {wants}"
        elif word == "enum":
            if value not in wants:
                yield f"{where}: none of {wants}"
        elif word == "minimum":
            if is_of(value, "integer") and value < wants:
                yield f"{where}: less than {wants}"
        elif word == "pattern":
            if isinstance(value, str) and not re.search(wants, value):
                yield f"{where}: not {wants}"
        elif word == "prefixItems":
            for place, (item, want) in enumerate(zip(value if isinstance(value, list) else [], wants)):
                yield from faults(item, want, root, f"{where}[{place}]")
        elif word in ("minItems", "maxItems"):
            if isinstance(value, list) and (len(value) < wants if word == "minItems" else len(value) > wants):
                yield f"{where}: {len(value)} items"
        elif word == "items":
            for place, item in enumerate(value if isinstance(value, list) else []):
                yield from faults(item, wants, root, f"{where}[{place}]")
        elif word == "required":
            for name in wants:
                if isinstance(value, dict) and name not in value:
                    yield f"{where}: no {name}"
        elif word == "dependentRequired":
            for name, needs in wants.items():
                if isinstance(value, dict) and name in value and not set(needs) <= set(value):
                    yield f"{where}: {name} without {needs}"
        elif word == "properties":
            for name, item in (value if isinstance(value, dict) else {}).items():
                if name in wants:
                    yield from faults(item, wants[name], root, f"{where}.{name}")
        elif word == "additionalProperties":
            for name in value if isinstance(value, dict) else {}:
                if name not in schema["properties"]:
                    yield f"{where}: {name} is too much"
        elif word not in IGNORED:
            sys.exit(f"tests/json_tests.py: {SCHEMA} has {word}, which is not known here")


def changed(document):
    """Documents that are none: each with one member gone, too much or of another sort, at every depth."""
    def places(value):
        if isinstance(value, dict):
            for name in value:
                yield value, name
        for item in value.values() if isinstance(value, dict) else value if isinstance(value, list) else []:
            yield from places(item)

    for place in range(len(list(places(document)))):
        for change in ("gone", "more", "other"):
            other = copy.deepcopy(document)
            owner, name = list(places(other))[place]
            if change == "gone":
                # A reuse may have no site.
                if name == "site" and "reuse" in owner:
                    continue
                del owner[name]
            elif change == "more":
                owner["more"] = 0
            else:
                owner[name] = {"other": 0}
            yield f"{name} {change}", other


def schema_tests(record, schema):
    formats = (TOP / "docs/FORMATS.md").read_text()
    record("the schema of the formats", f"```json\n{SCHEMA.read_text()}```" in formats)
    shown = run(["replay", "--explain", "--format", "json", "-"], (TOP / "examples/explained.trace").read_bytes())[0].decode()
    record("the document of the formats", shown and shown in formats, shown)
    both = ["replay", "--analysis", "both", "--explain", "--format", "json", "-"]
    shown = run([*both[:-1], str(TOP / "examples/both_analyses.trace")])[0].decode()
    record("the documents of the formats", '"held_to_read":' in shown and shown in formats, shown)
    for reused in (run(both, REUSED)[0].decode().splitlines() or [""])[-9:-6]:
        record("the reuses of the formats", '"reuse":' in reused and reused.rstrip("],") in formats, reused)
    rich = b"eraser trace 2\nt1 level 3\nt1 lock a\nt1 lock a\nt1 write 0\nt1 show 0\nt1 show 64\nt2 lock b\nt2 read 0 s:1\nt2 show 0\nt1 ignore-off\nt1 write 0 s:2\nt2 write 0\nt2 show 0\n"
    output, errors, status = run(["replay", "--explain", "--format", "json", "-"], rich)
    document = json.loads(output)
    full = all(document[name] for name in ("races", "refused", "shown")) and document["races"][0]["reasons"] and document["shown"][-1]["candidates"] == []
    record("a document with all that there is", full and (errors, status) == (b"", 1) and not list(faults(document, schema, schema)), f"{output}")
    lossy = json.loads(run(["replay", "--format", "json", "-"], LOSSY)[0])
    record("a document of lost events", lossy["totals"] == {"steps": 1, "races": 0, "suppressed": 0, "refused": 0, "lost": 30175} and not list(faults(lossy, schema, schema)))
    for lost in (0, "1", None):
        lossy["totals"]["lost"] = lost
        record(f"a document with {lost} lost events is none", list(faults(lossy, schema, schema)))
    for name, other in changed(document):
        record(f"a document with {name} is none", list(faults(other, schema, schema)), f"{other}")
    for pair in (json.loads(run(both, REUSED)[0] or b"[]"), json.loads(shown or "[]")):
        record("two documents", len(pair) == 2 and pair[1]["races"] and not list(faults(pair, schema, schema)), f"{pair}")
        for name, other in [*changed(pair), ("one alone", pair[:1]), ("four", pair * 2), ("the order", pair[::-1])]:
            record(f"documents with {name} changed are none", list(faults(other, schema, schema)), f"{other}")


# ---- The program

def document_tests(record, schema):
    raced = refused = shown = 0
    lists = [(f"random list {seed}", order_tests.random_list(seed), None) for seed in range(100)]
    for name, text, rules in [*site_tests.texts(), *lists, ("reuses", REUSED, None)]:
        for analysis in ANALYSES[1:]:
            for options in ([], ["--explain"]):
                wanted, found = expected(text, rules, bool(options), analysis), run_with(rules, text, "--analysis", analysis, "--format", "json", *options)
                record(f"{name} as JSON by {analysis} {options}", found == wanted, f"{found}, {wanted}"[:2000])
                wrong = list(faults(json.loads(found[0] or b"null"), schema, schema)) if wanted[2] < 2 else []
                record(f"{name} as JSON by {analysis} {options} by the schema", not wrong, f"{wrong}")
        for analysis in ANALYSES:
            wanted, found = expected(text, rules, True, analysis, True), run_file(rules, text, "--analysis", analysis, "--format", "json", "--explain")
            record(f"{name} as JSON by {analysis}, from a file", found == wanted, f"{found}, {wanted}"[:2000])
            wrong = list(faults(json.loads(found[0] or b"null"), schema, schema)) if wanted[2] < 2 else []
            record(f"{name} as JSON by {analysis}, from a file by the schema", not wrong, f"{wrong}")
    for name, text, rules in site_tests.texts():
        for options in ([], ["--explain"]):
            wanted, found = expected(text, rules, bool(options)), run_with(rules, text, "--format", "json", *options)
            record(f"{name} as JSON {options}", found == wanted, f"{found}, {wanted}"[:2000])
            record(f"{name} as JSON {options}, status", found[1:] == run_with(rules, text, *options)[1:], f"{found[1:]}")
            if found[2] < 2:
                document = json.loads(found[0])
                wrong = list(faults(document, schema, schema))
                record(f"{name} as JSON {options} by the schema", not wrong, f"{wrong}")
                raced, refused, shown = raced + bool(document["races"]), refused + bool(document["refused"]), shown + bool(document["shown"])
        record(f"{name} as JSON by several workers", found == run_with(rules, text, "--format", "json", "--explain", "--workers", "3"))
    record("documents have races, refusals and states", min(raced, refused, shown) > 50, f"{raced}, {refused}, {shown}")
    record("the text is a format", run(["replay", "--format", "text", "-"], reference.random_trace(7)) == run(["replay", "-"], reference.random_trace(7)))
    for words in (["--format", "xml"], ["--format", "json", "--by-site"], ["--format", "text", "--by-site"], ["--format"]):
        output, errors, status = run(["replay", *words, "-"], b"eraser trace 1\n")
        record(f"{words} are wrong arguments", (output, status) == (b"", 2) and errors.startswith(b"error: "), f"{output}, {errors}, {status}")


def is_stopped(text, schema):
    document = json.loads(text)
    return document["stop"]["why"] == "out of memory" and not list(faults(document, schema, schema))


def refusal_tests(record, schema, preloaded):
    """Each allocation refused in turn, each write failed in turn."""
    with tempfile.TemporaryDirectory() as folder:
        library, met = preloaded(folder, "refuse"), set()
        words = ["replay", "--explain", "--format", "json", str(TOP / "examples/explained.trace")]
        whole, bare = run(words), run([*words[:-1], "-"], (TOP / "examples/explained.trace").read_bytes())
        for nth, found, was_refused in each_refused(library, folder, lambda env: run(words, env=env)):
            outcome = outcome_of(found, whole, lambda text: is_stopped(text, schema), bare)
            met.add(outcome)
            if was_refused:
                record(f"JSON without allocation {nth}", outcome, f"{found}")
            else:
                record("JSON with all allocations", outcome == "whole" and nth > 20, f"{nth}")
        record("JSON without an allocation: each outcome", met >= OUTCOMES | {"bare"}, f"{met}")
    with open("/dev/full", "wb") as full:
        done = subprocess.run([str(site_tests.PROGRAM), *words], stdout=full, stderr=subprocess.PIPE, timeout=120)
        record("JSON on a full device", (done.stderr, done.returncode) == (b"write fault\n", 4), f"{done}")


def tests(record, preloaded):
    schema = json.loads(SCHEMA.read_text())
    schema_tests(record, schema)
    document_tests(record, schema)
    refusal_tests(record, schema, preloaded)


if __name__ == "__main__":
    run_alone(tests, preloaded)
