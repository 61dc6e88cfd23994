#!/usr/bin/env python3
"""Each analysis in each form with the options of a report, beside a second reading of docs/FORMATS.md that shares no code with the program.

`tests/run` calls `tests`. By itself this file runs these tests alone.

The reading begins with the texts of the reports, by tests/reference.py and tests/order_reference.py. What `--max-races` leaves out, the rules
that `--write-rules` writes, the rules that took nothing and the notes come from these texts, and each form is made of what is left of them.

- examples, worked traces and random traces of the texts 1 to 3, many of them damaged, and lists of text 3 in which every sort of order
  stands: each by each analysis in each form, with options that change from trace to trace, so that each two options meet in each form
- both streams, the status and the file of rules, to the byte; of a page its block
- by site and in SARIF from files too, where reasons have places
"""

import itertools
import json
import pathlib
import re
import sys
import tempfile

sys.path.insert(0, str(pathlib.Path(__file__).parent))
sys.dont_write_bytecode = True
import json_tests
import order_tests
import reference
import sarif_tests
import site_tests
import strict_tests
import triage_tests
from alone import run_alone
from analysis_tests import FREED, GIVEN_BACK, ORDER_ALONE, ORDER_BESIDE, RACY, TWO_HEADINGS, unordered_report
from html_tests import blocks_of
from site_tests import places_in, run
from until_fault_tests import before

RANDOM_LISTS = 100
# Which reports an analysis has, by the word of each one's total.
ANALYSES = {"lockset": ("races",), "happens-before": ("unordered",), "both": ("races", "unordered")}
FORMS = {"text": ["--format", "text"], "by site": ["--by-site"], "json": ["--format", "json"], "sarif": ["--format", "sarif"], "html": ["--format", "html"]}
OPTIONS = {"explain": ["--explain"], "strict": ["--strict"], "until fault": ["--until-fault"], "first": ["--max-races"], "unused": ["--unused-rules"], "rules": ["--write-rules"]}
EXPLAINED = ("by site", "sarif", "html")


# ---- The reports of a text

def fault_of(text):
    """The number of the line of a trace's first fault, and its line on standard error, or None."""
    try:
        reference.events_of(text)
    except reference.Fault as fault:
        return fault.line, f"line {fault.line}: {fault.kind}\n"
    return None


def reports_of(text, rules, analysis, explain):
    """The texts of the reports of a text that has no fault, by the word of each one's total."""
    found = {}
    for word in ANALYSES[analysis]:
        found[word] = reference.replay(text, rules, explain)[0] if word == "races" else unordered_report(text, reference.rules_of(rules), explain)[0]
    return found


def count_of(report, word):
    return int(re.search(rf"^steps \d+, {word} (\d+), ", report, re.M)[1])


# ---- What is done with them

def asked_notes(reports, rules, options, left):
    """The notes that options ask for."""
    counts = triage_tests.counts_in("".join(reports.values()).encode())
    targets = reference.rules_of(rules)
    unused = [f"unused suppression {number}: {sarif_tests.rule_text(targets[number - 1])}\n" for number, count in enumerate(counts, 1) if count == 0]
    return "".join(unused if "unused" in options else []) + (f"races left out: {left}\n" if left else "")


# ---- Forms

def json_text(documents):
    texts = [json_tests.text_of(document) for document in documents]
    return "[\n" + ",\n".join(texts) + "]\n" if len(texts) > 1 else texts[0]


def sarif_text(documents, places, rules):
    return sarif_tests.log_of(sarif_tests.run_text(document, places, reference.rules_of(rules)) for document in documents)


def sites_text(reports, text, places):
    if len(reports) > 1:
        return site_tests.by_site_of_both(*reports.values(), text, places)
    form = site_tests.by_site if "races" in reports else site_tests.by_site_of_order
    return form(*reports.values(), text, places)


def text_in(form, reports, text, rules, places):
    """The text of the reports in a form, of a page that of its block."""
    if form == "text":
        return "".join(reports.values())
    if form == "by site":
        return sites_text(reports, text, places)
    documents = [json_tests.document_of(report, site_tests.holds_of(text)) for report in reports.values()]
    return sarif_text(documents, places, rules) if form == "sarif" else json_text(documents)


# ---- The whole

def reading(text, rules, analysis, form, options, is_file=False):
    """Both streams, the status, and the file of rules, or None if none is written."""
    try:
        reference.rules_of(rules)
    except reference.Fault as fault:
        return "", f"suppressions line {fault.line}: {fault.kind}\n", 2, None
    cut, fault = "", fault_of(text)
    if fault:
        line, cut = fault
        if "until fault" not in options or fault_of(before(text, line)):
            return "", cut, 2, None
        text = before(text, line)
    if "strict" in options:
        damage = [line for line in strict_tests.damage_of(text).decode().splitlines(keepends=True) if not (cut and line.endswith(": no end\n"))]
        if damage:
            return "", "".join(damage) + cut, 2, None
    reports = reports_of(text, rules, analysis, "explain" in options or form in EXPLAINED)
    written = triage_tests.known_races("".join(reports.values()).encode()) if "rules" in options else None
    status = 2 if cut else 1 if any(count_of(report, word) for word, report in reports.items()) else 0
    firsts = {word: triage_tests.first_of(report.encode(), options["first"]) if "first" in options else (report.encode(), 0) for word, report in reports.items()}
    kept, left = {word: report.decode() for word, (report, _) in firsts.items()}, sum(left for _, left in firsts.values())
    places = places_in(text) if is_file and "until fault" not in options else {}
    notes = asked_notes(reports, rules, options, left) + ("" if cut else reference.note_of(text))
    notes += reference.order_note_of(text, count_of(reports["unordered"], "unordered")) if "unordered" in reports else ""
    return text_in(form, kept, text, rules, places), notes + cut, status, written


def compare(record, name, folder, text, rules, analysis, form, options, is_file=False):
    written, trace, suppressed = folder / "written.rules", folder / "t.trace", folder / "t.rules"
    written.unlink(missing_ok=True)
    suppressed.write_bytes(rules)
    trace.write_bytes(text)
    words = ["replay", "--analysis", analysis, *FORMS[form], "--suppress", str(suppressed)]
    values = {"rules": str(written), "first": str(options.get("first"))}
    for option in options:
        words += [*OPTIONS[option], *([values[option]] if option in values else [])]
    output, errors, status = run([*words, str(trace) if is_file else "-"], b"" if is_file else text)
    *wanted, wanted_rules = reading(text, rules, analysis, form, options, is_file)
    if form == "html" and output:
        _, block, sources = blocks_of(output)
        output = block.replace(b"\\u003c", b"<") if sources == b"[]" else output
    found_rules = written.read_bytes() if written.exists() else None
    found = [output.decode(errors="replace"), errors.decode(), status]
    title = f"{name}, by {analysis}, {form}{', from a file' if is_file else ''}, {' '.join(options) or 'no option'}"
    record(f"forms: {title}", found == wanted, f"{found}, not {wanted}"[:3000])
    record(f"forms: {title}: the file of rules", found_rules == wanted_rules, f"{found_rules}, not {wanted_rules}")
    return found[2]


# ---- Texts and options

WORKED = {"two headings": TWO_HEADINGS, "order alone": ORDER_ALONE, "order beside": ORDER_BESIDE, "given back": GIVEN_BACK, "given back at sites": FREED, "racy": RACY,
    "overlapping": triage_tests.OVERLAPPING, "lost": json_tests.LOSSY, "two races": triage_tests.TWO_RACES,
    "a fault behind": RACY.replace(b"end\n", b"t1 hop\n"), "lost before a fault": json_tests.LOSSY.replace(b"end\n", b"end\nt1 write 0\n"), "no header": b"# \n"}


def texts():
    yield from ((f"example {path.stem}", path.read_bytes(), path.with_suffix(".rules").read_bytes() if path.with_suffix(".rules").exists() else b"")
                for path in sorted((site_tests.TOP / "examples").glob("*.trace")) if path.stat().st_size < 20_000)
    yield from ((name, text, b"") for name, text in WORKED.items())
    yield from ((f"{name} under rules", text, b"site b.c:2\nwords 0x1000 4096\nsite none.c:1\n") for name, text in WORKED.items())
    for seed in range(site_tests.RANDOM_TRACES):
        yield f"random trace {seed}", reference.random_trace(seed), reference.random_rules(seed) if seed % 2 else b""
    for seed in range(RANDOM_LISTS):
        yield f"random list {seed}", order_tests.random_list(seed), b"words 0 4\nwords 4 400\n" if seed % 4 == 0 else b""


def sets_of_options(form):
    """Options that go together: none, each alone, each two, and all."""
    names = [name for name in OPTIONS if not (name == "first" and form == "by site")]
    chosen = [(), *((name,) for name in names), *itertools.combinations(names, 2), tuple(names)]
    return [{name: at % 3 if name == "first" else True for name in names} for at, names in enumerate(chosen)]


def tests(record):
    statuses, sets = {}, {form: sets_of_options(form) for form in FORMS}
    with tempfile.TemporaryDirectory() as name:
        folder, at = pathlib.Path(name), 0
        for name, text, rules in texts():
            # Of an example or a worked trace each third set of options is tried in each form, and of a random one a single set.
            for analysis, form in itertools.product(ANALYSES, FORMS):
                at += 1
                chosen = [sets[form][at * 7 % len(sets[form])]] if name.startswith("random") else sets[form][at % 3 :: 3]
                for place, options in enumerate(chosen):
                    is_file = form in ("by site", "sarif") and (at + place) % 2 == 0
                    status = compare(record, name, folder, text, rules, analysis, form, options, is_file)
                    key = analysis, form, status
                    statuses[key] = statuses.get(key, 0) + 1
    for key in itertools.product(ANALYSES, FORMS, (0, 1, 2)):
        record(f"forms: some traces by {key}", statuses.get(key, 0) > 20, f"{statuses.get(key, 0)}")


if __name__ == "__main__":
    run_alone(tests)
