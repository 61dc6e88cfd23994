#!/usr/bin/env python3
"""Compares the documents with the tree: promises with contracts, the map of crates with crates.txt, links with files.

`tests/run` calls `tests`. By itself this file prints what is wrong, and ends with 1 if something is. With `--mend` it first follows what
moved: a path in a table becomes that of the one file that now has the function or the word. Look at what it changed.

- each row of docs/PROMISES.md names a call and clauses of the code file that it names, and definitions that this file imports
- each crate is once, in the order of crates.txt, in the diagram and in the table of docs/ARCHITECTURE.md, under the same headings;
  the table's sentence is that of crates.txt, and a crate comes after those that it uses
- each walk of docs/ARCHITECTURE.md names a function of the file that it names, and docs/GLOSSARY.md a word of it
- each name that docs/DEFINITIONS.md reads out is defined, and its last table has each other file of definitions that docs/PROMISES.md cites
- the table of docs/PROOF.md has the numbers that tools/believed counts
- nothing is beyond tests/budget.toml, and each wrong body can be put into its crate's code; how many of tests/wrong_bodies were not tried
  since their crate changed is only printed, and so are the minutes of the last gate
- each path of the repository that a document names in backquotes exists
- the policy of the page that `--format html` writes has the SHA-256 of the style sheet and of the script in the code
- what the README prints of an example is the example's report, and the code of docs/LIBRARY.md is that of the programs that it names
"""

import base64
import functools
import hashlib
import importlib.machinery
import importlib.util
import pathlib
import re
import sys

TOP = pathlib.Path(__file__).resolve().parent.parent
CRATES = TOP / "crates"
DOCS = TOP / "docs"


# ---- contracts

HEAD = re.compile(r'^( *)(?:pub(?:\([a-z]+\))? )?(?:const )?(?:unsafe )?(?:extern "C" )?fn (\w+)')
IMPL = re.compile(r"^ *(?:impl(?:<.*?>)? (?:[\w:<>', ]+? for )?&?(?:'\w+ )?(\w+)|(?:pub )?(?:struct|trait|enum) (\w+))\b.*\{$")
CLAUSE = re.compile(r"^ *ensures(?: (\w+))? \{")
FACT = re.compile(r"^ *(?:pub )?ghost (\w+)(?::| =) \{")


@functools.lru_cache(maxsize=None)
def contracts_in(path):
    """The names of the clauses of each function of a file, by its name, with its type in front if it has one; `-` is a clause without a name.

    A type has its ghost facts in the place of clauses.
    """
    found, owner = {}, None
    lines = path.read_text().splitlines()
    for place, line in enumerate(lines):
        if line and not line[0].isspace():
            match = IMPL.match(line)
            owner = match and (match[1] or match[2])
        fact = FACT.match(line)
        if fact and owner:
            found.setdefault(owner, set()).add(fact[1])
            continue
        head = HEAD.match(line)
        if not head:
            continue
        clauses = set()
        for below in lines[place:]:
            clause = CLAUSE.match(below)
            if clause:
                clauses.add(clause[1] or "-")
            elif below.startswith((f"{head[1]}{{", f"{head[1]}}}")) or below.endswith((" {", ";")):
                break
        found.setdefault(f"{owner}::{head[2]}" if owner and head[1] else head[2], set()).update(clauses)
    return found


def module_of(path):
    """The module of a file of definitions, as an import names it."""
    crate, _, *rest = pathlib.PurePosixPath(path).with_suffix("").parts
    return ".".join(["Rattle", crate, "specs", *rest])


# ---- tables

def tables(text, head):
    """The rows of each table with these headings, with their line numbers, as lists of cells."""
    rows, inside = [], False
    for number, line in enumerate(text.splitlines(), 1):
        cells = [cell.strip() for cell in line.strip().strip("|").split(" | ")] if line.startswith("|") else None
        if cells is None:
            inside = False
        elif cells == head:
            inside = True
        elif inside and not set(line) <= set("|- "):
            rows.append((number, cells))
    return rows


def quoted(cell):
    return re.findall(r"`([^`]+)`", cell)


@functools.lru_cache(maxsize=None)
def text_of(path):
    return path.read_text()


def files_with(call, clauses=()):
    """The code files that have a call with these clauses."""
    found = []
    for path in sorted(CRATES.glob("*/src/**/*.rt")):
        contracts = contracts_in(path)
        if call in contracts and set(clauses) <= contracts[call]:
            found.append(str(path.relative_to(CRATES)))
    return found


def elsewhere(call):
    """Where else a call is, to say so."""
    found = files_with(call)
    return f" (it is in {', '.join(found)})" if found else ""


PROMISE = ["Promise", "Call", "Clause", "Defined in", "Code"]


def promise_faults():
    rows = tables((DOCS / "PROMISES.md").read_text(), PROMISE)
    if len(rows) < 50:
        yield f"docs/PROMISES.md: only {len(rows)} rows of promises were found"
    for number, cells in rows:
        where = f"docs/PROMISES.md:{number}"
        if len(cells) != len(PROMISE):
            yield f"{where}: {len(cells)} cells and not {len(PROMISE)}"
            continue
        calls, clauses, definitions, files = (quoted(cell) for cell in cells[1:])
        if not calls or not clauses or len(files) != 1:
            yield f"{where}: a row names calls, clauses and one code file"
            continue
        code = CRATES / files[0]
        if not code.is_file():
            yield f"{where}: there is no crates/{files[0]}{elsewhere(calls[0])}"
            continue
        contracts = contracts_in(code)
        for call in calls:
            if call not in contracts:
                yield f"{where}: {files[0]} has no {call}{elsewhere(call)}"
                continue
            for clause in clauses:
                if clause not in contracts[call]:
                    yield f"{where}: {call} of {files[0]} has no clause {clause}, but {', '.join(sorted(contracts[call])) or 'none'}"
        text = code.read_text()
        for path in definitions:
            if not (CRATES / path).is_file():
                yield f"{where}: there is no crates/{path}"
            elif not re.search(re.escape(module_of(path)) + r"\.\{", text):
                yield f"{where}: {files[0]} imports nothing of {path}"


# ---- the map of crates

def crates_in(text):
    """The headings of crates.txt, and each crate in order with its heading, its sentence and the repository's crates that it uses."""
    heading, sentence, found, lines = None, None, {}, text.splitlines()
    for line in lines:
        if line.startswith("## "):
            heading = line[3:]
        elif line.startswith("# "):
            sentence = line[2:]
        elif ":" in line:
            head, _, uses = line.partition(":")
            found[head.split()[0]] = (heading, sentence, uses.split())
    return {crate: (heading, sentence, [use for use in uses if use in found]) for crate, (heading, sentence, uses) in found.items()}


MAP = ["Crate", "What it is for", "Begin with", "What the crates above it use of it"]


def map_faults():
    crates = crates_in((TOP / "crates.txt").read_text())
    text = (DOCS / "ARCHITECTURE.md").read_text()
    headings = [heading for heading in dict.fromkeys(heading for heading, _, _ in crates.values()) if heading]
    before = set()
    for crate, (heading, sentence, uses) in crates.items():
        for use in uses:
            if use not in before:
                yield f"crates.txt: {crate} uses {use}, which comes after it"
        before.add(crate)
        if heading is None or sentence is None:
            yield f"crates.txt: {crate} has no heading or no sentence"
        if not (CRATES / crate / "src").is_dir():
            yield f"crates.txt: there is no crates/{crate}/src"
    for folder in sorted(CRATES.iterdir()):
        if (folder / "src").is_dir() and folder.name not in crates:
            yield f"crates.txt: crates/{folder.name} isn't listed"

    diagram = next((block for block in text.split("```") if block.startswith("text\n") and any(f"\n{heading}" in block for heading in headings)), "")
    drawn, heading = [], None
    for line in diagram.splitlines():
        heading = next((h for h in headings if line.startswith(h)), heading)
        drawn += [(word, heading) for word in re.findall(r"\w+", line) if word in crates or word.startswith("er_")]
    yield from order_faults("the diagram", drawn, [(crate, heading) for crate, (heading, _, _) in crates.items()])

    rows = tables(text, MAP)
    listed = [(cells[0].strip("`"), cells[1]) for _, cells in rows]
    yield from order_faults("the table", listed, [(crate, sentence) for crate, (_, sentence, _) in crates.items()])
    for number, cells in rows:
        if cells[-1] == "?":
            yield f"docs/ARCHITECTURE.md:{number}: say what the crates above use of {cells[0]}"
        if not (CRATES / cells[2].strip("`")).is_file():
            yield f"docs/ARCHITECTURE.md:{number}: there is no crates/{cells[2].strip('`')}"


def order_faults(name, found, wanted):
    """What differs first of two lists of crates, each with its heading or sentence."""
    names, wanted_names = [crate for crate, _ in found], [crate for crate, _ in wanted]
    for crate in wanted_names:
        if names.count(crate) != 1:
            yield f"docs/ARCHITECTURE.md: {name} has {crate} {names.count(crate)} times"
    for crate in names:
        if crate not in wanted_names:
            yield f"docs/ARCHITECTURE.md: {name} has {crate}, which crates.txt has not"
    if sorted(names) == sorted(wanted_names):
        for (crate, says), (other, wants) in zip(found, wanted):
            if crate != other:
                yield f"docs/ARCHITECTURE.md: {name} has {crate} where crates.txt has {other}"
                return
            if says != wants:
                yield f"docs/ARCHITECTURE.md: {name} has {crate} with {says!r}, and crates.txt with {wants!r}"


# ---- functions, words and files that documents name

def walk_faults():
    rows = tables((DOCS / "ARCHITECTURE.md").read_text(), ["It is", "Made by", "In"])
    if len(rows) < 20:
        yield f"docs/ARCHITECTURE.md: only {len(rows)} rows of walks were found"
    for number, cells in rows:
        where, call, path = f"docs/ARCHITECTURE.md:{number}", *(quoted(cells[1]) + quoted(cells[2]) + ["", ""])[:2]
        if not (CRATES / path).is_file():
            yield f"{where}: there is no crates/{path}{elsewhere(call)}"
        elif call not in contracts_in(CRATES / path):
            yield f"{where}: {path} has no {call}{elsewhere(call)}"


def defining(word):
    """The files that define a word: a definition, a type or a function."""
    head = re.compile(rf"^ *(?:abbrev |unfoldable )?pub (?:data |record |struct |enum |trait |fn )?{re.escape(word)}\b", re.M)
    return [str(path.relative_to(CRATES)) for path in sorted([*CRATES.glob("*/specs/**/*.antt"), *CRATES.glob("*/src/**/*.rt")]) if head.search(text_of(path))]


def definition_faults():
    text = (DOCS / "DEFINITIONS.md").read_text()
    rows = [*tables(text, ["Name", "Reads"]), *tables(text, ["Law", "Says"])]
    if len(rows) < 30:
        yield f"docs/DEFINITIONS.md: only {len(rows)} names were found"
    for number, cells in rows:
        for name in quoted(cells[0]):
            if "/" not in name and not defining(name.split()[0]):
                yield f"docs/DEFINITIONS.md:{number}: nothing defines {name.split()[0]}"


def not_read_out(text):
    """The files of definitions that a row of docs/PROMISES.md cites and of which docs/DEFINITIONS.md names no word above its last table."""
    cited = re.findall(r"`(er\w+/specs/[\w/]+\.antt)`", (DOCS / "PROMISES.md").read_text())
    named = {word for name in re.findall(r"`([^`]*)`", text) for word in re.findall(r"[\w'-]+", name)}
    return [path for path in sorted(set(cited)) if not named & set(tool("believed").module(module_of(path))[0])]


OTHERS = "| File | It has |\n|---|---|\n"


def others_faults():
    """What no sentence of docs/DEFINITIONS.md reads out stands in its last table, in the words of the file's first line."""
    text, _, rows = (DOCS / "DEFINITIONS.md").read_text().partition(OTHERS)
    if rows != other_rows(text):
        yield "docs/DEFINITIONS.md: its last table isn't what docs/PROMISES.md cites besides; --mend writes it"


def other_rows(text):
    heads = {path: text_of(CRATES / path).partition("\n")[0].removeprefix("-- ") for path in not_read_out(text)}
    return "".join(f"| `crates/{path}` | {head} |\n" for path, head in heads.items())


def glossary_faults():
    rows = tables((DOCS / "GLOSSARY.md").read_text(), ["The field says", "We say", "It is", "Defined in"])
    if len(rows) < 50:
        yield f"docs/GLOSSARY.md: only {len(rows)} words were found"
    for number, cells in rows:
        where, *names = f"docs/GLOSSARY.md:{number}", *quoted(cells[-1])
        paths = [name for name in names if "/" in name]
        for path in paths:
            found = [*CRATES.glob(path), *TOP.glob(path)]
            if not found:
                yield f"{where}: there is no crates/{path}"
            for name in names:
                if name != path and found[:1] and found[0].is_file() and not re.search(rf"\b{re.escape(name)}\b", found[0].read_text()):
                    yield f"{where}: {path} has no {name}"
        if not paths and "README" not in cells[-1]:
            yield f"{where}: no file is named"


# ---- options

def option_faults(told):
    """How the README's table differs from the options of `eraser replay --help`, each with its value's name or none. `tests/run` asks the program."""
    rows = tables((TOP / "README.md").read_text(), ["Option of replay", "Does"])
    listed = [(number, cells[0].strip("`")) for number, cells in rows]
    wanted = [f"{name} {value}" if value else name for name, value in told.items()]
    if len(wanted) < 2:
        yield f"eraser replay --help has the options {wanted}"
    for option in wanted:
        count = [it for _, it in listed].count(option)
        if count != 1:
            yield f"README.md: the table of options has {option} {count} times"
    for number, option in listed:
        if option not in wanted:
            yield f"README.md:{number}: eraser replay --help has no {option}"


# ---- the budget, and wrong bodies

def numbers_in(text):
    """The numbers of a file like tests/budget.toml, by their sections and names. Python has a reader of such files only since 3.11."""
    found, section = {"": {}}, ""
    for line in text.splitlines():
        line = line.partition("#")[0].strip()
        if line.startswith("["):
            section = line.strip("[]")
            found[section] = {}
        elif line:
            name, _, number = line.partition("=")
            found[section][name.strip()] = int(number)
    return found


def code_of(crate):
    """How many lines of code and how many functions a crate has."""
    lines = [line for path in CRATES.glob(f"{crate}/src/**/*.rt") for line in text_of(path).splitlines()]
    return {"lines_of_a_crate": len(lines), "functions_of_a_crate": sum(bool(HEAD.match(line)) for line in lines)}


def budget_faults():
    budget = numbers_in((TOP / "tests/budget.toml").read_text())
    crates = {crate: code_of(crate) for crate in crates_in((TOP / "crates.txt").read_text())}
    found = {
        "crates": len(crates),
        "lines_of_code": sum(code["lines_of_a_crate"] for code in crates.values()),
        "edits_in_the_gate": len(list(CRATES.glob("*/must-fail/*.edit"))),
    }
    for name, number in found.items():
        if number > budget[""][name]:
            yield f"tests/budget.toml: {name} is {budget[''][name]}, and the house has {number}"
    for name in ("lines_of_a_crate", "functions_of_a_crate"):
        usual, exceptions = budget[""][name], budget[f"{name}_exceptions"]
        for crate, code in crates.items():
            most = exceptions.get(crate, usual)
            if code[name] > most:
                yield f"tests/budget.toml: {name} is {most}, and {crate} has {code[name]}"
        for crate in exceptions:
            if crate not in crates or crates[crate][name] <= usual:
                yield f"tests/budget.toml: {crate} needs no exception to {name}"


@functools.lru_cache(maxsize=None)
def tool(name):
    """A script of tools/ as a module."""
    loader = importlib.machinery.SourceFileLoader(name, str(TOP / "tools" / name))
    module = importlib.util.module_from_spec(importlib.util.spec_from_loader(name, loader))
    loader.exec_module(module)
    return module


def edit_faults():
    """The gate passes over an edit that can't be applied, and the edits of tests/wrong_bodies are tried rarely."""
    edits_tool = tool("edits")
    edits = [*edits_tool.of_the_gate(), *edits_tool.wrong_bodies()]
    if not edits:
        yield "no must-fail edit was found"
    for path in edits:
        try:
            edits_tool.edited(path)
        except (edits_tool.BadEdit, OSError) as why:
            yield f"{path.relative_to(TOP)}: {why}"
    kept = {path for path in (TOP / "tests/wrong_bodies").rglob("*") if path.is_file()}
    for path in sorted(kept - set(edits) - {edits_tool.SEEN}):
        yield f"{path.relative_to(TOP)} is no edit"


# The columns of tables of docs/DEVELOPMENT.md whose first row is the last of its kind, and the most that the budget has for some of them.
MEASURED = [
    (["The gate from nothing", "Crates", "Must-fail edits", "CPU minutes"], {3: "minutes_of_the_gate"}),
    (["A proof of the program from nothing", "CPU minutes below it", "Of the longest chain"], {1: "minutes_below_the_program", 2: "minutes_of_the_longest_chain"}),
]


def notes():
    """What is only printed."""
    edits_tool = tool("edits")
    yield f"wrong bodies: {len(edits_tool.wrong_bodies())}, of which {len(edits_tool.changed())} were not tried since their crate changed"
    most = numbers_in((TOP / "tests/budget.toml").read_text())[""]
    for columns, limits in MEASURED:
        _, last = next(iter(tables((DOCS / "DEVELOPMENT.md").read_text(), columns)), (0, ["not in docs/DEVELOPMENT.md"] * len(columns)))
        for column, name in limits.items():
            yield f"{name}: {last[column]} at last, and the budget is {most[name]}"


PATH = re.compile(r"^(?:\./)?((?:bench|capi|crates|docs|examples|record|shell|tests|tools)/[\w./*+-]+)$")


def path_faults():
    for document in [*TOP.glob("*.md"), *DOCS.glob("*.md")]:
        for number, line in enumerate(document.read_text().splitlines(), 1):
            for name in quoted(line):
                for word in name.split():
                    path = PATH.match(word)
                    if path and "NAME" not in word and "/out" not in word and not list(TOP.glob(path[1].rstrip("/"))):
                        yield f"{document.relative_to(TOP)}:{number}: there is no {path[1]}"


EXAMPLE = re.compile(r"```sh\n\./eraser replay (?:([^\n]+) )?examples/(\w+)\.trace\n```\n+```text\n(.*?)```", re.S)


# The programs whose code docs/LIBRARY.md shows.
LIBRARY = {
    "c": ["capi/examples/counter.c"],
    "cpp": ["capi/examples/counter.cpp"],
    "rust": ["capi/rust/examples/counter.rs", "crates/two_threads/src/main.rt"],
}


def example_faults():
    """What the README prints of an example is its report, which `tests/run` compares with the program's; the library's code is that of its programs."""
    found = EXAMPLE.findall((TOP / "README.md").read_text())
    if not found:
        yield "README.md: no example was found"
    for options, name, shown in found:
        kept = TOP / f"examples/{name}.options"
        if options != (kept.read_text().strip() if kept.exists() else ""):
            yield f"README.md: examples/{name}.trace is replayed with other options"
        if shown != (TOP / f"examples/{name}.report").read_text():
            yield f"README.md: examples/{name}.report differs"
    blocks = re.findall(r"```(c|cpp|rust)\n(.*?)```", (DOCS / "LIBRARY.md").read_text(), re.S)
    for language, paths in LIBRARY.items():
        lines = {line.strip() for path in paths for line in (TOP / path).read_text().splitlines()}
        own = [block for kind, block in blocks if kind == language]
        if not own:
            yield f"docs/LIBRARY.md: no code in {language} was found"
        for line in "".join(own).splitlines():
            if line.strip() not in lines and not line.startswith("// In "):
                yield f"docs/LIBRARY.md: {' and '.join(paths)} have no line {line!r}"


PAGE = CRATES / "er_forms/src"


def page_text(module):
    return re.search(rb'= br(#+)"(.*?)"\1;', (PAGE / f"{module}.rt").read_bytes(), re.S)[2]


def policy_faults():
    """A browser uses no other style sheet and no other script than those of the policy. tests/html_tests.py asks the program the same."""
    texts = [page_text("style"), page_text("picture") + page_text("script")]
    wanted = ["sha256-" + base64.b64encode(hashlib.sha256(text).digest()).decode() for text in texts]
    if re.findall(r"'(sha256-[^']*)'", text_of(PAGE / "shell.rt")) != wanted:
        yield f"crates/er_forms/src/shell.rt: the policy of the page wants '{wanted[0]}' and '{wanted[1]}'"


CHECKS = {
    "promises": promise_faults,
    "the map of crates": map_faults,
    "walks": walk_faults,
    "the budget": budget_faults,
    "where definitions are": others_faults,
    "what must be believed": lambda: tool("believed").faults(),
    "must-fail edits": edit_faults,
    "definitions": definition_faults,
    "the glossary": glossary_faults,
    "paths": path_faults,
    "the examples of README and LIBRARY": example_faults,
    "the policy of the page": policy_faults,
}


def tests(record):
    """Records one result for each sort of comparison."""
    print("\n".join(notes()))
    for name, check in CHECKS.items():
        faults = list(check())
        record(f"documents: {name}", not faults, "\n  " + "\n  ".join(faults))


# ---- mending

def followed(path, found):
    """The one of these files that a path should name: itself, the only one, or the only one of its crate or of its name."""
    if path in found or not found:
        return path
    like = [other for other in found if other.split("/")[0] == path.split("/")[0]]
    named = [other for other in found if other.split("/")[-1] == path.split("/")[-1]]
    return next((some[0] for some in (found, named, like) if len(some) == 1), path)


def mended(line):
    """A line of a table with the paths of what moved."""
    cells = [quoted(cell) for cell in line.strip().strip("|").split(" | ")]
    if len(cells) == len(PROMISE) and cells[1] and cells[2] and cells[4]:
        old = cells[4][0]
        places = [files_with(call, cells[2]) for call in cells[1]]
        new = followed(old, [path for path in places[0] if all(path in more for more in places)])
        line = line.replace(f"`{old}`", f"`{new}`")
        imports = re.findall(r"Rattle\.(\w+)\.specs\.([\w.]+)\.\{", (CRATES / new).read_text()) if (CRATES / new).is_file() else []
        imported = sorted({f"{crate}/specs/{module.replace('.', '/')}.antt" for crate, module in imports if "declared" not in module})
        for old in cells[3]:
            line = line.replace(f"`{old}`", f"`{followed(old, [path for path in imported if path.split('/')[-1] == old.split('/')[-1]])}`")
    elif len(cells) == 3 and len(cells[1]) == len(cells[2]) == 1:
        line = line.replace(f"`{cells[2][0]}`", f"`{followed(cells[2][0], files_with(cells[1][0]))}`")
    elif len(cells) == 4 and len(cells[3]) == 2:
        line = line.replace(f"`{cells[3][1]}`", f"`{followed(cells[3][1], defining(cells[3][0]))}`")
    return line


def mended_map(text):
    """The table of crates in the order of crates.txt and with its sentences. A new crate's last cell is left to be written."""
    head = "| " + " | ".join(MAP) + " |\n|---|---|---|---|\n"
    front, _, rest = text.partition(head)
    rows = re.match(r"(?:\|.*\n)*", rest)[0]
    old = {cells[0].strip("`"): cells for cells in (row.strip("| ").split(" | ") for row in rows.splitlines())}
    new = []
    for crate, (_, sentence, _) in crates_in((TOP / "crates.txt").read_text()).items():
        root = next((f"`{crate}/src/{name}.rt`" for name in ("main", "lib") if (CRATES / crate / f"src/{name}.rt").exists()), "-")
        _, _, begin, use = old.get(crate, [crate, "", root, "?"])
        new.append(f"| `{crate}` | {sentence} | {begin if (CRATES / begin.strip('`')).is_file() else root} | {use} |\n")
    return front + head + "".join(new) + rest[len(rows) :] if rest else text


def mend():
    definitions = DOCS / "DEFINITIONS.md"
    text, head, _ = definitions.read_text().partition(OTHERS)
    definitions.write_text(text + head + other_rows(text))
    tool("believed").mend()
    architecture = DOCS / "ARCHITECTURE.md"
    architecture.write_text(mended_map(architecture.read_text()))
    for name in ("PROMISES", "ARCHITECTURE", "GLOSSARY"):
        document = DOCS / f"{name}.md"
        lines = document.read_text().splitlines(keepends=True)
        document.write_text("".join(mended(line) if line.startswith("| ") else line for line in lines))


if __name__ == "__main__":
    if sys.argv[1:] == ["--mend"]:
        mend()
    wrong = [fault for check in CHECKS.values() for fault in check()]
    print("\n".join(notes()))
    print("\n".join(wrong) or "the documents fit the tree")
    sys.exit(1 if wrong else 0)
