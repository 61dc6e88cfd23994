#!/usr/bin/env python3
"""Compares the files of shell/ with what the program says of itself, and puts everything into a scratch folder and takes it away again.

`tests/run` calls `tests`. By itself this file runs these tests alone.

- completions: bash is asked what it would complete; the files for zsh and fish are read, and asked too if these shells are there
- the manual page: its options, demos, suppressions and exit statuses
- the same of the recorder, whose exit statuses are a table in docs/RECORDING.md
- ./install: what it puts works, an existing file is left alone, and after --remove the folder is as it was before
"""

import os
import pathlib
import re
import shlex
import shutil
import sys
import tempfile

sys.dont_write_bytecode = True
from alone import command, program, run_alone

TOP = pathlib.Path(__file__).resolve().parent.parent
SHELL = TOP / "shell"
PROGRAM = program("eraser")
RECORD = TOP / "record/run"
INSTALL = TOP / "install"


# ---- What the program says of itself

OPTION = re.compile(r"^ +(?:(-\w), )?(--[\w-]+)(?: <([\w/]+)>)?  +(.*)$")


def section(text, head):
    """The lines under a heading of a help text."""
    return text.split(f"\n{head}\n", 1)[1].split("\n\n", 1)[0].splitlines() if f"\n{head}\n" in text else []


def options_of(text):
    """Each option, with its short form, the name of its value and its sentence without a default."""
    found = {}
    for line in section(text, "Options:"):
        short, long, value, says = OPTION.match(line).groups()
        found[long] = (short, value, re.sub(r" \[(default|possible values): .*\]$", "", says))
    return found


def told():
    """The commands with their sentences and options, and the values that an argument or an option takes."""
    top = command([PROGRAM, "--help"]).stdout
    commands = dict(line.split(maxsplit=1) for line in section(top, "Commands:"))
    helps = {name: command([PROGRAM, name, "--help"]).stdout for name in commands if name != "help"}
    options = {"": options_of(top), **{name: options_of(text) for name, text in helps.items()}, "help": {}}
    values = {}
    for name, text in helps.items():
        for line in text.splitlines():
            listed = re.search(r"(--[\w-]+|<\w+>).* \[possible values: (.*)\]$", line)
            if listed:
                values[name, listed[1]] = listed[2].split(", ")
    return top, commands, options, values


def words_of(options):
    """The options as they are typed, long and short."""
    return set(options) | {short for short, _, _ in options.values() if short}


# ---- Completions

def bash_completes(*words, name="eraser"):
    """What bash completes behind these words, of which the last is begun."""
    line = " ".join(shlex.quote(word) for word in (name, *words))
    function = "_" + name.replace("-", "_")
    script = f'source {SHELL}/{name}.bash; COMP_WORDS=({line}); COMP_CWORD={len(words)}; {function}; printf "%s\\n" "${{COMPREPLY[@]}}"'
    return set(command(["bash", "-c", script], cwd=TOP).stdout.split())


def bash_tests(record, commands, options, values):
    found = bash_completes("")
    record("bash: commands", found == set(commands), f"{found}")
    found = bash_completes("-")
    record("bash: options", found == words_of(options[""]), f"{found}")
    found = bash_completes("help", "")
    record("bash: commands behind help", found == set(commands), f"{found}")
    for name in ("replay", "explain", "print", "merge", "demo"):
        # A dash alone is standard input, so the options of a replay come behind two.
        found = bash_completes(name, "-") | bash_completes(name, "--") | bash_completes(name, "-h")
        record(f"bash: options of {name}", found - {"-"} == words_of(options[name]), f"{found}")
        for other, (_, value, _) in options[name].items():
            if (name, other) in values:
                found = bash_completes(name, other, "")
                record(f"bash: values of {other}", found == set(values[name, other]), f"{found}")
            elif value == "FILE":
                found = bash_completes(name, other, "READ")
                record(f"bash: files behind {other}", found == {"README.md"}, f"{found}")
            elif value == "DIR":
                found = bash_completes(name, other, "examp")
                record(f"bash: folders behind {other}", found == {"examples"}, f"{found}")
            elif value == "N":
                found = bash_completes(name, other, "")
                most = int(re.search(r" to (\d+)", options[name][other][2])[1])
                record(f"bash: numbers behind {other}", found and {int(word) for word in found} <= set(range(1, most + 1)) and str(most) in found, f"{found}")
    record("bash: demos", bash_completes("demo", "r") == {name for name in values["demo", "<NAME>"] if name[0] == "r"})
    record("bash: traces", bash_completes("replay", "READ") == {"README.md"} == bash_completes("replay", "--explain", "READ") == bash_completes("explain", "3", "READ") == bash_completes("print", "READ"))


def zsh_options(text):
    """The options of each function of the file for zsh, as `options_of` has them."""
    found = {}
    for name, body in re.findall(r"^(_\w+)\(\) \{\n(.*?)^\}", text, re.M | re.S):
        command_name = {"_eraser": "", "_eraser_commands": "help"}.get(name, name.removeprefix("_eraser_"))
        options = found.setdefault(command_name, {})
        for line in body.splitlines():
            both = re.match(r" *'\((-\w) (--[\w-]+)\)'\{-\w,--[\w-]+\}'\[(.*)\]'", line)
            alone = re.match(r" *'\*?(--[\w-]+)\[(.*?)\](:.*)?'", line.replace("'\\''", "’"))
            if both:
                options[both[2]] = (both[1], None, both[3])
            elif alone:
                value = None if not alone[3] else "FILE" if alone[3].endswith("_files") else "FORM" if alone[3].startswith(":form") else "ANALYSIS" if alone[3].startswith(":analysis") else "DIR" if alone[3].startswith(":folder") else {":bytes": "BYTES", ":races": "COUNT", ":part": "I/N"}.get(alone[3], "N")
                options[alone[1]] = (None, value, alone[2].replace("’", "'"))
    return found


def fish_options(text):
    """The same of the file for fish."""
    found = {"": {}, "replay": {}, "explain": {}, "print": {}, "merge": {}, "demo": {}, "help": {}}
    for line in text.splitlines():
        if not line.startswith("complete "):
            continue
        words = shlex.split(line.replace("\\'", "’"))
        where = words[words.index("-n") + 1] if "-n" in words else "-"
        name = "" if where == "__fish_use_subcommand" else where.split()[-1]
        if "-l" in words:
            after = {word: words[place + 1] for place, word in enumerate(words[:-1]) if word in ("-s", "-l", "-d", "-a")}
            value = "FILE" if "-r" in words else None if "-x" not in words else "FORM" if after["-l"] == "format" else "ANALYSIS" if after["-l"] == "analysis" else "DIR" if after["-l"] == "source" else "N" if "-a" in words else {"byte-limit": "BYTES", "part": "I/N"}.get(after["-l"], "COUNT")
            found[name]["--" + after["-l"]] = ("-" + after["-s"] if "-s" in after else None, value, after["-d"].replace("’", "'"))
    return found


def file_tests(record, commands, options, values):
    """The files for zsh and fish say what --help says: each option with its sentence, each command, each value."""
    for shell, path, read in (("zsh", SHELL / "_eraser", zsh_options), ("fish", SHELL / "eraser.fish", fish_options)):
        text = path.read_text()
        found = read(text)
        record(f"{shell}: options", found == options, f"\n  {found}\n  {options}")
        for name, says in commands.items():
            record(f"{shell}: the command {name}", says.replace("'", "'\\''" if shell == "zsh" else "\\'") in text and re.search(rf"\b{name}\b", text))
        for (_, place), listed in values.items():
            record(f"{shell}: values of {place}", " ".join(listed) in text, f"{listed}")
    if shutil.which("zsh"):
        done = command(["zsh", "-n", SHELL / "_eraser"])
        record("zsh reads its file", done.returncode == 0 and not done.stderr, f"{done}")
    if shutil.which("fish"):
        def completed(line):
            done = command(["fish", "-N", "-c", f"source {SHELL}/eraser.fish; complete -C {shlex.quote(line)}"], cwd=TOP)
            return {row.split("\t")[0] for row in done.stdout.splitlines()}
        record("fish completes commands", completed("eraser ") == set(commands), f"{completed('eraser ')}")
        for name in ("replay", "explain", "print", "merge", "demo"):
            found = completed(f"eraser {name} -")
            record(f"fish completes the options of {name}", found == words_of(options[name]), f"{found}")
        record("fish completes demos", set(values["demo", "<NAME>"]) <= completed("eraser demo "))
        record("fish completes traces", "README.md" in completed("eraser replay READ"))


# ---- The manual page

def roff_text(line):
    """A line of the page without its macros' quotes and escapes."""
    return line.replace("\\-", "-").replace("\\e", "\\").replace("\\(bu", "")


def manual_options(text):
    """The options under each heading of the page, with their first sentence."""
    found, name, lines = {}, None, text.splitlines()
    for place, line in enumerate(lines):
        heading = re.match(r"\.S[SH] (.*)", line)
        if heading:
            name = "" if heading[1] == "OPTIONS" else heading[1]
        if line != ".TP":
            continue
        tag = roff_text(lines[place + 1])
        match = re.match(r"\.(?:BR (-\w) \", \" |B |BI )(--[\w-]+)(?: \" (?:\\fI)?([\w/]+)(?:\\fP)?\")?$", tag)
        if match and name is not None:
            found.setdefault(name, {})[match[2]] = (match[1], match[3], roff_text(lines[place + 2]).rstrip("."))
    return found


def manual_tests(record, top, commands, options, values):
    page = (SHELL / "eraser.1").read_text()
    found = {"help": {}, **manual_options(page)}
    record("manual: options", found == options, f"\n  {found}\n  {options}")
    for name, says in commands.items():
        record(f"manual: the command {name}", f".SS {name}\n{says}." in page)
    for (name, place), listed in values.items():
        record(f"manual: values of {place}", all(re.search(rf"^\.BR? {re.escape(word)}( [,.])?$", page, re.M) for word in listed), f"{listed}")
    statuses = [(status, roff_text(says)) for status, says in re.findall(r"^\.TP\n\.B (\d)\n(.*)$", page.split(".SH EXIT STATUS\n")[1], re.M)]
    wanted = [tuple(line.strip().split("  ", 1)) for line in section(top, "Exit status:")]
    record("manual: exit statuses", statuses == wanted, f"{statuses}")
    rules = section(top, "A suppression file has a rule a line, and the first that fits a race takes it:")
    record("manual: suppressions", rules and all(f"\n{line.strip()}\n" in page for line in rules), f"{rules}")
    for line in section(top, "Example:"):
        record(f"manual: the example's line {line}", line.strip() in roff_text(page))
    version = command([PROGRAM, "--version"]).stdout.strip()
    record("manual: the version", f'"{version}"' in page.splitlines()[1], f"{version}")
    groff_test(record, "eraser.1")


def groff_test(record, name):
    if shutil.which("groff"):
        done = command(["groff", "-man", "-ww", "-z", SHELL / name])
        record(f"{name}: groff", (done.returncode, done.stderr) == (0, ""), f"{done}")


# ---- The recorder

def told_of_recorder():
    """Each option of record/run: its short form, the name of its value, what that is (files, folders, the words there are, or anything) and its sentence."""
    found = {}
    for line in command([RECORD, "--help"]).stdout.splitlines():
        match = re.match(r"^ +(?:(-\w), )?(--[\w-]+)(?: ([A-Z]+))? +(.*)$", line)
        if match:
            short, long, value, says = match.groups()
            listed = re.findall(r"`([\w-]+)`", says)
            takes = None if not value else " ".join(listed) if len(listed) > 1 else "files" if value in ("FILE", "RULES") else "folders" if value == "DIR" else "anything"
            says = says.replace("`", "").replace(" (docs/FORMATS.md)", "")
            found[long] = (short, value, takes, says[0].upper() + says[1:])
    return found


def recorder_bash_tests(record, options):
    def completes(*words):
        return bash_completes(*words, name="eraser-record")

    words = set(options) | {short for short, *_ in options.values() if short}
    record("bash: options of eraser-record", completes("-") == words, f"{completes('-')}")
    for other, (short, _, takes, _) in options.items():
        for name in filter(None, (other, short)):
            found, begun = completes(name, ""), completes(name, "READ")
            if takes == "files":
                record(f"bash: eraser-record {name}: files", begun == {"README.md"}, f"{begun}")
            elif takes == "folders":
                record(f"bash: eraser-record {name}: folders", completes(name, "examp") == {"examples"} and not begun, f"{found}, {begun}")
            elif takes == "anything":
                record(f"bash: eraser-record {name}: nothing that could be known", found == set() == begun, f"{found}, {begun}")
            elif takes:
                cut = completes(name, "="), completes(name, "=", takes.split()[0][:2])
                record(f"bash: eraser-record {name}: values", found == set(takes.split()) == cut[0] and takes.split()[0] in cut[1] < found, f"{found}, {cut}")
            # Behind the option and its value the program can come, or another option.
            value = ["3"] if takes else []
            record(f"bash: eraser-record {name}: options behind it", completes(name, *value, "-") == words, f"{completes(name, *value, '-')}")
    record("bash: eraser-record and a program", {"sh", "shell"} <= completes("-q", "sh") and completes("./erase") == {"./eraser"} == completes("--limit", "3", "./erase"))
    for words in (["sh"], ["--format=json", "sh"], ["--format", "=", "json", "sh"], ["--", "sh"], ["-o", "x", "sh", "--format"]):
        found = completes(*words, "-"), completes(*words, "READ")
        record(f"bash: eraser-record {words} and arguments", found == (set(), {"README.md"}), f"{found}")


def recorder_file_tests(record, options):
    """The files for zsh and fish, and the manual page, have each option as --help says it."""
    page, found = (SHELL / "_eraser-record").read_text(), {}
    line = r"^ +(?:'\((-\w) (--[\w-]+)\)'\{\1,\2\}'|'(--[\w-]+))\[(.*?)\](?::(\w+)(?::(_files(?: -/)?|\(.*\)))?)?' \\$"
    for short, both, alone, says, value, action in re.findall(line, page, re.M):
        takes = {"_files": "files", "_files -/": "folders"}.get(action) or action.strip("()") or "anything" if value else None
        found[both or alone] = (short or None, {"folder": "DIR"}.get(value, value.upper()) or None, takes, says)
    record("zsh: options of eraser-record", found == options and page.startswith("#compdef eraser-record\n"), f"\n  {found}\n  {options}")
    if shutil.which("zsh"):
        done = command(["zsh", "-n", SHELL / "_eraser-record"])
        record("zsh reads the recorder's file", done.returncode == 0 and not done.stderr, f"{done}")

    text, found = (SHELL / "eraser-record.fish").read_text(), {}
    begin = "complete -c eraser-record -n __eraser_record_before_program"
    for short, long, more, says in re.findall(begin + r"(?: -s (\w))? -l ([\w-]+)(.*) -d '(.*)'$", text, re.M):
        words = re.fullmatch(r" -x -a '(?!\()(.*)'", more)
        found["--" + long] = ("-" + short if short else None, words[1] if words else {"": None, " -r -F": "files", " -x -a '(__fish_complete_directories)'": "folders", " -x": "anything"}.get(more, more), says)
    record("fish: options of eraser-record", found == {long: (short, takes, says) for long, (short, _, takes, says) in options.items()}, f"\n  {found}\n  {options}")
    valued = [name for long, (short, _, takes, _) in options.items() if takes for name in filter(None, (long, short))]
    lists = re.findall(r"__fish_complete_subcommand -- (.*)\)'$", text, re.M) + re.findall(r"^            case (--.*)$", text, re.M)
    record("fish: which options of eraser-record have a value", len(lists) == 2 and all(sorted(names.split()) == sorted(valued) for names in lists), f"{lists}, {valued}")
    if shutil.which("fish"):
        words = set(options) | {short for short, *_ in options.values() if short}
        for begun, wanted in (("", words), ("--format json ", words), ("-q no-such-program ", set()), ("--format json no-such-program ", set())):
            done = command(["fish", "-N", "-c", f"source {SHELL}/eraser-record.fish; complete -C {shlex.quote(f'eraser-record {begun}-')}"], cwd=TOP)
            completed = {row.split("\t")[0] for row in done.stdout.splitlines()}
            record(f"fish completes behind eraser-record {begun}", completed == wanted, f"{done}")


def recorder_manual_tests(record, options):
    page = (SHELL / "eraser-record.1").read_text()
    found, wanted = manual_options(page)[""], {long: (short, value, says.rstrip(".")) for long, (short, value, _, says) in options.items()}
    record("manual of eraser-record: options", found == wanted, f"\n  {found}\n  {wanted}")
    version = command([RECORD, "--version"]).stdout.strip()
    record("manual of eraser-record: the version", f'"{version}"' in page.splitlines()[1], f"{version}")
    # A row that is an example says so: here with 6.
    rows = re.findall(r"^\| (.*) \| (.*) \| (.*) \| `record: .*\|$", (TOP / "docs/RECORDING.md").read_text(), re.M)
    wanted = {number for row in rows if ", here " not in row[0] for cell in row for number in re.findall(r"\b\d+\b", cell)}
    tags = re.findall(r"^\.TP\n\.BR? ([\d\", ]+)\n", page.split(".SH EXIT STATUS\n")[1], re.M)
    found = [number for tag in tags for number in re.findall(r"\d+", tag)]
    record("manual of eraser-record: exit statuses", {"0", "1", "125"} < wanted and sorted(found) == sorted(wanted), f"{found}, {wanted}")
    groff_test(record, "eraser-record.1")


def recorder_tests(record):
    options = told_of_recorder()
    record("what record/run --help says is read", len(options) > 12 and options.get("--output", ())[:3] == ("-o", "FILE", "files"), f"{options}")
    found, version = command([RECORD, "--version"]), command([PROGRAM, "--version"]).stdout
    record("the version of the recorder is that of the program", (found.stdout, found.stderr, found.returncode) == (version.replace("eraser ", "eraser-record ", 1), "", 0), f"{found}, {version}")
    record("record/run -V", command([RECORD, "-V"]).stdout == found.stdout)
    recorder_bash_tests(record, options)
    recorder_file_tests(record, options)
    recorder_manual_tests(record, options)


# ---- Installation

def tree(folder):
    """Each path below a folder, with the bytes of a file and the target of a link."""
    return {str(path.relative_to(folder)): os.readlink(path) if path.is_symlink() else path.read_bytes() if path.is_file() else None for path in sorted(folder.rglob("*"))}


# Where each shell, man and a compiler look below a prefix.
PLACES = ("bin/eraser", "bin/eraser-record", "bin/eraser-cc", "bin/eraser-c++", "share/man/man1/eraser.1", "share/bash-completion/completions/eraser",
          "share/zsh/site-functions/_eraser", "share/fish/vendor_completions.d/eraser.fish", "share/man/man1/eraser-record.1",
          "share/bash-completion/completions/eraser-record", "share/zsh/site-functions/_eraser-record",
          "share/fish/vendor_completions.d/eraser-record.fish", "include/eraser.h")
LIBRARY_PLACES = ("lib/liberaser.a", "include/eraser_detector.h", "include/eraser_detector.hpp", "lib/pkgconfig/eraser.pc")
NO_LIBRARY = "capi: this tree has no crate eraser_c, so there is no library for C\n"


def has_library():
    """Whether the tree has the proved calls for C. Then they must be installed."""
    return bool(os.environ.get("ERASER_PROVED")) or "eraser_c" in command([TOP / "tools/program", "--list"]).stdout.split()


def install_tests(record):
    with tempfile.TemporaryDirectory() as folder:
        folder = pathlib.Path(folder)
        prefix = folder / "a prefix"
        done, errors = command([INSTALL, prefix]), "" if has_library() else NO_LIBRARY
        record("install", (done.returncode, done.stderr) == (0, errors) and all((prefix / place).exists() for place in PLACES), f"{done}")
        found = [(prefix / place).exists() for place in LIBRARY_PLACES]
        record("install: the library for C", found == [has_library()] * len(LIBRARY_PLACES), f"{found}")
        record("install: a path that isn't there yet is named", f"add {prefix}/bin to PATH" in done.stdout, f"{done.stdout}")
        first = tree(prefix)
        moved = folder / "moved"
        prefix.rename(moved)
        installed_program_tests(record, moved, folder)
        moved.rename(prefix)

        done = command([INSTALL, prefix], env={**os.environ, "PATH": f"{prefix}/bin:{os.environ['PATH']}"})
        record("install once more", done.returncode == 0 and tree(prefix) == first and "to PATH" not in done.stdout, f"{done}")
        (prefix / "share/man/man1/eraser.1").write_text("mine\n")
        changed = tree(prefix)
        done = command([INSTALL, prefix])
        record("install over a changed file", done.returncode == 1 and tree(prefix) == changed and "is there already" in done.stderr, f"{done}")
        done = command([INSTALL, "--remove", prefix])
        kept = {"share": None, "share/man": None, "share/man/man1": None, "share/man/man1/eraser.1": b"mine\n"}
        record("remove all but a changed file", done.returncode == 0 and tree(prefix) == kept and "has changed since" in done.stderr, f"{done}, {tree(prefix)}")
        done = command([INSTALL, "--remove", prefix])
        record("remove what isn't there", done.returncode == 1 and "nothing was installed" in done.stderr, f"{done}")

        # Beside other files, below the home folder.
        home = folder / "home"
        (home / ".local/bin").mkdir(parents=True)
        (home / ".local/bin/other").write_text("other\n")
        (home / ".local/share/empty").mkdir(parents=True)
        before = tree(home)
        env = {**os.environ, "HOME": str(home)}
        done, removed = command([INSTALL], env=env), command([INSTALL, "--remove"], env=env)
        record("install and remove leave a home folder as it was", done.returncode == removed.returncode == 0 and tree(home) == before, f"{done}, {removed}, {tree(home)}")
        (home / ".local/bin/eraser").write_text("another program\n")
        before = tree(home)
        done = command([INSTALL], env=env)
        record("install over another program", done.returncode == 1 and tree(home) == before and "nothing was changed" in done.stderr, f"{done}")
        for words in (["--no-such"], ["a", "b"], [""]):
            done = command([INSTALL, *words], cwd=folder)
            record(f"install {words}", done.returncode == 2 and "Usage" in done.stderr, f"{done}")
        record("install --help", command([INSTALL, "--help"]).stdout.startswith("Usage: ./install"))


def installed_program_tests(record, prefix, folder):
    """What was installed works from its place, with the sources out of sight, by what a shell finds there."""
    env = {**os.environ, "PATH": f"{prefix}/bin:{os.environ['PATH']}"}
    env.pop("ERASER", None)
    found = command(["eraser", "replay", TOP / "examples/two_writers.trace"], env=env, cwd=folder)
    record("the installed program", (found.stdout, found.stderr, found.returncode) == ((TOP / "examples/two_writers.report").read_text(), "", 1), f"{found}")
    shutil.copy(TOP / "examples/pool.cpp", folder / "pool.cpp")
    built = command(["eraser-c++", "pool.cpp", "-o", "pool"], env=env, cwd=folder)
    found = command(["eraser-record", "./pool"], env=env, cwd=folder)
    races = re.findall(r"^line \d+: race: .* at (\S+), holds none$", found.stderr, re.M)
    record("the installed recorder", found.returncode == 0 and races and set(races) == {"pool.cpp:19"} and " 0 lost" in found.stderr, f"{built}, {found}")
    for words in (["--help"], ["--version"]):
        found, here = command(["eraser-record", *words], env=env, cwd=folder), command([RECORD, *words])
        wanted = here.stdout.replace("Usage: record/run ", "Usage: eraser-record ")
        record(f"the installed recorder {words}", "eraser-record " in wanted and (found.stdout, found.stderr, found.returncode) == (wanted, "", 0), f"{found}, {here}")
    found = command(["eraser-record"], env=env, cwd=folder)
    record("the installed recorder without a program", found.returncode == 125 and found.stderr.startswith("Usage: eraser-record [OPTIONS] "), f"{found}")
    found = command(["eraser-record", "--wrong"], env=env, cwd=folder)
    record("the installed recorder with a wrong option", found.returncode == 125 and found.stderr.startswith("eraser-record: "), f"{found}")
    annotated = folder / "annotated.c"
    annotated.write_text("#include <eraser.h>\nint main(void) { int x = 0; ERASER_REUSE(&x, sizeof x); return x; }\n")
    built = command(["eraser-cc", f"-I{prefix}/include", annotated, "-o", "annotated"], env=env, cwd=folder)
    found = command(["eraser-record", "-o", "annotated.trace", "./annotated"], env=env, cwd=folder)
    traced = (folder / "annotated.trace").read_text() if (folder / "annotated.trace").exists() else ""
    record("the installed header", built.returncode == found.returncode == 0 and " reuse " in traced, f"{built}, {found}, {traced}")
    if shutil.which("clang++"):
        built = command(["eraser-c++", "pool.cpp", "-o", "pool"], env={**env, "ERASER_CXX": "clang++"}, cwd=folder)
        found = command(["eraser-record", "./pool"], env=env, cwd=folder)
        record("the installed recorder with clang", built.returncode == found.returncode == 0 and "pool.cpp:19" in found.stderr, f"{built}, {found}")
    if shutil.which("man"):
        for name in ("eraser", "eraser-record"):
            found = command(["man", "-w", name], env={**env, "MANPATH": ""})
            record(f"man finds the page of {name}", found.stdout.strip() == str(prefix / f"share/man/man1/{name}.1"), f"{found}")


def tests(record):
    top, commands, options, values = told()
    record("what --help says is read", {"replay", "explain", "print", "merge", "demo", "help"} == set(commands) and len(options["replay"]) > 4 and ("demo", "<NAME>") in values, f"{options}, {values}")
    bash_tests(record, commands, options, values)
    file_tests(record, commands, options, values)
    manual_tests(record, top, commands, options, values)
    recorder_tests(record)
    install_tests(record)


if __name__ == "__main__":
    run_alone(tests)
