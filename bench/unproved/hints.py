"""What the sources say of inlining, by the names that functions have in a module of the toolchain."""

import os
import re

# What could be taken for code: comments, texts and letters.
NO_CODE = re.compile(r"""//[^\n]*|/\*.*?\*/|\bb?r(#*)".*?"\1|"(?:\\.|[^"\\])*"|b?'(?:\\(?:x..|u\{[^}]*\}|.)|[^'\\\n])'""", re.S)
BORDER = re.compile(r"\bfn\s+(?:r#)?(\w+)|[{};()\[\]]")
ATTRIBUTE = re.compile(r"#\[[^\]]*\]\s*")
SCOPE = re.compile(r"(?:pub(?:\([^)]*\))?\s+)?(?:unsafe\s+)?(?:mod\s+(?P<module>\w+)$|(?P<owner>impl\b.*|trait\s+\w+))", re.S)
HINT = re.compile(r"#\[\s*(inline\(always\)|inline\(never\)|inline|cold)\s*\]")
WORD = {"inline(always)": "alwaysinline", "inline(never)": "noinline", "inline": "inlinehint", "cold": "cold"}


def functions(text):
    """Of each function of a file: its name, the modules in the file around it, the head of its impl or trait or none, and its hints."""
    text = NO_CODE.sub(" ", text)
    scopes, begin, depth = [], 0, 0
    for border in BORDER.finditer(text):
        if border[1]:
            if "fn" not in scopes:
                hints = frozenset(WORD[hint] for hint in HINT.findall(text, begin, border.start()))
                modules = tuple(it["module"] for it in scopes if it != "other" and it["module"])
                owners = [it["owner"] for it in scopes if it != "other" and it["owner"]]
                yield border[1], modules, owners[-1] if owners else None, hints
            begin, depth = border.start(), 0
        elif border[0] in "([":
            depth += 1
        elif border[0] in ")]":
            depth -= 1
        # A `;` within brackets is that of an array's length.
        elif border[0] != ";" or depth <= 0:
            if border[0] == "{":
                head = ATTRIBUTE.sub("", text[begin : border.start()]).strip()
                scopes.append("fn" if head.startswith("fn") else SCOPE.match(head) or "other")
            elif border[0] == "}" and scopes:
                scopes.pop()
            begin, depth = border.end(), 0


def without_parameters(head):
    """The head of an impl without what stands in angle brackets, and without conditions."""
    head, old = re.split(r"\bwhere\b", head.replace("->", ""))[0], None
    while head != old:
        head, old = re.sub(r"<[^<>]*>", "", head), head
    return " ".join(head.split())


def type_name(text):
    """What a name in a module calls a type: `RefStr` for `&str`, `Ref` for `&T`."""
    text = text.strip()
    if text.startswith("&"):
        referred = type_name(re.sub(r"^&\s*('\w+\s*)?(mut\b)?", "", text))
        return f"Ref{referred}" if len(referred) > 1 else "Ref"
    if text.startswith("["):
        return "Array" if ";" in text else "Slice"
    if text.startswith("("):
        return f"Tuple{text.count(',') + 1 if text != '()' else 0}"
    word = text.removeprefix("dyn ").split("::")[-1]
    return word[:1].upper() + word[1:]


def likeness(owner, word):
    """How well an impl or a trait fits a name's last word but one: `impl Store for Owned` fits `OwnedStore`."""
    head = without_parameters(owner)
    if head.startswith("trait"):
        return 3 if word == head.split()[1] else 0
    trait, _, own = head.removeprefix("impl").rpartition(" for ")
    trait, own = type_name(trait), type_name(own)
    if not trait or trait == "Drop" and word == own:
        return 3 if word == own else 0
    if word == own + trait:
        return 3
    if word.startswith(own + trait):
        return 2
    return 1 if trait in word else 0


class Sources:
    """The functions of crates, whose folders `src` are given by the crates' names. A crate is read if one of its functions is asked for."""

    def __init__(self, folders):
        self.folders, self.crates = folders, {}

    def functions_of(self, crate):
        """By the name of a function the modules, the owner and the hints of each that has it."""
        if crate not in self.crates:
            found = self.crates[crate] = {}
            for folder, _, files in os.walk(self.folders[crate]):
                for file in (file for file in files if file.endswith(".rt")):
                    path = os.path.relpath(f"{folder}/{file}", self.folders[crate]).removesuffix(".rt").split("/")
                    outer = tuple(path[:-1] if path[-1] in ("lib", "main", "mod") else path)
                    with open(f"{folder}/{file}", encoding="utf-8") as source:
                        for name, modules, owner, hints in functions(source.read()):
                            found.setdefault(name, []).append((outer + modules, owner, hints))
        return self.crates[crate]

    def hints(self, name):
        """The hints of a function by its name without its types; None if several functions fit equally well, and their hints differ."""
        crate, *modules = name.split("::")
        last = modules.pop() if modules else ""
        if crate not in self.folders:
            return frozenset()
        there = self.functions_of(crate).get(last.split("+")[0], [])
        free = [hints for path, owner, hints in there if path == tuple(modules) and owner is None]
        if free:
            return free[0]
        if not modules:
            return frozenset()
        owned = [it for it in there if it[1] is not None]
        near = [it for it in owned if it[0] == tuple(modules[:-1])]
        if len({hints for *_, hints in near}) == 1:
            return near[0][2]
        fits = [(likeness(owner, modules[-1]), hints) for _, owner, hints in near or owned]
        best = max((fit for fit, _ in fits), default=0)
        found = {hints for fit, hints in fits if fit == best} if best else {frozenset()}
        return found.pop() if len(found) == 1 else None
