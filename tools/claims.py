#!/usr/bin/env python3
"""Tells what a reader has to believe: how much the words of each claim of docs/PROVED.md reach.

  tools/claims.py [-v]   -v lists the definitions of each claim

A claim is the contract of `bmx`, or a law: a function with an empty body that its table names. From the words
of its clauses the names are followed through the `use` lines of specs/, and for each type of src/ through its `Model`.
Lines are those of the definitions reached, without comments. It fails where one of them stands under specs/Inside/,
which is for proofs and private functions alone, and where a law isn't a public function that its crate hands up.
It reads the text alone, so it may count a definition too many where a variable has its name.
"""
import os
import re
import sys
from dataclasses import dataclass, field
from functools import cache

TOP = os.path.dirname(os.path.dirname(os.path.abspath(__file__)))
PROGRAM = ("bmx_cli", "bmx")

NAME = r"[A-Za-z_][\w'\-+]*"
HEAD = re.compile(rf"^(?:(?:abbrev|unfoldable|pub|record|data|axiom) +)*({NAME})")
PATH = re.compile(rf"(?<![\w.'\-+]){NAME}(?:\.{NAME})*")
USE = re.compile(rf"^\s*(?:pub )?(?:ghost )?use Rattle\.([\w.]+?)(?:\.\{{([^}}]*)\}}| as ({NAME}))?;?\s*$")


@dataclass
class Definition:
    module: str
    name: str
    lines: list = field(default_factory=list)


@dataclass
class Module:
    """A file's definitions by name, and what its `use` lines bring: names, and modules under another name."""

    definitions: dict = field(default_factory=dict)
    names: dict = field(default_factory=dict)
    aliases: dict = field(default_factory=dict)


def text_of(path):
    with open(path, encoding="utf-8") as it:
        return it.read()


def imports(text):
    """What `use` lines bring: (module, name there) by name here, and modules by the name that stands for them."""
    names, aliases = {}, {}
    for line in text.split("\n"):
        found = USE.match(line)
        if not found:
            continue
        module, listed, alias = found.groups()
        if listed is None:
            aliases[alias or module.rpartition(".")[2]] = module
        for item in (listed or "").split(","):
            there, _, here = item.strip().partition(" as ")
            names[(here or there).strip()] = (module, there.strip())
    return names, aliases


@cache
def module_of(path):
    """The definitions of a module of specs/, or None where it is none of this repository's."""
    crate, _, inside = path.partition(".specs.")
    file = f"{TOP}/crates/{crate}/specs/{inside.replace('.', '/')}.antt"
    if not os.path.isfile(file):
        return None
    text, made, now = text_of(file), Module(), None
    made.names, made.aliases = imports(text)
    for line in text.split("\n"):
        if not line.strip() or line.lstrip().startswith("--") or re.match(r"(pub )?(use|mod) ", line):
            continue
        head = HEAD.match(line)
        if head and head[1] != "unfolding" and (now is None or head[1] != now.name):
            now = made.definitions.setdefault(head[1], Definition(path, head[1]))
        elif now and re.match(rf"  (pub )?({NAME})( {NAME})* :", line) and now.lines and " data " in f" {now.lines[0]}":
            # a constructor stands for its type
            made.definitions.setdefault(re.match(rf"  (?:pub )?({NAME})", line)[1], now)
        if now:
            now.lines.append(line)
    return made


@cache
def sources(crate):
    folder = f"{TOP}/crates/{crate}/src"
    files = (f"{at}/{name}" for at, _, names in os.walk(folder) for name in sorted(names) if name.endswith(".rt"))
    return {file: text_of(file) for file in files}


def block(text, start):
    """The text between the brace at or behind a place and the one that closes it."""
    start = text.index("{", start)
    depth = 0
    for at in range(start, len(text)):
        depth += {"{": 1, "}": -1}.get(text[at], 0)
        if depth == 0:
            return text[start + 1 : at], at + 1
    raise ValueError("a brace that nothing closes")


@cache
def model_of(path):
    """What contracts see of a type of src/: the words of its `Model`, with the names that they may use."""
    crate, _, inside = path.partition(".specs.declared.")
    name = inside.rpartition(".")[2]
    for text in sources(crate).values():
        found = re.search(rf"^impl(?:<[^>]*>)? Model for {name}\b", text, re.M)
        if found:
            words, _ = block(text, found.start())
            return words, *imports(words)
    return None


def used(words, names, aliases, local):
    """The definitions that some words name: (module, name)."""
    words = re.sub(r"--.*", "", words)
    words = re.sub(r'"[^"]*"', '""', words)
    bound = set()
    for found in re.findall(rf"λ ([^.]*)\.", words) + re.findall(rf"[({{]((?:{NAME} )+):", words):
        bound.update(re.findall(NAME, found))
    for path in PATH.findall(words):
        first, _, rest = path.partition(".")
        if first in aliases and rest:
            yield aliases[first], rest.partition(".")[0]
        elif first in bound:
            continue
        elif first in names:
            yield names[first]
        elif first in local:
            yield local[first].module, first


def reach(words, names, aliases):
    """All definitions that some words reach."""
    found, types = {}, set()
    todo = list(used(words, names, aliases, {}))
    while todo:
        path, name = todo.pop()
        if ".specs.declared." in path:
            path = path.removesuffix(".TheVariants")
            if path not in types:
                types.add(path)
                model = model_of(path)
                todo += used(*model, {}) if model else ()
            continue
        module = module_of(path) if ".specs." in path else None
        definition = module and module.definitions.get(name)
        if definition is None:
            # handed on by another file, or of the kit
            todo += [module.names[name]] if module and name in module.names else []
            continue
        key = (definition.module, definition.name)
        if key in found:
            continue
        found[key] = definition
        for clause in clauses_of(definition):
            todo += used(clause, module.names, module.aliases, module.definitions)
    return found


def clauses_of(definition):
    """The words of a definition, without the variables that its equations bind."""
    for equation in re.split(rf"\n(?={re.escape(definition.name)}\b)", "\n".join(definition.lines)):
        left, equals, right = equation.partition(" =")
        if not equals or not equation.startswith(definition.name):
            yield equation
            continue
        variables = {it for it in PATH.findall(left) if "." not in it and it[0].islower()}
        yield " ".join(it for it in PATH.findall(left) if it not in variables)
        yield re.sub(PATH, lambda it: "_" if it[0].partition(".")[0] in variables else it[0], right)


def contract_of(crate, name):
    """A function's clauses with the names that they may use, whether its body is empty, and whether users reach it."""
    for file, text in sources(crate).items():
        found = re.search(rf"^(pub )?fn {name}\b", text, re.M)
        if not found:
            continue
        at, clauses = found.end(), []
        while True:
            following = re.search(r"\b(?:requires|ensures)\b[^{}]*\{|\n?\{", text[at:])
            words, end = block(text, at + following.start())
            at = end
            if not re.match(r"requires|ensures", following[0]):
                break
            clauses.append(words)
        names, aliases = imports(text[: found.start()])
        return (" ".join(clauses), names, aliases), not words.strip(), bool(found[1]) and is_handed_up(crate, file, name)
    return None


def is_handed_up(crate, file, name):
    """Whether the root of a crate has a public function of a file; a program hands nothing up."""
    root = f"{TOP}/crates/{crate}/src/lib.rt"
    if file == root or not os.path.isfile(root):
        return True
    text = text_of(root)
    listed = " ".join(re.findall(r"^pub use ([^;]*);", text, re.M))
    module = os.path.splitext(os.path.relpath(file, os.path.dirname(root)))[0]
    return bool(re.search(rf"\b{name}\b", listed)) or f"\npub mod {module};" in text


def named_by_page():
    """The functions that the page's table names, by crate: those in the last column of a crate's row."""
    for row in re.findall(r"^\| `(\w+)` \|.*\| (.*?) \|$", text_of(f"{TOP}/docs/PROVED.md"), re.M):
        for name in re.findall(r"`([a-z_]\w*)`", row[1]):
            if not name.startswith("bmx_"):
                yield row[0], name


def size(found):
    files = len({module for module, _ in found})
    return f"{len(found)} definitions in {files} files, {sum(len(it.lines) for it in found.values())} lines"


def main():
    faults, by_crate = [], {}
    for crate, name in named_by_page():
        contract = contract_of(crate, name)
        if contract is None:
            # (a type's function, or none)
            if not any(re.search(rf"\bfn {name}\b", text) for text in sources(crate).values()):
                faults.append(f"docs/PROVED.md names {name}, and {crate} has no such function")
            continue
        words, is_law, is_public = contract
        if not is_law and (crate, name) != PROGRAM:
            continue
        if not is_public:
            faults.append(f"docs/PROVED.md names {name}, and {crate} doesn't hand it up as a public function")
        found = reach(*words)
        by_crate.setdefault(crate, {}).update(found)
        print(f"{crate} {name}: {size(found)}")
        for module, definition in sorted(found):
            if ".Inside." in f"{module}.":
                faults.append(f"{name} reaches {definition} of {module}, which is for proofs alone")
        if "-v" in sys.argv[1:]:
            for (module, definition), it in sorted(found.items()):
                print(f"  {module}.{definition}: {len(it.lines)}")
    for crate, found in by_crate.items():
        print(f"{crate}, all of them: {size(found)}")
    for fault in faults:
        print(f"claims: {fault}")
    return 1 if faults else 0


if __name__ == "__main__":
    sys.exit(main())
