#!/usr/bin/env python3
"""Turns the repository's own definitions and lemmas to snake case: run once, after the kit's port.py, at the top of the repository.

The names of specs/ and proofs/ were in kebab case and in lower camel case; today's Rattle writes a word in snake case, and types and modules
in upper camel case. Renamed are the names that the files of specs/ and those right in proofs/ have: definitions, lemmas, fields, variables.
Names of the kit, which come in by `use`, stay. In proofs/F/, in the clauses of src/, in the must-fail edits and in the pages the same names
are renamed. Functions of src/, exported names and strings are in snake case already, and stay.
`--check` only tells which names would fall together, in a file.
"""

import os
import re
import sys

TOKEN = re.compile(r"[^\s(){},;.:«»\"\[\]`]+")
USE = re.compile(r"^(?:ghost )?(?:pub )?use ([^\s;{]+)\.\{([^}]*)\}", re.M | re.S)
# Names that would fall together with another one once they are in snake case, and what stands for each: a lemma named as what it is about
# gets `_lem`.
APART = {
    "said-if": "said_if_lem",
    "at-most": "at_most_lem",
    "laid_on": "laid_on_lem",
    "left_after": "left_after_lem",
    "verdict-read": "verdict_read_lem",
    "nextRoom": "room_of_next",
    "highRoom": "room_of_high",
    "row-ascends": "row_ascends_lem",
    "run_holds": "run_holds_lem",
    "answer-left": "answer_left_lem",
    "first-rises": "first_rises_lem",
    "label-from": "label_from_lem",
    "road-arc": "road_arc_lem",
    "in-force": "in_force_lem",
    "arc-between": "arc_between_lem",
    "row-at": "row_at_lem",
    "row-of": "row_of_lem",
    "way_by": "way_by_lem",
}


def files(root, ends):
    for folder, folders, names in os.walk(root):
        folders[:] = sorted(f for f in folders if f not in ("out", ".git", "target"))
        for name in sorted(names):
            if name.endswith(ends):
                yield os.path.join(folder, name)


def read(path):
    with open(path, encoding="utf-8") as file:
        return file.read()


def old_spelling(name):
    plain = re.fullmatch(r"[A-Za-z0-9_'\-₀-₉]+", name) and name[0].isalpha()
    return bool(plain) and ("-" in name.strip("-") or (name[0].islower() and any(c.isupper() for c in name)))


def snake(name):
    if name in APART:
        return APART[name]
    name = name.replace("-", "_")
    name = re.sub(r"(?<=[a-z0-9'₀-₉])([A-Z])", lambda m: "_" + m.group(1).lower(), name)
    return name


def is_of_function(path):
    """Is it in proofs/F/ (or proofs/TYPE/F/), what is said of one function?"""
    parts = path.split(os.sep)
    return "proofs" in parts and len(parts) - parts.index("proofs") > 2


def code(line):
    return "" if line.lstrip().startswith("--") else line


def names_of_repository(crates):
    kit, found = set(), set()
    texts = [(path, read(path)) for path in files("crates", ".antt")]
    for _, text in texts:
        for module, names in USE.findall(text):
            parts = module.split(".")
            if parts[0] == "Rattle" and parts[1] in crates:
                continue
            kit.update(name.strip().split(" as ")[0] for name in names.split(","))
    for path, text in texts:
        if is_of_function(path):
            continue
        for line in text.split("\n"):
            found.update(name for name in TOKEN.findall(code(line)) if old_spelling(name))
    return found - kit


def clauses(text):
    """The lines of a .rt file that are of a clause or a ghost item."""
    depth, inside = 0, False
    for line in text.split("\n"):
        starts = re.match(r"\s*(requires|ensures|ghost|invariant|decreases)\b", line)
        if depth == 0 and starts:
            inside = True
        yield line, inside or line.lstrip().startswith("//")
        if inside:
            depth += line.count("{") - line.count("}")
            if depth == 0 and not (starts and "{" not in line and not line.rstrip().endswith(";")):
                inside = False


def main():
    crates = set(os.listdir("crates"))
    renamed = {name: snake(name) for name in names_of_repository(crates)} | APART

    def respell(line):
        return TOKEN.sub(lambda m: renamed.get(m.group(), m.group()), line)

    together = 0
    for path in files("crates", ".antt"):
        seen = {}
        for line in read(path).split("\n"):
            for name in TOKEN.findall(code(line)):
                other = seen.setdefault(renamed.get(name, name), name)
                if other != name:
                    print(f"{path}: {other} and {name} fall together")
                    together += 1
                    seen[renamed.get(name, name)] = name
    if "--check" in sys.argv:
        print(f"{len(renamed)} names, {together} places")
        return
    for path in [*files("crates", (".antt", ".rt", ".edit")), *files("scripts", (".awk", "claim", "claim-cases"))]:
        text = read(path)
        if path.endswith(".rt"):
            new = "\n".join(respell(line) if is_clause else line for line, is_clause in clauses(text))
        else:
            new = "\n".join(respell(line) for line in text.split("\n"))
        if new != text:
            with open(path, "w", encoding="utf-8") as file:
                file.write(new)
    # in a page a name stands between backquotes
    for path in files(".", ".md"):
        if path.startswith("./crates"):
            continue
        text = read(path)
        new = re.sub(r"`[^`\n]*`", lambda m: respell(m.group()), text)
        if new != text:
            with open(path, "w", encoding="utf-8") as file:
                file.write(new)


main()
