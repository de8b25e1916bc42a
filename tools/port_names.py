#!/usr/bin/env python3
"""Brings the repository's own names of definitions, lemmas and fields to today's spelling.

Words are in snake case; a dash joins two names of definitions or types, and a plain word is added with '_'. Types and modules keep their capitals. Run once, at
the top, after port.py. Prints each name that changes. Functions of src/, exported names and strings keep theirs.
"""
import re
import sys
from pathlib import Path

# Names that would fall together with another name, and names of the older library inside names.
SAID = {
    "first_count": "first_count_lem",
    "second_at": "second_at_lem",
    "laid_out": "laid_out_lem",
    "run_ends": "run_ends_lem",
    "runs_on": "runs_on_lem",
    "offset_at": "offset_at_lem",
    "ends_by": "ends_by_lem",
    "entry-of": "entry_of_lem",
    "at-once": "at_once_lem",
}
# Of these the fields of a record, which change behind a dot too; behind a dot the others name a function of src/.
FIELDS = {"first_count", "second_at"}

STD = set("""length take drop get_or set sum map append reverse range replicate suc zero not leb ltb eqb min max filter all any concat joined
first last cond""".split())
TOKEN = re.compile(r"[^\s(){}\[\].,;:\"«»·&]+")
SIGNATURE = re.compile(r"^\s*(?:(?:pub|abbrev|unfoldable|ruleset)\s+)*([^\s(){}\[\].,;:\"]+(?:\s+[^\s(){}\[\].,;:\"=]+)*)(?:\s+\{[^}]*\})?\s+:\s")
DATA = re.compile(r"^\s*(?:pub\s+)?(?:data|record|ruleset)\s+([^\s(){}:]+)")


def snake(word):
    """camelCase as snake_case."""
    word = word.replace("getD", "get_or")
    return re.sub(r"(?<=[a-z0-9'])([A-Z])(?![A-Z])", lambda m: "_" + m.group(1).lower(), word)


def sources(root):
    return [f for f in sorted(root.glob("crates/*/**/*.antt")) if "out" not in f.relative_to(root).parts]


def defined(root):
    """The names that specs and proofs define, and those of definitions in specs."""
    names, words = set(), set()
    for file in sources(root):
        if file.name == "Proof.antt":
            continue
        for line in file.read_text().splitlines():
            if line.lstrip().startswith(("--", "use ", "let ", "in ")):
                continue
            m = SIGNATURE.match(line)
            found = m.group(1).split() if m else []
            if m and "specs" in file.parts:
                words.update(found)
            names.update(found)
    return names, words


def imported(root):
    """The names that the library gives."""
    crates = {f.name for f in (root / "crates").iterdir()}
    found = set()
    for file in sources(root):
        for module, names in re.findall(r"^use (\S+)\.\{([^}]*)\}", file.read_text(), re.M):
            parts = module.split(".")
            if not (parts[0] == "Rattle" and len(parts) > 1 and parts[1] in crates):
                found.update(n.split(" as ")[0].strip() for n in names.split(","))
    return found


def respelled(name, words):
    if name in SAID:
        return SAID[name]
    parts = name.split("-")
    if "" in parts:
        return snake(name)
    isname = [p[:1].isupper() or p in words or snake(p) in words or p in STD or not re.match(r"[a-zA-Z]", p) for p in parts]
    out = snake(parts[0])
    for i in range(1, len(parts)):
        out += ("-" if isname[i - 1] and isname[i] else "_") + snake(parts[i])
    return out


def main():
    root = Path(sys.argv[1] if len(sys.argv) > 1 else ".")
    names, words = defined(root)
    spelled = {n: respelled(n, words) for n in sorted(names - imported(root)) if n[:1].islower() or n in SAID}
    spelled = {a: b for a, b in spelled.items() if a != b}
    # A lemma that would have its function's name.
    functions = {b for a, b in spelled.items() if "-" not in a and a not in SAID}
    spelled = {a: b + "_lem" if "-" in a and b in functions else b for a, b in spelled.items()}
    if "--list" in sys.argv:
        for a, b in spelled.items():
            print(a, b)
        return


    def turn(m):
        name = m.group(0)
        if name in SAID and name not in FIELDS and m.string[: m.start()].endswith("."):
            return name
        return spelled.get(name, name)

    def turn_source(m):
        return m.group(0) if m.group(0) in SAID else spelled.get(m.group(0), m.group(0))

    for file in sources(root):
        text = file.read_text()
        new = TOKEN.sub(turn, text)
        if new != text:
            file.write_text(new)
    for file in sorted(root.glob("crates/*/src/**/*.rt")) + sorted(root.glob("crates/*/must-fail/*.edit")):
        text = file.read_text()
        new = TOKEN.sub(turn_source, text)
        if new != text:
            file.write_text(new)
    for a, b in spelled.items():
        print(a, b)


main()
