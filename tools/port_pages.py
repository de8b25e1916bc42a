#!/usr/bin/env python3
"""Brings the names of definitions, lemmas and fields in pages and in the comments of host/ and include/ to their spelling since the port.

Run at the top, again where more names have changed. What each name became is read from the commits that docs/PORT.md names: a file of specs/ or proofs/ declares the same things in the same
order before port.py and after tools/port_names.py; a spelling that changed after that is seen in the files as they stand. A name in backticks changes wherever it stands as a whole word; elsewhere only one with a capital within,
since one with a dash may be a word of the language. Prints what changes, and the names that have become several things, which stay.
"""
import collections
import re
import subprocess
import sys
from pathlib import Path

DECLARED = re.compile(r"^( *)(?:(?:unfoldable|abbrev|pub|opaque|ruleset) )*(?:(?:record|data|ruleset) ([^\s(:]+)|([^\s(){}:=]+)(?: \{[^}]*\})* :(?= |$))", re.MULTILINE)
PAGES = ("README.md", "CHANGELOG.md", "docs/*.md", "docs/changes/*.md", "docs/performance/*.md", "host/**/*.md")
SOURCES = ("host/**/*.rs", "host/**/*.py", "host/**/*.c", "host/**/*.h", "host/**/*.cpp", "include/*.h")
# A whole word, or what stands behind the dot of `File.name`; no part of a path or an option.
TOKEN = re.compile(r"(?<![\w/'′-])[A-Za-z][\w'′]*(?:-[\w'′]+)*(?![\w'′/-])")


def shown(commit, path):
    return subprocess.run(["git", "show", f"{commit}:{path}"], capture_output=True, text=True, check=True).stdout


def declared(text):
    return [found[2] or found[3] for found in DECLARED.finditer(text) if not found[0].lstrip().startswith(("--", "use "))]


def letters(name):
    """What a respelling of a name leaves as it is."""
    return name[:1] + re.sub("[-_]", "", name[1:]).lower()


def renamed():
    """The names that changed, each with what it became."""
    lines = Path("docs/PORT.md").read_text().splitlines()
    landed, ported, unfinished = (re.search(r"[0-9a-f]{40}", line)[0] for line in lines[:3])
    found, later = collections.defaultdict(set), {}
    names = subprocess.run(["git", "ls-tree", "-r", "--name-only", ported, "crates"], capture_output=True, text=True, check=True).stdout.split()
    for path in names:
        if not path.endswith(".antt") or path.endswith(("Proof.antt", "Lib.antt")):
            continue
        for before in (landed, unfinished):
            try:
                one, other = declared(shown(before, path)), declared(shown(ported, path))
            except subprocess.CalledProcessError:
                continue
            if len(one) != len(other):
                print(f"{path}: {len(one)} declarations and then {len(other)}")
                continue
            for old, new in zip(one, other):
                found[old].add(new)
        if not Path(path).exists():
            continue
        now = declared(Path(path).read_text())
        for name in set(other) - set(now):
            alike = {other for other in now if letters(other) == letters(name)}
            if len(alike) == 1:
                later[name] = alike.pop()
    found = {old: {later.get(new, new) for new in found[old]} for old in found}
    for several in sorted(old for old in found if len(found[old]) > 1):
        print(f"{several} became {' and '.join(sorted(found[several]))}")
    return {old: new for old, (new, *more) in found.items() if not more and old != new}


def turned(text, names, in_ticks):
    """The text with the names that stand in it as whole words, and what changed."""
    said = collections.Counter()

    def turn(match):
        word = match[0]
        if word not in names or not (in_ticks or re.search(r"[a-z0-9][A-Z]", word)):
            return word
        said[word] += 1
        return names[word]

    return TOKEN.sub(turn, text), said


def main():
    names = renamed()
    if "--list" in sys.argv:
        for old, new in sorted(names.items()):
            print(old, new)
        return
    for pattern in PAGES + SOURCES:
        for path in sorted(Path(".").glob(pattern)):
            if {"target", "out", "corpus"} & set(path.parts) or path.name == "PORT.md":
                continue
            text, counts = path.read_text(), collections.Counter()
            is_page, fenced, lines = path.suffix == ".md", False, []
            for line in text.split("\n"):
                if is_page and line.lstrip().startswith("```"):
                    fenced = not fenced
                comment = is_page or re.search(r"//|/\*|^ *\*|#|\"\"\"", line)
                parts = re.split(r"(`[^`]*`)", line) if comment and not fenced else [line]
                if comment and not fenced:
                    for at, part in enumerate(parts):
                        parts[at], said = turned(part, names, in_ticks=at % 2 == 1)
                        counts.update(said)
                lines.append("".join(parts))
            new = "\n".join(lines)
            if new != text:
                path.write_text(new)
                print(f"{path}: " + ", ".join(f"{old} {names[old]}" for old in sorted(counts)))


if __name__ == "__main__":
    main()
