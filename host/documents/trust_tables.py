"""docs/TRUST.md, section 1: its two tables have every file that a public contract cites and, but for what laws and theorems cite, no other."""
import re

from contracts import Unfound, files_cited
from markdown import names, tables
from tree import ITEM

DOCUMENT = "docs/TRUST.md"


def files_of(cell, crate):
    """The files that a first cell names: `specs/A, B` are two; a name with a folder begins anew, and so does one with its crate."""
    found, folder = [], None
    for word in cell.split(", "):
        whole = re.fullmatch(r"(?:(crates/\w+)/)?(?:(specs|src)/)?([\w.]+)", word)
        crate, folder = whole[1] or crate, whole[2] or folder
        found.append(f"{crate}/{folder}/{whole[3]}" + ("" if "." in whole[3] else ".antt"))
    return found


def listed(tree):
    """Line number and files of a row, the names in backticks of what it says, and who cites it."""
    section = tree.read(DOCUMENT).split("\n## 2.")[0]
    for head, rows in tables(section):
        crate = head[0] if head[0].startswith("crates/") else None
        for number, (first, says, by) in rows:
            yield number, files_of(first, crate), names(says), by


def declarations(tree, path):
    return tree.declared(path) if path.endswith(".antt") else ITEM.findall(tree.read(path))


def rows_hold(tree):
    """The files of a row are there, and declare the names that it says."""
    for number, paths, said, _ in listed(tree):
        there = [path for path in paths if tree.exists(path)]
        yield from (f"{DOCUMENT}:{number}: {path} is not there" for path in paths if path not in there)
        for name in said:
            if not any(name in declarations(tree, path) for path in there):
                yield f"{DOCUMENT}:{number}: {name} is not declared in {', '.join(paths)}"


def problems(tree):
    found = list(rows_hold(tree))
    try:
        cited = files_cited(tree)
    except Unfound as reason:
        return found + [str(reason)]
    files = {path for _, paths, _, _ in listed(tree) for path in paths}
    found += [f"{DOCUMENT}: no row has {path}, which {by} cites" for path, by in cited.items() if path not in files]
    for number, paths, _, by in listed(tree):
        if not by.startswith(("the law", "the theorems")):  # what laws and theorems alone cite
            found += [f"{DOCUMENT}:{number}: no public contract cites {path}" for path in paths if path not in cited]
    return found
