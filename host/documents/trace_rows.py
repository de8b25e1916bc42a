"""The rows of docs/TRACE.md, by the rules of its own "How to read a row": a name stands in the file, the crate and the folder that its column says."""
import re

from forms import PLACED
from markdown import names, tables

DOCUMENT = "docs/TRACE.md"
HEADS = {
    ("No.", "Sentence", "Definition", "Law", "Must-fail", "Contract, function"): ("definitions", "laws", "edits", "functions"),
    ("No.", "Sentence", "Where", "Contract, function"): ("definitions", "functions"),
}
# A name of the tree; `length (kept E ws)` and `[]` are expressions.
NAME = re.compile(r"[A-Za-z][\w.′-]*")


def pieces(cell):
    """The names of a cell in order, each with whether it stands in brackets and whether "declared" stands before it."""
    depth, declared, found = 0, False, []
    for token in re.findall(r"`[^`]*`|[();]|\bdeclared\b", cell):
        depth += (token == "(") - (token == ")")
        declared = (declared or token == "declared") and token != ";"
        if token[0] == "`" and NAME.fullmatch(token[1:-1]):
            found.append((token[1:-1], depth > 0, declared))
    return found


def files_and_names(tree, folder, cell):
    """`File.name` is in that file of the folder, and so are the names after it up to another file. A name in brackets is a part of the definition
    before it, or cited by it."""
    file, text = None, ""
    for name, bracketed, declared in pieces(cell):
        first, _, rest = name.partition(".")
        path = f"{folder}/{first}.antt"
        if declared:
            if not tree.has_function("format", name):
                yield f"{name} is no type of crates/format/src"
        elif bracketed:
            if not (re.search(rf"(?<![\w-]){re.escape(name)}(?![\w-])", text) or is_field(tree, name)):
                yield f"({name}) is no part of what stands before it"
        elif rest or file is None:
            file = path
            if not tree.exists(path):
                yield f"{name}: {path} is not there"
            elif rest and rest not in tree.declared(path):
                yield f"{rest} is not declared in {path}"
            text = tree.declared(path).get(rest, "") if tree.exists(path) else ""
        elif not tree.exists(file) or name not in tree.declared(file):
            if tree.exists(path):
                file = path
            else:
                yield f"{name} is not declared in {file}"
        else:
            text = tree.declared(file)[name]


def is_field(tree, name):
    """A field of a record that a law concludes."""
    return any(tree.declares(folder, name) for folder in ("crates/format/specs", "crates/laws/proofs"))


def definitions(tree, cell):
    return files_and_names(tree, "crates/format/specs", re.sub(PLACED, "", cell))


def laws(tree, cell):
    """Laws of crates/laws, or of the crate before a colon."""
    for chunk in cell.split(";"):
        crate = re.match(r" *(\w+): ", chunk)
        yield from files_and_names(tree, f"crates/{crate[1] if crate else 'laws'}/proofs", chunk)


def edits(tree, cell):
    for name in re.sub(r" \([^)]*\)", "", cell).split(", "):
        if name != "-" and not tree.has_edit("format", name):
            yield f"{name} is no must-fail edit of format"


def functions(tree, cell):
    """`crate, crate: names`, functions first, then must-fail edits; a name in brackets is one that the function's contract cites."""
    for chunk in cell.split(";"):
        head = re.match(r" *(\w+(?:, \w+)*): ", chunk)
        if not head:
            if names(chunk):
                yield f"no crate stands before {names(chunk)[0]}"
            continue
        for crate in head[1].split(", "):
            yield from in_crate(tree, crate, chunk[head.end():])


def in_crate(tree, crate, said):
    if crate not in tree.crates():
        yield f"{crate} is no crate"
        return
    plain, *refused = re.sub(r"\([^)]*\)", "", said).split("must-fail ")
    yield from (f"{name} is no function of {crate}" for name in names(plain) if not tree.has_function(crate, name))
    yield from (f"{name} is no must-fail edit of {crate}" for name in names("".join(refused)) if not tree.has_edit(crate, name))
    for bracketed in re.findall(r"\(([^)]*)\)", said):
        yield from (f"({name}) is declared nowhere" for name in names(bracketed) if not tree.declares("crates", name))


def problems(tree):
    found, readers = [], {"definitions": definitions, "laws": laws, "edits": edits, "functions": functions}
    for head, rows in tables(tree.read(DOCUMENT)):
        columns = HEADS.get(tuple(head))
        if columns is None:
            found.append(f"{DOCUMENT}: a table with the head {head}")
            continue
        for number, cells in rows:
            if len(cells) != len(head):
                found.append(f"{DOCUMENT}:{number}: {len(cells)} cells")
            for column, cell in zip(columns, cells[2:]):
                found += [f"{DOCUMENT}:{number}: {reason}" for reason in readers[column](tree, cell)]
    return found
