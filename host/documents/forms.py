"""The names in the text of a document. These forms are taken for a name of the tree, and nothing else is:

    crates/PATH, host/PATH, docs/PATH, include/PATH, samples/PATH, .ci/PATH  a file or folder; the ending of a file of crates/ may be left out
    `SOME_PAGE.md`                                                           a page of docs/, or at the top
    CRATE/specs/FILE, and so for proofs, src and must-fail                   the same, of crates/
    `CRATE/NAME`                                                             a must-fail edit of the crate
    `CRATE::MODULE::NAME`, `CRATE::NAME`                                     a function, type, constant or module, by its path; not those of HOST
    CRATE: `NAME`, `NAME` and `NAME`                                         functions of the crate; `FILE.NAME` a law of its proofs/
    `NAME`, `NAME` and `NAME` of CRATE, of `CRATE` or of `CRATE::MODULE`     functions of the crate, or of the module; so `NAME` (crate CRATE)
    `NAME` and `NAME` (crates/PATH), `NAME` in crates/PATH                   declared in that file or folder; of crates/CRATE a function
    `NAME` and `NAME` (FILE)                                                 declared in a file of that name, where a crate has one
    (CRATE: FILE, FILE)                                                      files of the crate's specs/
    the law `NAME`, the laws `NAME` and `NAME`, the record `NAME`            declared somewhere
    `FILE.NAME`, `RECORD.FIELD`, where there is such a file or record        declared in a file of that name; both in one file
    | CRATE | .. specs/FILE, FILE ..                                         in a table's row: files of that crate
    | File of CRATE/specs | over a column                                    files of that folder
    `some_name`, `some-name`, `someName`, `SomeName`                         on the engine's pages: declared somewhere, in the C header, a folder of host/
"""
import re

from markdown import Prose, tables
from tree import ITEM

HOST = ("std", "core", "radar_archive")  # crates of Rust, and of host/
ENGINE = ("docs/ARCHITECTURE.md", "docs/DEMAND3.md", "docs/TRACE.md", "docs/TRUST.md")

LIST = r"`[^`\n]+`(?:(?:, and |, | and )`[^`\n]+`)*"
PATH = r"(?<![\w/.-])(?:crates|host|docs|include|samples|\.ci)/[\w./-]*\w"
PLACED = rf"({LIST})(?: \(| in |, (?:in )?| \| )({PATH})"
FILE = r"[A-Z]\w*"


def listed(text):
    return re.findall(r"`([^`]+)`", text)


def paths(tree, prose):
    for line, match in prose.found(PATH):
        if not tree.holds(match[0]):
            yield line, f"{match[0]} is not there"
    for line, match in prose.found(r"`([A-Z0-9_]+\.md)`"):
        if not (tree.exists("docs/" + match[1]) or tree.exists(match[1])):
            yield line, f"{match[1]} is not there"


def short_paths(tree, prose):
    for line, match in prose.found(r"(?<![\w/.-])(\w+)/((?:specs|proofs|src|must-fail)(?:/\w+)*)"):
        if match[1] in tree.crates() and not tree.holds("crates/" + match[0]):
            yield line, f"crates/{match[0]} is not there"
    for line, match in prose.found(r"`(\w+)/(\w+)`"):
        if match[1] in tree.crates() and not tree.has_edit(match[1], match[2]):
            yield line, f"{match[2]} is no must-fail edit of {match[1]}"


def by_path(tree, prose):
    for line, match in prose.found(r"`([a-z]\w*)((?:::\w+)+)`"):
        parts = tuple(match[2].split("::")[1:])
        if match[1] in HOST:
            continue
        if match[1] not in tree.crates():
            yield line, f"{match[1]} is no crate"
        elif parts not in tree.items(match[1]):
            yield line, f"{match[1]} has no {match[2][2:]}"


def after_crate(tree, prose):
    for line, match in prose.found(rf"(?<![\w`])(\w+): ({LIST})"):
        crate, file = match[1], None
        if crate not in tree.crates():
            continue
        for name in listed(match[2]):
            first, _, rest = name.partition(".")
            file = f"crates/{crate}/proofs/{first}.antt" if rest else file
            if file and not (tree.exists(file) and (rest or name) in tree.declared(file)):
                yield line, f"{rest or name} is not declared in {file}"
            elif not file and not tree.has_function(crate, name):
                yield line, f"{name} is no function of {crate}"


def of_crate(tree, prose):
    for line, match in prose.found(rf"({LIST})(?: of | \(crate )`?(\w+)((?:::\w+)*)`?"):
        crate, module = match[2], tuple(match[3].split("::")[1:])
        if crate not in tree.crates():
            continue
        for name in listed(match[1]):
            if not any(item[-1] == name and (not module or item[:-1] == module) for item in tree.items(crate)):
                yield line, f"{name} is no function of {crate}{match[3]}"


def placed(tree, prose):
    for line, match in prose.found(PLACED):
        if match[2].startswith("crates/"):
            absent = [name for name in listed(match[1]) if not stands(tree, match[2], name)]
            yield from ((line, f"{name} is not declared in {match[2]}") for name in absent)


def stands(tree, path, name):
    """A function of crates/CRATE or of a source; elsewhere a name, `FILE.NAME` or `RECORD.FIELD` that a file or folder declares."""
    _, crate, *inner = path.split("/")
    if path.endswith(".rt"):
        return tree.exists(path) and name in ITEM.findall(tree.read(path))
    if inner in ([], ["src"]):
        return tree.has_function(crate, name)
    file = path if tree.exists(path) else path + ".antt"
    return tree.exists(file) and tree.declares(file, name.removeprefix(inner[-1].removesuffix(".antt") + "."))


def in_file(tree, prose):
    for line, match in prose.found(rf"({LIST})(?: \(|, in )({FILE})\)"):
        files = named(tree, match[2])
        if files:
            yield from ((line, f"{name} is not declared in {match[2]}") for name in listed(match[1]) if not any(tree.declares(file, name) for file in files))


def named(tree, file):
    return [path for path in tree.files("crates", ".antt") if path.endswith(f"/{file}.antt")]


def files_of_crate(tree, prose):
    for line, match in prose.found(rf"\((\w+): ({FILE}(?:, {FILE})*)\)"):
        if match[1] in tree.crates():
            absent = [file for file in match[2].split(", ") if not tree.exists(f"crates/{match[1]}/specs/{file}.antt")]
            yield from ((line, f"{file} is no file of crates/{match[1]}/specs") for file in absent)


def called_law(tree, prose):
    for line, match in prose.found(rf"\b(?:[Ll]aws?|records?|theorems?) ({LIST})"):
        for name in listed(match[1]):
            if not (tree.declares("crates", name) or "." in name):
                yield line, f"{name} is declared nowhere"


def dotted(tree, prose):
    for line, match in prose.found(rf"`({FILE})\.([a-zA-Z][\w-]*)`"):
        files = named(tree, match[1])
        if match[2] == "antt" or not (files or tree.declares("crates", match[1])):
            continue
        if not (any(tree.declares(file, match[2]) for file in files) or tree.declares("crates", match[0][1:-1])):
            yield line, f"{match[0]} is declared nowhere"


def rows_of_files(tree, text):
    for head, rows in tables(text):
        folder = re.fullmatch(r"File of (\w+/\w+)", head[0])
        for line, cells in rows:
            if folder:
                said = [f"crates/{folder[1]}/{file}" for file in cells[0].split(", ")]
            else:
                said = [path for cell in cells[1:] for chunk in cell.split("; ") for path in files_in(tree, cells[0], chunk)]
            yield from ((line, f"{path} is not there") for path in said if not tree.holds(path))


def files_in(tree, first, chunk):
    """The paths that `specs/FILE, FILE` names; the crate is that before a colon, or the one that the row's first cell begins with."""
    crate = (re.match(r"(\w+): ", chunk) or re.match(r"(\w*)", first))[1]
    if crate in tree.crates():
        for folder, files in re.findall(r"(?<![\w/])(specs|proofs|src)/([\w.]+(?:, [\w.]+(?![\w./]))*)", chunk):
            yield from (f"crates/{crate}/{folder}/{file}" for file in files.split(", "))


def somewhere(tree, prose):
    for line, match in prose.found(r"`([A-Z]\w+|[a-z][a-z0-9]*(?:[_-]|[A-Z])[\w-]*)`"):
        if not (match[1] in tree.everything() or tree.exists("host/" + match[1])):
            yield line, f"{match[1]} is declared nowhere"


FORMS = [paths, short_paths, by_path, after_crate, of_crate, placed, in_file, files_of_crate, called_law, dotted]


def problems(tree, document):
    text = tree.read(document)
    prose = Prose(text)
    found = [each for form in FORMS + [somewhere] * (document in ENGINE) for each in form(tree, prose)] + list(rows_of_files(tree, text))
    return [f"{document}:{line}: {reason}" for line, reason in sorted(set(found))]
