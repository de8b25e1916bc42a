"""The tables that have a row for each crate: README.md's folders, and docs/CHECK_TIMES.md."""
from markdown import names, tables


def rows_of(tree, document, head):
    """The rows of the one table of a document that has a head."""
    return next(rows for cells, rows in tables(tree.read(document)) if cells[0] == head)


def in_order(tree):
    """Line number and name of each crate in README's table of folders: `crates/NAME`, and the names after it in its cell."""
    for number, cells in rows_of(tree, "README.md", "Folder"):
        said = names(cells[0])
        if said[0].startswith("crates/"):
            yield from ((number, name.removeprefix("crates/")) for name in said)


def same_crates(tree, document, said):
    """The crates of crates.txt that a document leaves out, those it has too often, and what is no crate."""
    found = [f"{document} leaves out {crate}" for crate in tree.crates() if crate not in said]
    found += [f"{document} has {crate}, which crates.txt has not" for crate in said if crate not in tree.crates()]
    return found + [f"{document} has {crate} twice" for crate in sorted(set(said)) if said.count(crate) > 1]


def folders(tree):
    return same_crates(tree, "README.md", [crate for _, crate in in_order(tree)])


def imports(tree):
    """A crate imports only what stands above it in README's table, or before it in its row."""
    found, above = [], set()
    for number, crate in in_order(tree):
        below = [need for need in tree.crates().get(crate, ()) if need in tree.crates() and need not in above]
        found += [f"README.md:{number}: {crate} imports {need}, which does not stand above it" for need in below]
        above.add(crate)
    return found


def check_times(tree):
    """Names only; the seconds are those of the run that the page names."""
    document = "docs/CHECK_TIMES.md"
    return same_crates(tree, document, [cells[0] for _, cells in rows_of(tree, document, "Crate")])
