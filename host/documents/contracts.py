"""The files that the contracts of the public calls cite: followed from the names in a contract through the imports to their definitions, and on."""
import re

from tree import DECLARED

# The public calls: every `pub fn` of a crate, or those named.
PUBLIC = {"reading": None, "making": None, "writing": None, "opened": None, "lent_parts": None, "exports": None, "listing": {"list"}, "header": {"position_at", "coordinates_at"}}

# `use Rattle.CRATE.specs.File.{a, b}`; `.. as x` in place of the names.
USE = re.compile(r"^(?:ghost )?use Rattle\.(\w+)\.([\w.-]+?)(?:\.\{([^}]*)\}| as (\w+));?$", re.MULTILINE)
PUBLIC_FUNCTION = r"^pub (?:extern \"C\" )?fn (\w+)"
WITH_CONTRACT = re.compile(PUBLIC_FUNCTION + r"((?:(?!^\}).)*?)^\{", re.MULTILINE | re.DOTALL)  # up to the body, which begins a line
WORD = re.compile(r"[^\s(){};,.λ]+")


class Unfound(Exception):
    """A name that leads nowhere."""


def file_of(crate, module):
    """specs.File is a file of specs/; specs.declared.Type comes of the type's source."""
    parts = module.split(".")
    if "declared" in parts:
        inner = [part for part in parts[parts.index("declared") + 1:] if part[0].islower()]
        return f"crates/{crate}/src/{'/'.join(inner) or 'lib'}.rt"
    return f"crates/{crate}/{'/'.join(parts)}.antt"


def imports(text, file, crates):
    """The names imported of these crates with their files, and the files that have a short name."""
    by_name, short = {}, {}
    if len(USE.findall(text)) != len(re.findall(r"^.*\buse Rattle\.", text, re.MULTILINE)):
        raise Unfound(f"{file} has an import of another form than those that are followed")
    for crate, module, listed, other in USE.findall(text):
        if crate not in crates:
            continue
        if other:
            short[other] = file_of(crate, module)
        for name in filter(None, (name.strip() for name in listed.split(","))):
            by_name[name.split(" as ")[-1]] = (file_of(crate, module), name.split(" as ")[0])
    return by_name, short


def cited(text, names):
    """Those of the names that a text cites. Of `◌++◌` each piece has to stand there."""
    words = set(WORD.findall(re.sub(r"--.*", "", text)))
    return [name for name in names if name in words or "◌" in name and set(filter(None, name.split("◌"))) <= words]


class Closure:
    """What is reached: file and name, with who cites it first."""

    def __init__(self, tree):
        self.tree, self.reached = tree, {}

    def follow(self, text, file, own=()):
        """Everything that a text cites by the imports and the declarations of its file."""
        by_name, short = imports(self.tree.read(file), file, self.tree.crates())
        for name in cited(text, by_name):
            self.reach(*by_name[name], file)
        for other in short:
            for name in re.findall(rf"(?<![\w.]){other}\.([^\s(){{}};,.]+)", text):
                self.reach(short[other], name, file)
        for name in cited(text, own):
            self.reach(file, name, file)

    def reach(self, file, name, by):
        if (file, name) in self.reached:
            return
        self.reached[file, name] = by
        if not self.tree.exists(file):
            raise Unfound(f"{by} imports {name} of {file}, which is not there")
        if file.endswith(".rt"):
            return
        declared = self.tree.declared(file)
        if name not in declared:
            raise Unfound(f"{by} imports {name}, which {file} does not declare")
        self.follow(self.whole(declared, name), file, [other for other in declared if other != name])

    @staticmethod
    def whole(declared, name):
        """The text of a definition; of a field or constructor, that of what it belongs to."""
        return "".join(text for text in declared.values() if any(found and name in found.groups() for found in map(DECLARED.match, text.splitlines())))


def public_files(tree, crate):
    """The sources of a crate that others can call: lib.rt, and its public modules."""
    library = tree.read(f"crates/{crate}/src/lib.rt")
    return [path for path in tree.files(f"crates/{crate}/src", ".rt") if not re.search(rf"^mod {path.split('/')[-1][:-3]};", library, re.MULTILINE)]


def public_contracts(tree):
    """File, name and contract of each public call."""
    for crate, only in PUBLIC.items():
        missing = [name for name in sorted(only or ()) if not tree.has_function(crate, name)]
        if missing:
            raise Unfound(f"{missing[0]} is no function of {crate}")
        for path in public_files(tree, crate):
            heads = dict(WITH_CONTRACT.findall(tree.read(path)))
            for name in re.findall(PUBLIC_FUNCTION, tree.read(path), re.MULTILINE):
                if only is not None and name not in only:
                    continue
                if "ensures" not in heads.get(name, ""):
                    raise Unfound(f"{path}: {name} has no contract")
                yield path, name, heads[name]


def files_cited(tree):
    """The files that the public contracts cite, each with who cites it first."""
    closure = Closure(tree)
    for path, _, head in public_contracts(tree):
        closure.follow(head, path)
        for name in re.findall(r"\b[A-Z]\w*", head):  # types of arguments and answers that the crate declares itself
            if re.search(rf"^pub (?:struct|enum|type) {name}\b", tree.read(path), re.MULTILINE):
                closure.reached.setdefault((path, name), path)
    files = {}
    for (file, _), by in closure.reached.items():
        files.setdefault(file, by)
    return files
