"""The tree as the documents speak of it: crates, definitions and laws, functions, must-fail edits."""
import functools
import re
from pathlib import Path

TOP = Path(__file__).resolve().parents[2]

# A declaration in specs/ or proofs/: `pub record NAME ..`, `abbrev pub NAME : ..`, a field or a constructor `pub NAME : ..`.
DECLARED = re.compile(r"( *)(?:(?:unfoldable|abbrev|pub|opaque) )*(?:(?:record|data) ([^\s(:]+)|([^\s(){}:=]+)(?: \{[^}]*\})* :(?= |$))")
# What a source declares: it begins a line.
ITEM = re.compile(r"^(?:pub )?(?:extern \"C\" )?(?:fn|struct|enum|const|type|mod) (\w+)", re.MULTILINE)


class Tree:
    """A tree of files. `changed` lays other texts over some of them, by path; None takes a file away."""

    def __init__(self, top=TOP, changed=()):
        self.top, self.changed = Path(top), dict(changed)
        self.declared = functools.cache(self.declared)
        self.items = functools.cache(self.items)
        self.files = functools.cache(self.files)
        self.crates = functools.cache(self.crates)
        self.everything = functools.cache(self.everything)

    def read(self, path):
        return self.changed[path] if path in self.changed else (self.top / path).read_text()

    def exists(self, path):
        """Whether there is such a file or folder."""
        if path in self.changed:
            return self.changed[path] is not None
        return (self.top / path).exists() or any(other.startswith(path + "/") for other in self.changed)

    def files(self, folder, ending):
        """The paths of all files below a folder that have an ending, in order; not of crates/NAME/out, which a check writes."""
        found = {str(path.relative_to(self.top)) for path in (self.top / folder).rglob("*" + ending)}
        found |= {path for path in self.changed if path.startswith(folder + "/") and path.endswith(ending)}
        return sorted(path for path in found if self.exists(path) and not re.match(r"crates/\w+/out/", path))

    def crates(self):
        """What each crate of crates.txt may import, in the order of the list."""
        lines = [line for line in self.read("crates.txt").splitlines() if line.strip() and not line.startswith("#")]
        return {name.split()[0]: needs.split() for name, needs in (line.split(":") for line in lines)}  # `NAME staticlib` is NAME

    def declared(self, path):
        """The names that a file of specs/ or proofs/ declares, each with the text from there to the next of its depth."""
        texts, open_at = {}, {}
        for line in self.read(path).splitlines():
            if line.lstrip().startswith(("--", "use ")):
                continue
            found = DECLARED.match(line)
            if found:
                depth, name = len(found[1]), found[2] or found[3]
                open_at = {at: other for at, other in open_at.items() if at < depth}
                open_at[depth] = name
                texts.setdefault(name, "")
            for name in open_at.values():
                texts[name] += line + "\n"
        return texts

    def declares(self, path, name):
        """Whether a file, or one of a folder, declares a name; `Record.field` is both."""
        paths = [path] if path.endswith(".antt") else self.files(path, ".antt")
        return any(all(part in self.declared(one) for part in name.split(".")) for one in paths)

    def items(self, crate):
        """The functions, types, constants and modules of a crate, by the path of their module, as (module.., name)."""
        found, source = set(), f"crates/{crate}/src/"
        for path in self.files(source.rstrip("/"), ".rt"):
            module = tuple(path[len(source):-len(".rt")].split("/"))
            module = module[:-1] if module[-1] in ("lib", "main") else module
            found |= {(*module, name) for name in ITEM.findall(self.read(path))}
        return found

    def holds(self, path):
        """Whether there is such a file or folder, a file's ending left out or not."""
        return any(self.exists(path + ending) for ending in ("", ".antt", ".rt", ".edit"))

    def has_function(self, crate, name):
        return any(item[-1] == name for item in self.items(crate))

    def has_edit(self, crate, name):
        return self.exists(f"crates/{crate}/must-fail/{name}.edit")

    def everything(self):
        """Every name that some crate declares, in whatever folder, or imports of the language's library; the crates' own; every word of the C header."""
        found = set(self.crates()) | set(re.findall(r"\w+", self.read("include/radar_archive.h")))
        for crate in self.crates():
            found |= {part for item in self.items(crate) for part in item}
        for path in self.files("crates", ".antt"):
            found |= {path.split("/")[-1].removesuffix(".antt"), *self.declared(path)}
            found |= {name.strip() for names in re.findall(rf"^use (?!Rattle\.(?:{'|'.join(self.crates())})\.).*\{{(.*)\}}", self.read(path), re.MULTILINE)
                      for name in names.split(",")}
        return found | {path.split("/")[-1].removesuffix(".edit") for path in self.files("crates", ".edit")}
