"""A small tree of texts, in which nothing is wrong, and the same with one fault."""
from tree import Tree

RECORD = """-- Assumes nothing.
use Rattle.format.specs.Tools.{pick}
use Rattle.format.specs.declared.Answer.{Answer}

pub record Made (n : ℕ) : Type 0 where
  pub number : pick n ≡ 0
  pub said : Answer

abbrev pub twice : ℕ → ℕ
twice n = n + n
"""
CALL = """ghost use Rattle.format.specs.Calls.{Made};

// Makes.
pub fn make(n: u32) -> u32
    ensures { Made result }
{
    n
}
"""
TRUST = """## 1. The definitions

| crates/format | Says | Cited by |
|---|---|---|
| src/lib.rt | `Answer` | Calls |
| specs/Tools, Calls | `pick`, `Made` | making |
| specs/Sample | rows | the theorems on the rows |

## 2. The checker
"""
TRACE = """| No. | Sentence | Definition | Law | Must-fail | Contract, function |
|---|---|---|---|---|---|
| 1 | Make. | `Calls.Made` (`number`), `twice`; declared `Answer` | `Calls.made-once` | made_up | making: `make`, must-fail `copies` |
"""
README = """| Folder | What it holds |
|---|---|
| `crates/format` | definitions |
| `crates/wire`, `making` | code |
| `include` | the C header |
"""
NONE = "pub fn {}()\n    ensures {{ }}\n{{\n}}\n"
OTHERS = {
    **{f"crates/{crate}/src/lib.rt": "" for crate in ("reading", "writing", "opened", "lent_parts", "exports")},
    "crates/listing/src/lib.rt": NONE.format("list"),
    "crates/header/src/lib.rt": NONE.format("position_at") + NONE.format("coordinates_at"),
}
FILES = {
    "crates.txt": "# the crates\nformat:\nwire: format\nmaking: format wire io\n",
    "crates/format/src/lib.rt": "pub struct Answer {\n}\n",
    "crates/format/specs/Tools.antt": "abbrev pub pick {ℓ} : {X : Type ℓ} → X → X\npick x = x\n",
    "crates/format/specs/Calls.antt": RECORD,
    "crates/format/specs/Sample.antt": "abbrev pub rows : List ℕ\nrows = []\n",
    "crates/format/must-fail/made_up.edit": "",
    "crates/laws/proofs/Calls.antt": "module _ (n : ℕ) where\n  made-once : Made n\n  made-once = n\n",
    "crates/making/src/lib.rt": "pub mod make;\nmod inner;\n",
    "crates/making/src/make.rt": CALL,
    "crates/making/src/inner.rt": "pub fn hidden(n: u32) -> u32\n    ensures { gone result }\n{\n    n\n}\n",
    "crates/making/must-fail/copies.edit": "",
    "include/radar_archive.h": "uint32_t ra_word(void);\n",
    "docs/TRUST.md": TRUST,
    "docs/TRACE.md": TRACE,
    "docs/CHECK_TIMES.md": "| Crate | Seconds |\n|---|---|\n| format | 1 |\n| wire | 2 |\n| making | 3 |\n",
    "README.md": README,
    **OTHERS,
}


def made(path=None, old="", new=""):
    """The small tree, in one of its files a text in place of another, which has to be there."""
    if path is None:
        return Tree("/nowhere", FILES)
    assert old in FILES[path], f"{path} has no {old}"
    return Tree("/nowhere", FILES | {path: FILES[path].replace(old, new)})


def page(text):
    """The small tree, with a page of a text."""
    return Tree("/nowhere", FILES | {"docs/DEMAND3.md": text})
