#!/usr/bin/env python3
"""Lists the places in crates/*/src that an older language left, by the points of docs/DESIGN-PASS.md.

    tools/places.py [-v] [POINT ..]

prints how many there are of each kind, and with -v where. What it cannot tell from the text (whether two functions differ only in a constant, say) it takes from
the lists below, by name; a name that is gone is not counted.
"""
import re
import sys
from pathlib import Path

TOP = Path(__file__).resolve().parent.parent
FN = re.compile(r"^( *)(?:pub(?:\(crate\))? )?(?:extern \"C\" )?fn (\w+)", re.M)


def sources():
    for path in sorted(TOP.glob("crates/*/src/**/*.rt")):
        yield path, path.read_text()


def functions(text):
    """Name, line, head (signature and clauses) and body of each function."""
    starts = list(FN.finditer(text))
    for at, m in enumerate(starts):
        end = starts[at + 1].start() if at + 1 < len(starts) else len(text)
        piece = text[m.start():end]
        # the body begins at the first line that is an opening brace alone
        brace = re.search(r"^ *\{$|\{$", piece, re.M)
        cut = brace.start() if brace else len(piece)
        yield m.group(2), text.count("\n", 0, m.start()) + 1, piece[:cut], piece[cut:]


def where(path, line, what):
    return f"{path.relative_to(TOP)}:{line}: {what}"


def lines(pattern, text):
    for m in re.finditer(pattern, text, re.M):
        yield text.count("\n", 0, m.start()) + 1, m.group(0).strip()


# ---- point 1

def refusing_cases():
    "enums of the shape of Result or Option: a case `Refused` with a number"
    for path, text in sources():
        for line, what in lines(r"^    Refused\(u32\),", text):
            yield where(path, line, what)


def signal_constants():
    "constants of numbers that name refusals, questions or 'none'"
    for path, text in sources():
        for line, what in lines(r"^pub const (SHORT|KIND|SETTING|EXTENT|COUNTS|BODY|PICTURE|BEYOND|UNFIT|SMALL|OTHER|PLACE|RANK|RUN|NOWHERE|NO_TARGET)\b.*", text):
            yield where(path, line, what)


def number_answers():
    "functions that answer a refusal as a number, 0 where there is none (the exported ones aside)"
    for path, text in sources():
        for name, line, head, body in functions(text):
            if "extern" in head or not re.search(r"-> u32\b", head):
                continue
            if re.search(r"return (SHORT|KIND|SETTING|EXTENT|COUNTS|BODY|PICTURE|BEYOND|UNFIT|SMALL|OTHER|number|unfit)\b|\.number$|^    (SETTING|BODY|BEYOND)$|Refused\(number\)|^    put_info|^    recoded|^    range_number|checked::check\(file\)\.number", body, re.M):
                yield where(path, line, name)


def zero_for_none():
    "functions whose 0 stands for none"
    names = {"cell_count", "box_count", "end_before"}
    for path, text in sources():
        for name, line, head, body in functions(text):
            if name in names and re.search(r"-> u32\b", head):
                yield where(path, line, name)


def flagged():
    "structs with a flag beside the values that it speaks of"
    for path, text in sources():
        for m in re.finditer(r"^(?:pub )?struct (\w+) \{\n((?:    .*\n)*?)\}", text, re.M):
            if re.search(r"^    (?:pub )?\w+: bool,", m.group(2), re.M) or re.search(r"^    pub number: u32,", m.group(2), re.M):
                yield where(path, text.count("\n", 0, m.start()) + 1, m.group(1))


def kind_matches():
    "matches and comparisons on a kind's number"
    for path, text in sources():
        for line, what in lines(r"^.*\bmatch kind \{|^.*\bkind == \d.*", text):
            yield where(path, line, what)


# ---- point 2

TWINS = [
    "get_u8 get_u16 get_u32", "load_u8 load_u16 load_u32", "put_u8 put_u16 put_u32", "zeros_u8 zeros_u16", "few_zeros_u8 few_zeros_u16", "block_u8 block_u16",
    "falls_u8 falls_u16", "last_u8 last_u16", "put_offsets_u8 put_offsets_u16", "sums_u8 sums_u16", "put_differences_u8 put_differences_u16",
    "along_u8 along_u16", "parts_ended parts_below", "run_at run_with",
]
# functions that say what a function of another crate, or of the library, says already
DOUBLES = {
    ("picture", "lesser"): "wire's lesser", ("box_rows", "fill_from"): "fill", ("scatter", "fill_range"): "fill", ("scatter", "fill"): "fill of a slice",
    ("lister_cases", "read_full"): "lister's read_full", ("c_values", "put_numbers"): "copy_from_slice", ("text", "put_bytes"): "copy_from_slice",
    ("stores", "copy"): "copy_from_slice", ("kinds", "has_jumps"): "by_walk", ("descent", "less"): "saturating_sub", ("wire", "lesser"): "min",
    ("c_values", "position_code"): "cell_code", ("lent_parts", "same_batch"): "equality of slices",
}


def twins():
    "families of functions that differ in a width or in what is counted"
    have = {}
    for path, text in sources():
        crate = path.relative_to(TOP).parts[1]
        for name, line, head, body in functions(text):
            have.setdefault(crate, {})[name] = where(path, line, name)
    for family in TWINS:
        for crate, names in have.items():
            found = [names[n] for n in family.split() if n in names]
            if len(found) > 1:
                yield found[0] + " with " + " ".join(f.split(": ")[1] for f in found[1:])


def doubles():
    "functions that another function or the library has"
    for path, text in sources():
        crate = path.relative_to(TOP).parts[1]
        for name, line, head, body in functions(text):
            if (crate, name) in DOUBLES and not (name in ("copy",) and "while" not in body) and not (name in ("put_bytes", "put_numbers") and "while" not in body) \
                    and not (name == "position_code" and "match" not in body) and not (name == "same_batch" and "while" not in body):
                yield where(path, line, f"{name} ({DOUBLES[crate, name]})")


# ---- point 3

def loops():
    for path, text in sources():
        for m in re.finditer(r"^( *)(while .*|loop) \{\n", text, re.M):
            end = re.search(r"^" + m.group(1) + r"\}", text[m.end():], re.M)
            yield path, text.count("\n", 0, m.start()) + 1, m.group(2), text[m.end():m.end() + (end.start() if end else 0)], m.group(1)


def counted(test, body, indent):
    """Whether a variable of the test goes on by a constant at each turn."""
    for m in re.finditer(r"^" + indent + r"    (\w+) [+-]= (\d+|GROUP|chunk|stride);", body, re.M):
        if re.search(r"\b" + m.group(1) + r"\b", test):
            return True
    return bool(re.search(r"^" + indent + r"    i = next;", body, re.M))


def counted_loops():
    "loops that count an index by hand: a variable of the test goes on by a constant"
    for path, line, test, body, indent in loops():
        if counted(test, body, indent):
            yield where(path, line, test)


def other_loops():
    "loops whose step is found by the body, and loops over digits or levels (no places of the point, listed to be read)"
    for path, line, test, body, indent in loops():
        if not counted(test, body, indent):
            yield where(path, line, test)


# ---- point 4

def by_hand():
    "equality, order, minimum and conversion by hand"
    names = {"wide", "index", "long", "lesser", "own_setting", "same_batch", "same_numbers", "same_header", "are_four", "four", "code_and_value", "one_if", "one_less", "less",
             "stored_one", "ends_before", "ranks_below", "counted", "apart", "zero", "fall", "at_most", "begins", "run_begins", "next_group", "batch_of"}
    for path, text in sources():
        for name, line, head, body in functions(text):
            if name in names and not re.search(r"u32::from\(|usize::from\(|u8::from\(|\.min\(|try_from|try_into|saturating_sub|first == second", body):
                yield where(path, line, name)


def wrapping():
    "sums and differences that wrap, by the older library's free functions"
    for path, text in sources():
        for line, what in lines(r"^(?!use )(?!//).*\bwrapping_\w+_u\d+\(.*", text):
            yield where(path, line, what)


# ---- point 5

FACTS = [
    ("ViewOf file.now v", "the file is accepted, and the view is its own"),
    ("setting_allowed s ≡ true", "the setting is allowed"),
    (".allowed ≡ true)", "width and step are allowed for the kind"),
    ("(1 ≤ width) × (width ≤ 2)", "the width is 1 or 2"),
    ("(e.rank ≤ 16777216) × (e.first", "the encoder's sizes fit"),
    ("Room width second file.now", "the differences are there"),
]
TOGETHER = [
    (r"file: &(?:'a )?\[u8\], v: View", "file and view"),
    (r"width: u32, step: u32|width: u32,\n\s+step: u32", "width and step"),
    (r"low: Coordinates,\s+high: Coordinates", "the corners of a box"),
    (r"second: usize,\s+width: u32", "where the differences begin and how wide they are"),
    (r"c: Cursor,\s+(?:mut )?e: Encoder", "cursor and encoder"),
    (r"words: &\[u32\],\s+(?:at: u32,\s+)?empty: u32", "words and the empty word"),
]


def facts():
    "contracts in which a fact about a value stands that stands in three or more"
    for fact, what in FACTS:
        for path, text in sources():
            for name, line, head, body in functions(text):
                if any(fact in clause for clause in re.findall(r"requires \{.*(?:\n        ×.*)*", head)):
                    yield where(path, line, f"{name} ({what})")


def together():
    "functions of which two parameters always travel together"
    for pattern, what in TOGETHER:
        for path, text in sources():
            for name, line, head, body in functions(text):
                if re.search(pattern, head):
                    yield where(path, line, f"{name} ({what})")


# ---- points 6 and 7

def by_signature(pattern):
    for path, text in sources():
        for name, line, head, body in functions(text):
            signature = head.split("requires")[0]
            if re.search(pattern, signature):
                yield where(path, line, name)



def lengths():
    "buffers with a count beside them, and windows of lent bytes told by offset and number"
    yield from by_signature(r"&(?:mut |'\w+ )*\[[^\]]*\](?:,\s+\w+: usize)?,\s+(?:n|count): (?:u32|usize)|sizes: &")


def switches():
    "parameters that say which step to run"
    yield from by_signature(r"\b(asked|stored|there|put): (u32|bool)")


# ---- point 8

def answers():
    "answers in proofs/, and measures and invariants of loops"
    for path in sorted(TOP.glob("crates/*/proofs/**/*.antt")):
        for line, what in lines(r"^(?:abbrev )?pub [^ ]+ : goal\.[^ ]+$", path.read_text()):
            yield where(path, line, what)


def lemmas():
    "lemmas in proofs/"
    for path in sorted(TOP.glob("crates/*/proofs/**/*.antt")):
        for line, what in lines(r"^ *(?:pub )?[a-z][^ :]* : (?!goal\.).*", path.read_text()):
            yield where(path, line, what)


def proof_lines():
    "lines of proofs/"
    for path in sorted(TOP.glob("crates/*/proofs/**/*.antt")):
        for line, what in lines(r"^.*\n", path.read_text()):
            yield where(path, line, "")


POINTS = {
    "1": [refusing_cases, signal_constants, number_answers, zero_for_none, flagged, kind_matches],
    "2": [twins, doubles],
    "3": [counted_loops, other_loops],
    "4": [by_hand, wrapping],
    "5": [facts, together],
    "6": [lengths],
    "7": [switches],
    "8": [answers, lemmas, proof_lines],
}


def main():
    args = sys.argv[1:]
    told = "-v" in args
    wanted = [a for a in args if a != "-v"] or sorted(POINTS)
    for point in wanted:
        for kind in POINTS[point]:
            places = list(kind())
            print(f"{point}  {len(places):4}  {kind.__doc__}")
            if told:
                for place in places:
                    print(f"            {place}")


if __name__ == "__main__":
    main()
