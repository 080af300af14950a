"""Families of which the library has two widths: the text of the one with words of 8 bytes, made that of the one with words of 4.

A section of crates/ic_ffi/calls.txt whose head names both has the rows of both. What a file has of such a family by hand is written once, for words of 8
bytes, and tools/c-calls writes the rest of it between marks: `of ring: ring32`."""

import re

from checks import ROOT

# A family with words of 4 bytes, and the one with words of 8.
WIDE = {"list32": "list", "ring32": "ring"}
# The head of a function of Rust on one line, and how long that may be.
FN_HEAD, RUST_LINE = re.compile(r"^( *)((?:pub )?fn \w+\()(.*)(\).* \{)$", re.M), 120
# How many places such a table has at most: the words have room for no more.
MOST = 536_870_911
# The names of the links in C and in Rust.
LINKS = (("ic_link2", "ic_link2_32"), ("Link2", "Link2x32"))
# The type of a family in Rust.
TYPES = {"list": (("List", "List32"),)}
# Marks whose text is made of a part of the same file, or in Rust of another file: the text between the heads of its section and of the next one.
DERIVED = re.compile(r"^( *(?:/\*|//) Made by tools/c-calls --write of (\w+): (\w+)(?: \*/)?\n)(.*?)^( *(?:/\*|//) to here(?: \*/)?\n)", re.M | re.S)
MADE = re.compile(r"^ *(?:/\*|//) Made by tools/c-calls --write.*?^ *(?:/\*|//) to here(?: \*/)?\n", re.M | re.S)


def narrow(text, wide, family):
    """A text of a family with words of 8 bytes as that of the one with words of 4."""
    text = re.sub(rf"\bic_{wide}_", f"ic_{family}_", text)
    text = re.sub(rf"\bIC_{wide.upper()}_", f"IC_{family.upper()}_", text)
    for old, new in (*LINKS, *TYPES.get(wide, ())):
        text = re.sub(rf"\b{old}\b", new, text)
    # Places beyond those for which the words have room are out of range.
    return re.sub(r"\b(ic_bound|ic_fault_of)\(places\b", r"\1(ic_places_32(places)", text)


def part(text, begin, end):
    """What a file has by hand between two marks, without what the tool writes."""
    return MADE.sub("", text[text.index(begin) + len(begin):text.index(end)])


def c_part(text, wide, family):
    """The reads, loops and inline calls of a family in the header."""
    found = part(text, f"/* ---- {wide.capitalize()}s: functions for links of 8-byte and of 4-byte words ---- */\n", f"/* ---- {wide.capitalize()}s: to here ---- */\n")
    return "\n" + re.sub(r"\n{3,}", "\n\n", aligned(narrow(found, wide, family))).strip("\n") + "\n\n"


def aligned(text):
    """Macros whose lines end in a backslash below one another, as before."""
    def lines(macro):
        rows = [re.sub(r" *\\$", "", line) for line in macro[0].rstrip("\n").split("\n")]
        width = max(map(len, rows[:-1]))
        return "".join(f"{row:{width}} \\\n" for row in rows[:-1]) + rows[-1] + "\n"
    return re.sub(r"^#define (?:.*\\\n)+.*\n", lines, text, flags=re.M)


def rust_part(text, wide, family):
    """What the crate has of a family beside its calls: the end of the other family's file."""
    found = (ROOT / f"rust/ic/src/{wide}.rs").read_text().rpartition("// to here\n")[2]
    return FN_HEAD.sub(split_head, narrow(re.sub(r"^\}\n", "", found), wide, family).lstrip("\n"))


def split_head(head):
    """The head of a function as rustfmt breaks it if it is too long: a line for each parameter."""
    indent, begin, params, end = head.groups()
    lines = "".join(f"{indent}    {it},\n" for it in params.split(", "))
    return head[0] if len(head[0]) <= RUST_LINE else f"{indent}{begin}\n{lines}{indent}{end}"


# How each file's derived part is made, by what writes the calls of the file.
WRITES = {"header": c_part, "rust": rust_part}
