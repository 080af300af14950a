"""The reference of the library for C, C++ and Rust, a page of the book for each family of calls, made of ic.h, ic.hpp, the crate ic and calls.txt."""

import html
import re

import call_table
import call_texts
import language_table
from call_handles import function, has_handle, macro, renamed
from checks import ROOT
from language_table import canonical
from languages import FAMILIES, HEADER, c_items, cpp_items, rust_calls, rust_items, rust_text, RUST_MACRO

SECTION = re.compile(r"^/\* -+ ([^\n]*?) -*\n \*\n(.*?)\*/\n(.*?)(?=^/\* ----|\Z)", re.M | re.S)
STATUS = re.compile(r"(IC_\w+) = \d+,?\s*/\* (.*?) \*/")
STRUCT = re.compile(r"/\* ((?:(?!\*/).)*) \*/\n(struct (ic_\w+) \{\n.*?\n\};)", re.S)
SAMPLE = re.compile(r"^```cpp\n(.*?)^```", re.M | re.S)
RUST_TYPES = {"Cursor": "cursor", "CursorMut": "cursor", "View": "view", "Iter": "view", "Entry": "keyed", "VacantEntry": "keyed", "Link1": "link",
              "Link2": "link", "Link2x32": "link", "Link3": "link", "TreeEnds": "tree", "Sum": "sums", "SumKind": "sums", "Error": "error"}


def bare(text):
    """A comment of C as Markdown: indented samples stay, and no star begins emphasis."""
    lines = [re.sub(r"^\s*\* ?", "", line) for line in text.splitlines()]
    return "\n".join(line if line.startswith("    ") else re.sub(r"\*(?=[\w.])", r"\\*", line) for line in lines).strip("\n")


def sample_in(text):
    """The first sample of a comment: lines that are indented below an empty one, as those of a list's item are not."""
    return "\n".join(line[4:] for line in re.search(r"\n\n((?:    .*\n)+)", text)[1].splitlines())


def rust_prose(text):
    """A doc comment of Rust as Markdown: links as the words that they show, examples as code without hidden lines."""
    # Brackets of an example are arrays, and no links.
    parts = re.split(r"(^```.*?^```$)", text, flags=re.M | re.S)
    text = "".join(part if part.startswith("```") else re.sub(r"\[([^\[\]]+)\](?:\([^)]*\))?(?!:)", r"\1", part) for part in parts)
    text = re.sub(r"^# (?!\w+$).*\n", "", text, flags=re.M)
    return re.sub(r"^# (\w+)$", r"**\1.**", text, flags=re.M).replace("```\nuse ", "```rust\nuse ")


def over_handle(family, item):
    """The function or the macro of ic_in.h that a call, a read or a macro has."""
    if item.name.startswith("IC_"):
        return re.match(r"#define (.*?\))", macro(item))[1] if has_handle(item) else ""
    made = function(family, item, False).partition(" {\n")[0]
    return "" if item.name.endswith("_go_on") else " ".join(made.replace("static inline ", "").split()) + ";"


def code(text, language):
    return f"\n```{language}\n{text}\n```\n"


def heading(name, level=2):
    return f'\n<h{level} id="{name}"><code>{html.escape(name)}</code></h{level}>\n'


def introductions():
    """What the header says of each family before its calls."""
    text, found = HEADER.read_text(), {}
    for title, said, body in SECTION.findall(text):
        family = re.search(r"\bic_(list32|list|ring32|ring|stack|hash|xor|tree)_\w+\(", body)
        if family and not title.startswith(("Words", "Reads")):
            found.setdefault(family[1], []).append((title, bare(said)))
    return found


def words_of(call):
    """What differs between the languages, as the header has it."""
    out = call_texts.outcome(call)
    return {"none": "`IC_NONE`", "self": f"`{'tree' if call.family == 'tree' else 'list'}`", "rest": "`rest`, which has to be empty",
            "rest_has": ", or `rest` has members", "greatest": "`IC_GREATEST`", "accepted": "the status is `IC_OK`",
            "out": f"sets `*{out}` to {call_texts.SET.get(out, 'this member')}"}


def called(call):
    """A proved call: its prototype, what it does, its cost, and each status as a sentence."""
    words = words_of(call)
    said = re.sub(r"\{(\w+)\}", lambda word: words[word[1]], call.what)
    refused = call_table.refusals(call_texts.broken(call, words), "`IC_NONE`", "`places`")
    prototype = call_texts.header(call).split("*/\n", 1)[1].replace("IC_NODISCARD\n", "")
    statuses = "".join(f"- The call returns [`IC_{status}`](index.html#IC_{status}) if {when}.\n" for status, when in refused.items())
    return f"{code(' '.join(prototype.split()), 'c')}\n{said}\n\n**Cost.** It takes {call.cost}.\n\n- The call returns `IC_OK` if it has done so.\n{statuses}"


def inline(item, said):
    """An inline function or a macro: its signature, and what its comment says, unless that was said before."""
    return f"{code(item.signature, 'c')}\n{bare(item.comment) if item.comment != said else 'It is one of the loops above.'}\n"


def others(family, row, cpp, rust):
    """The same in C++ and in Rust."""
    text = ""
    if found := cpp.get(row):
        text += f"\nIn C++, of `ic::{family}_view`:\n" + "".join(f"{code(it.signature, 'cpp')}\n{it.comment}\n" for it in found)
    if found := rust.get(row):
        text += f"\nIn Rust, of `{FAMILIES[family].rust}`:\n" + code("\n".join(it.signature for it in found), "rust")
    return text


def by_row(language, family, items):
    found = {}
    for item in items:
        if row := canonical(language, family, item.name):
            found.setdefault(row, []).append(item)
    return found


def rust_head(family):
    """The comment of a type, or of a module of functions."""
    own, text = FAMILIES[family].rust, rust_text()
    if own.islower():
        return rust_prose("\n".join(re.sub(r"^//! ?", "", line) for line in text[own].splitlines() if line.startswith("//!")))
    comment = next(re.search(rf"((?:^///.*\n)+)(?:^#\[.*\n)*^pub struct {own}\b", part, re.M) for part in text.values() if f"pub struct {own}(" in part)
    return rust_prose("\n".join(re.sub(r"^/// ?", "", line) for line in comment[1].splitlines()))


def first_of(text):
    return re.split(r"(?<=[.!?])\s", " ".join(text.split()))[0]


def family_page(family, entries):
    """The page of a family, in Markdown. `entries` gets what a search finds."""
    own, address = FAMILIES[family], f"library/{family}.html"
    calls = {call.name: call for call in call_table.rows()[0]}
    cpp, rust = by_row("C++", family, cpp_items(own.cpp)), by_row("Rust", family, rust_items(family))
    text = f"# {own.title}\n\nIn C the calls are `ic_{family}_*`, in C++ `ic::{family}_view`, in Rust `ic::{own.rust}`.\n"
    for title, said in introductions()[family]:
        text += f"\n**{title}.**\n\n{said}\n"
    if family == "list":
        text += code(sample_in(bare(HEADER.read_text().partition("*/")[0])), "c")
    samples = [it for it in SAMPLE.findall((ROOT / "docs/LIBRARY.md").read_text()) if f"{family}_view" in it]
    text += "".join(f"\nIn C++:\n{code(it.rstrip(), 'cpp')}" for it in samples[:1])
    seen, said = set(), ""
    for item in c_items():
        if not re.match(rf"ic_{family}_|IC_{family.upper()}_", item.name):
            continue
        row = canonical("C", family, re.sub(rf"^ic_{family}_|^IC_{family.upper()}_", "", item.name).lower())
        text += heading(item.name) + (called(calls[item.name]) if item.name in calls else inline(item, said))
        if handle := over_handle(family, item):
            text += f"\nOver a handle of [`ic_in.h`](../docs/LIBRARY.html#from-c):\n{code(handle, 'c')}"
            entries.append((renamed(item.name), f"{address}#{item.name}", f"{item.name} over a handle"))
        text += others(family, row, cpp, rust) if row not in seen else ""
        names = dict.fromkeys(it.name for it in cpp.get(row, []) if row not in seen)
        entries += [(f"ic::{family}_view::{name}", f"{address}#{item.name}", f"in C {item.name}") for name in names]
        seen.add(row)
        said = item.comment
        entries.append((item.name, f"{address}#{item.name}", first_of(calls[item.name].what if item.name in calls else item.comment).replace("{none}", "IC_NONE")))
    text += f"\n## Only in C++\n" if any(row not in seen for row in cpp) else ""
    for row, items in cpp.items():
        for item in items if row not in seen else []:
            text += f"{code(item.signature, 'cpp')}\n{item.comment}\n"
            entries.append((f"ic::{family}_view::{item.name}", f"{address}#only-in-c", first_of(item.comment)))
    text += f"\n## In Rust\n\n{rust_head(family)}\n"
    for row, items in rust.items():
        for item in items:
            text += heading(f"{own.rust}::{item.name}", 3) + f"{code(item.signature, 'rust')}\n{rust_prose(item.comment)}\n"
            entries.append((f"{own.rust}::{item.name}", f"{address}#{own.rust}::{item.name}", first_of(rust_prose(item.comment))))
    return text


def common_page(entries):
    """The page of what all families share: statuses, types, words and version."""
    header = HEADER.read_text()
    text = "# The library for C, C++ and Rust\n\n| Family | C | C++ | Rust |\n|---|---|---|---|\n"
    for family, own in FAMILIES.items():
        text += f"| [{own.title}]({family}.html) | `ic_{family}_*` | `ic::{family}_view` | `ic::{own.rust}` |\n"
    text += f"\n{bare(header[2 : header.index('*/')])}\n\n## Statuses\n\nIn C++ these are the values of `ic::status`, and in Rust those of [`Error`](rust.html#Error).\n"
    for name, when in STATUS.findall(header):
        text += heading(name, 3) + f"\nA call returns it if {when}.\n"
        entries.append((name, f"library/index.html#{name}", f"A call returns it if {when}."))
    text += "\n## Structs\n"
    for said, struct, name in STRUCT.findall(header):
        text += heading(f"struct {name}", 3).replace(f'id="struct {name}"', f'id="{name}"') + f"{code(struct, 'c')}\n{bare(said)}\n"
        entries.append((f"struct {name}", f"library/index.html#{name}", first_of(bare(said))))
    text += "\n## Words, loops and the version\n"
    said = ""
    for item in c_items():
        if not re.match(r"(?i)ic_(?:list32|list|ring32|ring|stack|hash|xor|tree)_", item.name):
            text += heading(item.name, 3) + inline(item, said)
            said = item.comment
            entries.append((item.name, f"library/index.html#{item.name}", first_of(item.comment)))
    for name, said in (("IC_NONE", "Names no place."), ("IC_NODISCARD", "Marks a call whose status the compiler warns of."), ("IC_VERSION_MAJOR", "The version of the header.")):
        entries.append((name, "library/index.html", said))
    return text


def rust_page(entries):
    """The page of the types of Rust that all families share."""
    text, parts = "# Types of the crate ic\n", rust_text()
    for name, file in RUST_TYPES.items():
        part = parts[file]
        comment = re.search(rf"((?:^///.*\n)+)(?:^#\[.*\n)*^pub (?:struct|enum) {name}\b", part, re.M)
        said = rust_prose("\n".join(re.sub(r"^/// ?", "", line) for line in comment[1].splitlines()))
        text += heading(name) + f"\n{said}\n"
        entries.append((name, f"library/rust.html#{name}", first_of(said)))
        blocks = re.findall(rf"^impl(?:<[^{{]*?>)? {name}(?:<[^{{]*>)? \{{\n(.*?)^\}}", part, re.M | re.S)
        items = [it for block in blocks for it in rust_calls(block, 4)]
        items += rust_calls(dict(RUST_MACRO.findall(part))["link"], 12) if file == "link" else []
        for item in items:
            shown = item.signature.replace("$Link", name).replace("$words", name[-1]).replace("$Word", "u32" if name.endswith("32") else "u64").replace("[$first $(, $word)*]", "words")
            text += f"{code(shown, 'rust')}\n{rust_prose(item.comment)}\n"
            entries.append((f"{name}::{item.name}", f"library/rust.html#{name}", first_of(rust_prose(item.comment))))
    return text


def languages_page():
    """What each language has, call by call."""
    return language_table.page().replace(".md#", ".html#")


def make(book, to_html):
    """Writes the pages into the book."""
    for name, text in (("index", common_page(book.entries)), ("languages", languages_page()), ("rust", rust_page(book.entries)),
                       *((family, family_page(family, book.entries)) for family in FAMILIES)):
        title = re.match(r"# (.*)", text)[1]
        body = re.sub(r"(<table.*?</table>)", r'<div class="wide">\1</div>', to_html(text), flags=re.S)
        book.write(f"library/{name}.html", title, body, "calls")
        book.entries.append((title, f"library/{name}.html", "the library for C, C++ and Rust"))
