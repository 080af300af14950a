"""What each language has: the table of docs/LIBRARY.md has its types, and a page of the book says by which letters its calls are for which families."""

import re

import call_table
from languages import FAMILIES, TYPES, VIEWS, c_family, c_items, cpp_items, load, rattle_names, rust_cursor, rust_items, rust_text, script_names
from checks import ROOT

LANGUAGES = ("C", "C++", "Rust", "JavaScript", "Rattle")
# What Rattle has besides the families: the crate, and its types.
RATTLE_ALONE = {
    "Trees that keep their first and last member": ("ic_rbtree", "RBTreeCached"),
    "Trees that are built in O(n)": ("ic_rbtree", "RBTreeBuilder"),
    "Summaries over subtrees: lengths, positions, overlaps": ("ic_augmented", "Augmented"),
    "Merges, unions, intersections and differences of trees": ("ic_tree_merges", "merge", "union", "intersection", "difference"),
    "Links of 4-byte words": ("ic_link_ops", "NarrowLinkOps"),
    "A value beside each link, such as its key": ("ic_link_ops", "LinkOpsWith"),
    "Objects together with their tables": ("ic_pool", "Pool"),
    "Containers of objects": ("ic_container", "Listed"),
    "Objects in an index, and in a list": ("ic_indexed", "Indexed"),
    "Values by their keys, in the order of their use": ("ic_keyed", "Keyed"),
    "A hash table as the index of a container": ("ic_hash_index", "HashIndex"),
    "Caches": ("lru_cache", "LruCache"),
    "Places that threads claim": ("ic_atomic", "Claims"),
    "Stacks to which threads push without a lock": ("ic_lock_free_stack", "Stacks"),
    "Collections whose kind is chosen at run time": ("ic_any_collection", "AnyCollection"),
    "Objects and collections by number": ("ic_world", "World"),
}
# The crates that have the families, or something below or above them.
BELOW = {"ic_unsafe_ref", "ic_chain", "ic_linked_list", "ic_singly_linked_list", "ic_xor_linked_list", "ic_ring", "ic_hash_table", "ic_cursors", "ic_plain",
         "ic_check", "ic_list_algorithms", "ic_workers", "ic_world_laws"}
# What the other languages have of these: in C, C++, Rust and JavaScript.
ALSO = {"Trees that keep their first and last member": ("`ic_tree_ends_*`", "`ic::tree_ends_view`", "`TreeEnds`", "`TreeWithEnds`"),
        "Summaries over subtrees: lengths, positions, overlaps": ("`ic_tree_sums_*`", "`ic::tree_view::sums_*`", "`Sum`", "`Sums`"),
        "Links of 4-byte words": ("`struct ic_link2_32`", "`ic_link2_32`", "`Link2x32`", "`HalfWords`")}
# The rows of the calls that keep the ends of a tree, by what is after `ends_` in their names.
ENDED = {**{name: name for name in ("insert", "insert_left", "insert_right", "remove", "replace", "first", "last")}, "pop_first": "pop_front"}
# What a row is called, and what a language calls otherwise, or has for another row. A star is any family.
ALIASES = {
    "C": {"foreach": "loop", "foreach_reverse": "loop backwards", "foreach_safe": "loop that removes", "foreach_reverse_safe": "loop that removes",
          **{f"foreach_entry{form}": "loop over objects" for form in ("", "_reverse", "_safe", "_reverse_safe")}, "front": "first", "back": "last",
          **{f"foreach_{form}from": "loop from a member on" for form in ("", "reverse_", "safe_", "entry_", "entry_safe_")},
          "foreach_all": "loop", "foreach_all_safe": "loop that removes", "foreach_all_entry": "loop over objects", "foreach_all_entry_safe": "loop over objects",
          "tree after": "next", "tree before": "prev", **{f"tree ends_{name}": row for name, row in ENDED.items()}},
    "C++": {"begin": "loop", "rbegin": "loop backwards", "erase": "loop that removes", "front": "first", "back": "last", "empty": "is_empty",
            "tree upper_bound": "find the first with a greater key", "at_most": "upper_bound", "iterator_to": "cursor_from_place",
            "list insert": "cursor: insert_before", "ring insert": "cursor: insert_before", "xor insert": "cursor: insert_before",
            "list splice": "cursor: splice_before", "xor splice": "cursor: splice_before"},
    "Rust": {"iter": "loop", **{f"tree ends_{name}": row for name, row in ENDED.items()}},
    "JavaScript": {"[symbol.iterator]": "loop", "ring constructor": "init"},
    "Rattle": {"iter": "loop", "sort_by": "sort", "merge_by": "merge", "check_tree": "check", "check_hash_table": "check", "append_walking": "append", "ring open": "init",
               "cursor_from_ptr": "cursor_from_place", "cursor_from_ptr_and_prev": "cursor_from_place_and_prev", "ring cursor_at": "cursor_from_place",
               "cursor_from_ptr_and_next": "cursor_from_place_and_next", "from_ends": "from_words", "from_front": "from_words",
               "from_root": "from_words", "from_head": "from_words", "from_buckets": "from_words", "cursor: get_ptr": "cursor: get"},
}
# What is no call of a user, or is said by the types.
LEFT_OUT = {"new", "constructor", "go_on", "safe_go_on", "is_gap", "child", "end", "rend", "hash first", "adapter", "position_at", "cursor: new", "cursor: view", "view", "insert_linked",
            "with_used", "into_buckets", "cursor: into_ref", "cursor: clone_pointer", "cursor: as_cursor", "xor loop", "xor loop_safe", "xor loop_entry",
            "xor loop_entry_safe", "xor walk", "xor walk_safe", "xor round", "descend", "search"}


def canonical(language, family, name, part=""):
    """The row of a call, or none."""
    name = re.sub(r"(?<=[a-z])([A-Z])", r"_\1", name).lower() if language == "JavaScript" else name
    name = re.sub(r"(?<=.)(?:_mut|_owning|_keyed|_keyed_by)\b|_(?:mut|owning)(?=_from|_at)", "", name) if language in ("Rust", "Rattle") else name
    of = ALIASES[language]
    if row := of.get(f"{family} {name}"):
        return row
    return None if {part + name, f"{family} {name}"} & LEFT_OUT else of.get(part + name) or part + name


def names_of(family, header):
    """The calls of a family in each language: the language, the part, and the name."""
    own, upper = FAMILIES[family], family.upper()
    for it in c_family(family, header):
        yield "C", "", re.sub(rf"^ic_{family}_|^IC_{upper}_", "", it.name).lower()
    yield from (("C++", "", it.name) for it in cpp_items(own.cpp))
    yield from (("Rust", "", it.name) for it in rust_items(family))
    if not own.rust.islower():
        yield from (("Rust", "cursor: ", it.name) for it in rust_cursor(family))
    yield from (("JavaScript", "", name) for name in script_names(family))
    calls, moves = rattle_names(family)
    yield from (("Rattle", "", name) for name in calls)
    yield from (("Rattle", "cursor: ", name) for name in moves)
    yield from others(family)


def others(family):
    """What stands apart from the type: the reads of a link's mark, and the other end of a walk."""
    kind = f"Link{ {'list': 2, 'list32': '2x32', 'ring': 2, 'ring32': '2x32', 'tree': 3}.get(family, 1) }"
    yield from [("Rust", "", "is_linked")] * (f"link!({kind}, " in rust_text()["link"])
    yield from [("JavaScript", "", "isLinked")] * ("  isLinked(" in TYPES.read_text())
    yield "Rattle", "", "is_linked"
    if re.search(rf"^impl Bidirectional for {FAMILIES[family].rust} \{{", "".join(rust_text().values()), re.M):
        yield "Rust", "", "loop backwards"
    if family in ("list", "list32", "xor", "ring", "ring32", "tree"):
        yield "Rattle", "", "loop backwards"


def rows():
    """Each row: for each language the letters of the families by the name of the call."""
    header, found = c_items(), {}
    for family, own in FAMILIES.items():
        for language, part, name in names_of(family, header):
            row = canonical(language, family, name, part)
            if row:
                letters = found.setdefault(row, {it: {} for it in LANGUAGES})[language]
                plain = row.removeprefix("cursor: ")
                same = re.sub(r"(?<=[a-z])([A-Z])", r"_\1", name).lower() == plain or language in ("Rust", "Rattle") and name.startswith(plain)
                shown = "" if same or plain.startswith("loop") else name
                letters[shown] = letters.get(shown, "") + own.letter * (own.letter not in letters.get(shown, ""))
    return found


def cell(letters):
    """The letters, and after those of another name that name."""
    parts = sorted(letters.items(), key=lambda it: it[0] != "")
    taken, words = set(), []
    for name, families in parts:
        left = "".join(it for it in families if it not in taken)
        taken |= set(left)
        words += [left + f" `{name}`" * bool(name)] * bool(left)
    return ", ".join(words) or "-"


def type_rows():
    """The types of each family, and what Rattle alone has."""
    for family, own in FAMILIES.items():
        rust = f"`{own.rust}`" + " (a module)" * own.rust.islower()
        yield f"| **{own.letter}**: {own.title} | `ic_{family}_*` | `ic::{family}_view` | {rust} | `{own.script}` | `{own.rattle}` |"
    for title, (_, *types) in RATTLE_ALONE.items():
        yield f"| {title} | {' | '.join(ALSO.get(title, '----'))} | {', '.join(f'`{it}`' for it in types)} |"


# What the page of the book begins with. Its links lead from a folder of the repository.
HEAD = """# What each language has

A cell has the letters of the [families](../docs/LIBRARY.md#what-each-language-has) that have this call in that language, and its name if it is another one there. In JavaScript `push_front` is `pushFront`. If a call of Rust or
Rattle has other forms, whose names end in `_mut`, `_owning` or `_keyed`, one row is for all of them.

"""


def table():
    """The lines of docs/LIBRARY.md: the types."""
    return "\n".join([f"| | {' | '.join(LANGUAGES)} |", "|---|---|---|---|---|---|", *type_rows()]) + "\n"


def page():
    """The page of the book: the calls."""
    lines = [f"| | {' | '.join(LANGUAGES)} |", "|---|---|---|---|---|---|"]
    found = rows()
    first = [row for row in found if not row.startswith("cursor: ")]
    for title, names in (("A call", first), ("A call of a cursor, in C++ of an iterator", [row for row in found if row not in first])):
        lines.append(f"| **{title}** | | | | | |")
        shown = sorted(names, key=lambda row: (found[row]["C"] == {}, found[row]["C++"] == {} and found[row]["Rust"] == {}))
        lines += [f"| {label(row)} | {' | '.join(cell(found[row][it]) for it in LANGUAGES)} |" for row in shown]
    return HEAD + "\n".join(lines) + "\n"


def label(row):
    row = row.removeprefix("cursor: ")
    return row if " " in row or row == "loop" else f"`{row}`"


def faults():
    """Families of calls without a row, types that a crate does not show, and crates of the library that no row has."""
    calls = load("calls")
    for family in {call.family for call in call_table.rows()[0]} - FAMILIES.keys():
        yield f"tools/languages.py: no family has the calls ic_{family}_*"
    for crate, *types in RATTLE_ALONE.values():
        text = "".join(file.read_text() for file in (ROOT / "crates" / crate / "src").rglob("*.rt"))
        yield from (f"tools/language_table.py: {crate} has no {it}" for it in types if not re.search(rf"^pub (?:struct|enum|trait|type|fn) {it}\b", text, re.M))
    known = BELOW | {crate for crate, *_ in RATTLE_ALONE.values()} | {"ic_rbtree"}
    yield from (f"tools/language_table.py: no row has the crate {crate}" for crate in sorted(calls.library() - known))
    yield from (f"{VIEWS.name}: no class {it}" for own in FAMILIES.values() for it in own.cpp if not re.search(rf"\b{it}\b", VIEWS.read_text()))
