"""What the header, the views for C++, the crate ic, ic.d.mts and the crates for Rattle have, call by call."""

import collections
import importlib.machinery
import importlib.util
import re

from call_widths import WIDE
from checks import ROOT

# The families, by their names in C: a letter, what they are, and their types in C++, Rust, JavaScript and Rattle.
Family = collections.namedtuple("Family", "letter title cpp rust script rattle")
FAMILIES = {
    "list": Family("L", "Doubly linked list", ("const_list_view", "list_view"), "List", "List", "LinkedList"),
    "list32": Family("l", "Doubly linked list, words of 4 bytes", ("const_list32_view", "list32_view"), "List32", "List32", "LinkedList"),
    "ring": Family("R", "Ring", ("const_ring_view", "ring_view", "const_ring_members", "ring_members"), "ring", "Ring", "Ring"),
    "ring32": Family("r", "Ring, words of 4 bytes", ("const_ring32_view", "ring32_view", "const_ring32_members", "ring32_members"), "ring32", "Ring32", "Ring"),
    "stack": Family("S", "Singly linked list", ("const_stack_view", "stack_view"), "Stack", "Stack", "SinglyLinkedList"),
    "hash": Family("H", "Hash table", ("const_hash_view", "hash_view"), "hash", "HashTable", "HashTable"),
    "xor": Family("X", "XOR list", ("const_xor_view", "xor_view"), "XorList", "XorList", "XorLinkedList"),
    "tree": Family("T", "Red-black tree", ("const_tree_view", "tree_view", "tree_ends_view"), "Tree", "Tree", "RBTree"),
}
# One call of a language: its name, its signature, and its comment.
Item = collections.namedtuple("Item", "name signature comment")
HEADER, VIEWS, CRATE, TYPES = (ROOT / it for it in ("include/ic.h", "include/ic.hpp", "rust/ic/src", "dist/wasm/ic.d.mts"))


# ---- C ----

C_COMMENT = re.compile(r"/\*(?P<comment>(?:(?!\*/).)*)\*/\n", re.S)
C_CALL = re.compile(r"(?=\S)(?:IC_NODISCARD\n)?((?:static inline )?[\w ]+[ *](ic_\w+)\([^;{]*?\))(?: \{|;)\n", re.S)
C_MACRO = re.compile(r"#define (IC_\w+)(\([^)]*\))(?:.*\\\n)*.*\n")


def bare_comment(text):
    """The text of a C comment."""
    return "\n".join(re.sub(r"^\s*\*? ?", "", line) for line in text.strip().splitlines()).strip()


def c_items(text=None):
    """What the header, or a part of it, declares: calls, inline functions and macros. Macros below one comment share it."""
    text, at, comment, found = HEADER.read_text() if text is None else text, 0, "", []
    while at < len(text):
        if said := C_COMMENT.match(text, at):
            comment, at = bare_comment(said["comment"]), said.end()
        elif call := C_CALL.match(text, at):
            found.append(Item(call[2], " ".join(call[1].replace("static inline ", "").split()) + ";", comment))
            at = call.end()
        elif macro := C_MACRO.match(text, at):
            found.append(Item(macro[1], macro[1] + macro[2], comment))
            at = macro.end()
        else:
            at = text.find("\n", at) + 1 or len(text)
    return found


def c_family(family, items=None):
    """The calls, reads and macros of a family."""
    return [it for it in items or c_items() if re.match(rf"ic_{family}_|IC_{family.upper()}_", it.name)]


# ---- C++ ----

CPP_CLASS = re.compile(r"^(?:template <[^\n]*>\n)?(class|struct)(?: \[\[nodiscard\]\])? (\w+)((?: : [^{]*)?) \{\n(.*?)^\};", re.M | re.S)
CPP_ALIAS = re.compile(r"^using (\w+) = ([^;]*);", re.M)
CPP_CALL = re.compile(r"(?:[\w:<>,&*\[\] ]+[ &*])?(operator\S+|\w+)\(")
CPP_PART = re.compile(r"^(public|protected|private):\n", re.M)


def cpp_classes():
    """Each class of the header: what it is made of, and the text of its public part."""
    text, found = VIEWS.read_text(), {}
    for kind, name, bases, body in CPP_CLASS.findall(text):
        first, *rest = CPP_PART.split(body)
        parts = [("public" if kind == "struct" else "private", first), *zip(rest[::2], rest[1::2])]
        found[name] = bases, "".join(part for access, part in parts if access == "public"), body
    found.update({name: (of, "", "") for name, of in CPP_ALIAS.findall(text)})
    return found


def cpp_members(text):
    """The comment, the signature and the text of each member function of a class's public part."""
    comment, lines = [], iter(text.splitlines())
    for line in lines:
        if line.startswith("    ///"):
            comment.append(line.strip()[3:].strip())
            continue
        if not re.match(r"    [\w\[]", line) or re.match(r"    (?:template|using|friend|\[\[gnu)", line):
            comment = [] if not line.startswith("    template") else comment
            continue
        while not re.search(r"[;{}]$", line) and (more := next(lines, None)) is not None:
            line += " " + more.strip()
        body = line
        while line.endswith("{") and (more := next(lines, None)) is not None:
            body += "\n" + more
            if more == "    }":
                break
        yield " ".join(comment), re.sub(r" (?:\{.*|: \w+[({].*)|;$", "", line.strip()).replace("[[nodiscard]] ", ""), body
        comment = []


def cpp_items(names):
    """What the classes and those that they are made of have, each once. A call that hands its work to one of its kind is there if the kind has that."""
    classes, todo, seen, found = cpp_classes(), list(names), {}, {}
    while todo:
        name = todo.pop(0)
        if name in classes and name not in seen:
            seen[name] = classes[name]
            todo += re.findall(r"\w+", classes[name][0])
    is_kind = {name: bool(re.search(r"is_bidirectional =|handle handle_of|static constexpr auto", body)) for name, (_, _, body) in seen.items()}
    kinds = "".join(body for name, (_, _, body) in seen.items() if is_kind[name])
    for name, (_, public, _) in seen.items():
        for comment, signature, body in cpp_members(public) if not is_kind[name] else []:
            called = CPP_CALL.match(signature)
            needs = re.findall(r"\b[Kk]ind::(\w+)[(,)]", body)
            if called and called[1].lstrip("~") != name and "operator" not in called[1] and all(re.search(rf"\b{it}\b", kinds) for it in needs):
                found.setdefault((called[1], signature), Item(called[1], signature + ";", comment))
    return list(found.values())


# ---- Rust ----

RUST_BLOCK = re.compile(r"^impl(?:<[^>]*>)? (\w+)(?:<([^{]*)>)? \{\n(.*?)^\}", re.M | re.S)
RUST_CALL = r"((?:^{0}///.*\n)*)(?:^{0}#\[.*\n)*^{0}(pub (?:const )?fn (\w+)(?:.|\n)*?)(?: \{{|;)$"
RUST_MACRO = re.compile(r"^macro_rules! (\w+) \{\n(.*?)^\}", re.M | re.S)
RUST_BOUND = re.compile(r"C: (\w+)")


def rust_calls(text, indent):
    for comment, signature, name in re.findall(RUST_CALL.format(" " * indent), text, re.M):
        said = "\n".join(re.sub(r"^\s*/// ?", "", line) for line in comment.splitlines())
        yield Item(name, " ".join(signature.split()).replace("( ", "(").replace(", )", ")"), said)


def rust_text():
    return {file.stem: file.read_text() for file in sorted(CRATE.glob("*.rs"))}


def rust_items(family):
    """What a type, or a module of functions, of the crate has."""
    own, text = FAMILIES[family].rust, rust_text()
    if own.islower():
        return list(rust_calls(text[own], 0))
    found = [it for part in text.values() for name, _, body in RUST_BLOCK.findall(part) if name == own for it in rust_calls(body, 4)]
    macros = dict(RUST_MACRO.findall(text["collection"]))
    for name, link in re.findall(rf"^(\w+)!\({own}, (\w+)\)", "".join(text.values()), re.M):
        found += [it._replace(signature=it.signature.replace("$Collection", own).replace("$Link", link)) for it in rust_calls(macros[name], 12)]
    return found


def rust_cursor(family):
    """What a cursor of a kind has: each block of calls requires a trait, which the kind implements or does not."""
    own, text = FAMILIES[family].rust, rust_text()
    traits = set(re.findall(rf"^impl (\w+) for {own} \{{", "".join(text.values()), re.M))
    for block in re.finditer(r"^impl<?([^{]*?)>? (Cursor|CursorMut)<([^{]*)> \{\n(.*?)^\}", text["cursor"], re.M | re.S):
        bound = RUST_BOUND.search(block[1])
        if bound and bound[1] in traits or block[3].endswith(f" {own}"):
            yield from rust_calls(block[4], 4)


# ---- JavaScript ----

SCRIPT_CLASS = re.compile(r"^export class (\w+)[^{]*\{\n(.*?)^\}", re.M | re.S)


def script_names(family):
    """The methods and the properties of a class."""
    body = dict(SCRIPT_CLASS.findall(TYPES.read_text()))[FAMILIES[family].script]
    return re.findall(r"^  (?:readonly |get )?(\w+|\[Symbol\.iterator\])(?:[:(])", body, re.M)


# ---- Rattle ----

RATTLE_KINDS = {"list": "DoublyLinked", "stack": "SinglyLinked", "xor": "XorLinked"}
RATTLE_CRATES = ("ic_chain", "ic_rbtree", "ic_ring", "ic_hash_table", "ic_list_algorithms", "ic_check", "ic_cursors")
RATTLE_BLOCK = re.compile(r"^(?:pub )?(impl|trait)\b([^{}]*)\{\n(.*?)^\}", re.M | re.S)
# A function: its name, and what stands between that and its body.
RATTLE_CALL = re.compile(r"^ *pub fn (\w+)(.*?)(?=\{\n|\{ )", re.M | re.S)


def rattle_text():
    return {crate: "".join(file.read_text() for file in sorted((ROOT / "crates" / crate / "src").rglob("*.rt"))) for crate in RATTLE_CRATES}


def rattle_traits(text):
    """The traits that each kind, and each collection's cursors, have. Those of a list depend on its kind's."""
    every = "".join(text.values()) + "".join((ROOT / "crates" / f"ic_{it}_linked_list/src/kind.rt").read_text() for it in ("singly", "xor"))
    every += (ROOT / "crates/ic_linked_list/src/kind.rt").read_text()
    kinds = {kind: set(re.findall(rf"^impl(?:<[^{{]*>)? (\w+)(?:<L>)? for {kind} \{{", every, re.M)) for kind in RATTLE_KINDS.values()}
    cursors = {}
    for family, kind in RATTLE_KINDS.items():
        blocks = re.findall(r"^impl<([^{]*)> (\w+)(?:<L>)? for LinkList<K, T> \{", every, re.M)
        cursors[family] = {trait for bounds, trait in blocks if bounds_of("K", bounds) <= kinds[kind]}
    cursors["tree"] = set(re.findall(r"^impl<[^{]*> (\w+)(?:<L>)? for RBTree<A, E> \{", every, re.M))
    return kinds, cursors


def bounds_of(variable, text):
    """The traits that a text requires of a type variable."""
    named = re.findall(rf"\b{variable}: ([\w<>+ ]+)", text)
    return {re.sub(r"<.*", "", it.strip()) for part in named for it in re.split(r" \+ ", part)} - {"Drop", "Copy", "Clone"}


def rattle_names(family):
    """The public calls of a collection, of the functions over it, and of its cursors."""
    text, family = rattle_text(), WIDE.get(family, family)
    kinds, cursors = rattle_traits(text)
    has = kinds.get(RATTLE_KINDS.get(family, ""), set())
    calls, moves = [], []
    of = {"tree": r"RBTree<", "ring": r"Ring<", "hash": r"HashTable<"}.get(family, r"LinkList<K, T>")
    for _, head, body in (block for part in text.values() for block in RATTLE_BLOCK.findall(part)):
        owner = head.split(" for ")[-1]
        for name, signature in RATTLE_CALL.findall(body):
            if re.search(rf" {of}", " " + re.sub(r"^<[^{}]*?> (?=\w+<[^<>]*>\s*$)", "", owner.strip()) + " "):
                calls += [name] * (bounds_of("K", head + signature) <= has)
            elif re.search(r"\b(?:Cursor|CursorMut)<'\w+, C, L>", owner) and family in cursors:
                moves += [name] * (bounds_of("C", head) - {"Collection"} <= cursors[family])
            elif family == "ring" and re.search(r"\b(?:Cursor|CursorMut)<'a, T, L>", owner):
                moves.append(name)
    for crate in ("ic_list_algorithms", "ic_check", "ic_ring"):
        shown = load("calls").public_names(crate)
        for name, head in re.findall(r"^pub fn (\w+)(.*?)(?=^\{)", text[crate], re.M | re.S):
            if name not in shown:
                continue
            if bounds_of("K", head) and bounds_of("K", head) <= has or family == "ring" and crate == "ic_ring":
                calls.append(name)
            elif family == "tree" and "RBTree<" in head or family == "hash" and "HashTable<" in head:
                calls.append(name)
    return list(dict.fromkeys(calls)), list(dict.fromkeys(moves))


def load(name):
    """Another tool as a module."""
    loader = importlib.machinery.SourceFileLoader(name, str(ROOT / "tools" / name))
    module = importlib.util.module_from_spec(importlib.util.spec_from_loader(name, loader))
    loader.exec_module(module)
    return module
