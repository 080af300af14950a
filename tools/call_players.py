"""What the players of tests/library/same_calls do with a line that names a call of the library, a read or a walk: in C, C++, Rust and JavaScript,
from crates/ic_ffi/calls.txt. The families of that table say what tables and lists the players have.

After the name of a call a line has the number of the list, the tree, the hash table or the keys, which a call of rings has only if it takes keys, and
then the other arguments in the order of C: a place or `none`, a number, or the number of another list."""

import collections
import functools
import re

import call_table
from call_table import OUT, has
from call_handles import renamed
from call_texts import (CLASSES, KEEP_KEYS, LINKS, NUMBERED, RINGS, SELF, STRUCTS, c_arguments, camel, given_of, is_none_refused, is_of_head, outcome,
                        script_name, short)
from call_widths import WIDE

FAMILIES = list(dict.fromkeys(call.family for call in call_table.rows()[0]))


def of_each(wide):
    """What each family has by this table of those with words of 8 bytes. One with words of 4 has the same, by the name with 32 after it."""
    return {family: wide[WIDE.get(family, family)] + "32" * (family in WIDE) for family in FAMILIES if WIDE.get(family, family) in wide}


# Which table of links each family has. Rings share that of the lists, and hash tables that of the singly linked lists.
TABLES = of_each({"list": "list", "ring": "list", "stack": "stack", "hash": "stack", "xor": "xor", "tree": "tree"})
# How many places each table of links has.
PLACES = {of: {"list": 12, "stack": 10, "xor": 7, "tree": 16}[of.removesuffix("32")] for of in dict.fromkeys(TABLES.values())}
# What each family's lists or trees are called, of which there are three.
HEADS = of_each({"list": "lists", "stack": "stacks", "xor": "xor_lists", "tree": "trees"})
SLOTS, BUCKETS = 3, 7
# What the views of C++ call otherwise.
CPP_NAMES = {"ic_tree_upper_bound": "at_most", "ic_tree_ends_pop_first": "pop_front"}
# Calls for which the views of C++ have iterators alone.
NO_METHOD = ("ic_tree_next", "ic_tree_prev")
# The functions of Rust that print what a call returns, by what it hands out.
PRINTS = {None: "done", "popped": "member", "removed": "member", "found": "member", "replaced": "replaced", **{it: "try_counted" for it in NUMBERED}}
READ = re.compile(r"^static inline (?:int|uint32_t) (ic_\w+)\(const struct ic_link\w+ \*table, ic_length places((?:, uint32_t \w+)+)\)", re.M)
STRUCT = re.compile(r"^struct (ic_\w+) \{\n    uint(\d+)_t ([\w, ]+);\n\};", re.M)
# A part of all words: what holds them, the table of links that its words name places of, its type in C and in Rust, and how many of this type it has;
# how many words each of these has, and of how many bytes each word is.
Part = collections.namedtuple("Part", "name of struct rust count words bytes")


def writes_sums(call):
    return any(arg.name == "sums" and arg.is_mut for arg in call.args)


def has_number(call):
    """Whether a line has the number of a list, a tree, a hash table or keys."""
    return call.family not in RINGS or has(call, "keys")


def arguments(call):
    """The arguments of a line besides that number, and where each stands."""
    names = [arg for arg in call.args if arg.name not in ("table", "keys", "hashes", "sums", "buckets", "ends", *SELF, *OUT)]
    return {arg.name: at for at, arg in enumerate(names, has_number(call))}


def chain(call):
    """The bucket of another hash table whose members a call moves: a singly linked list."""
    return f"stacks[n[{arguments(call).get('chain')}]]"


def reads():
    """The reads of the table, of both widths, and the names of the places that each takes."""
    of = {name: re.findall(r"uint32_t (\w+)", words) for name, words in READ.findall(call_table.HEADER.read_text())}
    narrow = {name: re.sub(r"^ic_(\w+?)(?:32)?_", r"ic_\1_", name) for name in of if family(name) in WIDE}
    return {name: of[name] for name in of if narrow.get(name, name) in call_table.reads()}


def family(read):
    return read.split("_")[1]


def struct_of(call, *names):
    """The structure of an argument of a call."""
    kind = next((arg.type for arg in call.args if arg.name in names), None)
    return kind and ("ic_xor_list" if STRUCTS[kind] == "ic_list" and call.family == "xor" else STRUCTS[kind])


@functools.lru_cache(None)
def parts():
    """All words, in the order in which the players show them: each table of links, and then the lists that are in it, and what else calls take."""
    sizes = {name: (len(words.split(",")), int(bits) // 8) for name, bits, words in STRUCT.findall(call_table.HEADER.read_text())}
    first = lambda family, *names: next((struct for call in call_table.rows()[0] if call.family == family and (struct := struct_of(call, *names))), None)
    found = []
    for table, places in PLACES.items():
        of = [family for family in FAMILIES if TABLES[family] == table]
        found.append((f"{table}_links", table, first(of[0], "table"), f"Link{LINKS[of[0]]}", places))
        found += [(HEADS[family], table, first(family, *SELF), CLASSES[family], SLOTS) for family in of if family in HEADS]
        found += [("buckets", table, first(family, "buckets"), "Stack", BUCKETS) for family in of if family == "hash"]
        if table == "tree":
            found += [("tree_ends", table, first("tree", "ends"), "TreeEnds", SLOTS), ("sums", table, first("tree", "sums"), "Sum", places)]
    return [Part(name, of, struct, rust, count, *sizes[struct]) for name, of, struct, rust, count in found]


# ---- C ----


def c_links(of):
    return f"{TABLES[of]}_links", f"{TABLES[of].upper()}_PLACES"


def c_call(call):
    table, places = c_links(call.family)
    own = f"&{HEADS[call.family]}[n[0]]" if call.family in HEADS else ""
    fixed = {"table": table, "places": places, "keys": "keys", "key_count": "key_count(n[0])", "list": own, "tree": own,
             "hashes": "keys", "hash_count": "key_count(n[0])", "sums": "sums", "sum_count": "key_count(n[0])",
             "buckets": "&buckets[bucket_from[n[0]]]", "bucket_count": "bucket_count[n[0]]",
             "rest": "&rest", "ends": "&tree_ends[n[0]]", "chain": f"&{chain(call)}", **handed_out()}
    at, types = arguments(call), {arg.name: arg.type for arg in call.args}
    of = lambda name: f"&{HEADS[call.family]}[n[{at[name]}]]" if name in given_of(call, "") else "(uint32_t)" * (types[name] == "u32") + f"n[{at[name]}]"
    return f"{call.name}({', '.join(fixed.get(name) or of(name) for _, _, _, name in c_arguments(call))})"


def handed_out():
    """Where the players of C have a number that a call hands out."""
    return {name: "&out.number" if name in NUMBERED else "&out.place" for name in OUT}


def c_split(call, made):
    other = f"{HEADS[call.family]}[n[{arguments(call)['rest']}]]"
    return f"SPLIT(ic_{call.family}_is_empty, &{other}, {struct_of(call, 'rest')}, {made});"


def c_body(call):
    return answered(call, c_call(call))


def answered(call, made):
    """What prints what a call returns."""
    out = outcome(call)
    if out == "rest":
        return c_split(call, made)
    return f"HANDED_OUT({made}, {handed_out()[out][1:]});" if out else f"answer({made});"


def c_read(name, places):
    kind = "is" if "_is_" in name else "place"
    return f"answer_{kind}({name}({', '.join([*c_links(family(name)), *(f'(uint32_t)n[{at}]' for at in range(len(places)))])}));"


def c_walk(of):
    head = "(uint32_t)n[0]" if of in RINGS else "&buckets[bucket_from[n[0]]], bucket_count[n[0]], n[1]" if of == "hash" else f"&{HEADS[of]}[n[0]]"
    return f"IC_{of.upper()}_FOREACH(place, {', '.join(c_links(of))}, {head}) see(place);"


# ---- C by handles ----


def handle(of, index):
    """A handle as a compound literal."""
    hashed = "&buckets[bucket_from[n[0]]], bucket_count[n[0]], {keys, key_count(n[0])}"
    head = "" if of in RINGS else hashed if of == "hash" else f"&{HEADS[of]}[n[{index}]]"
    keys = ", {keys, key_count(n[0])}" if of == "tree" else ""
    return f"((struct ic_{of}_in){{{', '.join(filter(None, [*c_links(of), head]))}{keys}}})"


def handle_call(call):
    """The call of ic_in.h, whose arguments are those of the line."""
    at, types = arguments(call), {arg.name: arg.type for arg in call.args}
    kind = next((STRUCTS[arg.type] for arg in call.args if arg.name == "rest"), "")
    rest = f"((struct ic_{call.family}_in){{{', '.join(c_links(call.family))}, &rest{', {0, 0}' if call.family == 'tree' else ''}}})"
    keys = "((struct ic_keys){keys, key_count(n[0])})"
    fixed = {"ends": "&tree_ends[n[0]]", "rest": rest * bool(kind), "keys": keys * (call.family not in KEEP_KEYS), "hashes": keys,
             "sums": "sums, key_count(n[0])", "chain": f"&{chain(call)}", **handed_out()}
    of = lambda name: handle(call.family, at[name]) if name in given_of(call, "") else "(uint32_t)" * (types[name] == "u32") + f"n[{at[name]}]"
    left = {"table", "buckets", *SELF, *({"keys"} if call.family in KEEP_KEYS else ())}
    words = [fixed.get(arg.name) or of(arg.name) for arg in call.args if arg.name not in left]
    return f"{renamed(call.name)}({', '.join([handle(call.family, 0), *words])})"


def handle_body(call):
    return answered(call, handle_call(call))


def handle_read(name, places):
    kind = "is" if "_is_" in name else "place"
    words = [handle_of_table(family(name)), *(f"(uint32_t)n[{at}]" for at in range(len(places)))]
    return f"answer_{kind}({renamed(name)}({', '.join(words)}));"


def handle_of_table(of):
    """A handle whose list nobody reads."""
    rest = "" if of in RINGS else {"hash": ", 0, 0, {0, 0}", "tree": ", 0, {0, 0}"}.get(of, ", 0")
    return f"((struct ic_{of}_in){{{', '.join(c_links(of))}{rest}}})"


def handle_walk(of):
    head = ", (uint32_t)n[0]" if of in RINGS else ", n[1]" if of == "hash" else ""
    made = f"struct ic_{of}_in in = {handle(of, 0)};"
    return f"{{ {made} IC_{of.upper()}_IN_FOREACH(place, in{head}) see(place); }}"


# ---- C++ ----


def view(of, head):
    made = "" if of in RINGS else ", {&buckets[bucket_from[n[0]]], bucket_count[n[0]]}" if of == "hash" else ", " + head
    return f"ic::{of}_view{{{c_links(of)[0]}{made}}}"


def cpp_call(call):
    at, types = arguments(call), {arg.name: arg.type for arg in call.args}
    own = lambda index: f"{HEADS[call.family]}[n[{index}]]" if call.family in HEADS else ""
    keys = "ic::tree_view::keys_view{keys, key_count(n[0])}"
    sums = f"ic::tree_view::{'writable_' * writes_sums(call)}sums_view{{sums, key_count(n[0])}}"
    fixed = {"keys": keys, "hashes": keys, "sums": sums, "rest": view(call.family, "rest"), "chain": chain(call)}
    if at.keys() & given_of(call, ""):
        fixed["given"] = view(call.family, own(at["given"]))
    of = lambda name: "(uint32_t)" * (types[name] == "u32") + f"n[{at[name]}]"
    names = [arg.name for arg in call.args if arg.name not in ("table", "buckets", "ends", *SELF, *OUT)]
    words = [fixed.get(name) or of(name) for name in sorted(names, key=lambda name: name == "at" and begins_anywhere(call))]
    of_view = f"ic::tree_ends_view{{tree_links, {own(0)}, tree_ends[n[0]]}}" if has(call, "ends") else view(call.family, own(0))
    name = CPP_NAMES.get(call.name) or short(call).removeprefix("ends_")
    return f"{of_view}.{name}({', '.join(words)})"


def begins_anywhere(call):
    """Whether a call over sums names a member to begin at, which is the last argument of a view, since it may be left out."""
    return has(call, "sums") and call.roles.get("at") == "gap" and "new" not in call.roles.values()


def cpp_body(call):
    made = cpp_call(call)
    if call.name in NO_METHOD:
        return c_body(call)
    if outcome(call) == "rest":
        return c_split(call, f"(uint32_t){made}")
    return f"{made}; answer(IC_OK);" if call.name == "ic_xor_reverse" else f"answer({made});"


def cpp_walk(of):
    made = ".members((uint32_t)n[0])" if of in RINGS else ".chain(n[1])" if of == "hash" else ""
    return f"for (uint32_t place : {view(of, f'{HEADS.get(of)}[n[0]]')}{made}) see(place);"


def c_parts():
    """The tables and lists, and the array of their words."""
    held = "".join(f"static struct {it.struct} {it.name}[{it.count}];\n" for it in parts())
    rows = "".join(f"    {{{it.name}, {it.words * it.count}, {it.bytes}}},\n" for it in parts())
    return f"{held}static const struct part parts[] = {{\n{rows}}};\n"


HANDLE_HEAD = '#include "ic_in.h"\n'
CPP_HEAD = """#include "ic.hpp"
static inline void answer(ic::status status) { answer(static_cast<uint32_t>(status)); }
template <class Number>
static inline void answer(std::optional<Number> number) { answer_number(number ? IC_OK : IC_NULL, number.value_or(0)); }
"""


def c_file(calls, language):
    """The header made.h, for C, for C by handles, or for C++, whose views are not asked for the reads."""
    body, read, walk, begin = {"C": (c_body, c_read, c_walk, ""), "C by handles": (handle_body, handle_read, handle_walk, HANDLE_HEAD),
                               "C++": (cpp_body, c_read, cpp_walk, CPP_HEAD)}[language]
    cases = {call.name: body(call) for call in calls}
    cases.update({name: read(name, places) for name, places in reads().items()})
    cases.update({f"walk_{of}": f'{walk(of)} puts("");' for of in TABLES})
    lines = [f'    if (strcmp(name, "{name}") == 0) {{ {line} return 1; }}\n' for name, line in cases.items()]
    return begin + c_parts() + f"static int play(const char *name, const uint64_t *n) {{\n{''.join(lines)}    return 0;\n}}\n"


# ---- Rust ----


def rust_call(call):
    reads, at = next(c_arguments(call))[0], arguments(call)
    kinds = {"u64": "number", "u32": "place"}
    fixed = {"table": f"&{'mut ' * (not reads)}world.{TABLES[call.family]}_links", "kind": f"kind(w[{at.get('kind')}])", "ends": "&mut world.tree_ends[slot(w[0])]",
             "sums": "some_mut(&mut world.sums, slot(w[0]))" if writes_sums(call) else "some(&world.sums, slot(w[0]))",
             "chain": f"&mut world.stacks[slot(w[{at.get('chain')}])]", **given_of(call, "given")}
    fixed.update({name: "some(&world.keys, slot(w[0]))" for name in ("keys", "hashes")})
    words = []
    for arg in call.args:
        if arg.name == "buckets":
            words.append(f"&{'mut ' * arg.is_mut}world.buckets[BUCKETS[slot(w[0])].clone()]")
        elif arg.name not in ("rest", *SELF, *OUT):
            kind = "gap" if call.roles.get(arg.name) == "gap" else kinds.get(arg.type)
            words.append(fixed.get(arg.name) or f"{kind}(w[{at[arg.name]}])")
    return f"{rust_owner(call)}{short(call)}({', '.join(words)})"


def rust_owner(call):
    """What a call is a function or a method of: a module, a type if it takes no list and no tree, or one of two lists."""
    if call.family in (*RINGS, "hash"):
        return f"ic::{call.family}::"
    if not any(has(call, name) for name in SELF):
        return f"ic::{CLASSES[call.family]}::"
    return "it." if arguments(call).keys() & given_of(call, "") else f"world.{HEADS[call.family]}[slot(w[0])]."


def rust_body(call):
    made, at, heads = rust_call(call), arguments(call), HEADS.get(call.family)
    if "rest" in at:
        other = f"world.{heads}[slot(w[{at['rest']}])]"
        return f'if {other}.is_empty() {{ let made = {made}; split(&mut {other}, made) }} else {{ "skipped".into() }}'
    prints = "counted" if is_none_refused(call) else PRINTS[outcome(call)]
    text = f"{made}; done(Ok(()))" if call.name == "ic_xor_reverse" else f"{prints}({made})"
    return f"let (it, given) = two(&mut world.{heads}, slot(w[0]), slot(w[{at['given']}])); {text}" if at.keys() & given_of(call, "") else text


def rust_read(name, places):
    of, read = family(name), name.split("_", 2)[2]
    links, kind = f"world.{TABLES[of]}_links", "yes_or_no" if "_is_" in name else "neighbor"
    if read == "is_linked":
        return f"yes_or_no({links}.get(place(w[0]) as usize).is_some_and(Link{LINKS[of]}::is_linked))"
    words = [f"{'gap' if it == 'from' else 'place'}(w[{at}])" for at, it in enumerate(places)]
    owner = f"ic::{of}::" if of in RINGS else f"world.{HEADS[of]}[0]."
    return f"{kind}({owner}{read}({', '.join([f'&{links}', *words])}))"


def rust_walk(of):
    links = f"&world.{TABLES[of]}_links"
    if WIDE.get(of, of) in ("list", "xor", "tree"):
        return f"walk_by_cursor!(world.{HEADS[of]}[slot(w[0])], {links[1:]})"
    if of in RINGS:
        return f"walk(ic::{of}::iter({links}, place(w[0])))"
    hashed = f"ic::hash::chain(&world.buckets[BUCKETS[slot(w[0])].clone()], number(w[1])).expect(\"a bucket\")"
    return f"walk({hashed if of == 'hash' else f'world.{HEADS[of]}[slot(w[0])]'}.iter({links}))"


def rust_file(calls):
    """The module made.rs."""
    cases = {call.name: rust_body(call) for call in calls}
    cases.update({name: rust_read(name, places) for name, places in reads().items()})
    cases.update({f"walk_{of}": rust_walk(of) for of in TABLES})
    arms = "".join(f'        "{name}" => {{ {line} }}\n' for name, line in cases.items())
    head = "pub fn play(world: &mut World, name: &str, w: &[&str]) -> String {\n    match name {\n"
    return f'use crate::*;\nuse ic::*;\n\n{rust_world()}\n{head}{arms}        _ => panic!("there is no call {{name}}"),\n    }}\n}}\n'


def rust_world():
    """The type of all tables and lists, and what reads and writes a word of it."""
    both = {it.name: ("sum_words", "sum_of") if it.rust == "Sum" else (f"{it.rust}::words", f"{it.rust}::from_words") for it in parts()}
    held = "".join(f"    pub {it.name}: [{it.rust}; {it.count}],\n" for it in parts())
    sets = "".join(f"            {at} => set(&mut self.{it.name}, at, word, {both[it.name][0]}, {both[it.name][1]}),\n" for at, it in enumerate(parts()))
    shows = "".join(f"        line(&mut text, &self.{it.name}, {both[it.name][0]});\n" for it in parts())
    return (f"#[derive(Default)]\npub struct World {{\n{held}    pub keys: Vec<u64>,\n}}\n\nimpl World {{\n"
            f"    pub fn set(&mut self, part: u64, at: usize, word: u64) {{\n        match part {{\n{sets}            _ => panic!(\"there is no part {{part}}\"),\n"
            f"        }}\n    }}\n\n    pub fn show(&self) -> String {{\n        let mut text = String::new();\n{shows}        text\n    }}\n}}\n")


# ---- JavaScript ----


SCRIPT_HEADS = {**HEADS, "hash": "tables"}


def script_given(call, at):
    return f"w.{SCRIPT_HEADS.get(call.family)}[n[{at}]]" if given_of(call, "") else f"w.{call.family}Of(place(n[{at}]))"


def script_body(call):
    at, types = arguments(call), {arg.name: arg.type for arg in call.args}
    heads = SCRIPT_HEADS.get(call.family)
    of = lambda name: f"Number(n[{at[name]}])" if name == "kind" else f"BigInt(n[{at[name]}])" if types[name] == "u64" else f"place(n[{at[name]}])"
    if short(call) == "init":
        return f"void new ic.{CLASSES[call.family]}(w.links.{TABLES[call.family]}, place(n[0]))"
    left = ("table", "buckets", "rest", "ends", *SELF, *OUT, *(("keys",) if call.family in KEEP_KEYS else ()))
    fixed = {"keys": "w.keys[n[0]]", "hashes": "w.keys[n[0]]", "sums": "w.sums[n[0]]", "given": script_given(call, at.get("given")),
             "head": f"w.{call.family}Of(place(n[{at.get('head')}]))", "chain": f"w.{chain(call)}"}
    names = [arg.name for arg in call.args if arg.name not in left]
    owner = "w.ended[n[0]]" if has(call, "ends") else f"w.{heads}[n[0]]" if call.family not in RINGS else f"w.{call.family}Of(0)"
    if is_of_head(call):
        owner, names = fixed["head"], [name for name in names if name != "head"]
    made = f"{owner}.{script_name(call)}({', '.join(fixed.get(name) or of(name) for name in names)})"
    other = f"w.{heads}[n[{at.get('rest')}]]"
    return f'({other}.isEmpty ? w.fill({other}, () => {made}) : "skipped")' if "rest" in at else made


def script_read(name, places):
    of, read = family(name), name.split("_", 2)[2]
    if read == "is_linked":
        made = f"w.links.{TABLES[of]}.isLinked(place(n[0]))"
    elif read == "is_empty":
        made = f"w.{of}Of(place(n[0])).isEmpty"
    else:
        owner = f"w.{of}Of(0)" if of in RINGS else f"w.{HEADS[of]}[0]"
        made = f"{owner}.{camel(read)}({', '.join(f'place(n[{at}])' for at in range(len(places)))})"
    return f'({made} ? "yes" : "no")' if "_is_" in name else f'({made} ?? "none")'


def script_walk(of):
    made = f"w.{of}Of(place(n[0]))" if of in RINGS else "w.tables[n[0]].chain(BigInt(n[1]))" if of == "hash" else f"w.{HEADS[of]}[n[0]]"
    return f'[...{made}].map((place) => place + " ").join("")'


def script_file(calls):
    """The module made.mjs."""
    cases = {call.name: script_body(call) for call in calls}
    cases.update({name: script_read(name, places) for name, places in reads().items()})
    cases.update({f"walk_{of}": script_walk(of) for of in TABLES})
    lines = "".join(f"  {name}: (n) => {line},\n" for name, line in cases.items())
    place = 'const place = (word) => (word === "none" ? null : Number(word));\n'
    return f"{place}{script_world()}export const callsOf = (ic, w) => ({{\n{lines}}});\n"


def script_world():
    """What makes the tables, the lists and the rings of any head, and what lists all words. The hash tables, the keys and the sums are made by the player."""
    links = ", ".join(f"{of}: library.links{LINKS[next(family for family in FAMILIES if TABLES[family] == of)]}({places})" for of, places in PLACES.items())
    keys = lambda family: ", keys[slot]" * (family in KEEP_KEYS)
    lists = [f"{heads}: [0, 1, 2].map((slot) => new ic.{CLASSES[of]}(links.{TABLES[of]}{keys(of)}))" for of, heads in HEADS.items()]
    rings = [f"{of}Of: headed(ic.{CLASSES[of]}, links.{TABLES[of]})" for of in FAMILIES if of in RINGS]
    made = {"buckets": "w.tables.map((it) => it.buckets)", "tree_ends": "w.ended.map((it) => it.both)", "sums": "[w.sums[0]]"}
    words = [f"[w.links.{it.of}]" if it.name.endswith("_links") else made.get(it.name) or f"w.{it.name}.map((it) => it.ends)" for it in parts()]
    return (f"export const treePlaces = {PLACES['tree']};\nexport const linksOf = (library) => ({{ {links} }});\n"
            f"export const listsOf = (ic, links, keys, headed) => ({{\n  {', '.join(lists + rings)},\n}});\n"
            f"export const partsOf = (w) => [\n  {', '.join(words)},\n];\n")
