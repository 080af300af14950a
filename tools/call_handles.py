"""What include/ic_in.h has: each call, read and loop of include/ic.h over a handle in place of the table, its length and the list."""

import re
import textwrap

from call_texts import KEEP_KEYS
from languages import HEADER, c_family, c_items

# What a handle has of the arguments of a call, by the name of the argument. A ring's head is a place, and is handed as before.
PARTS = {"table": "table", "places": "places", "list": "list", "tree": "tree", "buckets": "buckets", "bucket_count": "bucket_count",
         "keys": "keys.keys", "key_count": "keys.count"}
OTHERS = ("given", "rest")
# The count that is handed with numbers of which there is one for each place.
COUNTED = {"keys": "key_count", "hashes": "hash_count"}
SIGNATURE = re.compile(r"(\w+) (ic_\w+)\((.*)\);")
WIDTH = 142


def renamed(name):
    return re.sub(r"^((?:ic|IC)_[A-Za-z]+(?:32)?_)", lambda it: it[1] + ("in_" if it[1].islower() else "IN_"), name)


def whole(family):
    """What a handle calls the list or the tree."""
    return "tree" if family == "tree" else "list"


def handed(family, arguments):
    """The parameters of a function over a handle, and what it hands to the call: `keys` are an argument of their own, unless the handle has them, and so
    are `hashes`."""
    params, words = [f"struct ic_{family}_in in"], []
    own = {name: count for name, count in COUNTED.items() if name == "hashes" or family not in KEEP_KEYS}
    for argument in arguments:
        kind, name = re.match(r"(.*?[ *])(\w+)$", argument).groups()
        if name in OTHERS and "*" in kind:
            params.append(f"struct ic_{family}_in {name}")
            words.append(f"{name}.{whole(family)}")
        elif name in own:
            params.append(f"struct ic_keys {name}")
            words += [f"{name}.keys", f"{name}.count"]
        elif name in own.values():
            continue
        elif name in PARTS:
            words.append(f"in.{PARTS[name]}")
        else:
            params.append(f"{kind}{name}")
            words.append(name)
    return params, words


def function(family, item, is_refused):
    """The function of a call or a read. A second list has to be another one of the same table."""
    result, name, arguments = SIGNATURE.match(item.signature).groups()
    params, words = handed(family, re.split(r", ", arguments))
    other = next((it for it in OTHERS if f"struct ic_{family}_in {it}" in params), None)
    head = f"static inline {result} {renamed(name)}("
    lines = textwrap.wrap(", ".join(params), WIDTH - len(head) - 3)
    text = "IC_NODISCARD\n" * is_refused + head + ("\n" + " " * len(head)).join(lines) + ") {\n"
    if other:
        text += f"    if ({other}.table != in.table || {other}.{whole(family)} == in.{whole(family)})\n        return IC_BROKEN;\n"
    return text + f"    return {name}({', '.join(words)});\n}}\n"


def has_handle(item):
    """Whether a macro is there over a handle, too: a loop, a search or an insertion by a comparison."""
    return "_FOREACH" in item.name or item.name.endswith("_BY")


def macro(item):
    """The macro of a loop, or of a search by a comparison."""
    name, arguments = re.match(r"(\w+)\((.*)\)", item.signature).groups()
    names = arguments.split(", ")
    own = [it for it in names if it not in PARTS]
    at = next(at for at, it in enumerate(names) if it in PARTS)
    before = [it for it in names[:at] if it in own]
    params = [*before, "in", *(it for it in names[at:] if it in own)]
    words = [f"(in).{PARTS[it]}" if it in PARTS else it for it in names]
    line = f"#define {renamed(name)}({', '.join(params)})"
    body = f"{name}({', '.join(words)})"
    return f"{line} {body}\n" if len(line) + len(body) < WIDTH else f"{line} \\\n    {body}\n"


def handles(family):
    """All of a family, in the order of the header."""
    marked = set(re.findall(r"^IC_NODISCARD\n(?:static inline )?\w+ (ic_\w+)\(", HEADER.read_text(), re.M))
    functions, loops = [], []
    for item in c_family(family, c_items()):
        if item.name.startswith("IC_"):
            loops += [macro(item)] * has_handle(item)
        elif not item.name.endswith("_go_on"):
            functions.append(function(family, item, item.name in marked))
    return "\n".join([*functions, "".join(loops)])
