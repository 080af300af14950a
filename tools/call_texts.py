"""What the header and the bindings have of a call of the library for C, in C, Rust, JavaScript and TypeScript."""

import re
import textwrap

from call_table import OUT, has, refusals

# The types of the numbers, and of lengths, in C and in Rust. A slice is handed as a pointer and a length.
NUMBERS = {"u32": ("uint32_t", "u32"), "u64": ("uint64_t", "u64")}
LENGTH = ("ic_length", "usize")
STRUCTS = {"RawOne": "ic_link1", "RawTwo": "ic_link2", "RawNarrowTwo": "ic_link2_32", "RawThree": "ic_link3", "RawFront": "ic_stack", "RawEnds": "ic_list", "RawRoot": "ic_tree",
           "RawTreeEnds": "ic_tree_ends", "RawSum": "ic_sum"}
COUNTS = {"table": "places", "keys": "key_count", "hashes": "hash_count", "buckets": "bucket_count", "sums": "sum_count"}
# The classes and types of the bindings, and how many words a link of each kind has.
CLASSES = {"list": "List", "list32": "List32", "stack": "Stack", "xor": "XorList", "tree": "Tree", "ring": "Ring", "ring32": "Ring32", "hash": "HashTable"}
LINKS = {"list": 2, "list32": "2x32", "ring": 2, "ring32": "2x32", "stack": 1, "hash": 1, "xor": 1, "tree": 3}
SELF = ("list", "tree")
# The slices whose elements the crate ic has under a name of its own, and what a call hands out that is no place.
WRAPPED = {"buckets": "Stack", "sums": "Sum"}
NUMBERED = ("members", "sum")
# The families whose calls name heads, which are places.
RINGS = ("ring", "ring32")
# The families whose handles and objects keep the keys. The calls of the others are handed them.
KEEP_KEYS = ("hash", "tree")
ERRORS = {"NULL": "Null", "OUT_OF_RANGE": "OutOfRange", "LINKED": "Linked", "NOT_LINKED": "NotLinked", "BROKEN": "Broken"}
# What the bindings have in place of the table's words in braces.
BOUND = {"self": "this list", "rest_has": "", "accepted": "the call returns a number"}
# What a list is called that a call hands out.
NEW = {"tree": "a new tree, which the call returns"}
# To what a call sets an out parameter in C, and what a method returns in its place.
SET = {"members": "their number", "replaced": "the removed member", "sum": "this value"}
RETURNED = {"members": "returns their number", "replaced": "returns the removed member", "sum": "returns this value"}
# How many columns a line of comments, of C and of Rust has at most.
COMMENT, C_LINE, RUST_LINE = 140, 142, 120
SAFETY = "// SAFETY: each pointer comes from a reference, with the length of its slice, and no mutable reference overlaps another one."


def bound_words(call, none, greatest):
    """What the bindings have in place of the words in braces."""
    rest = NEW.get(call.family, "a new list, which the call returns")
    own = "this tree" if call.family == "tree" else BOUND["self"]
    return {**BOUND, "self": own, "none": none, "greatest": greatest, "rest": rest, "out": RETURNED.get(outcome(call), "returns this member")}


def sentences(call, words):
    """What the call does, with its cost in the first sentence. `words` has what the table writes in braces."""
    first, _, rest = call.what.partition(". ")
    text = f"{first.rstrip('.')}, in {call.cost}." + f" {rest}" * bool(rest)
    return re.sub(r"\{(\w+)\}", lambda word: words[word[1]], text)


def broken(call, words):
    return call._replace(broken=call.broken and re.sub(r"\{(\w+)\}", lambda word: words[word[1]], call.broken))


def outcome(call):
    """What a call hands out besides its status: a list, a count, a member in place of which there may be none, or nothing."""
    out = [arg.name for arg in call.args if arg.name in OUT]
    return "rest" if has(call, "rest") else out[0] if out else None


def short(call):
    return call.name.split("_", 2)[2]


def free(call):
    """The arguments that a method has besides the table, the list and what it hands out."""
    return [arg for arg in call.args if arg.name not in ("table", "rest", *SELF, *OUT)]


# ---- C ----


def c_arguments(call):
    """The arguments in C: whether what a pointer leads to is const, the type in C and in Rust, whether it is a pointer, and the name."""
    same = "table.new ≡ table.old" == call.clauses.get("same", "").strip()
    for arg in call.args:
        struct = STRUCTS.get(arg.type, "").replace("ic_list", "ic_xor_list" if call.family == "xor" else "ic_list")
        kinds = NUMBERS.get(arg.type) or (f"struct {struct}", struct)
        is_const = arg.form != "value" and (not arg.is_mut or arg.name == "table" and same)
        yield is_const, kinds, arg.form != "value", arg.name
        if arg.form == "slice":
            yield False, LENGTH, False, COUNTS[arg.name]


def commented(lines, begin, middle, end):
    return begin + f"\n{middle}".join(lines) + end + "\n"


def header(call):
    """The prototype with its comment."""
    out = outcome(call)
    words = {"none": "IC_NONE", "self": f"`{'tree' if call.family == 'tree' else 'list'}`", "rest": "`rest`, which has to be empty",
             "rest_has": ", or `rest` has members", "greatest": "IC_GREATEST", "accepted": "the status is IC_OK", "out": f"sets *{out} to {SET.get(out, 'this member')}"}
    lines = textwrap.wrap(sentences(call, words), COMMENT - 3)
    said = refusals(broken(call, words), "IC_NONE", "`places`")
    lines += textwrap.wrap(" ".join(f"IC_{status}: {when}." for status, when in said.items()), COMMENT - 3)
    head, parts = f"uint32_t {call.name}(", []
    for is_const, (kind, _), is_pointer, name in c_arguments(call):
        parts.append(f"{'const ' * is_const}{kind} {'*' * is_pointer}{name}".replace(" ", "\0"))
    prototype = textwrap.wrap(", ".join(parts), C_LINE - len(head), break_long_words=False)
    prototype = head + ("\n" + " " * len(head)).join(prototype).replace("\0", " ") + ");\n"
    return commented(lines, "/* ", " * ", " */") + "IC_NODISCARD\n" * bool(said) + prototype


# ---- Rust ----


def extern(call):
    """The declaration in ic-sys."""
    parts = [f"{name}: " + f"*{'const' if is_const else 'mut'} " * is_pointer + kind for is_const, (_, kind), is_pointer, name in c_arguments(call)]
    line = f"    pub fn {call.name}({', '.join(parts)}) -> u32;\n"
    # rustfmt keeps a column for what a body would begin with.
    if len(line) == RUST_LINE + 1:
        return line.replace(" -> u32", "\n        -> u32")
    return line if len(line) <= RUST_LINE else f"    pub fn {call.name}(\n" + "".join(f"        {part},\n" for part in parts) + "    ) -> u32;\n"


def rust_comment(call, indent):
    out = outcome(call)
    words = bound_words(call, "`None`", "[`SumKind::Greatest`]")
    of, text = broken(call, words), sentences(call, words)
    said = refusals(of, "`u32::MAX`", "the table's length")
    if out in ("popped", "removed", "found"):
        text += f" The call returns `None` if {said.pop('NULL')}."
    if is_none_refused(call):
        text, said = f"{text} The call returns `None` if {of.broken}.", {}
    paragraphs = [textwrap.wrap(text, COMMENT - indent - 4)]
    if said:
        errors = " ".join(f"[`Error::{ERRORS[status]}`] if {when}." for status, when in said.items())
        paragraphs += [["# Errors"], textwrap.wrap(errors, COMMENT - indent - 4)]
    return "\n\n".join("\n".join(it) for it in paragraphs)


def is_none_refused(call):
    """Whether the method returns `None` of what it refuses: it counts members, and no argument of a caller can be at fault."""
    return outcome(call) == "members" and refusals(call, "", "").keys() == {"BROKEN"}


def given_of(call, text):
    """The text for a second list. What is given to a call of rings is a place."""
    return {} if "given" in call.roles else {"given": text}


def rust_arguments(call):
    """The parameters of the method, and what it hands to the call."""
    reads = next(c_arguments(call))[0]
    handed = {"table": ["links", "places"], "rest": ["&mut rest.0"], "ends": ["&mut ends.0"], "chain": ["&mut chain.0"], "kind": ["kind as u32"],
              **given_of(call, ["&mut given.0"])}
    handed.update({name: [f"{name}.as_ptr()", f"{name}.len()"] for name in ("keys", "hashes")})
    params, words = [], []
    for arg in call.args:
        if arg.name in SELF:
            words.append("&mut self.0" if arg.is_mut else "&self.0")
            continue
        if arg.name in WRAPPED:
            words += [f"{arg.name}.{'as_mut_ptr' if arg.is_mut else 'as_ptr'}().cast()", f"{arg.name}.len()"]
        elif arg.name in OUT:
            words.append(arg.name if arg.name in NUMBERED else "it")
        else:
            words += handed.get(arg.name, [f"number({arg.name})" if call.roles.get(arg.name) == "gap" else arg.name])
        kinds = {"table": f"&{'mut ' * (not reads)}[Link{LINKS[call.family]}]", "keys": "&[u64]", "hashes": "&[u64]", **given_of(call, f"&mut {CLASSES[call.family]}"),
                 "ends": "&mut TreeEnds", "chain": "&mut Stack", "kind": "SumKind",
                 **{name: f"&{'mut ' * arg.is_mut}[{kind}]" for name, kind in WRAPPED.items()}}
        if arg.name not in ("rest", *OUT):
            params.append(f"{arg.name}: " + kinds.get(arg.name, "Option<u32>" if call.roles.get(arg.name) == "gap" else arg.type))
    owner = [f"&{'mut ' * arg.is_mut}self" for arg in call.args if arg.name in SELF]
    return owner + params, words


def rust(call):
    """The method or the function of the crate ic."""
    is_method = call.family not in (*RINGS, "hash")
    indent, out, own = " " * (4 if is_method else 0), outcome(call), CLASSES[call.family]
    params, words = rust_arguments(call)
    called, reads = f"unsafe {{ {call.name}({', '.join(words)}) }}", next(c_arguments(call))[0]
    parts = f"Link{LINKS[call.family]}::{'read_parts' if reads else 'parts'}(table)"
    lines, result = [f"let (links, places) = {parts};", SAFETY], " -> Result<(), Error>"
    if not has(call, "table"):
        lines, result = [SAFETY, f"{called};"], ""
    elif out == "rest":
        lines[0], result = f"let ((links, places), mut rest) = ({parts}, {own}::new());", f" -> Result<{own}, Error>"
        lines += [f"done({called})?;", "Ok(rest)"]
    elif is_none_refused(call):
        lines, result = [*lines, f"counted(|members| {called})"], " -> Option<u64>"
    elif out in NUMBERED:
        lines, result = [*lines, f"try_counted(|{out}| {called})"], " -> Result<u64, Error>"
    elif out == "replaced":
        lines[1:], result = [SAFETY, f"let removed = handed_out(|it| {called})?;", "removed.ok_or(Error::Null)"], " -> Result<u32, Error>"
    elif out:
        lines, result = [*lines, f"handed_out(|it| {called})"], " -> Result<Option<u32>, Error>"
    else:
        lines.append(f"done({called})")
    lines = [part for line in lines for part in split_closure(line, len(indent) + 4)]
    text = textwrap.indent(rust_comment(call, len(indent)), "/// ", lambda line: line.strip()).replace("\n\n", "\n///\n") + "\n#[inline]\n"
    text += "#[must_use]\n" * is_none_refused(call) + head(f"pub fn {short(call)}(", params, f"){result} {{\n", len(indent))
    text += "".join(f"    {line}\n" for line in lines) + "}\n"
    return textwrap.indent(text, indent)


def head(begin, params, end, indent):
    line = begin + ", ".join(params) + end
    return line if indent + len(line) <= RUST_LINE + 1 else f"{begin}\n" + "".join(f"    {it},\n" for it in params) + end


def split_closure(line, indent):
    """A line as rustfmt breaks it if it is too long: a statement after its `=`, a closure around its body, and a call of too many words at each."""
    if indent + len(line) <= RUST_LINE or line.startswith("//"):
        return [line]
    if line.startswith("let "):
        left, _, right = line.partition(" = ")
        return [f"{left} =", f"    {right}"]
    before, _, rest = line.partition("unsafe { ")
    body, _, after = rest.rpartition(" }")
    if indent + 4 + len(body) > RUST_LINE:
        name, _, words = body.removesuffix(")").partition("(")
        body = "\n".join([f"{name}(", *(f"    {word}," for word in words.split(", ")), ")"])
    return [f"{before}unsafe {{", *textwrap.indent(body, "    ").split("\n"), f"}}{after}"]


# ---- The table of reads ----


def reads_section(reads):
    """A section of the page of what each language has: what each read is called in each language, and what it returns."""
    lines = ["", "## Reads", "", "*None* is `IC_NONE` in C, `None` in Rust and `null` in JavaScript.", "",
             "| C | Rust | JavaScript | Of a place that is not linked | Of a place beyond the table | If the link leads out of the table |",
             "|---|---|---|---|---|---|"]
    for name, returned in reads.items():
        family, read = re.match(r"ic_(\w+?)_(\w+)", name).groups()
        own, link = CLASSES[family], f"Link{LINKS[family]}"
        rust = f"{link}::{read}" if read == "is_linked" else f"ring::{read}" if family == "ring" else f"{own}::{read}"
        script = "Words.isLinked" if read == "is_linked" else f"{own}.{camel(read)}"
        lines.append(f"| `{name}` | `{rust}` | `{script}` | {' | '.join(returned.values())} |")
    return "\n".join(lines) + "\n"


# ---- JavaScript ----


def camel(name):
    return re.sub(r"_(\w)", lambda match: match[1].upper(), name)


def script_words(call):
    """What the method hands to the call. Each number is checked by its name."""
    fixed = {"table": "this.table, this.places", "list": "this.self", "tree": "this.self", "keys": "this.keysAt, this.keyCount",
             "buckets": "this.bucketsAt, this.bucketCount", "given": "this.given(given)", "rest": "rest", "ends": "this.endsAt", "chain": "this.given(chain)",
             "hashes": "...keyParts(hashes, this.links)", "sums": "...sumParts(sums, this.links)"}
    if call.family not in KEEP_KEYS:
        fixed["keys"] = "...keyParts(keys, this.links)"
    if call.family in RINGS:
        fixed["head"] = "this.head" if is_of_head(call) else "this.given(head)"
    for arg in call.args:
        check = "u64" if arg.type == "u64" else "placeNumber" if arg.name in call.roles and call.roles[arg.name] != "run" else "u32"
        yield "this.out" if arg.name in OUT else fixed.get(arg.name) or f'{check}({arg.name}, "{arg.name}")'


def is_of_head(call):
    """Whether a call of rings names its head first, so that the ring of that head makes it."""
    return next(iter(call.roles.items()), None) == ("head", "ring")


def script_parameters(call):
    """The parameters of a method. A tree and a hash table keep their keys, ends and buckets, and a ring its head."""
    kept = {"buckets", "ends", *(["keys"] if call.family in KEEP_KEYS else []), *(["head"] if is_of_head(call) else [])}
    return [arg for arg in free(call) if arg.name not in kept]


def script_name(call):
    """The name of the method. A tree that keeps its ends is a class of its own, whose methods are named as those of a tree."""
    return camel(short(call).removeprefix("ends_"))


def script(call):
    """The method of ic.mjs. A constructor of a ring calls ic_ring_init."""
    if short(call) == "init":
        return ""
    begin = {"rest": "return this.parted((rest) => ", "members": "return this.counted(", "sum": "return this.summed(", None: "this.done("}.get(outcome(call), "return this.member(")
    begin += f"this.calls.{call.name}("
    head, words = f"  {script_name(call)}({', '.join(arg.name for arg in script_parameters(call))}) {{", list(script_words(call))
    line = f"{begin}{', '.join(words)}));"
    if len(head) + len(line) + 3 <= COMMENT:
        return f"{head} {line} }}\n"
    if len(line) + 4 <= COMMENT:
        return f"{head}\n    {line}\n  }}\n"
    wrapped = textwrap.indent(textwrap.fill(", ".join(words).replace(', "', ',\0"'), COMMENT - 8).replace("\0", " "), "      ")
    return f"{head}\n    {begin}\n{wrapped},\n    ));\n  }}\n"


def types(call):
    """The method of ic.d.mts with its comment."""
    if short(call) == "init":
        return ""
    out, own = outcome(call), CLASSES[call.family]
    kinds = {"given": own, "chain": CLASSES["stack"], "head": own, "keys": "Words", "hashes": "Words", "count": "number", "sums": "Sums", "kind": "SumKind"}
    kind = lambda arg: kinds.get(arg.name) or ("bigint | number" if arg.type == "u64" else "Gap" if call.roles.get(arg.name) == "gap" else "Place")
    parameters = [f"{arg.name}: {kind(arg)}" for arg in script_parameters(call)]
    result = {"rest": own, "members": "number", "sum": "bigint", None: "void"}.get(out, "Gap")
    words = bound_words(call, "null", "GREATEST")
    said, text = refusals(broken(call, words), "null", "the table's length"), sentences(call, words)
    if out in ("popped", "removed", "replaced", "found"):
        text += f" It returns null if {said.pop('NULL')}."
    text += "".join(f" It throws {status} if {when}." for status, when in said.items())
    lines = textwrap.wrap(text, COMMENT - 5)
    comment = f"  /** {lines[0]} */\n" if len(lines) == 1 else commented(["", *lines], "  /**", "   * ", "\n   */")
    return f"{comment}  {script_name(call)}({', '.join(parameters)}): {result};\n"
