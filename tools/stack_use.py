"""How much stack the functions of a text take, by the directives of its unwind tables, which tell the depth at each instruction."""

import collections
import re

FUNCTION = re.compile(r"^(?!\.)([\w.$]+):\n(.*?)^\.Lfunc_end\d+:", re.M | re.S)
# The depth where a function begins, which has the return address on x86-64. Instructions that call a function, and that jump to one.
Processor = collections.namedtuple("Processor", "entry call jump")
# The functions that call themselves, and how often one stands within itself at most: by a run of each level, and by each level of a tree.
LEVELS = {"sort_front": 34, "check_below": 67}
THUMB = Processor(0, re.compile(r"bl\s+([a-z_][\w.$]*)"), re.compile(r"b(?:[a-z]{2})?(?:\.[nw])?\s+([a-z_][\w.$]*)$"))
PROCESSORS = {
    "x86_64": Processor(8, re.compile(r"callq\s+([\w.$]+)"), re.compile(r"j\w+\s+([a-z_][\w.$]*)$")),
    "thumbv7em": THUMB,
    "thumbv6m": THUMB,
    "riscv32imac": Processor(0, re.compile(r"call\s+([\w.$]+)"), re.compile(r"(?:tail|j|b\w+\s.*,)\s+([a-z_][\w.$]*)$")),
    "aarch64": Processor(0, re.compile(r"bl\s+([\w.$]+)"), re.compile(r"(?:b|b\.\w+|cbn?z\s.*,|tbn?z\s.*,)\s+([a-z_][\w.$]*)$")),
}


def follow(processor, lines):
    """The greatest depth of a function itself, and each function that it calls or jumps to, with the depth that it adds to that one's."""
    depth, kept, deepest, found = processor.entry, [], processor.entry, []
    for line in map(str.strip, lines):
        if moved := re.match(r"\.cfi_def_cfa_offset (\d+)$", line):
            depth = int(moved[1])
        elif line == ".cfi_remember_state":
            kept.append(depth)
        elif line == ".cfi_restore_state":
            depth = kept.pop()
        elif called := processor.call.match(line):
            found.append((called[1], depth))
        elif jumped := processor.jump.match(line):
            found.append((jumped[1], depth - processor.entry))
        deepest = max(deepest, depth)
    return deepest, found


def levels_of(name):
    """How often the function stands within itself, or 0 where that isn't known."""
    return next((levels for part, levels in LEVELS.items() if part in name), 0)


def stack_use(text, processor, names):
    """The bytes that each of these functions takes with those that it calls. None of them may call itself, but for those with levels."""
    followed = {name: follow(PROCESSORS[processor], lines.splitlines()) for name, lines in FUNCTION.findall(text)}

    def deepest_of(name, above):
        if name in above:
            raise ValueError(f"{name} calls itself")
        deepest, found = followed[name]
        within = [depth for callee, depth in found if callee == name]
        if within and not levels_of(name):
            raise ValueError(f"{name} calls itself")
        others = [depth + deepest_of(callee, {*above, name}) for callee, depth in found if callee != name]
        return max([deepest, *others]) + (levels_of(name) - 1) * max(within, default=0)

    return {name: deepest_of(name, set()) for name in names}
