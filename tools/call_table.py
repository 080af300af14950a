"""The table of the calls for C, crates/ic_ffi/calls.txt, with the signatures and the contracts of crates/ic_ffi."""

import collections
import re

from call_widths import MOST, WIDE
from checks import ROOT

CRATE = ROOT / "crates/ic_ffi"
# The crates whose specs have the records that are contracts.
HOMES = ("ic_raw", "ic_raw_lists", "ic_raw_keyed", "ic_raw_trees", "ic_raw_augmented")
TABLE = CRATE / "calls.txt"
HEADER = ROOT / "include/ic.h"
CASES = ROOT / "tests/library/reads.txt"
# A row of the table together with the call's arguments and the clauses of its contract.
Call = collections.namedtuple("Call", "name family group args roles cost what null broken clauses")
# An argument: its name, the type of its value or of its elements, whether it is written, and whether it is one value, one that is borrowed,
# or a slice.
Arg = collections.namedtuple("Arg", "name type is_mut form")

# A contract that is one record, and a record of one of these crates, with the parameters of the module in which it stands.
WHOLE = re.compile(r"^    ensures \{ ([\w.]+) (.*) \}\n$")
MODULE = re.compile(r"^module _ (.*) where$", re.M)
RECORD = re.compile(r"^  pub record (\w+)(.*) : Type 0 where\n((?:    .*\n)+)", re.M)
FIELD = re.compile(r"^    pub (\w+) : ((?:.*\n)(?:      .*\n)*)", re.M)
# By which names a file of calls has the records: each by its own, or all of one file behind a name for that file.
USED = re.compile(r"^(?:ghost )?use Rattle\.(\w+)\.specs\.(\w+Calls)(?:\.\{(.*)\}| as (\w+));?$", re.M)
# What is handed to a record in place of one parameter, and a name in a field.
HANDED = re.compile(r"(?:\([^()]*\)|[^\s()])+")
NAME = re.compile(r"(?<![\w.'])[\w']+(?![\w.'])")
SIGNATURE = re.compile(r'pub extern "C" fn (\w+)\((.*?)\) -> u32\n((?:    [^\n]*\n)*)\{', re.S)
ROW = re.compile(r"^(ic_(\w+?)_\w+)\(([^)]*)\) (O\(.+\))\n    (.*)\n(?:    NULL: (.*)\n)?(?:    BROKEN: (.*)\n)?", re.M)
# A section, whose second name is that of the family with words of 4 bytes.
GROUP = re.compile(r"^\[([\w-]+)\](?: \[([\w-]+)\])?\n((?:(?!\[).*\n?)*)", re.M)
READS = re.compile(r"^\[reads\] (.*)\n((?:.+\n)*)", re.M)
ROLES = ("new", "run", "member", "ring", "gap")
# The arguments by which a call hands a number out: a place, a count, or a sum.
OUT = ("popped", "removed", "replaced", "found", "members", "sum")
STATUSES = ("NULL", "OUT_OF_RANGE", "LINKED", "NOT_LINKED", "BROKEN")
# What the header calls otherwise than crates/ic_ffi: the member after a gap of an XOR list.
RENAMED = {"behind": "after"}
# What a fault of a contract's clause `why` may make of the status.
FAULTS = {"fault_at": {"OUT_OF_RANGE", "NOT_LINKED"}, "fault_of": {"OUT_OF_RANGE", "LINKED"}, "run_faults": {"OUT_OF_RANGE", "LINKED"},
          "keys_fault": {"OUT_OF_RANGE"}, "buckets_fault": {"OUT_OF_RANGE"}, "sums_fault": {"OUT_OF_RANGE"}}


def argument(words):
    name, kind = (it.strip() for it in words.split(":", 1))
    borrowed = re.match(r"&(mut )?(\[)?(\w+)", kind)
    if not borrowed:
        return Arg(name, kind, False, "value")
    return Arg(name, borrowed[3], bool(borrowed[1]), "slice" if borrowed[2] else "one")


def parameters(text):
    """The names that parameters such as `(old new : List RawTwo) (status : ℕ)` have."""
    return [name for names in re.findall(r"\(([^:()]+) :", text) for name in names.split()]


def records():
    """Each record that is a whole contract, by its crate, its file and its name: its parameters, and its fields by their names. A field `call` is the record of
    another call, whose fields it has, too, maybe if something holds."""
    found, called = {}, {}
    files = [file for home in HOMES for file in sorted((ROOT / f"crates/{home}/specs").glob("*Calls.antt"))]
    for file in files:
        home, text = file.parts[-3], file.read_text()
        outer, *parts = re.split(r"^(?=module _)", text, flags=re.M)
        for part in parts:
            module = parameters(MODULE.search(part)[1])
            for name, own, fields in RECORD.findall(part):
                found[home, file.stem, name] = module + parameters(own), dict(FIELD.findall(fields))
                called[home, file.stem, name] = text
    # A crate's records are made of those of the crates before it.
    for key, (names, fields) in found.items():
        if "call" in fields:
            whole = re.match(r"(?:.* → )?([\w.]+) (.*)\n", fields["call"])
            found[key] = names, {**filled(records_of(called[key], found)[whole[1]], whole[2]), **fields}
    return found


def records_of(text, of):
    """The records that a file uses, by the names that it has for them."""
    found = {}
    for home, file, names, short in USED.findall(text):
        found.update({name: of[home, file, name] for name in names.split(", ") if name})
        found.update({f"{short}.{name}": it for (crate, stem, name), it in of.items() if short and (crate, stem) == (home, file)})
    return found


def filled(record, words):
    """The fields of a record, with what it is handed in place of its parameters."""
    names, fields = record
    handed = dict(zip(names, HANDED.findall(words)))
    return {field: NAME.sub(lambda it: handed.get(it[0], it[0]), text) for field, text in fields.items()}


def clauses_of(contract, of):
    """The clauses of a contract by their names, or the fields of the record that it is."""
    whole = WHOLE.match(contract)
    if not whole or whole[1] not in of:
        return dict(re.findall(r"^    ensures (\w+) \{(.*?)\}\n(?=    ensures|\Z)", contract, re.M | re.S))
    return {field: re.sub(r"\((place_of \w+)\) ≡", r"\1 ≡", text) for field, text in filled(of[whole[1]], whole[2]).items()}


def signatures():
    """The arguments of each call, and the clauses of its contract by their names."""
    found, of = {}, records()
    for file in sorted((CRATE / "src").glob("*_calls.rt")):
        text = re.sub(rf"\b(?:{'|'.join(RENAMED)})\b", lambda word: RENAMED[word[0]], file.read_text())
        used = records_of(text, of)
        for name, words, contract in SIGNATURE.findall(text):
            found[name] = [argument(it) for it in words.split(",") if it.strip()], clauses_of(contract, used)
    return found


def narrow_row(row, family):
    """A row as that of the family with words of 4 bytes."""
    name, wide, *rest = row
    return [re.sub(rf"^ic_{wide}_", f"ic_{family}_", name), family, *rest]


def rows():
    """The calls in the order of the table, and what is wrong with the table."""
    of, calls, wrong = signatures(), [], []
    text = READS.sub("", re.sub(r"^#.*\n", "", TABLE.read_text(), flags=re.M))
    for group, narrow, part in GROUP.findall(text):
        found = ROW.findall(part)
        for name, family, roles, cost, what, null, broken in [*found, *(narrow_row(row, narrow) for row in found if narrow)]:
            if name not in of:
                wrong.append(f"{name} has a row, and crates/ic_ffi has no such call")
                continue
            args, clauses = of.pop(name)
            roles = dict(it.split(": ") for it in roles.split(", ") if it)
            calls.append(Call(name, family, narrow if family == narrow else group, args, roles, cost, what, null, broken, clauses))
        rest = ROW.sub("", part).strip()
        if rest:
            wrong.append(f"crates/ic_ffi/calls.txt: this is no row: {rest.splitlines()[0]}")
    return calls, wrong + [f"{name} has no row in crates/ic_ffi/calls.txt" for name in of]


def reads():
    """What each read returns, by the reason for which it finds no place of the table."""
    head, lines = READS.search(TABLE.read_text()).groups()
    return {name: dict(zip(head.split(), returned)) for name, *returned in map(str.split, lines.splitlines())}


def read_faults():
    """The reads that the header lacks, and those of which the cases have none for a reason, or another answer than the table. Beyond the table is no
    place, too."""
    declared = set(re.findall(r"^static inline \w+ (ic_\w+)\(", HEADER.read_text(), re.M))
    cases, kind = set(), ""
    for line in CASES.read_text().splitlines():
        played = re.match(r"(\w+) (?:\w+ )?(\w+) = (\w+) *# (\w+)", line)
        kind = line if re.fullmatch(r"[a-z]+", line) else kind
        if played:
            cases.add((f"ic_{kind}_{played[1]}", played[4], played[3], played[2] == "none"))
    for name, returned in reads().items():
        if name not in declared:
            yield f"crates/ic_ffi/calls.txt: {name} is no inline function of include/ic.h"
        for reason, answer in returned.items():
            seen = {it for read, why, it, _ in cases if (read, why) == (name, reason)}
            if reason == "beyond" and not {(name, reason, answer, is_none) for is_none in (True, False)} <= cases:
                yield f"tests/library/reads.txt: {name} has no case of a place beyond the table, or none of no place"
            if seen != {answer}:
                here = " and ".join(sorted(seen)) or "no case says what"
                yield f"tests/library/reads.txt: {name} ({reason}) returns {answer} by crates/ic_ffi/calls.txt, and here {here}"


def names(call, *roles):
    return [name for name, role in call.roles.items() if role in roles]


def has(call, name):
    return any(arg.name == name for arg in call.args)


def listed(words, joined):
    return f" {joined} ".join([", ".join(words[:-1]), words[-1]] if len(words) > 1 else words)


def one_of(places):
    """The subject of what is wrong with one of these places. An argument whose name is no noun gets one."""
    words = listed([f"`{name}`" for name in places], "or")
    return words if len(places) > 1 or places[0] in ("place", "head", "first") else f"the place {words}"


def refusals(call, none, length):
    """The statuses of a call other than OK, each with a sentence that says when the call returns it. `none` is how a language names no place, and
    `length` how it names the length of the table."""
    some = lambda *roles: one_of(names(call, *roles))
    when = {status: [] for status in STATUSES}
    if names(call, "member", "ring"):
        when["NULL"].append(f"{some('member', 'ring')} is {none}")
    when["NULL"] += [call.null] * bool(call.null)
    when["OUT_OF_RANGE"] += [f"there are fewer {name} than places" for name in ("keys", "hashes", "sums") if has(call, name)]
    when["OUT_OF_RANGE"] += ["there is no bucket"] * has(call, "buckets")
    if names(call, "new", "member", "ring", "gap"):
        most = f", or is {MOST:,} or more" * (call.family in WIDE)
        when["OUT_OF_RANGE"].append(f"{some('new', 'member', 'ring', 'gap')} is not below {length}{most}")
    if names(call, "run"):
        when["OUT_OF_RANGE"].append(f"none of these places is linked, but one is not below {length}")
        when["LINKED"].append("one of these places is linked already")
    if names(call, "new"):
        same = [f"is `{at}` itself" for at in names(call, "member", "ring") for new in names(call, "new")]
        when["LINKED"].append(f"{some('new')} is linked already" + f", or {' or '.join(same)}" * bool(same))
    if names(call, "member", "ring", "gap"):
        when["NOT_LINKED"].append(f"{some('member', 'ring', 'gap')} is not linked")
    when["BROKEN"] += [call.broken] * bool(call.broken)
    return {status: ", or ".join(reasons) for status, reasons in when.items() if reasons}


def contract_roles(call):
    """The places that the contract calls members that are named or may be none, places to insert, first places of runs, and those without which
    it returns NULL."""
    why, null, none = (call.clauses.get(name, "") for name in ("why", "null", "none"))
    null += none * bool(re.search(r"result ≡ (?:4|NULL)\b", none))
    return (set(re.findall(r"\bfault_at (?:\w+ )?table\.\w+ \(place_of (\w+)\)", why)),
            set(re.findall(r"\bfault_of (?:\w+ )?table\.\w+ \(place_of (\w+)\)", why)),
            set(re.findall(r"\brun_faults \([^)]*\) (\w+) count", why)), set(re.findall(r"place_of (\w+) ≡ None", null)))


def contract_statuses(call):
    """The statuses other than OK that the contract leaves open. The clause `ok` says that a call is never refused, and `opened` that it accepts
    each free place."""
    if "ok" in call.clauses:
        return set()
    why = re.sub(r"\bfault_at (?:\w+ )?\S+ None\b", "", call.clauses.get("why", ""))
    found = set().union(*(statuses for fault, statuses in FAULTS.items() if re.search(rf"\b{fault}\b", why)))
    found |= {"NULL"} if re.search(r"result ≢ (?:4|NULL)\b", why) else set()
    return found | (set() if "opened" in call.clauses else {"BROKEN"})


def faults(call):
    """What the row says otherwise than the contract."""
    for name, role in call.roles.items():
        if role not in ROLES or not has(call, name):
            yield f"{call.name}: its row gives `{name}` the role {role}, which is no role or no argument's"
    if not {"why", "ok"} & call.clauses.keys():
        yield f"{call.name}: its contract has no clause `why`, which says the status of a refused call"
    gaps, new, run, needed = contract_roles(call)
    seen = {"gap, member or ring": (set(names(call, "gap", "member", "ring")), gaps), "new": (set(names(call, "new")), new),
            "run": (set(names(call, "run")), run)}
    for role, (row, contract) in seen.items():
        for name in sorted(row ^ contract):
            yield f"{call.name}: {'its row' if name in row else 'its contract'} alone gives `{name}` the role {role}"
    for name in sorted(set(names(call, "member", "ring")) - needed):
        yield f"{call.name}: its contract does not say that it returns NULL of no place `{name}`"
    row, contract = set(refusals(call, "", "")), contract_statuses(call)
    for status in sorted(row ^ contract):
        yield f"{call.name}: {'its row' if status in row else 'its contract'} alone names {status}"
