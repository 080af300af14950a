"""Why the prover refuses a wrong body: by which clause of which function, or only because a proof file fits the old body alone.

A check of the changed function alone names the goals that it leaves open, and the answers that do not fit. An answer is the term that a file under
proofs/ gives for a goal. If only answers do not fit, the function is checked once more without them, and so is the right body: what the wrong body
leaves open, and the right one does not, is what refuses it. That a search does not find a goal is no proof that the goal is false."""

import collections
import re
import shutil
import subprocess

import built
from built import ROOT

# A check that takes longer, in seconds, is given up.
PATIENCE = 1800
FUNCTION = re.compile(r"(pub(?:\([\w ]+\))? )?((?:const|unsafe|extern \"C\") )*fn (\w+)")
HEADER = re.compile(r"(?:unsafe )?(impl|(?:pub(?:\([\w ]+\))? )?trait)\b")
UNKNOWN = re.compile(r"^rattle: error: .*(?:has no function|functions are named)", re.MULTILINE)
# What a check prints of a function that is not proved, of a goal that it leaves open, and of an answer that does not fit.
UNPROVED = re.compile(r"^fn (\S+): (no proof|not proved|could not tell)\b(.*)", re.MULTILINE)
GOAL = re.compile(r"^note: \S+: it is not proved that .*?\((`[^)]+`)\)", re.MULTILINE)
MISFIT = re.compile(r"^\./proofs/(\S+)\.antt:(\d+):(\d+): error: `([^`]+)`: (.*)", re.MULTILINE)
# The file that it offers for the goals that are open.
OFFER = re.compile(r"^help: write \./(proofs/\S+/Answers\.antt) with these lines.*\n((?:    .*\n)+)", re.MULTILINE)
QUOTED = re.compile(r"`([^`]+)`")
CLAUSE = re.compile(r"-clause-([^`]+)$")
NEEDED = re.compile(r"^(.+)-requires(?:-clause-(.+))?$")
# Names that an answer has and the changed function has not, which says nothing of the contract.
NAME_GONE = re.compile(r"has no field|has no `|is not in scope|record `|module `|was not admitted")


class Stopped(Exception):
    """The run is over."""


# A verdict, and whether the wrong body is refused for what it does: None where that is not known.
Verdict = collections.namedtuple("Verdict", "text is_refused")


def parts_of(text):
    """The parts of a list of types, cut at its commas."""
    parts, depth = [""], 0
    for sign in text:
        depth += (sign in "<([") - (sign in ">)]")
        if sign == "," and not depth:
            parts.append("")
        else:
            parts[-1] += sign
    return [it.strip() for it in parts if it.strip()]


def generics_of(text):
    """What stands between the angle brackets that the text begins with, and what comes after them."""
    if not text.startswith("<"):
        return "", text
    depth = 0
    for at, sign in enumerate(text):
        depth += (sign == "<") - (sign == ">" and text[at - 1] != "-")
        if not depth:
            return text[1:at], text[at + 1 :]
    return "", text


def type_name(text, parameters, joint):
    """A type as the prover writes it in the name of a method: its last word, and those arguments that are no parameters."""
    base, _, arguments = text.strip().partition("<")
    arguments = [it for it in parts_of(arguments.rpartition(">")[0]) if not it.startswith("'") and it not in parameters]
    word = "Unit" if base == "()" else base.split("::")[-1]
    return joint.join([word[:1].upper() + word[1:], *(type_name(it, parameters, joint) for it in arguments)])


def owner_of(header):
    """The name of an impl or of a trait in those of its methods."""
    if " trait " in f" {header}":
        return re.search(r"trait (\w+)", header)[1]
    given, rest = generics_of(header.partition("impl")[2].lstrip())
    parameters = {it.removeprefix("const ").partition(":")[0].strip() for it in parts_of(given)}
    what, _, whose = re.split(r" where |\{", rest)[0].strip().partition(" for ")
    if not whose or what.strip() == "Drop":
        return type_name(whose or what, parameters, "+")
    return type_name(whose, parameters, "") + type_name(what, parameters, "")


def module_of(path):
    """The module that a source file is."""
    parts = path.removeprefix("src/").removesuffix(".rt").split("/")
    return "::".join(it for it in parts if it not in ("lib", "main", "mod"))


def function_at(text, at, module):
    """The function in which this place of a source file is, by the name that the prover gives it; or the module, if it is in none."""
    lines, here = text.splitlines(), text.count("\n", 0, at)
    for above in range(here, -1, -1):
        line = lines[above]
        indent = len(line) - len(line.lstrip())
        found = FUNCTION.match(line.lstrip())
        end = next((it for it in range(above + 1, len(lines)) if lines[it] == " " * indent + "}"), here)
        if found and (end >= here or above == here):
            owner = next((it for it in reversed(range(above)) if indent and HEADER.match(lines[it])), None)
            header = [] if owner is None else " ".join(lines[owner : owner + 4]).partition("{")[0]
            return "::".join(filter(None, [module, header and owner_of(header), found[3]]))
    return module


def functions_of(body):
    """The functions that a wrong body changes, in the order of its parts."""
    found, texts = [], {}
    for path, old, new in body.parts:
        if not path.startswith("src/") or old is None:
            continue
        text = texts.get(path) or (ROOT / "crates" / body.crate / path).read_text(encoding="utf-8")
        name = function_at(text, text.index(old), module_of(path))
        found += [name] * (name not in found)
        texts[path] = text.replace(old, new)
    return found


def folder_of(function):
    return "proofs/" + function.replace("::", "/")


class Check:
    """What a check of functions of a crate printed, whose files stand in this folder."""

    def __init__(self, room, printed, status):
        self.room, self.printed, self.is_proved = room, printed, not status
        self.unproved = [name.partition("::")[2] for name, _, _ in UNPROVED.findall(printed)]

    def goals(self):
        """The goals that it leaves open, for which there is no answer."""
        said = GOAL.findall(self.printed) + [rest.partition("did not prove")[2] for _, _, rest in UNPROVED.findall(self.printed)]
        return list(dict.fromkeys(goal for it in said for goal in QUOTED.findall(it)))

    def misfits(self):
        """The goals whose answers do not fit, each with the message and whether the answer is only a search."""
        found = {}
        for file, line, column, goal, said in MISFIT.findall(self.printed):
            path = self.room / "proofs" / f"{file}.antt"
            lines = path.read_text(encoding="utf-8").splitlines() if path.is_file() else []
            field = field_at(lines, int(line))
            found.setdefault(f"{goal}-clause-{field}" if field else goal, (said, is_a_search(lines, int(line), int(column))))
        return found


def field_at(lines, number):
    """The field of an answer's record in which this line is, or nothing."""
    for line in reversed(lines[:number]):
        field = re.match(r"^ {2,6}(\w+) = ", line)
        if field:
            return field[1]
        if re.match(r"\S", line):
            return None
    return None


def is_a_search(lines, number, column):
    """Whether the whole answer that stands there is a search."""
    line = lines[number - 1] if 0 < number <= len(lines) else ""
    return line[: column - 1].rstrip().endswith("=") and line[column - 1 :].startswith("search")


def clause_of(goal):
    """The clause of the contract that a goal is of, "" if the goal is all of it, and None for a goal of another kind."""
    named = CLAUSE.search(goal)
    return (named[1] if named else "") if goal.startswith("returns") else None


def what_of(goal):
    """The clause, or what a callee requires, that a goal is of, on whatever way the function comes to it."""
    needed = NEEDED.match(goal)
    if needed:
        return "requires", needed[1], needed[2]
    return ("clause", clause_of(goal)) if clause_of(goal) is not None else ("goal", goal)


def is_of_a_loop(goal):
    """Whether a goal is of a loop's invariant or measure, of which a wrong body may need another one."""
    return goal.startswith(("loop-", "decreases")) or "-decreases" in goal


class Prover:
    """Checks functions of one crate, alone, in copies of its files. What it proves of other functions is kept."""

    def __init__(self, crate, room):
        self.crate, self.room, self.count, self.right, self.names = crate, room, 0, {}, {}
        self.kept, self.running, self.is_stopped = ROOT / "crates" / crate / "out/why", None, False

    def copy(self, body):
        """A folder with the crate's files, changed as the wrong body says, or as they are."""
        self.count += 1
        room = self.room / str(self.count)
        for part in ("src", "specs", "proofs"):
            if (ROOT / "crates" / self.crate / part).is_dir():
                shutil.copytree(ROOT / "crates" / self.crate / part, room / part)
        for path, text in body.texts()[0].items() if body else ():
            (room / path).parent.mkdir(parents=True, exist_ok=True)
            (room / path).write_text(text, encoding="utf-8")
        return room

    def check(self, room, functions):
        """What a check of these functions alone finds in this folder."""
        if self.is_stopped:
            raise Stopped
        only = [word for name in functions for word in ("--only", name)]
        words = [*built.words("check", self.crate), "--jobs", "1", "--incremental", self.kept, *only]
        how = {"cwd": room, "stdin": subprocess.DEVNULL, "stdout": subprocess.PIPE, "stderr": subprocess.STDOUT, "text": True, "errors": "replace"}
        self.running = subprocess.Popen(list(map(str, words)), **how)
        try:
            printed, _ = self.running.communicate(timeout=PATIENCE)
        except subprocess.TimeoutExpired:
            self.running.kill()
            self.running.communicate()
            return Check(room, f"error: no verdict within {PATIENCE} seconds", 1)
        if self.is_stopped:
            raise Stopped
        return Check(room, printed, self.running.returncode)

    def stop(self):
        """Ends the check that runs now, and lets none begin."""
        self.is_stopped = True
        if self.running is not None:
            self.running.kill()

    def named(self, room, function):
        """The function by the name that the prover knows, where the source does not tell that."""
        if function not in self.names:
            short = function.rpartition("::")[2]
            said = self.check(room, [short]).printed
            offered = [it.partition("::")[2] for it in QUOTED.findall(said.partition("write one of")[2].partition("\n")[0])]
            parts = set(re.findall(r"\w+", function))
            self.names[function] = max(offered, key=lambda it: len(parts & set(re.findall(r"\w+", it))), default=short)
        return self.names[function]

    def first(self, body, functions):
        """The check with the answers as they stand, and the functions by the names that the prover knows."""
        room = self.copy(body)
        names = [self.names.get(it, it) for it in functions]
        found = self.check(room, names)
        if UNKNOWN.search(found.printed):
            names = [self.named(room, it) for it in functions]
            found = self.check(room, names)
        return found, names

    def left(self, body, functions):
        """The goals that are left open without the answers of these functions, but with the invariants of their loops, or None if all is proved."""
        room = self.copy(body)
        for name in functions:
            for file in ("Answers.antt", "Proof.antt"):
                (room / folder_of(name) / file).unlink(missing_ok=True)
        found = self.check(room, functions)
        return None if found.is_proved else self.parted(found, functions)

    def parted(self, found, functions):
        """The goals that a check leaves open, with the fields in place of a record that is the whole contract: each is searched for by itself. It is
        None if all of them are found so."""
        goals, fields = found.goals(), fields_of(self.crate, functions)
        if not fields or all(clause_of(it) != "" for it in goals):
            return goals
        for path, text in OFFER.findall(found.printed):
            answers = re.sub(r"^    ", "", text, flags=re.MULTILINE)
            record = "record {\n" + "".join(f"  {it} = search rules;\n" for it in fields) + "}"
            answers = re.sub(r"^(returns(?:(?!-clause-)\S)* .*) = \?$", lambda it: f"{it[1]} = {record}", answers, flags=re.MULTILINE)
            (found.room / path).parent.mkdir(parents=True, exist_ok=True)
            (found.room / path).write_text(re.sub(r" = \?$", " = search rules", answers, flags=re.MULTILINE), encoding="utf-8")
        apart = self.check(found.room, functions)
        return None if apart.is_proved else list(apart.misfits())

    def left_by_right(self, functions):
        """What the right body leaves open without the same answers."""
        key = tuple(functions)
        if key not in self.right:
            self.right[key] = {what_of(it) for it in self.left(None, functions) or []}
        return self.right[key]


def fields_of(crate, functions):
    """The fields of the record that is the whole contract of one of these functions."""
    for name in functions:
        module, _, function = name.rpartition("::")
        path = ROOT / "crates" / crate / "src" / (module.replace("::", "/") + ".rt")
        text = path.read_text(encoding="utf-8") if path.is_file() else ""
        contract = re.search(rf"\bfn {function}\b[^{{]*?\n    ensures \{{ (?:(\w+)\.)?(\w+) ", text)
        if not contract:
            continue
        brought = rf" as {contract[1]};" if contract[1] else rf"\.\{{[^}}]*\b{contract[2]}\b"
        used = re.search(rf"^ghost use Rattle\.(\w+)\.specs\.([\w.]+?){brought}", text, re.MULTILINE)
        specs = used and ROOT / "crates" / used[1] / "specs" / (used[2].replace(".", "/") + ".antt")
        record = specs and specs.is_file() and re.search(rf"^( *)pub record {contract[2]} .*\n((?:\1  .*\n)+)", specs.read_text(encoding="utf-8"), re.MULTILINE)
        if record:
            return re.findall(r"^ +pub (\w+) :", record[2], re.MULTILINE)
    return []


def shown(goals, function):
    """A verdict that names what refuses a wrong body: the clauses that these goals are of if any is, or else what a callee requires."""
    clauses = list(dict.fromkeys(f"`{clause_of(it)}`" for it in goals if clause_of(it)))
    if clauses:
        return f"refused by {', '.join(clauses)} of {function}"
    if any(clause_of(it) == "" for it in goals):
        return f"refused by what {function} ensures"
    kind, what, *clause = what_of(goals[0])
    if kind == "requires":
        return f"refused by a callee's requires: {f'`{clause[0]}` of ' if clause[0] else ''}what `{what}` requires, in {function}"
    return f"refused by `{what}` of {function}"


def verdict_on(body, goals, function):
    """The verdict that these goals refuse a wrong body, which also says if they are of other clauses than the page names."""
    named = set(QUOTED.findall(body.refused_by))
    beside = "" if named & {clause_of(it) for it in goals} or not any(map(clause_of, goals)) else f", where the page names {body.refused_by}"
    return Verdict(shown(goals, function) + beside, True)


def open_at_once(prover, body, found, function):
    """The goals that a check with all answers tells to be open by what the wrong body does: those which the right body has no answer for but a
    search, and all of those for which the page itself gives the wrong body answers. It is None if each is proved by itself."""
    path = ROOT / "crates" / prover.crate / folder_of(function) / "Answers.antt"
    text = path.read_text(encoding="utf-8") if path.is_file() else ""
    left = [it for it in found.goals() if not is_of_a_loop(it)]
    if any(it.startswith(folder_of(function) + "/") for it, _, _ in body.parts):
        return [goal for goal, (said, _) in found.misfits().items() if not NAME_GONE.match(said)] + left
    unfit = [goal for goal, (said, is_searched) in found.misfits().items() if is_searched and not NAME_GONE.match(said)]
    answered = {what_of(it) for it in re.findall(r"^pub (\S+) : goal\.", text, re.MULTILINE)}
    is_whole = ("clause", "") in answered
    free = [it for it in left if what_of(it) not in answered and not (is_whole and clause_of(it) is not None)]
    if not text and any(clause_of(it) == "" for it in free):
        return prover.parted(found, [function])
    return unfit + free


def why(prover, body):
    """The verdict on a wrong body."""
    functions = functions_of(body)
    if not functions or not all(functions):
        return Verdict("not tried: its text stands in no function and in no module but the crate's own", None)
    found, functions = prover.first(body, functions)
    if found.is_proved:
        return Verdict(f"NOT REFUSED: {', '.join(functions)} is still proved", False)
    others = [it for it in found.unproved if it not in functions and not any(it.startswith(f"{name}::") for name in functions)]
    if others or not found.unproved:
        lines = [it for it in found.printed.splitlines() if "error" in it] or found.printed.splitlines()[-1:]
        return Verdict(f"NOT READ: {', '.join(others[:3])} {lines[0][:300] if lines else ''}", False)
    function, functions = found.unproved[0], found.unproved
    told = open_at_once(prover, body, found, function)
    if told:
        return verdict_on(body, told, function)
    left = prover.left(body, functions) if told is not None else None
    if left is None:
        return Verdict(f"NOT REFUSED: {function} is proved with other answers", False)
    more = [it for it in left if not is_of_a_loop(it) and what_of(it) not in prover.left_by_right(functions)]
    if more:
        return verdict_on(body, more, function)
    unfit = list(dict.fromkeys(found.misfits())) or left
    return Verdict(f"undecided: only an answer names the old body, of {function}: {', '.join(f'`{it}`' for it in unfit[:6])}", None)
