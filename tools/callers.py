"""Which functions of the repository are called, as far as its text tells: tools/calls asks for a caller of each public one.

`x.insert(..)` is a call of `Keyed::insert` if it hands as many arguments, and `x` may be a `Keyed`: by the type of the argument or field, or by what the
functions return whose names stand in the value that `x` was given. That is less than a check of types, and errs on the side of a caller.
"""

import collections
import re

import built

# A function: its crate and file, the type that has it or None, whether it is `pub`, whether a trait says what it does, its name, the words of each of its
# arguments, whether `self` is one more, the types that its result may have, and the words of its body.
Function = collections.namedtuple("Function", "crate file of is_public in_trait name arguments takes_self returns body")

DROPPED = re.compile(r'//[^\n]*|"(?:[^"\\]|\\.)*"|\bghost use [^;]*;')
CLAUSE = re.compile(r"\b(?:requires|ensures|ghost)\b[^{};]*\{")
WORD = re.compile(r"'(?:\\.|[^\\'])'|'\w+|\w+|::|->|=>|==|!=|<=|>=|&&|\|\||\.\.=?|\S")
NAME = re.compile(r"[a-z_]\w*$")
OPENS, CLOSES = "([{", ")]}"
BLOCKS = {"impl", "trait", "struct", "enum", "mod"}
# Words that begin no value, and variants that hold what they are given.
KEYWORDS = {"if", "while", "return", "in", "mut", "ref", "else", "move", "loop", "as", "break", "continue", "unsafe", "true", "false"}
WRAPPERS = {"Some", "Ok", "Err"}
HERE = {"crate", "self", "super"}


def words_of(text):
    """The words of a file without comments, strings, clauses and ghost items."""
    text, at = DROPPED.sub(" ", text), 0
    while found := CLAUSE.search(text, at):
        depth, at = 1, found.end()
        while depth:
            depth += (text[at] in OPENS) - (text[at] in CLOSES)
            at += 1
        text, at = f"{text[:found.start()]} {text[at:]}", found.start()
    return WORD.findall(text)


def closing(words, at, opens=OPENS, closes=CLOSES):
    """Where the bracket closes that opens there."""
    depth = 0
    for place in range(at, len(words)):
        depth += (words[place] in opens) - (words[place] in closes)
        if not depth:
            return place
    return len(words) - 1


def behind_generics(words, at):
    """Where a list in angle brackets ends that begins there, if one does."""
    return closing(words, at, "<", ">") + 1 if words[at : at + 1] == ["<"] else at


def find(words, wanted, at=0):
    """Where the first of these words stands outside of all brackets, or the end."""
    while at < len(words) and words[at] not in wanted:
        at = closing(words, at) + 1 if words[at] in OPENS else at + 1
    return min(at, len(words))


def before(words, word):
    """The words before that one, all if it is not there."""
    return words[: words.index(word)] if word in words else words


def parts(words):
    """What stands between the commas of a list."""
    found, depth, in_bars = [[]], 0, False
    for word in words:
        depth += (word in OPENS or word == "<") - (word in CLOSES or word == ">")
        in_bars ^= word == "|" and (in_bars or found[-1] in ([], ["move"]))
        if word == "," and depth == 0 and not in_bars:
            found.append([])
        else:
            found[-1].append(word)
    return [part for part in found if part]


def owner(head):
    """The type or trait that a block is about, from the words before its bracket, and whether a trait says what its functions do."""
    head = before(head[behind_generics(head, 0) :], "where")
    is_of_trait = "for" in head
    head = head[head.index("for") + 1 :] if is_of_trait else head
    return next((word for word in reversed(before(before(head, "<"), ":")) if word[0].isupper()), None), is_of_trait


class House:
    """The functions of all crates, the types that parts of a type, fields and variants may have, what aliases stand for, and what a file imports."""

    def __init__(self):
        self.functions, self.named = [], collections.defaultdict(list)
        self.parts, self.fields, self.aliases, self.imported = (collections.defaultdict(set) for _ in range(4))
        for crate in built.listed():
            for file in sorted((built.ROOT / "crates" / crate / "src").rglob("*.rt")):
                self.read(crate, file, words_of(file.read_text()))
        for function in self.functions:
            self.named[function.name].append(function)

    def types(self, words, of=None):
        """The types that these words name, with those for which an alias stands."""
        found = {of if word == "Self" else word for word in words if word[0].isupper()} - {None}
        return found.union(*(self.aliases[name] for name in found if name in self.aliases))

    def read(self, crate, file, words, of=None, in_trait=False):
        """Adds the items of a file or of a block."""
        at, is_public = 0, False
        while at < len(words):
            word, end = words[at], at
            if word == "use":
                end = self.read_use(file, words, at)
            elif word == "fn":
                end = self.read_function(crate, file, words, at + 1, (of, is_public, in_trait))
            elif word in BLOCKS and at + 1 < len(words):
                end = self.read_block(crate, file, words, at)
            elif word == "type" and "=" in words[at : words.index(";", at)]:
                end = words.index(";", at)
                self.aliases[words[at + 1]].update(it for it in words[words.index("=", at) : end] if it[0].isupper())
            is_public = word == "pub" and words[at + 1 : at + 2] != ["("] or is_public and word in ("const", "unsafe", "extern")
            at = end + 1

    def read_use(self, file, words, at):
        """Notes what a file imports, and says where the line ends."""
        end = words.index(";", at)
        self.imported[file].update(words[at:end])
        for place in range(at, end):
            if words[place] == "as":
                self.aliases[words[place + 1]].add(words[place - 1])
        return end

    def read_block(self, crate, file, words, at):
        """Adds an implementation, a trait, a type or a module, and says where it ends."""
        begin = next(place for place in range(at, len(words)) if words[place] in "{;(" or place == len(words) - 1)
        end = closing(words, begin) if words[begin] in OPENS else begin
        of, is_of_trait = owner(words[at + 1 : begin]) if words[at] != "mod" else (None, False)
        if words[at] in ("impl", "trait", "mod"):
            self.read(crate, file, words[begin + 1 : end], of, is_of_trait or words[at] == "trait")
            return end
        for part in parts(words[begin + 1 : end]):
            types = self.types(part, of)
            self.parts[of] |= types
            name = part[part.index(":") - 1] if ":" in part else next((word for word in part if word not in ("pub", "#") and word[0].isalpha()), None)
            if name:
                self.fields[name] |= types - {name}
        return end

    def read_function(self, crate, file, words, at, where):
        """Adds a function, and says where it ends."""
        of, is_public, in_trait = where
        opens = behind_generics(words, at + 1)
        closes = closing(words, opens)
        begin = find(words, "{;", closes + 1)
        end = closing(words, begin) if words[begin] == "{" else begin
        arguments = parts(words[opens + 1 : closes])
        takes_self = bool(arguments) and "self" in arguments[0]
        returns = self.types(before(words[closes + 1 : begin], "where"), of)
        found = Function(crate, file, of, is_public, in_trait, words[at], arguments[takes_self:], takes_self, returns, words[begin + 1 : end])
        self.functions.append(found)
        return end


class Walk:
    """Goes through the body of a function, and adds to `called` what it may call."""

    def __init__(self, house, function, called):
        self.house, self.function, self.called = house, function, called
        self.known, self.receiver = {"self": {function.of} | house.parts[function.of]}, set()
        for argument in function.arguments:
            self.bind(before(argument, ":"), house.types(argument, function.of))
        self.walk(function.body)

    def bind(self, pattern, types):
        """Says what the names of a pattern may be."""
        fields = self.house.fields
        inner = set().union(*(fields[word] for word in pattern if word[0].isupper() and word not in WRAPPERS))
        for at, word in enumerate(pattern):
            if NAME.match(word) and pattern[at + 1 : at + 2] not in (["::"], ["("]):
                self.known[word] = types | inner | (fields[word] if "{" in pattern else set())

    def walk(self, words):
        """Goes through some words, and says what types their values may have."""
        at, types = 0, set()
        while at < len(words):
            word = words[at]
            if word in ("let", "for"):
                at = self.walk_binding(words, at)
            elif word == "match":
                begin = find(words, "{", at)
                end = closing(words, begin)
                types |= self.walk_arms(words[begin + 1 : end], self.walk(words[at + 1 : begin]))
                at = end + 1
            elif word == "|" and "|" in words[at + 1 :] and (at == 0 or words[at - 1] in ("(", ",", "move", "=")):
                end = words.index("|", at + 1)
                self.bind(words[at + 1 : end], self.house.types(words[at + 1 : end]) or self.receiver)
                at = end + 1
            elif word in OPENS or (word[0].isalpha() or word[0] == "_") and word not in KEYWORDS:
                at, found = self.walk_chain(words, at)
                types |= found
            else:
                at += 1
        return types

    def walk_binding(self, words, at):
        """Goes through `let PATTERN = VALUE`, alone or after `if` or `while`, or through `for PATTERN in VALUE`, and says where the value ends."""
        is_test = words[at] == "for" or words[at - 1 : at] in (["if"], ["while"], ["&&"])
        cut = find(words, ["in"] if words[at] == "for" else ["=", ";"], at + 1)
        if words[cut : cut + 1] == [";"]:
            return cut
        end = find(words, ["{"] if is_test else [";", "else"], cut + 1)
        pattern, types = words[at + 1 : cut], self.walk(words[cut + 1 : end])
        if ":" in pattern and "{" not in pattern:
            types |= self.house.types(pattern, self.function.of)
            pattern = before(pattern, ":")
        self.bind(pattern, types)
        return end

    def walk_arms(self, words, given):
        """Goes through the arms of a match on a value of these types."""
        at, types = 0, set()
        while at < len(words):
            arrow = find(words, ["=>"], at)
            pattern = before(words[at:arrow], "if")
            self.bind(pattern, given)
            self.walk(words[at + len(pattern) : arrow])
            end = closing(words, arrow + 1) + 1 if words[arrow + 1 : arrow + 2] == ["{"] else find(words, ",", arrow + 1)
            types |= self.walk(words[arrow + 1 : end])
            at = end + (words[end : end + 1] == [","])
        return types

    def walk_chain(self, words, at):
        """Goes through a value and the calls on it, and says where it ends and what types it may have."""
        if words[at] in OPENS:
            end = closing(words, at)
            at, types = end + 1, self.walk(words[at + 1 : end])
        else:
            at, types = self.walk_path(words, at)
        while at + 1 < len(words) and words[at] in (".", "?", "["):
            if words[at] == ".":
                at, types = self.walk_member(words, at + 1, types)
            elif words[at] == "?":
                at += 1
            else:
                end = closing(words, at)
                self.walk(words[at + 1 : end])
                at = end + 1
        return at, types

    def walk_path(self, words, at):
        """Goes through a name or a path, and through the arguments after it."""
        path = [words[at]]
        at += 1
        while words[at : at + 1] == ["::"]:
            if words[at + 1 : at + 2] == ["<"]:
                at = behind_generics(words, at + 1)
            else:
                path.append(words[at + 1])
                at += 2
        name, home = path[-1], path[-2] if path[1:] else None
        types = self.house.types([home or name, name], self.function.of)
        if words[at : at + 1] == ["("]:
            end = closing(words, at)
            handed = parts(words[at + 1 : end])
            inside = set().union(*map(self.walk, handed))
            if name[0].isupper():
                return end + 1, inside if name in WRAPPERS else types
            return end + 1, self.call(name, len(handed), home, types) or inside
        if name in self.known and not home:
            return at, self.known[name]
        if words[at : at + 1] not in (["!"], [":"]) and NAME.match(name):
            self.call(name, None, home, types)
        return at, types

    def walk_member(self, words, at, types):
        """Goes through a field or a call after a dot."""
        name, at = words[at], at + 1
        if words[at : at + 1] == ["::"]:
            at = behind_generics(words, at + 1)
        if words[at : at + 1] == ["("]:
            end = closing(words, at)
            handed = parts(words[at + 1 : end])
            self.receiver, outer = types, self.receiver
            inside = set().union(*map(self.walk, handed))
            self.receiver = outer
            return end + 1, self.call(name, len(handed), None, types, True) or types | inside
        if name.isdigit():
            return at, types.union(*(self.house.parts[it] for it in types))
        return at, self.house.fields.get(name) or types

    def call(self, name, handed, home, types, by_dot=False):
        """Notes that a function with that name may be called, with so many arguments if it is not only named, and says what it may return."""
        named = [it for it in self.house.named[name] if by_dot <= it.takes_self]
        if handed is not None:
            named = [it for it in named if len(it.arguments) + (it.takes_self and not by_dot) == handed]
        homes = {home} | self.house.aliases.get(home, set())
        fitting = [it for it in named if (it.of in types if it.of else not by_dot and self.is_reached(it, homes if home else None))]
        self.called.update((self.function.crate, it.crate, it.file, it.of, name) for it in fitting if it is not self.function)
        meant = fitting or [it for it in named if it.in_trait or not types]
        returned = set().union(*(it.returns for it in meant))
        return returned | types if any(len(it) == 1 for it in returned) else returned

    def is_reached(self, function, homes):
        """Whether a function of no type is meant by its name alone, or by its name behind one of these."""
        here = self.function.file
        if homes is None:
            return function.file == here or function.name in self.house.imported[here]
        return bool(homes & {function.file.stem, function.crate, *HERE})


def uncalled():
    """The public functions that no function of the repository calls, from its own crate or one above it."""
    house, called, of = House(), set(), built.listed()
    for function in house.functions:
        Walk(house, function, called)
    seen = {crate: {crate, *built.crates_below(crate, of)} for crate in of}
    found = {(crate, file, type_, name) for caller, crate, file, type_, name in called if crate in seen[caller]}
    return [it for it in house.functions if it.is_public and not it.in_trait and (it.crate, it.file, it.of, it.name) not in found]
