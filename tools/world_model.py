"""A plain model of a world, by the rules of its commands: sequences of places, a cursor in each, and which places are linked. It knows no
table, no neighbor and no tree, and nothing of how the program does it.

A command has outcomes: an answer without its looks, how many looks it may tell of, and the world behind it. Where the rules leave a choice there
are several: which place an object gets, how many looks a search makes, and where it ends in a tree whose keys are out of order.
"""

from collections import namedtuple

REFUSALS = {1: "NoSuchField", 2: "NoSuchCollection", 3: "NoSuchObject", 4: "WrongKind", 5: "SameCollection", 6: "OtherField", 7: "NothingThere"}
REFUSALS.update({8: "NotAMember", 9: "NotANeighbour", 10: "AlreadyLinked", 11: "IsMember", 12: "StillLinked"})
# The kinds of collections that a field of each kind carries.
CARRIES = {"singly": ("singly", "xor"), "doubly": ("singly", "doubly", "xor"), "xor": ("singly", "xor"), "tree": ("singly", "doubly", "xor", "tree")}
ALL, TREE, XOR, SINGLY = ("singly", "doubly", "xor", "tree"), ("tree",), ("xor",), ("singly",)
LISTS, TWO_ENDED, BACKWARD = ("singly", "doubly", "xor"), ("doubly", "xor"), ("doubly", "xor", "tree")

# The values are by place, None where no object stands. A field is its kind and the set of its linked places.
World = namedtuple("World", "values fields collections")
Field = namedtuple("Field", "kind linked")
# A collection that was disposed of is None. A cursor is the place of a member, or None.
Collection = namedtuple("Collection", "field kind members cursor")
# `looks` has the least and the most looks of each descent.
Outcome = namedtuple("Outcome", "answer looks world")
NEW = World((), (), ())


def refused(number, world):
    return [Outcome(f"refused {number} {REFUSALS[number]}", (), world)]


def answered(answer, world, looks=()):
    return [Outcome(answer, looks, world)]


def object_or_none(place):
    return "none" if place is None else f"object {place}"


def items(places):
    return " ".join(["items", *map(str, places)])


def put(values, at, value):
    return (*values[:at], value, *values[at + 1 :])


def with_linked(world, field, linked):
    return world._replace(fields=put(world.fields, field, world.fields[field]._replace(linked=linked)))


def edited(world, number, members, cursor, link=(), unlink=()):
    """The world whose collection has these members and this cursor, and in whose field places are linked and unlinked."""
    old = world.collections[number]
    world = world._replace(collections=put(world.collections, number, Collection(old.field, old.kind, members, cursor)))
    return with_linked(world, old.field, world.fields[old.field].linked.union(link).difference(unlink)) if link or unlink else world


def at_cursor(world, number, cursor):
    return edited(world, number, world.collections[number].members, cursor)


def added(world, field, kind, members=()):
    """The answer that names a new collection, and the world with it."""
    return answered(f"collection {len(world.collections)}", world._replace(collections=(*world.collections, Collection(field, kind, members, None))))


def is_linked_in(world, number, place):
    return place in world.fields[world.collections[number].field].linked


def gap_after(it):
    return 0 if it.cursor is None else it.members.index(it.cursor) + 1


def gap_before(it):
    return len(it.members) if it.cursor is None else it.members.index(it.cursor)


def next_of(it):
    """The place behind the cursor, or the first one for a null cursor."""
    gap = gap_after(it)
    return it.members[gap] if gap < len(it.members) else None


def prev_of(it):
    gap = gap_before(it)
    return it.members[gap - 1] if gap else None


# Objects and fields.


def place(world, value):
    holes = [at for at, old in enumerate(world.values) if old is None] + [len(world.values)]
    return [Outcome(f"object {at}", (), world._replace(values=put(world.values, at, value))) for at in holes]


def remove_object(world, at):
    if any(at in field.linked for field in world.fields):
        return refused(12, world)
    return answered("ok", world._replace(values=put(world.values, at, None)))


def set_value(world, at, value):
    return answered("ok", world._replace(values=put(world.values, at, value)))


def add_field(world, kind):
    return answered(f"field {len(world.fields)}", world._replace(fields=(*world.fields, Field(kind, frozenset()))))


def is_linked(world, field, at):
    return answered("linked" if at in world.fields[field].linked else "unlinked", world)


def force_unlink(world, field, at):
    if any(it and it.field == field and at in it.members for it in world.collections):
        return refused(11, world)
    return answered("ok", with_linked(world, field, world.fields[field].linked - {at}))


# Whole collections.


def open_collection(world, field, kind):
    return added(world, field, kind) if kind in CARRIES[world.fields[field].kind] else refused(4, world)


def dispose(world, number):
    world = edited(world, number, (), None, unlink=world.collections[number].members)
    return answered("ok", world._replace(collections=put(world.collections, number, None)))


def clear(world, number):
    return answered("ok", edited(world, number, (), None, unlink=world.collections[number].members))


def fast_clear(world, number):
    return answered("ok", edited(world, number, (), None))


def take(world, number):
    it = world.collections[number]
    return added(edited(world, number, (), None), it.field, it.kind, it.members)


def show(world, number):
    return answered(items(world.collections[number].members), world)


def show_back(world, number):
    return answered(items(world.collections[number].members[::-1]), world)


# Lists and cursors.


def inserted(world, number, gap, at, cursor, answer="ok", looks=()):
    """The outcome of an insert into a gap, with the cursor then."""
    members = world.collections[number].members
    return Outcome(answer, looks, edited(world, number, (*members[:gap], at, *members[gap:]), cursor, link=[at]))


def push_front(world, number, at):
    return refused(10, world) if is_linked_in(world, number, at) else [inserted(world, number, 0, at, None)]


def push_back(world, number, at):
    return refused(10, world) if is_linked_in(world, number, at) else [inserted(world, number, len(world.collections[number].members), at, None)]


def without(world, number, at, cursor):
    """The outcome of the removal of a member, or of none."""
    if at is None:
        return answered("none", at_cursor(world, number, cursor))
    members = tuple(member for member in world.collections[number].members if member != at)
    return answered(f"object {at}", edited(world, number, members, cursor, unlink=[at]))


def pop_front(world, number):
    return without(world, number, next(iter(world.collections[number].members), None), None)


def pop_back(world, number):
    return without(world, number, next(iter(world.collections[number].members[::-1]), None), None)


def splice(world, number, given, gap):
    """The outcome of a splice of the given collection into a gap. The first cursor stays, and the other is null."""
    it, other = world.collections[number], world.collections[given]
    if it.kind not in LISTS or it.kind != other.kind or gap is gap_before and it.kind == "singly":
        return refused(4, world)
    if number == given:
        return refused(5, world)
    if it.field != other.field:
        return refused(6, world)
    at = gap(it)
    world = edited(world, number, it.members[:at] + other.members + it.members[at:], it.cursor)
    return answered("ok", edited(world, given, (), None))


def splice_after(world, number, given):
    return splice(world, number, given, gap_after)


def splice_before(world, number, given):
    return splice(world, number, given, gap_before)


def split(world, number, kept, handed_out):
    """The outcome of a split, in which a null cursor hands out all."""
    it = world.collections[number]
    if it.cursor is None:
        kept, handed_out = (), it.members
    return added(edited(world, number, kept, it.cursor), it.field, it.kind, handed_out)


def split_after(world, number):
    it = world.collections[number]
    return split(world, number, it.members[: gap_after(it)], it.members[gap_after(it) :])


def split_before(world, number):
    it = world.collections[number]
    return split(world, number, it.members[gap_before(it) :], it.members[: gap_before(it)])


def reverse(world, number):
    return answered("ok", edited(world, number, world.collections[number].members[::-1], None))


def move_next(world, number):
    to = next_of(world.collections[number])
    return answered(object_or_none(to), at_cursor(world, number, to))


def move_prev(world, number):
    to = prev_of(world.collections[number])
    return answered(object_or_none(to), at_cursor(world, number, to))


def go_null(world, number):
    return answered("ok", at_cursor(world, number, None))


def current(world, number):
    return answered(object_or_none(world.collections[number].cursor), world)


def seek(world, number, at):
    return answered("ok", at_cursor(world, number, at)) if at in world.collections[number].members else refused(8, world)


def seek_beside(world, number, at, neighbor, neighbor_of):
    """The outcome of a seek that names a neighbor, which is none beyond an end."""
    it = world.collections[number]
    if at not in it.members:
        return refused(8, world)
    is_beside = neighbor == neighbor_of(it._replace(cursor=at))
    return answered("ok", at_cursor(world, number, at)) if is_beside else refused(9, world)


def seek_with_prev(world, number, at, neighbor):
    return seek_beside(world, number, at, neighbor, prev_of)


def seek_with_next(world, number, at, neighbor):
    return seek_beside(world, number, at, neighbor, next_of)


def insert_after(world, number, at):
    it = world.collections[number]
    return refused(10, world) if is_linked_in(world, number, at) else [inserted(world, number, gap_after(it), at, it.cursor)]


def insert_before(world, number, at):
    it = world.collections[number]
    return refused(10, world) if is_linked_in(world, number, at) else [inserted(world, number, gap_before(it), at, it.cursor)]


def remove(world, number):
    it = world.collections[number]
    return without(world, number, it.cursor, None if it.cursor is None else next_of(it))


def remove_next(world, number):
    it = world.collections[number]
    return without(world, number, next_of(it), it.cursor)


def replaced(world, number, old, at, cursor):
    """The outcome where an object is put in the place of a member, or of none, with the cursor then."""
    it = world.collections[number]
    if old is None:
        return refused(7, world)
    if is_linked_in(world, number, at):
        return refused(10, world)
    members = tuple(at if member == old else member for member in it.members)
    return answered(f"object {old}", edited(world, number, members, cursor, link=[at], unlink=[old]))


def replace_with(world, number, at):
    return replaced(world, number, world.collections[number].cursor, at, at)


def replace_next_with(world, number, at):
    it = world.collections[number]
    return replaced(world, number, next_of(it), at, it.cursor)


# Keys. A bound is a word and, unless it is `unbounded`, a key. In a tree whose keys are in order there is one border of each bound, and one gap for
# a key. In another there may be several, and a search may end at each.


def descent(world, number, bound=("included", 0)):
    """The least and the most looks of a descent: v of them among n members, with 2^v <= (n + 1)^2, and one at least. An unbounded one has none."""
    members = world.collections[number].members
    return (1, ((len(members) + 1) ** 2).bit_length() - 1) if members and bound[0] != "unbounded" else (0, 0)


def keys_of(world, number):
    return [world.values[at] for at in world.collections[number].members]


def lower_borders(keys, bound):
    """The indices of the members that meet a lower bound and are first or behind one that does not; and the end, unless the last member meets it."""
    word, *limit = bound
    meets = [word == "unbounded" or key >= limit[0] and (word == "included" or key > limit[0]) for key in keys]
    return [at for at in range(len(keys) + 1) if (at == len(keys) or meets[at]) and not (at and meets[at - 1])]


def upper_borders(keys, bound):
    """The same of an upper bound, from the back. In place of the end it has None."""
    word, *limit = bound
    meets = [word == "unbounded" or key <= limit[0] and (word == "included" or key < limit[0]) for key in keys]
    last = [] if keys and meets[0] else [None]
    return last + [at for at in range(len(keys)) if meets[at] and not (at + 1 < len(keys) and meets[at + 1])]


def found(world, number, at, bound):
    """The outcome of a search that ends at an index, or at none. The cursor is on the answer."""
    members = world.collections[number].members
    to = members[at] if at is not None and at < len(members) else None
    return Outcome(object_or_none(to), (descent(world, number, bound),), at_cursor(world, number, to))


def find(world, number, key):
    keys, bound = keys_of(world, number), ("included", key)
    ends = {at if at < len(keys) and keys[at] == key else None for at in lower_borders(keys, bound)}
    return [found(world, number, at, bound) for at in ends]


def lower_bound(world, number, bound):
    return [found(world, number, at, bound) for at in lower_borders(keys_of(world, number), bound)]


def upper_bound(world, number, bound):
    return [found(world, number, at, bound) for at in upper_borders(keys_of(world, number), bound)]


def range_of(world, number, low, high):
    """The outcomes of a range, which is from a lower border to an upper one whose key is not smaller."""
    keys, members = keys_of(world, number), world.collections[number].members
    looks = descent(world, number, low), descent(world, number, high)
    answers = set()
    for first in lower_borders(keys, low):
        for last in upper_borders(keys, high):
            if first == len(keys) or last is None or keys[last] < keys[first]:
                answers.add(())
            elif first <= last:
                answers.add(members[first : last + 1])
    return [Outcome(items(answer), looks, world) for answer in answers]


def keyed_gaps(keys, key):
    """The gaps with no greater key in front and no key behind that is not greater."""
    return [gap for gap in range(len(keys) + 1) if not (gap and keys[gap - 1] > key) and (gap == len(keys) or keys[gap] > key)]


def insert(world, number, at):
    """The outcomes of an insert by key, which puts the cursor on the object."""
    if is_linked_in(world, number, at):
        return refused(10, world)
    looks = (descent(world, number),)
    return [inserted(world, number, gap, at, at, "ok", looks) for gap in keyed_gaps(keys_of(world, number), world.values[at])]


def cursor_insert(world, number, at):
    cursor = world.collections[number].cursor
    outcomes = insert(world, number, at)
    return outcomes if outcomes[0].world is world else [it._replace(world=at_cursor(it.world, number, cursor)) for it in outcomes]


def entry(world, number, key, at):
    """The outcomes of an entry, which is occupied if the member at the lower border has the key. The cursor is on the object that it names."""
    it, keys, looks = world.collections[number], keys_of(world, number), (descent(world, number),)
    outcomes = []
    for gap in lower_borders(keys, ("included", key)):
        if gap < len(keys) and keys[gap] == key:
            member = it.members[gap]
            outcomes.append(Outcome(f"occupied object {member}", looks, at_cursor(world, number, member)))
        elif is_linked_in(world, number, at):
            outcomes += refused(10, world)
        else:
            outcomes.append(inserted(world, number, gap, at, at, f"inserted object {at}", looks))
    return outcomes


# Of each command the words behind it, the kinds of collections that have it, and what it does. The words are v a value or key, k a kind, f a field,
# c a collection, o an object, n an object or none, b a bound.
CALLS = {
    "place": ("v", ALL, place),
    "remove_object": ("o", ALL, remove_object),
    "set_value": ("ov", ALL, set_value),
    "field": ("k", ALL, add_field),
    "is_linked": ("fo", ALL, is_linked),
    "force_unlink": ("fo", ALL, force_unlink),
    "open": ("fk", ALL, open_collection),
    "dispose": ("c", ALL, dispose),
    "clear": ("c", ALL, clear),
    "fast_clear": ("c", ALL, fast_clear),
    "take": ("c", ALL, take),
    "show": ("c", ALL, show),
    "show_back": ("c", BACKWARD, show_back),
    "push_front": ("co", LISTS, push_front),
    "push_back": ("co", TWO_ENDED, push_back),
    "pop_front": ("c", LISTS, pop_front),
    "pop_back": ("c", TWO_ENDED, pop_back),
    "move_next": ("c", ALL, move_next),
    "move_prev": ("c", BACKWARD, move_prev),
    "go_null": ("c", ALL, go_null),
    "current": ("c", ALL, current),
    "seek": ("co", ("singly", "doubly", "tree"), seek),
    "seek_with_prev": ("con", XOR, seek_with_prev),
    "seek_with_next": ("con", XOR, seek_with_next),
    "insert_after": ("co", ALL, insert_after),
    "insert_before": ("co", BACKWARD, insert_before),
    "remove": ("c", BACKWARD, remove),
    "remove_next": ("c", SINGLY, remove_next),
    "replace_with": ("co", BACKWARD, replace_with),
    "replace_next_with": ("co", SINGLY, replace_next_with),
    "splice_after": ("cc", ALL, splice_after),
    "splice_before": ("cc", ALL, splice_before),
    "split_after": ("c", LISTS, split_after),
    "split_before": ("c", TWO_ENDED, split_before),
    "reverse": ("c", XOR, reverse),
    "find": ("cv", TREE, find),
    "lower_bound": ("cb", TREE, lower_bound),
    "upper_bound": ("cb", TREE, upper_bound),
    "range": ("cbb", TREE, range_of),
    "insert": ("co", TREE, insert),
    "cursor_insert": ("co", TREE, cursor_insert),
    "entry": ("cvo", TREE, entry),
}


def word_of(letter, text):
    """What a word of a command says."""
    if letter == "k":
        return text
    if letter == "b":
        word, _, key = text.partition(":")
        return (word, int(key)) if key else (word,)
    return None if text == "none" else int(text)


def parsed(command):
    """The name of a command, and what its words say."""
    name, *words = command.split()
    return name, [word_of(letter, text) for letter, text in zip(CALLS[name][0], words)]


def refusal_of(world, name, words):
    """The number of the refusal for the first word that names nothing, or for a collection whose kind has no such command. Each command names its
    field or collections in front of its objects, so an earlier word has the smaller number."""
    letters, kinds, _ = CALLS[name]
    for letter, it in zip(letters, words):
        if letter == "c":
            if it >= len(world.collections) or world.collections[it] is None:
                return 2
        elif letter in "on":
            if it is not None and (it >= len(world.values) or world.values[it] is None):
                return 3
        elif letter == "f" and it >= len(world.fields):
            return 1
    return 4 if letters[0] == "c" and world.collections[words[0]].kind not in kinds else None


def outcomes_of(world, name, words):
    """All that a command may do."""
    number = refusal_of(world, name, words)
    return refused(number, world) if number else CALLS[name][2](world, *words)


def takes(outcome, line):
    """Whether the line tells of this outcome."""
    if not outcome.looks:
        return line == outcome.answer
    told = line.split(" looks ")
    if len(told) != 2 or told[0] != outcome.answer:
        return False
    looks = told[1].split(" ")
    bounded = zip(looks, outcome.looks)
    return len(looks) == len(outcome.looks) and all(look.isdigit() and least <= int(look) <= most for look, (least, most) in bounded)


def followed(worlds, command, line):
    """The worlds that there may be after the command was answered by this line. None is left if the line is wrong."""
    name, words = parsed(command)
    return {it.world for world in worlds for it in outcomes_of(world, name, words) if takes(it, line)}
