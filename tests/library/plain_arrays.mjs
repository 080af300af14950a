// Random calls of ic.mjs beside plain arrays, by each of the modules.
//     node --experimental-wasm-memory64 tests/library/plain_arrays.mjs CALLS MODULE ..
import assert from "node:assert";
import { BROKEN, GREATEST, HashTable, LINKED, List, NOT_LINKED, NULL, OUT_OF_RANGE, Refused, Ring, SUM, Stack, Tree, TreeWithEnds, XorList, open } from "../../dist/wasm/ic.mjs";

const [calls, ...modules] = process.argv.slice(2), PLACES = 20, REFUSED = "refused";
let state = 7;
const random = (below) => ((state = (Math.imul(state, 1664525) + 1013904223) >>> 0) >>> 8) % below;
const orNull = (it) => it ?? null;

// What an edit of the plain array returns. It is refused if a named member is in no list, or the place is in one or in no table.
const areMembers = (plain, named) => named.every((at) => at === null || plain.includes(at));
const accepts = (plain, named, place) => areMembers(plain, named) && !plain.includes(place) && place < PLACES;
const insert = (plain, named, index, place) => (accepts(plain, named, place) ? (plain.splice(index, 0, place), null) : REFUSED);
const replace = (plain, index, place) => (index >= 0 && accepts(plain, [], place) ? ((plain[index] = place), null) : REFUSED);
const remove = (plain, index) => (index < 0 ? REFUSED : (plain.splice(index, 1), null));
const clear = (plain) => ((plain.length = 0), null);
const sort = (plain, key) => (plain.sort((one, other) => key(one) - key(other)), null);

/** A place goes in by its key if no member has that key, and else the member is what is returned. */
function insertUnique(plain, key, place) {
  const equal = plain.find((it) => key(it) === key(place)), behind = plain.findIndex((it) => key(it) > key(place));
  if (plain.includes(place) || equal === undefined)
    return insert(plain, [], behind < 0 ? plain.length : behind, place) ?? place;
  return equal;
}

/** A run of places goes in at an index, if none of them is refused. */
function fill(plain, index, first, count) {
  const run = Array.from({ length: count }, (_, i) => first + i);
  return run.every((place) => accepts(plain, [], place)) ? (plain.splice(index, 0, ...run), null) : REFUSED;
}

/** A member goes in front of the others from `index` on, which counts them without it. */
function move(plain, named, place, index) {
  if (!areMembers(plain, [...named, place])) return REFUSED;
  plain.splice(plain.indexOf(place), 1);
  plain.splice(index(), 0, place);
  return null;
}

const counts = {};
function compare(name, call, wanted) {
  let said = REFUSED;
  try {
    said = orNull(call());
  } catch (error) {
    assert(error instanceof Refused, error);
  }
  assert.equal(said, wanted, name);
  (counts[name] ??= [0, 0])[Number(said === REFUSED)]++;
}

/** Makes `turns` calls, each one of the rows that `rows` gives: the method's name, its arguments, and what the plain array returns. */
function play(collection, plain, turns, rows) {
  for (let turn = 0; turn < turns; turn++) {
    const all = rows(turn), [name, words, wanted] = all[random(all.length)];
    compare(`${collection.constructor.name}.${name}`, () => collection[name](...words), wanted());
    assert.deepEqual([...collection], plain);
  }
}

/** Hands a call's split back, whose members have to be those of the plain array from an index on, and puts them in front of the others. */
function putInFront(plain, index, rest, splice) {
  const moved = plain.splice(index);
  assert.deepEqual([...rest], moved);
  splice();
  assert(rest.isEmpty);
  plain.unshift(...moved);
}

/** Moves some members of a list in order to another one, and merges that with it: of equal keys those that stayed are in front. */
function mergeSome(list, plain, keys, key) {
  const given = new list.constructor(list.links), moved = plain.filter(() => random(2));
  list.sort(keys);
  sort(plain, key);
  const behind = plain.filter((it) => moved.includes(it));
  list.removeIf((place) => moved.includes(place));
  for (const place of [...behind].reverse()) given.pushFront(place);
  plain.splice(0, plain.length, ...list, ...behind);
  compare(`${list.constructor.name}.merge`, () => list.merge(keys, given), sort(plain, key));
  assert(given.isEmpty);
  assert.deepEqual([...list], plain);
}

/** Moves some members of a list to another one, and each of them back into any gap. */
function transferSome(list, plain) {
  const given = new List(list.links), moved = plain.filter(() => random(2));
  for (const place of moved)
    compare("List.transferBefore", () => given.transferBefore(null, list, place), remove(plain, plain.indexOf(place)));
  assert.deepEqual([...given], moved);
  for (const place of moved) {
    const at = orNull(plain[random(plain.length + 1)]);
    compare("List.transferAfter", () => list.transferAfter(at, given, place), insert(plain, [], at === null ? 0 : plain.indexOf(at) + 1, place));
  }
  compare("List.transferBefore", () => list.transferBefore(null, given, null), REFUSED);
  compare("List.transferAfter", () => list.transferAfter(null, given, PLACES), REFUSED);
  assert(given.isEmpty);
  assert.deepEqual([...list], plain);
}

/** A tree is cut at each place that may be a member, and is one tree again, with the member between both parts or with it in the second one. */
function partAndJoin(made, plain, at) {
  const name = made.constructor.name, index = plain.indexOf(at);
  let rest = null;
  compare(`${name}.split`, () => { rest = made.split(at); }, index < 0 ? REFUSED : null);
  if (rest === null) return;
  assert.deepEqual([[...made], [...rest], rest.keys], [plain.slice(0, index), plain.slice(index), made.keys]);
  if (rest instanceof TreeWithEnds) assert.deepEqual([made.last, rest.first, rest.last], [orNull(plain[index - 1]), at, plain.at(-1)]);
  const isJoined = random(2) === 0;
  if (isJoined) rest.remove(at);
  compare(`${name}.join`, () => made.join(at, rest), isJoined ? null : REFUSED);
  compare(`${name}.append`, () => made.append(rest), null);
  assert(rest.isEmpty);
  assert.deepEqual([...made], plain);
  rest.free();
}

function doubly(ic, turns) {
  const list = new List(ic.links2(PLACES)), plain = [], keys = ic.keys(PLACES), few = ic.keys(PLACES - 1), key = (place) => Number(keys.word(place));
  for (let place = 0; place < PLACES; place++) keys.words[place] = BigInt(random(8));
  play(list, plain, turns, (turn) => {
    if (turn % 70 === 0) mergeSome(list, plain, keys, key);
    if (turn % 80 === 0) transferSome(list, plain);
    const place = random(PLACES + 2), at = random(9) === 0 ? null : random(PLACES + 1), count = random(4);
    if (plain.includes(at) && turn % 50 === 0) {
      const rest = list.splitAfter(at);
      putInFront(plain, plain.indexOf(at) + 1, rest, () => list.spliceAfter(null, rest));
    }
    if (turn % 90 === 0) {
      const given = new List(list.links);
      list.append(given);
      given.append(list);
      assert(list.isEmpty);
      list.append(given);
    }
    const index = plain.indexOf(at), own = place === at ? plain.indexOf(place) : -1;
    assert.deepEqual([list.first, list.last], [orNull(plain[0]), orNull(plain.at(-1))]);
    return [
      ["pushBack", [place], () => insert(plain, [], plain.length, place)],
      ["pushFront", [place], () => insert(plain, [], 0, place)],
      ["popFront", [], () => orNull(plain.shift())],
      ["popBack", [], () => orNull(plain.pop())],
      ["insertAfter", [at, place], () => insert(plain, [at], index + 1, place)],
      ["insertBefore", [at, place], () => insert(plain, [at], at === null ? plain.length : index, place)],
      ["replace", [at, place], () => replace(plain, index, place)],
      ["remove", [at], () => remove(plain, index)],
      ["fill", [place, count], () => fill(plain, plain.length, place, count)],
      ["moveToFront", [place], () => move(plain, [], place, () => 0)],
      ["moveToBack", [place], () => move(plain, [], place, () => plain.length)],
      ["moveAfter", [at, place], () => move(plain, [at], place, () => (own < 0 ? plain.indexOf(at) + 1 : own))],
      ["moveBefore", [at, place], () => move(plain, [at], place, () => (own >= 0 ? own : at === null ? plain.length : plain.indexOf(at)))],
      ["check", [], () => plain.length],
      ...(turn % 60 === 0 ? [["clear", [], () => clear(plain)]] : []),
      ...(turn % 40 === 0 ? [["sort", [keys], () => sort(plain, key)], ["sort", [few], () => REFUSED]] : []),
    ];
  });
}

/** Two rings of one table, with its last places for heads. The calls of the first one edit both. */
function rings(ic, turns) {
  const links = ic.links2(PLACES + 2), both = [PLACES, PLACES + 1].map((head) => ({ head, ring: new Ring(links, head), plain: [] }));
  const keys = ic.keys(PLACES + 2), few = ic.keys(PLACES), key = (place) => Number(keys.word(place));
  const [{ ring, plain }, other] = both;
  // Where a place stands: the array of its ring, and an index there, at which a head is in front of all.
  function stands(place) {
    const it = both.find(({ head, plain }) => place === head || plain.includes(place));
    return it && { plain: it.plain, index: it.plain.indexOf(place), isHead: place === it.head };
  }
  const member = (place) => (stands(place)?.isHead ? undefined : stands(place));
  const isFree = (place) => place < PLACES && !stands(place);
  function put(place, at, isAfter) {
    const there = stands(at);
    there.plain.splice(isAfter ? there.index + 1 : there.isHead ? there.plain.length : there.index, 0, place);
    return null;
  }
  function move(place, at, isAfter) {
    const from = stands(place);
    if (!from || !stands(at)) return REFUSED;
    if (at === place) return null;
    from.plain.splice(from.index, 1);
    return put(place, at, isAfter);
  }
  function splice(at, isAfter) {
    for (const place of other.plain.splice(0)) {
      put(place, at, isAfter);
      if (isAfter) at = place;
    }
    return null;
  }
  // Of the two first members that of the other ring goes next if its key is less.
  function mergeOther() {
    const mine = plain.splice(0), given = other.plain.splice(0);
    while (mine.length || given.length) plain.push((!mine.length || key(given[0] ?? mine[0]) < key(mine[0]) ? given : mine).shift());
    return null;
  }
  // Both rings become one, with both heads in it, and two again.
  function exchangeTwice() {
    const one = random(plain.length + 1) - 1, two = random(other.plain.length + 1) - 1;
    const places = [plain[one] ?? ring.head, other.plain[two] ?? other.head], behind = other.plain.slice(0, two + 1);
    compare("Ring.exchange", () => ring.exchange(...places), null);
    assert.deepEqual([...ring], [...plain.slice(0, one + 1), ...other.plain.slice(two + 1), other.head, ...behind, ...plain.slice(one + 1)]);
    compare("Ring.exchange", () => ring.exchange(...places), null);
  }
  play(ring, plain, turns, (turn) => {
    const place = random(PLACES + 3), at = random(PLACES + 3), from = random(PLACES), own = [...plain, ring.head][random(plain.length + 1)];
    const index = plain.indexOf(at);
    if (turn % 50 === 0) exchangeTwice();
    keys.words[from] = BigInt(random(8));
    assert.deepEqual([ring.check(), other.ring.check()], [plain.length, other.plain.length]);
    assert.deepEqual([...other.ring], other.plain);
    assert.deepEqual([ring.first, ring.last, ring.isEmpty], [orNull(plain[0]), orNull(plain.at(-1)), !plain.length]);
    if (index >= 0) assert.deepEqual([ring.next(at), ring.prev(at)], [plain[index + 1] ?? ring.head, plain[index - 1] ?? ring.head]);
    return [
      ["pushFront", [place], () => (isFree(place) ? put(place, ring.head, true) : REFUSED)],
      ["pushBack", [place], () => (isFree(place) ? put(place, ring.head, false) : REFUSED)],
      ["popFront", [], () => orNull(plain.shift())],
      ["popBack", [], () => orNull(plain.pop())],
      ["insertAfter", [at, place], () => (stands(at) && isFree(place) ? put(place, at, true) : REFUSED)],
      ["insertBefore", [at, place], () => (stands(at) && isFree(place) ? put(place, at, false) : REFUSED)],
      ["remove", [from], () => (member(from) ? remove(member(from).plain, member(from).index) : REFUSED)],
      ["replace", [from, place], () => (member(from) && isFree(place) ? ((member(from).plain[member(from).index] = place), null) : REFUSED)],
      ["moveAfter", [at, from], () => move(from, at, true)],
      ["moveBefore", [at, from], () => move(from, at, false)],
      ["exchange", [at, null], () => REFUSED],
      ["sort", [keys], () => sort(plain, key)],
      ["sort", [few], () => REFUSED],
      ...(turn % 30 === 2 ? [["merge", [keys, other.ring], () => mergeOther()]] : []),
      ...(turn % 30 === 3 ? [["merge", [few, other.ring], () => REFUSED]] : []),
      ...(turn % 30 === 0 ? [["spliceAfter", [own, other.ring], () => splice(own, true)]] : []),
      ...(turn % 30 === 1 ? [["spliceBefore", [own, other.ring], () => splice(own, false)]] : []),
    ];
  });
}

function singly(ic, turns) {
  const list = new Stack(ic.links1(PLACES)), plain = [], keys = ic.keys(PLACES), few = ic.keys(PLACES - 1), key = (place) => Number(keys.word(place));
  for (let place = 0; place < PLACES; place++) keys.words[place] = BigInt(random(8));
  play(list, plain, turns, (turn) => {
    if (turn % 70 === 0) mergeSome(list, plain, keys, key);
    const place = random(PLACES + 2), at = random(9) === 0 ? null : random(PLACES + 1), count = random(4);
    if (plain.includes(at) && turn % 50 === 0) {
      const rest = list.splitAfter(at);
      putInFront(plain, plain.indexOf(at) + 1, rest, () => list.spliceAfter(null, rest));
    }
    const index = plain.indexOf(at);
    return [
      ["pushFront", [place], () => insert(plain, [], 0, place)],
      ["popFront", [], () => orNull(plain.shift())],
      ["fill", [place, count], () => fill(plain, 0, place, count)],
      ["insertAfter", [at, place], () => insert(plain, [at], index + 1, place)],
      ["removeAfter", [at], () => (at !== null && index < 0 ? REFUSED : orNull(plain.splice(index + 1, 1)[0]))],
      ["remove", [place], () => remove(plain, plain.indexOf(place))],
      ["check", [], () => plain.length],
      ...(turn % 60 === 0 ? [["clear", [], () => clear(plain)]] : []),
      ...(turn % 40 === 0 ? [["sort", [keys], () => sort(plain, key)], ["sort", [few], () => REFUSED]] : []),
    ];
  });
}

/** A hash table beside an array for each chain. The hash of a key is seven times the key. */
function hashed(ic, turns) {
  const keys = ic.keys(PLACES), links = ic.links1(PLACES), key = (place) => Number(keys.word(place)), hash = (key) => 7 * key;
  const hashes = ic.keys(PLACES);
  const made = new HashTable(links, 4, keys), chains = [[], [], [], []], plain = [];
  function edit(result) {
    plain.splice(0, plain.length, ...chains.flat());
    return result;
  }
  // All members move to another array of buckets. Those of one chain keep their order, before those that are there.
  function moveAll(from, chainsFrom, to, chainsTo) {
    chainsFrom.forEach((members, at) => {
      to.moveChain(hashes, from.chain(at));
      chainsTo.forEach((there, bucket) => there.unshift(...members.filter((it) => hash(key(it)) % chainsTo.length === bucket)));
      members.length = 0;
    });
  }
  play(made, plain, turns, (turn) => {
    const place = random(PLACES + 2), sought = random(12), of = random(PLACES), isMember = plain.includes(of);
    if (!plain.includes(place) && place < PLACES) keys.words[place] = BigInt(random(12));
    const here = hash(key(of)), chain = chains[here % 4], there = place < PLACES ? hash(key(place)) : 0;
    if (turn % 50 === 0) {
      const more = new HashTable(links, 11, keys), gathered = Array.from({ length: 11 }, () => []);
      for (let at = 0; at < PLACES; at++) hashes.words[at] = BigInt(hash(key(at)));
      moveAll(made, chains, more, gathered);
      assert.deepEqual([[...made], [...more]], [[], gathered.flat()]);
      moveAll(more, gathered, made, chains);
      edit();
      more.free();
    }
    // Now and then a place has another hash, by which a member is in the wrong chain.
    const wrong = random(2) ? of : PLACES;
    for (let at = 0; at < PLACES; at++) hashes.words[at] = BigInt(hash(key(at)) + Number(at === wrong));
    return [
      ["check", [hashes], () => (plain.includes(wrong) ? REFUSED : plain.length)],
      ["insert", [there, place], () => (plain.includes(place) ? REFUSED : edit(insert(chains[there % 4], [], 0, place)))],
      ["remove", [here, of], () => edit(remove(chain, chain.indexOf(of)))],
      ["remove", [here + 1, of], () => REFUSED],
      ["find", [hash(sought), sought], () => orNull(chains[hash(sought) % 4].find((it) => key(it) === sought))],
      ["nextEqual", [of], () => (isMember ? orNull(chain.slice(chain.indexOf(of) + 1).find((it) => key(it) === key(of))) : REFUSED)],
    ];
  });
  const last = new HashTable(ic.links1(PLACES), 4, keys);
  last.insert(2n ** 64n - 1n, 5);
  assert.deepEqual([...last.chain(3)], [5]);
  assert.equal(last.chain(2 ** 64 - 2 ** 11 + 3).check(), 0);
  assert.throws(() => last.chain(3).spliceAfter(null, last.chain(7)), TypeError);
  const others = new Stack(last.links), few = ic.keys(PLACES - 1), freed = new HashTable(last.links, 1), { links: beyond } = new Stack(ic.links1(PLACES));
  others.fill(0, 3);
  assert.throws(() => last.moveChain(few, others), /OUT_OF_RANGE/);
  const chain = freed.chain(0);
  freed.free();
  for (const wrong of [last.chain(3), new Stack(beyond), last, null, chain]) assert.throws(() => last.moveChain(hashes, wrong), TypeError);
  last.moveChain(ic.keys(PLACES), others);
  assert.deepEqual([[...others], [...last.chain(0)]], [[], [0, 1, 2]]);
}

function xor(ic, turns) {
  const list = new XorList(ic.links1(PLACES)), plain = [];
  play(list, plain, turns, (turn) => {
    const place = random(PLACES + 1), count = random(4), index = random(plain.length + 1), gap = [orNull(plain[index - 1]), orNull(plain[index])];
    if (turn % 50 === 0) {
      const rest = list.splitBetween(...gap);
      putInFront(plain, index, rest, () => list.spliceBetween(null, rest, orNull(plain[0])));
      return [["reverse", [], () => (plain.reverse(), null)]];
    }
    if (turn % 90 === 1) {
      const given = new XorList(list.links);
      given.append(list);
      assert(list.isEmpty);
      list.append(given);
      return [["clear", [], () => clear(plain)]];
    }
    return [
      ["pushFront", [place], () => insert(plain, [], 0, place)],
      ["popBack", [], () => orNull(plain.pop())],
      ["fill", [place, count], () => fill(plain, plain.length, place, count)],
      ["insertBetween", [gap[0], place, gap[1]], () => insert(plain, [], index, place)],
      ["remove", gap, () => (gap[1] === null ? REFUSED : remove(plain, index))],
    ];
  });
}

const tree = (ic, turns) => sorted(ic, turns, Tree, () => []);

/** The same of a tree that keeps its ends, and of its ends. A place belongs where its neighbors leave room, and where a member with its key was. */
function treeWithEnds(ic, turns) {
  sorted(ic, turns, TreeWithEnds, (made, plain, place, key, index) => {
    assert.deepEqual([made.first, made.last], [orNull(plain[0]), orNull(plain.at(-1))]);
    const before = orNull(plain[index - 1]), at = orNull(plain[index]), isFree = !plain.includes(place), of = plain.find((it) => key(it) === key(place));
    const hasRoom = isFree && (at === null ? !plain.length : made.left(at) === null), hasRoomAfter = isFree && (before === null ? !plain.length : made.right(before) === null);
    return [
      ["popFirst", [], () => orNull(plain.shift())],
      ["insertLeft", [at, place], () => (hasRoom ? insert(plain, [], index, place) : REFUSED)],
      ["insertRight", [before, place], () => (hasRoomAfter ? insert(plain, [], index, place) : REFUSED)],
      ["replace", [of ?? null, place], () => (of === undefined || !isFree ? REFUSED : replace(plain, plain.indexOf(of), place))],
    ];
  });
}

/** The same of a tree with sums: what the values of its members make together, from each of them on, in the order of the plain array. */
function treeWithSums(ic, turns) {
  const sums = ic.sums(PLACES), few = ic.sums(PLACES - 1), most = 2n ** 64n - 1n;
  sorted(ic, turns, TreeWithEnds, (made, plain, place, key, position) => {
    const kind = [SUM, GREATEST][random(2)], anyValue = () => (random(9) ? BigInt(random(20)) : most - BigInt(random(3)));
    const both = (one, other) => (kind === SUM ? (one + other > most ? most : one + other) : one > other ? one : other);
    const total = (members) => members.map((at) => sums.value(at)).reduce(both, 0n);
    sums.setValue(place, anyValue());
    made.sumsRenew(sums, kind, null);
    sums.setValue(place, anyValue());
    if (plain.includes(place)) made.sumsRenew(sums, kind, place);
    assert.equal(made.sumsTotal(sums), total(plain));
    if (!plain.includes(place)) {
      made.sumsInsert(sums, kind, place);
      const all = plain.toSpliced(position, 0, place);
      assert.deepEqual([made.first, made.last], [all[0], all.at(-1)]);
      assert.deepEqual(all.map((at) => made.sumsBefore(sums, kind, at)), all.map((_, i) => total(all.slice(0, i))));
      made.sumsRemove(sums, kind, place);
      assert.deepEqual([made.first, made.last], [orNull(plain[0]), orNull(plain.at(-1))]);
      assert.deepEqual(plain.map((at) => made.sumsBefore(sums, kind, at)), plain.map((_, i) => total(plain.slice(0, i))));
    }
    const from = random(plain.length + 1), at = from ? plain[from - 1] : null, rest = plain.slice(from), bound = anyValue(), to = anyValue();
    const overlaps = (it) => key(it) < to && bound < sums.value(it), index = plain.indexOf(place);
    return [
      ["sumsRenew", [sums, kind, place], () => (index < 0 ? REFUSED : null)],
      ["sumsFind", [sums, kind, at, bound], () => orNull(rest.find((_, i) => total(rest.slice(0, i + 1)) > bound))],
      ["sumsFind", [few, kind, at, bound], () => REFUSED],
      ["sumsBefore", [sums, kind, place], () => (index < 0 ? REFUSED : total(plain.slice(0, index)))],
      ...(kind === GREATEST ? [["sumsOverlap", [sums, at, bound, to], () => orNull(rest.find(overlaps))]] : []),
    ];
  });
}

function sorted(ic, turns, Kind, more) {
  const keys = ic.keys(PLACES), made = new Kind(ic.links3(PLACES), keys), plain = [];
  const key = (place) => Number(keys.word(place));
  play(made, plain, turns, (turn) => {
    const place = random(PLACES), sought = random(12);
    if (!plain.includes(place)) keys.words[place] = BigInt(random(12));
    if (turn % 20 === 0) partAndJoin(made, plain, place);
    const behind = plain.findIndex((it) => key(it) > key(place));
    assert.equal(made.prev(null), orNull(plain.at(-1)));
    return [
      ...more(made, plain, place, key, behind < 0 ? plain.length : behind),
      ["insert", [place], () => insert(plain, [], behind < 0 ? plain.length : behind, place)],
      ["insertBy", [place, (one, other) => key(one) - key(other)], () => insert(plain, [], behind < 0 ? plain.length : behind, place)],
      ["insertUnique", [place], () => insertUnique(plain, key, place)],
      ["findBy", [(member) => sought - key(member)], () => orNull(plain.find((it) => key(it) === sought))],
      ["remove", [place], () => remove(plain, plain.indexOf(place))],
      ["check", [], () => plain.length],
      ...(turn % 60 === 0 ? [["clear", [], () => clear(plain)]] : []),
      ["find", [sought], () => orNull(plain.find((it) => key(it) === sought))],
      ["lowerBound", [sought], () => orNull(plain.find((it) => key(it) >= sought))],
      ["upperBound", [sought], () => orNull(plain.findLast((it) => key(it) <= sought))],
    ];
  });
}

/** What some refusals say, by ic.h. None changes a link. */
function refusals(ic) {
  const links = ic.links2(5), ring = new Ring(links, 4), other = new Ring(links, 3), list = new List(links);
  const linked = () => Array.from({ length: 5 }, (_, at) => links.isLinked(at) && [links.word(at, 0), links.word(at, 1)]);
  function refused(status, call) {
    const before = linked();
    assert.throws(call, (error) => error instanceof Refused && error.status === status);
    assert.deepEqual(linked(), before);
  }
  ring.pushBack(0);
  ring.pushBack(1);
  refused(LINKED, () => new Ring(links, 0));
  refused(OUT_OF_RANGE, () => new Ring(links, 5));
  const before = linked();
  ring.moveAfter(0, 0);
  assert.deepEqual(linked(), before);
  refused(LINKED, () => list.pushBack(0));
  refused(NOT_LINKED, () => ring.remove(2));
  refused(NOT_LINKED, () => ring.moveBefore(2, 1));
  refused(NOT_LINKED, () => ring.spliceBefore(2, other));
  refused(NULL, () => ring.insertAfter(null, 2));
  refused(NULL, () => ring.exchange(0, null));
  refused(NULL, () => ring.spliceBefore(null, other));
  // The place 1 leads back to none, so no call parts 0 from it. Then the head leads on to a place that the table does not have.
  links.words[2 * 1 + 1] = 0n;
  refused(BROKEN, () => ring.replace(0, 2));
  refused(BROKEN, () => ring.moveAfter(4, 0));
  refused(BROKEN, () => ring.spliceBefore(1, other));
  links.words[2 * 4] = 8n * 9n + 1n;
  assert.deepEqual([ring.first, ring.isEmpty, [...ring]], [null, false, []]);
  refused(BROKEN, () => ring.popFront());
  refused(BROKEN, () => ring.check());
  refused(BROKEN, () => ring.sort(ic.keys(5)));
  refused(OUT_OF_RANGE, () => ring.sort(ic.keys(4)));
  other.remove(3);
  refused(NOT_LINKED, () => other.popFront());
  refused(NOT_LINKED, () => other.check());
  refused(NOT_LINKED, () => ring.spliceAfter(4, other));
  list.pushBack(2);
  links.words[2 * 2 + 1] = 8n;
  refused(BROKEN, () => list.check());
  refused(BROKEN, () => list.sort(ic.keys(5)));
  refused(OUT_OF_RANGE, () => list.sort(ic.keys(4)));
  refused(OUT_OF_RANGE, () => new HashTable(ic.links1(5), 0).insert(0, 0));
  refused(OUT_OF_RANGE, () => new HashTable(ic.links1(5), 1).find(0, 0));
  refused(OUT_OF_RANGE, () => new HashTable(ic.links1(5), 1).check(ic.keys(4)));
}

for (const module of modules) {
  const ic = await open(new URL(`../../dist/wasm/${module}`, import.meta.url));
  const parts = [doubly, rings, singly, hashed, xor, tree, treeWithEnds, treeWithSums];
  for (const part of parts) part(ic, Number(calls) / parts.length / modules.length);
  refusals(ic);
  const links = ic.links2(PLACES), list = new List(links), ring = new Ring(links, 0);
  for (const given of [list, new List(ic.links2(PLACES))]) {
    assert.throws(() => list.spliceAfter(null, given), TypeError);
    assert.throws(() => list.merge(ic.keys(PLACES), given), TypeError);
    assert.throws(() => list.transferAfter(null, given, 0), TypeError);
  }
  const sorted = new Tree(ic.links3(PLACES));
  for (const given of [sorted, new Tree(ic.links3(PLACES))]) {
    assert.throws(() => sorted.append(given), TypeError);
    assert.throws(() => sorted.join(0, given), TypeError);
  }
  for (const given of [null, ic.keys(PLACES), ic.links2(PLACES)]) assert.throws(() => sorted.sumsRenew(given, SUM, null), TypeError);
  for (const given of [ring, new Ring(ic.links2(PLACES), 0)]) assert.throws(() => ring.spliceBefore(0, given), TypeError);
  assert.throws(() => list.sort(links), TypeError);
  assert.throws(() => new Ring(ic.links1(PLACES), 0), TypeError);
}
const untested = Object.entries(counts).filter(([, [done]]) => !done);
assert.deepEqual(untested, []);
const all = Object.values(counts);
console.log(`${all.flat().reduce((a, b) => a + b)} calls of ${all.length} methods, ${all.reduce((sum, [, it]) => sum + it, 0)} of them refused`);
