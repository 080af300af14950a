// Hands ic.mjs numbers that are none of a call's. Each has to throw a RangeError with the argument's name, and to change nothing.
//     node --experimental-wasm-memory64 tests/library/numbers.mjs MODULE ..
import assert from "node:assert";
import { HashTable, List, NONE, Refused, Ring, Stack, Tree, XorList, open, placeOf, wordOf } from "../../dist/wasm/ic.mjs";

const WRONG = [-1, 1.5, NaN, Infinity, 2 ** 32, "7", undefined, true, 7n, {}, Symbol("seven")];
const WRONG_WORDS = [-1, 1.5, NaN, Infinity, 2 ** 64, -1n, 2n ** 64n, "7", undefined, null, {}];
const WRONG_COUNTS = [-1, 1.5, NaN, Infinity, 2 ** 53, "7", undefined, null, 7n];

let refused = 0;
function refuses(name, wrong, call) {
  for (const value of wrong) {
    assert.throws(() => call(value), (error) => error instanceof RangeError && error.message.startsWith(`${name} is `), `${name}: ${String(value)}`);
    refused++;
  }
}

/** Every method that takes places, with the names of its arguments. Each argument is wrong in turn, and the others are 0. */
function methods(it, calls) {
  const words = () => [...it.links.words, ...(it.ends?.words ?? [])].join();
  for (const [method, ...names] of calls) {
    names.forEach((name, at) => {
      const before = words();
      refuses(name, WRONG, (wrong) => it[method](...names.map((_, other) => (other === at ? wrong : 0))));
      assert.equal(words(), before);
    });
  }
}

function lists(ic) {
  const list = new List(ic.links2(4)), stack = new Stack(ic.links1(4)), both = new XorList(ic.links1(4)), ring = new Ring(ic.links2(4), 3);
  for (const it of [list, stack]) for (const place of [0, 2]) it.pushFront(place);
  methods(list, [["pushFront", "place"], ["pushBack", "place"], ["insertAfter", "at", "place"], ["insertBefore", "at", "place"], ["remove", "at"],
    ["replace", "at", "place"], ["moveAfter", "at", "place"], ["moveBefore", "at", "place"], ["moveToFront", "place"], ["moveToBack", "place"],
    ["splitAfter", "at"], ["splitBefore", "at"], ["fill", "first", "count"]]);
  methods(stack, [["pushFront", "place"], ["insertAfter", "at", "place"], ["removeAfter", "at"], ["replaceAfter", "at", "place"], ["splitAfter", "at"],
    ["remove", "place"], ["fill", "first", "count"]]);
  methods(both, [["pushFront", "place"], ["pushBack", "place"], ["insertBetween", "before", "place", "after"], ["remove", "before", "at"],
    ["replace", "before", "at", "place"], ["splitBetween", "before", "after"], ["fill", "first", "count"]]);
  methods(ring, [["insertAfter", "at", "place"], ["insertBefore", "at", "place"], ["remove", "place"], ["exchange", "one", "other"], ["pushFront", "place"],
    ["pushBack", "place"], ["moveAfter", "at", "place"], ["moveBefore", "at", "place"]]);
  methods(list, [["next", "at"], ["prev", "at"]]);
  methods(ring, [["next", "at"], ["prev", "at"]]);
  methods(stack, [["next", "at"]]);
  methods(both, [["step", "from", "at"]]);
  refuses("place", WRONG, (place) => list.links.isLinked(place));
  refuses("head", WRONG, (head) => new Ring(ic.links2(4), head));
}

function keyed(ic) {
  const tree = new Tree(ic.links3(4), ic.keys(4)), table = new HashTable(ic.links1(4), 2, ic.keys(4));
  tree.insert(1);
  methods(tree, [["insert", "place"], ["insertUnique", "place"], ["insertBy", "place"], ["insertLeft", "at", "place"], ["insertRight", "at", "place"], ["remove", "at"], ["replace", "at", "place"],
    ["split", "at"], ["next", "at"], ["prev", "at"], ["left", "at"], ["right", "at"], ["parent", "at"], ["isBlack", "at"]]);
  const sums = ic.sums(4);
  refuses("kind", WRONG, (kind) => tree.sumsRenew(sums, kind, null));
  refuses("at", WRONG, (at) => tree.sumsBefore(sums, 0, at));
  refuses("bound", WRONG_WORDS, (bound) => tree.sumsFind(sums, 0, null, bound));
  refuses("from", WRONG_WORDS, (from) => tree.sumsOverlap(sums, null, from, 0));
  refuses("to", WRONG_WORDS, (to) => tree.sumsOverlap(sums, null, 0, to));
  refuses("place", WRONG, (place) => sums.setValue(place, 0));
  refuses("value", WRONG_WORDS, (value) => sums.setValue(0, value));
  for (const search of ["find", "lowerBound", "upperBound"]) refuses("key", WRONG_WORDS, (key) => tree[search](key));
  refuses("hash", WRONG_WORDS, (hash) => table.insert(hash, 0));
  refuses("hash", WRONG_WORDS, (hash) => table.find(hash, 0));
  refuses("key", WRONG_WORDS, (key) => table.find(0, key));
  refuses("place", WRONG, (place) => tree.join(place, new Tree(tree.links, tree.keys)));
  refuses("place", WRONG, (place) => table.insert(0, place));
  refuses("hash", WRONG_WORDS, (hash) => table.chain(hash));
  assert.equal(table.find(2 ** 64 - 2 ** 11, 2n ** 64n - 1n), null);
  assert.throws(() => new HashTable(ic.links1(4), 0).chain(0), RangeError);
}

/** A table that does not fit leaves the memory as it was, and the next one begins where it would have begun. */
function lengths(ic) {
  for (const make of ["links1", "links2", "links3", "keys", "sums"]) {
    const { top } = ic, bytes = ic.calls.memory.buffer.byteLength;
    refuses("length", WRONG_COUNTS, (length) => ic[make](length));
    for (const length of [2 ** 53 - 1, 2 ** 50]) assert.throws(() => ic[make](length), RangeError);
    assert.deepEqual([ic.top, ic.calls.memory.buffer.byteLength], [top, bytes]);
    assert.equal(ic[make](0).length, 0);
    assert.equal(ic.links1(1).address, Math.ceil(top / 8) * 8);
  }
  refuses("buckets", WRONG_COUNTS, (buckets) => new HashTable(ic.links1(4), buckets));
}

/** A loop ends if its body removes the member, and null names no place. */
function loops(ic) {
  const list = new List(ic.links2(4)), tree = new Tree(ic.links3(4), ic.keys(4)), stack = new Stack(ic.links1(4));
  for (const place of [0, 1, 2]) (list.pushBack(place), tree.insert(place), stack.pushFront(place));
  const seen = [];
  for (const place of list) (seen.push(place), list.remove(place));
  for (const place of tree) (seen.push(place), tree.remove(place));
  for (const place of stack) (seen.push(place), stack.popFront());
  assert.deepEqual(seen, [0, 0, 2]);
  assert.deepEqual([[...list], [...tree], [...stack]], [[1, 2], [1, 2], [1, 0]]);
  assert.throws(() => list.remove(null), (error) => error instanceof Refused && error.message === "NULL");
  assert.deepEqual([list.next(null), list.next(NONE), wordOf(null), placeOf(2n ** 35n)], [null, null, 0n, null]);
}

for (const module of process.argv.slice(2)) {
  const ic = await open(new URL(`../../dist/wasm/${module}`, import.meta.url));
  for (const part of [lists, keyed, lengths, loops]) part(ic);
}
console.log(`${refused} wrong numbers, each refused by name`);
