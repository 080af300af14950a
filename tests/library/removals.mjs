// `removeIf` of each class of ic.mjs beside a plain array, of random members, of which random ones leave.
//     node --experimental-wasm-memory64 tests/library/removals.mjs ROUNDS MODULE ..
import assert from "node:assert";
import { BROKEN, HashTable, List, Refused, Ring, Stack, Tree, XorList, open } from "../../dist/wasm/ic.mjs";

const [rounds, ...modules] = process.argv.slice(2), PLACES = 20, HEAD = PLACES;
let state = 11;
const random = (below) => ((state = (Math.imul(state, 1664525) + 1013904223) >>> 0) >>> 8) % below;

/** Collections of each kind, and how a place becomes the last member, or the first of a singly linked list. The keys of a tree are the places. */
function kinds(ic) {
  const keys = ic.keys(PLACES);
  for (let place = 0; place < PLACES; place++) keys.words[place] = BigInt(place);
  return [
    [new List(ic.links2(PLACES)), (it, place) => it.pushBack(place)],
    [new Ring(ic.links2(PLACES + 1), HEAD), (it, place) => it.pushBack(place)],
    [new Stack(ic.links1(PLACES)), (it, place) => it.pushFront(place)],
    [new XorList(ic.links1(PLACES)), (it, place) => it.pushBack(place)],
    [new Tree(ic.links3(PLACES), keys), (it, place) => it.insert(place)],
    [new HashTable(ic.links1(PLACES), 5), (it, place) => it.insert(3 * place, place)],
  ];
}

/** Links some places, of which some leave, and then all. Each is asked of once, in order. */
function leave(it, link) {
  const places = Array.from({ length: PLACES }, (_, place) => place).filter(() => random(3) > 0).sort(() => random(3) - 1);
  for (const place of places) link(it, place);
  const members = [...it], leaving = random(2 ** 20), asked = [], leaves = (place) => (leaving >>> place & 1) === 1;
  const removed = it.removeIf((place) => (asked.push(place), leaves(place)));
  assert.deepEqual(asked, members);
  assert.equal(removed, members.filter(leaves).length);
  assert.deepEqual([...it], members.filter((place) => !leaves(place)));
  for (const place of members) assert.equal(it.links.isLinked(place), !leaves(place));
  assert.equal(it.removeIf(() => true), members.length - removed);
  assert.deepEqual([[...it], it.removeIf(() => true)], [[], 0]);
}

/** A member that has left stays out if the next question throws. */
function throwing(it, link) {
  for (const place of [1, 2, 3]) link(it, place);
  const members = [...it];
  const unwanted = (place) => {
    if (place === members[1]) throw new Error("no answer");
    return true;
  };
  assert.throws(() => it.removeIf(unwanted), { message: "no answer" });
  assert.deepEqual([...it], members.slice(1));
  it.removeIf(() => true);
}

/** Links that lead round in a circle end with BROKEN, and those that lead to a place that is not linked end there. */
function broken(ic) {
  const stack = new Stack(ic.links1(4));
  stack.fill(0, 3);
  stack.links.words[2] = 8n * 1n + 1n;
  assert.throws(() => stack.removeIf(() => false), (error) => error instanceof Refused && error.status === BROKEN);
  stack.links.words[2] = 8n * 4n + 1n;
  assert.equal(stack.removeIf((place) => place === 1), 1);
  assert.deepEqual([...stack], [0, 2]);
  const list = new List(ic.links2(4));
  list.fill(0, 3);
  list.links.words[2 * 1 + 1] = 0n;
  assert.throws(() => list.removeIf((place) => place === 1), (error) => error instanceof Refused && error.status === BROKEN);
  assert.deepEqual([...list], [0, 1, 2]);
}

let left = 0;
for (const module of modules) {
  const ic = await open(new URL(`../../dist/wasm/${module}`, import.meta.url));
  const all = kinds(ic);
  for (const [it, link] of all) {
    for (let round = 0; round < Number(rounds); round++, left++) leave(it, link);
    throwing(it, link);
  }
  broken(ic);
}
console.log(`${left} rounds in which members leave`);
