// What ic.mjs takes of its module's memory: lists that are freed, or made in a scope, take none for good.
//     node --experimental-wasm-memory64 tests/library/memory.mjs MODULE ..
import assert from "node:assert";
import { HashTable, List, Refused, Ring, Stack, Tree, XorList, open } from "../../dist/wasm/ic.mjs";

/** Calls `body`, which has to leave the memory's top and size where they are, and returns what it returns. */
function keeps(ic, body) {
  const { top } = ic, bytes = ic.calls.memory.buffer.byteLength, result = body();
  assert.deepEqual([ic.top, ic.calls.memory.buffer.byteLength], [top, bytes]);
  return result;
}

/** A thousand splits of each kind, of which each list is freed. */
function splits(ic) {
  const list = new List(ic.links2(4)), stack = new Stack(ic.links1(4)), both = new XorList(ic.links1(4));
  for (const it of [list, stack, both]) it.fill(0, 4);
  keeps(ic, () => {
    for (let turn = 0; turn < 1000; turn++) {
      const rests = [list.splitAfter(1), stack.splitAfter(1), both.splitBetween(1, 2)];
      for (const rest of rests) assert.deepEqual([...rest], [2, 3]);
      list.append(rests[0]);
      stack.spliceAfter(1, rests[1]);
      both.append(rests[2]);
      for (const rest of rests) rest.free();
    }
  });
  for (const it of [list, stack, both]) assert.deepEqual([...it], [0, 1, 2, 3]);
  keeps(ic, () => {
    for (let turn = 0; turn < 1000; turn++) assert.throws(() => list.splitAfter(4), Refused);
  });
}

/** Whatever is made in a scope is gone behind it, also if it throws, and a scope in a scope frees what is its own. */
function scopes(ic) {
  const links = ic.links2(8), outer = new List(links);
  outer.fill(0, 8);
  for (let turn = 0; turn < 1000; turn++) {
    const sum = keeps(ic, () => ic.scope(() => {
      const rest = outer.splitAfter(3), inner = ic.scope(() => [...outer.splitBefore(2)]);
      for (const place of inner.reverse()) links.words.fill(0n, 2 * place, 2 * place + 2), outer.pushFront(place);
      outer.append(rest);
      new Tree(ic.links3(100), ic.keys(100)).insert(turn % 100);
      new HashTable(ic.links1(3), 50).insert(turn, 2);
      return [...outer].reduce((one, other) => one + other);
    }));
    assert.equal(sum, 28);
  }
  keeps(ic, () => assert.throws(() => ic.scope(() => (ic.links1(1000), ic.links1(-1))), RangeError));
  let freed;
  ic.scope(() => (freed = new List(ic.links2(2))));
  assert.throws(() => freed.pushBack(0), { name: "TypeError", message: "it is freed" });
}

/** What is freed in any order is taken again, zeroed. */
function orders(ic) {
  keeps(ic, () => {
    let state = 5;
    const random = (below) => ((state = (Math.imul(state, 1664525) + 1013904223) >>> 0) >>> 8) % below;
    const held = [], most = ic.top + 8 * 3 * 8 * 12 * 12;
    for (let turn = 0; turn < 20000; turn++) {
      if (held.length === 12 || (held.length && random(2))) held.splice(random(held.length), 1)[0].free();
      else held.push(ic[`links${1 + random(3)}`](random(9)));
      for (const it of held) assert(it.isOurs ? it.words.every((word) => word === it.isOurs) : it.words.every((word) => word === 0n));
      const ours = held[random(held.length)];
      if (ours) ours.words.fill((ours.isOurs = BigInt(turn + 1)));
      assert(ic.top < most);
    }
    for (const it of held) it.free(), it.free();
  });
}

/** What throws takes no memory. */
function refusals(ic) {
  const links1 = ic.links1(2), links2 = ic.links2(2), other = ic.other.keys(2);
  const wrong = [() => new List(links1), () => new XorList(links2), () => new Tree(links2), () => new Tree(ic.links3(0), other),
    () => new HashTable(links1, 4, other), () => new HashTable(links2, 4), () => new HashTable(links1, -1), () => new Ring(links1, 0), () => ic.links3(2 ** 60)];
  for (const make of wrong) keeps(ic, () => assert.throws(make, (error) => error instanceof TypeError || error instanceof RangeError));
}

/** Nothing is done with what is freed. */
function late(ic) {
  keeps(ic, () => {
    const links = ic.links2(3), list = new List(links), given = new List(links), ring = new Ring(links, 2);
    list.pushBack(0);
    given.pushBack(1);
    given.free();
    for (const call of [() => given.pushBack(1), () => given.popFront(), () => list.append(given)]) assert.throws(call, TypeError);
    assert.deepEqual([[...given], given.isEmpty, [...list]], [[], true, [0]]);
    list.free();
    links.free();
    for (const call of [() => list.pushBack(1), () => ring.pushBack(1), () => new List(links)]) assert.throws(call, TypeError);
    assert.deepEqual([links.length, links.isLinked(0), [...list], [...ring], ring.next(0)], [0, false, [], [], null]);
    const table = new HashTable(ic.links1(3), 2), chain = table.chain(1);
    table.insert(1, 0);
    chain.free();
    assert.deepEqual([[...chain], chain.popFront(), chain.popFront()], [[0], 0, null]);
    table.free();
    for (const call of [() => table.insert(0, 0), () => chain.pushFront(0)]) assert.throws(call, TypeError);
    table.links.free();
    const keys = ic.keys(3), tree = new Tree(ic.links3(3), keys), hashed = new HashTable(ic.links1(3), 2, keys), sorted = new List(ic.links2(3));
    keys.free();
    for (const call of [() => tree.insert(0), () => hashed.find(0, 0), () => sorted.sort(keys)]) assert.throws(call, TypeError);
    for (const it of [tree, hashed, sorted]) it.free(), it.links.free();
    const sums = ic.sums(3), summed = new Tree(ic.links3(3));
    sums.free();
    for (const call of [() => summed.sumsRenew(sums, 0, null), () => summed.sumsTotal(sums)]) assert.throws(call, TypeError);
    assert.throws(() => sums.value(0), RangeError);
    summed.free();
    summed.links.free();
  });
}

for (const module of process.argv.slice(2)) {
  const url = new URL(`../../dist/wasm/${module}`, import.meta.url), ic = Object.assign(await open(url), { other: await open(url) });
  for (const part of [splits, scopes, orders, refusals, late]) part(ic);
  console.log(`${module}: ${ic.top - Number(ic.calls.__heap_base.value)} bytes are taken at last`);
}
