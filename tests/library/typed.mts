// What ic.d.mts lets a program write, and what it refuses. It is checked, and not run:
//     tsc --noEmit --strict --target es2022 --module nodenext --moduleResolution nodenext --lib es2022,dom tests/library/typed.mts
import { HashTable, List, Refused, Ring, Stack, SUM, GREATEST, Sums, Tree, TreeWithEnds, XorList, open, type Gap } from "../../dist/wasm/ic.mjs";

const ic = await open(new URL("ic.wasm", import.meta.url));
const list = new List(ic.links2(100));
list.pushBack(7);
const first: Gap = list.popFront();
const rest: List = list.splitAfter(first);
list.spliceBefore(null, rest);
list.append(rest);
list.moveAfter(null, 7);
list.moveToBack(7);
list.fill(0, 3);
list.clear();
const stack = new Stack(ic.links1(100));
const others = new XorList(ic.links1(100));
const keys = ic.keys(4);
const tree = new Tree(ic.links3(4), keys);
keys.words[3] = 50n;
tree.insert(3);
const later: Tree = tree.split(3);
tree.append(later);
tree.join(2, later);
tree.clear();
for (const place of tree) console.log(place + 1, tree.find(50n), tree.lowerBound(20));
const timers: Tree = new TreeWithEnds(ic.links3(4), keys);
const soonest: Gap[] = timers instanceof TreeWithEnds ? [timers.first, timers.last, timers.popFirst()] : [];
const sums: Sums = ic.sums(4);
sums.setValue(3, 50);
tree.sumsRenew(sums, SUM, null);
const position: bigint = tree.sumsBefore(sums, SUM, 3) + sums.value(3) + sums.sum(3) + tree.sumsTotal(sums);
const places: Gap[] = [tree.sumsFind(sums, GREATEST, null, 3n), tree.sumsOverlap(sums, 3, 10, 20n)];
list.sort(keys);
list.merge(keys, rest);
stack.remove(3);
const unique: number = tree.insertUnique(3);
const equal: Gap = tree.findBy((member) => member - unique);
tree.insertBy(2, (one, other) => one - other);
list.transferAfter(null, rest, 7);
list.transferBefore(7, rest, 3);
const black: boolean = tree.isBlack(3) && ic.links1(1).isLinked(null);
const beside: Gap[] = [list.next(7), list.prev(7), stack.next(0), others.step(null, 3), tree.left(3), tree.right(3), tree.parent(3), tree.next(null)];
const removed: Gap[] = [stack.removeAfter(null), stack.replaceAfter(null, 2), others.popFront(), others.popBack()];
const members: number = list.check() + stack.check() + tree.check();
const ring = new Ring(ic.links2(10), 8);
ring.spliceAfter(ring.head, new Ring(ic.links2(10), 9));
ring.sort(ic.keys(10));
ring.merge(ic.keys(10), new Ring(ic.links2(10), 7));
const circle: number = ring.check();
stack.sort(keys);
stack.merge(keys, new Stack(ic.links1(100)));
for (const place of ring) ring.moveBefore(ring.head, place);
const ones = ic.links1(4);
const table = new HashTable(ones, 16, keys);
table.insert(50n, 3);
const found: Gap = table.find(50, 50n);
const chain: Stack = table.chain(50);
const counted: number = table.check(keys);
const larger = new HashTable(ones, 32, keys);
larger.moveChain(keys, table.chain(0));
const gone: number = list.removeIf((place) => place % 2 === 0) + table.removeIf((place: number) => place === 3);
const sum: number = ic.scope(() => new List(ic.links2(3)).check());
rest.free();
table.free();
keys.free();
try {
  others.insertBetween(null, 3, null);
} catch (error) {
  if (error instanceof Refused) console.log(error.status);
}
// @ts-expect-error: a list of another kind
list.spliceAfter(null, stack);
// @ts-expect-error: no count of places
list.fill(3);
// @ts-expect-error: no place to move
list.moveBefore(3);
// @ts-expect-error: there may be no member
const place: number = list.popBack();
// @ts-expect-error: no member to move
list.transferAfter(null, rest);
// @ts-expect-error: a list of another kind
stack.merge(keys, list);
// @ts-expect-error: a ring has a head
new Ring(ic.links2(10));
// @ts-expect-error: a list is no ring
ring.spliceAfter(8, list);
// @ts-expect-error: no hash
table.insert(3);
// @ts-expect-error: a chain, and not a hash table
larger.moveChain(keys, table);
// @ts-expect-error: an XOR list has no check
others.check();
// @ts-expect-error: a read of a list names a member
list.next(null);
// @ts-expect-error: a tree has no such end
tree.popFront();
// @ts-expect-error: a tree that keeps no ends has no first member at hand
tree.first;
// @ts-expect-error: keys are no sums
tree.sumsRenew(keys, SUM, null);
// @ts-expect-error: no such kind of sums
tree.sumsFind(sums, 2, null, 3n);
// @ts-expect-error: a ring has no memory of its own
ring.free();
// @ts-expect-error: a member leaves by yes or no
list.removeIf((place) => place);
// @ts-expect-error: a place is no text
list.pushFront("7");
