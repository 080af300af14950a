// Lists, rings, hash tables and a red-black tree over tables of links, by the proved calls of ic.wasm. ic.d.mts says what each does.
//
//     import { hasMemory64, open, List } from "./ic.mjs";
//     const ic = await open(new URL(hasMemory64() ? "ic.wasm" : "ic32.wasm", import.meta.url));
//     const list = new List(ic.links2(100)); // a hundred unlinked places, and a list with no members
//     list.pushBack(7);
//     list.pushBack(7); // throws Refused: LINKED, and nothing is changed
//     list.popFront(); // 7

export const NONE = 0xffffffff;
export const STATUS = ["OK", "OUT_OF_RANGE", "LINKED", "NOT_LINKED", "NULL", "BROKEN"];
export const [OK, OUT_OF_RANGE, LINKED, NOT_LINKED, NULL, BROKEN] = STATUS.keys();
export const SUM = 0, GREATEST = 1;

export class Refused extends Error {
  constructor(status) {
    super(STATUS[status]);
    this.name = "Refused";
    this.status = status;
  }
}

/** A module of its own, from bytes, a response, a URL, or a module that is compiled. */
export async function open(source) {
  if (source instanceof URL && source.protocol === "file:") source = await fileBytes(source);
  if (source instanceof URL || typeof source === "string") source = await fetch(source);
  if (typeof Response !== "undefined" && source instanceof Response) source = await source.arrayBuffer();
  const made = await WebAssembly.instantiate(source, {});
  return new Library((made.instance ?? made).exports);
}

// What Node's fetch does not read. Bundlers leave the import as it is.
async function fileBytes(url) {
  const { readFile } = await import(/* webpackIgnore: true */ /* @vite-ignore */ "node:fs/promises");
  return readFile(url);
}

/** Whether this engine runs ic.wasm. ic32.wasm has the same calls, over a memory of 32 bits. */
export function hasMemory64() {
  return WebAssembly.validate(new Uint8Array([0, 97, 115, 109, 1, 0, 0, 0, 5, 3, 1, 4, 1]));
}

export class Library {
  constructor(calls) {
    this.calls = calls;
    this.isWide = typeof calls.__heap_base.value === "bigint";
    this.top = this.mostUsed = Math.ceil(Number(calls.__heap_base.value) / 8) * 8;
    this.spare = new Spare();
    this.made = null;
    this.out = this.take(8);
  }
  /** An address as the calls take it. */
  at(address) {
    return this.isWide ? BigInt(address) : address;
  }
  /** Zeroed memory: freed memory of the same length, if there is some. `bytes` is divisible by 8. If it does not fit, nothing is taken. */
  take(bytes) {
    let at = this.spare.take(bytes);
    if (at === undefined) {
      grow(this.calls.memory, this.top + bytes, this.isWide);
      at = this.top;
      this.top += bytes;
    }
    if (at < this.mostUsed) new Uint8Array(this.calls.memory.buffer, at, bytes).fill(0);
    this.mostUsed = Math.max(this.mostUsed, this.top);
    return at;
  }
  /** Takes memory back. If it is the last that was taken, and what is freed lies before it, both may get any other length. */
  free(address, bytes) {
    this.spare.add(address, bytes);
    this.top = this.spare.takeBelow(this.top);
  }
  /** Calls `body`, and frees what was made in it: tables, lists and buckets. It returns what `body` returns. */
  scope(body) {
    const outer = this.made;
    this.made = [];
    try {
      return body();
    } finally {
      for (const words of this.made.reverse()) words.free();
      this.made = outer;
    }
  }
  links1(places) { return new Words(this, places, 1); }
  links2(places) { return new Words(this, places, 2); }
  links3(places) { return new Words(this, places, 3); }
  links2x32(places) { return new HalfWords(this, places, 2); }
  keys(places) { return new Words(this, places, 1); }
  sums(places) { return new Sums(this, places, 2); }
  done(status) {
    if (status !== OK) throw new Refused(status);
  }
  /** The member that the call has handed out, or null. */
  member(status) {
    if (status === NULL) return null;
    this.done(status);
    const { buffer } = this.calls.memory;
    if (this.seen?.buffer !== buffer) this.seen = new Uint32Array(buffer, this.out, 1);
    return this.seen[0];
  }
  /** How many members the call has counted. */
  counted(status) { return Number(this.summed(status)); }
  /** The number of 64 bits that the call has handed out. */
  summed(status) {
    this.done(status);
    return new DataView(this.calls.memory.buffer).getBigUint64(this.out, true);
  }
}

/** Freed memory, by its length and by where it ends. */
class Spare {
  constructor() {
    Object.assign(this, { byLength: new Map(), byEnd: new Map() });
  }
  add(address, bytes) {
    if (bytes === 0) return;
    if (!this.byLength.has(bytes)) this.byLength.set(bytes, new Set());
    this.byLength.get(bytes).add(address);
    this.byEnd.set(address + bytes, bytes);
  }
  remove(address, bytes) {
    this.byLength.get(bytes).delete(address);
    this.byEnd.delete(address + bytes);
  }
  take(bytes) {
    const [address] = this.byLength.get(bytes) ?? [];
    if (address !== undefined) this.remove(address, bytes);
    return address;
  }
  /** Takes what ends at `top`, and what ends where that begins, and so on. It returns where the rest ends. */
  takeBelow(top) {
    for (let bytes; (bytes = this.byEnd.get(top)) !== undefined;) this.remove(top -= bytes, bytes);
    return top;
  }
}

/** Makes the memory at least `top` bytes long. */
function grow(memory, top, isWide) {
  const pages = Math.ceil((top - memory.buffer.byteLength) / 65536);
  if (pages <= 0) return;
  try {
    growBy(memory, pages, isWide);
  } catch (error) {
    throw new RangeError(`the memory has no room for ${top} bytes`, { cause: error });
  }
}

// Engines differ in whether a page count of a wide memory is a BigInt.
function growBy(memory, pages, isWide) {
  try {
    memory.grow(isWide ? BigInt(pages) : pages);
  } catch (error) {
    if (!isWide || !(error instanceof TypeError)) throw error;
    memory.grow(pages);
  }
}

function refuseNumber(value, name, range) {
  throw new RangeError(`${name} is ${String(value)}, which is no integer ${range}`);
}
/** A number of 32 bits, which the call takes as it is. */
function u32(value, name) {
  if (typeof value !== "number" || value >>> 0 !== value) refuseNumber(value, name, "from 0 to 4294967295");
  return value;
}
/** A place as the calls take it. */
function placeNumber(place, name) {
  return place === null ? NONE : u32(place, name);
}
/** A number of 64 bits as the calls take it: a BigInt. */
function u64(value, name) {
  const isIn = typeof value === "bigint" ? BigInt.asUintN(64, value) === value : Number.isInteger(value) && value >= 0 && value < 2 ** 64;
  if (!isIn) refuseNumber(value, name, "from 0 to 18446744073709551615");
  return BigInt(value);
}
/** A length, which is not negative. */
function natural(value, name) {
  if (!Number.isSafeInteger(value) || value < 0) refuseNumber(value, name, "from 0 to 9007199254740991");
  return value;
}

// What the calls are of a list or a table that is freed.
const FREED = new Proxy({}, { get() { throw new TypeError("it is freed"); } });

/** A table of links, keys, buckets, or the words of a list: `width` words for each of `length` places. It may be a part `of` another one. */
export class Words {
  constructor(library, length, width, of = null, from = 0) {
    const bytes = this.wordBytes;
    const address = of ? of.address + bytes * from : library.take(bytes * width * natural(length, "length"));
    Object.assign(this, { library, length, width, of, address, isFreed: false });
    if (!of) library.made?.push(this);
  }
  get wordBytes() { return 8; }
  /** Gives the memory back. Then there are no places, and each call of a list of this table throws. A part does nothing. */
  free() {
    if (this.of || this.isFreed) return;
    this.library.free(this.address, this.wordBytes * this.width * this.length);
    Object.assign(this, { length: 0, isFreed: true, seen: undefined, halves: undefined });
  }
  get calls() {
    return (this.of ?? this).isFreed ? FREED : this.library.calls;
  }
  /** All words. Take it anew after memory was taken. */
  get words() {
    const { buffer } = this.library.calls.memory;
    if (this.seen?.buffer !== buffer) this.seen = new BigUint64Array(buffer, this.address, this.width * this.length);
    return this.seen;
  }
  word(place, which = 0) { return this.words[this.index(place, which)]; }
  index(place, which) {
    if (!(u32(place, "place") < this.length)) refuseNumber(place, "place", `below ${this.length}`);
    if (!(u32(which, "which") < this.width)) refuseNumber(which, "which", `below ${this.width}`);
    return this.width * place + which;
  }
  /** Whether a place is in a list, a ring or a tree of the table. */
  isLinked(place) {
    return this.hasMember(placeNumber(place, "place"));
  }
  hasMember(number) {
    return number < this.length && number !== NONE && (this.half(2 * this.width * number) & 1) === 1;
  }
  /** The place that a word of the table names, or null. */
  place(place, which) {
    const at = 2 * (this.width * place + which);
    return fromHalves(this.half(at), this.half(at + 1) & 15);
  }
  /** The place of the table that the link of `at` leads to, or null if `at` is not linked or the link leads out of the table. */
  beside(at, which) {
    return this.hasMember(placeNumber(at, "at")) ? this.within(this.place(at, which)) : null;
  }
  within(place) {
    return place !== null && place < this.length ? place : null;
  }
  // Half a word, of which the lower half comes first.
  half(at) {
    const { buffer } = this.library.calls.memory;
    if (this.halves?.buffer !== buffer) this.halves = new Uint32Array(buffer, this.address, 2 * this.width * this.length);
    return this.halves[at];
  }
  get parts() {
    return [this.library.at(this.address), BigInt(this.length)];
  }
}

/** A table of links in words of 4 bytes, which have room for the places below 536870911. */
export class HalfWords extends Words {
  get wordBytes() { return 4; }
  get words() {
    this.half(0);
    return this.halves;
  }
  hasMember(number) {
    return number < this.length && number < 536870911 && (this.half(this.width * number) & 1) === 1;
  }
  place(place, which) {
    return fromHalves(this.half(this.width * place + which), 0);
  }
  half(at) {
    const { buffer } = this.library.calls.memory;
    if (this.halves?.buffer !== buffer) this.halves = new Uint32Array(buffer, this.address, this.width * this.length);
    return this.halves[at];
  }
}

export const wordOf = (place) => BigInt(placeNumber(place, "place") + 1 >>> 0) * 8n;
export function placeOf(word) {
  const number = u64(word, "word");
  return fromHalves(Number(number & 0xffffffffn), Number(number >> 32n & 15n));
}
// A number of 2^32 or more is no place's.
const fromHalves = (low, high) => (high & 8 ? null : orNull((high << 29 | low >>> 3) - 1 >>> 0));
const orNull = (place) => (place === NONE ? null : place);

function checkWidth(links, width, wordBytes) {
  if (links.isFreed) throw new TypeError("its table is freed");
  if (links.width !== width || links.wordBytes !== wordBytes) throw new TypeError(`its table has ${width} words of ${wordBytes} bytes for each place`);
}

/** A value and a sum for each place of a tree. */
export class Sums extends Words {
  value(place) { return this.word(place, 0); }
  sum(place) { return this.word(place, 1); }
  setValue(place, value) { this.words[this.index(place, 0)] = u64(value, "value"); }
}

/** Sums as the calls take them. */
function sumParts(sums, { library }) {
  if (!(sums instanceof Sums) || sums.library !== library || sums.isFreed) throw new TypeError("its sums are those of the same module");
  return sums.parts;
}

/** Keys as the calls take them, which are none where there are no words. */
function keyParts(keys, { library }) {
  if (keys && (keys.width !== 1 || keys.wordBytes !== 8 || keys.library !== library || keys.isFreed)) throw new TypeError("its keys are words of the same module");
  return keys?.parts ?? [library.at(0), 0n];
}

/** What makes calls over a table of links. */
class Calls {
  constructor(links, linkWidth, wordBytes = 8) {
    checkWidth(links, linkWidth, wordBytes);
    Object.assign(this, { links, library: links.library });
    [this.table, this.places] = links.parts;
    this.out = this.library.at(this.library.out);
  }
  get calls() { return this.links.calls; }
  done(status) { this.library.done(status); }
  member(status) { return this.library.member(status); }
  counted(status) { return this.library.counted(status); }
  summed(status) { return this.library.summed(status); }
}

/** Removes each member for which `isUnwanted` returns true: a member after one, which `follow` finds, by `remove`. It returns how many there were. */
function removeIf(links, isUnwanted, follow, remove) {
  let before = null, at = null, removed = 0;
  for (let left = links.length; left > 0; left--) {
    const next = follow(before, at);
    if (!links.isLinked(next)) return removed;
    if (isUnwanted(next)) {
      remove(at, next);
      removed++;
    } else {
      [before, at] = [at, next];
    }
  }
  if (follow(before, at) !== null) throw new Refused(BROKEN);
  return removed;
}

class Collection extends Calls {
  constructor(links, width, linkWidth, ends = null, wordBytes = 8) {
    super(links, linkWidth, wordBytes);
    this.ends = ends ?? new Words(links.library, 1, width);
    this.self = this.library.at(this.ends.address);
  }
  get calls() { return this.links.isFreed || this.keys?.isFreed ? FREED : this.ends.calls; }
  /** Gives the memory of the list back, but not that of its table. Its members stay linked. */
  free() { this.ends.free(); }
  get isEmpty() {
    return (this.ends.half(0) >>> 3 | this.ends.half(1) & 15) === 0;
  }
  another() { return new this.constructor(this.links); }
  /** Another collection of this table, whose members move to this one. */
  given(other) {
    if (other.self === this.self || other.links !== this.links || other.ends.isFreed) throw new TypeError("what is given is another list of the same table");
    return other.self;
  }
  // What a call hands out, as another collection of this table.
  parted(call) {
    const rest = this.another();
    try {
      this.done(call(rest.self));
    } catch (error) {
      rest.free();
      throw error;
    }
    return rest;
  }
}

/** The members from `at` on, each after `next`, at most as many as the table has places. It ends at a place that is not linked. */
function* walk(links, at, next) {
  for (let left = links.length; left > 0 && links.isLinked(at); left--, at = next(at)) yield at;
}

/** What doubly linked lists of both widths have. */
class Lists extends Collection {
  constructor(links, wordBytes) { super(links, 2, 2, null, wordBytes); }
  get first() { return this.ends.place(0, 0); }
  get last() { return this.ends.place(0, 1); }
  next(at) { return this.links.beside(at, 0); }
  prev(at) { return this.links.beside(at, 1); }
  [Symbol.iterator]() { return walk(this.links, this.first, (at) => this.next(at)); }
  removeIf(isUnwanted) {
    return removeIf(this.links, isUnwanted, (_, at) => (at === null ? this.first : this.next(at)), (_, at) => this.remove(at));
  }
}

/** A doubly linked list over links2. */
export class List extends Lists {
  constructor(links) { super(links, 8); }
  // Made by tools/c-calls --write: list list-fill list-keys list-transfer
  pushFront(place) { this.done(this.calls.ic_list_push_front(this.table, this.places, this.self, placeNumber(place, "place"))); }
  pushBack(place) { this.done(this.calls.ic_list_push_back(this.table, this.places, this.self, placeNumber(place, "place"))); }
  popFront() { return this.member(this.calls.ic_list_pop_front(this.table, this.places, this.self, this.out)); }
  popBack() { return this.member(this.calls.ic_list_pop_back(this.table, this.places, this.self, this.out)); }
  insertAfter(at, place) {
    this.done(this.calls.ic_list_insert_after(this.table, this.places, this.self, placeNumber(at, "at"), placeNumber(place, "place")));
  }
  insertBefore(at, place) {
    this.done(this.calls.ic_list_insert_before(this.table, this.places, this.self, placeNumber(at, "at"), placeNumber(place, "place")));
  }
  remove(at) { this.done(this.calls.ic_list_remove(this.table, this.places, this.self, placeNumber(at, "at"))); }
  replace(at, place) {
    this.done(this.calls.ic_list_replace(this.table, this.places, this.self, placeNumber(at, "at"), placeNumber(place, "place")));
  }
  moveAfter(at, place) {
    this.done(this.calls.ic_list_move_after(this.table, this.places, this.self, placeNumber(at, "at"), placeNumber(place, "place")));
  }
  moveBefore(at, place) {
    this.done(this.calls.ic_list_move_before(this.table, this.places, this.self, placeNumber(at, "at"), placeNumber(place, "place")));
  }
  moveToFront(place) { this.done(this.calls.ic_list_move_to_front(this.table, this.places, this.self, placeNumber(place, "place"))); }
  moveToBack(place) { this.done(this.calls.ic_list_move_to_back(this.table, this.places, this.self, placeNumber(place, "place"))); }
  spliceAfter(at, given) {
    this.done(this.calls.ic_list_splice_after(this.table, this.places, this.self, placeNumber(at, "at"), this.given(given)));
  }
  spliceBefore(at, given) {
    this.done(this.calls.ic_list_splice_before(this.table, this.places, this.self, placeNumber(at, "at"), this.given(given)));
  }
  append(given) { this.done(this.calls.ic_list_append(this.table, this.places, this.self, this.given(given))); }
  fill(first, count) { this.done(this.calls.ic_list_fill(this.table, this.places, this.self, u32(first, "first"), u32(count, "count"))); }
  clear() { this.done(this.calls.ic_list_clear(this.table, this.places, this.self)); }
  splitAfter(at) {
    return this.parted((rest) => this.calls.ic_list_split_after(this.table, this.places, this.self, placeNumber(at, "at"), rest));
  }
  splitBefore(at) {
    return this.parted((rest) => this.calls.ic_list_split_before(this.table, this.places, this.self, placeNumber(at, "at"), rest));
  }
  check() { return this.counted(this.calls.ic_list_check(this.table, this.places, this.self, this.out)); }
  sort(keys) { this.done(this.calls.ic_list_sort(this.table, this.places, ...keyParts(keys, this.links), this.self)); }
  merge(keys, given) {
    this.done(this.calls.ic_list_merge(this.table, this.places, ...keyParts(keys, this.links), this.self, this.given(given)));
  }
  transferAfter(at, given, place) {
    this.done(this.calls.ic_list_transfer_after(
      this.table, this.places, this.self, placeNumber(at, "at"), this.given(given), placeNumber(place, "place"),
    ));
  }
  transferBefore(at, given, place) {
    this.done(this.calls.ic_list_transfer_before(
      this.table, this.places, this.self, placeNumber(at, "at"), this.given(given), placeNumber(place, "place"),
    ));
  }
  // to here
}

/** A doubly linked list over links2x32. */
export class List32 extends Lists {
  constructor(links) { super(links, 4); }
  // Made by tools/c-calls --write: list32
  pushFront(place) { this.done(this.calls.ic_list32_push_front(this.table, this.places, this.self, placeNumber(place, "place"))); }
  pushBack(place) { this.done(this.calls.ic_list32_push_back(this.table, this.places, this.self, placeNumber(place, "place"))); }
  popFront() { return this.member(this.calls.ic_list32_pop_front(this.table, this.places, this.self, this.out)); }
  popBack() { return this.member(this.calls.ic_list32_pop_back(this.table, this.places, this.self, this.out)); }
  insertAfter(at, place) {
    this.done(this.calls.ic_list32_insert_after(this.table, this.places, this.self, placeNumber(at, "at"), placeNumber(place, "place")));
  }
  insertBefore(at, place) {
    this.done(this.calls.ic_list32_insert_before(this.table, this.places, this.self, placeNumber(at, "at"), placeNumber(place, "place")));
  }
  remove(at) { this.done(this.calls.ic_list32_remove(this.table, this.places, this.self, placeNumber(at, "at"))); }
  replace(at, place) {
    this.done(this.calls.ic_list32_replace(this.table, this.places, this.self, placeNumber(at, "at"), placeNumber(place, "place")));
  }
  moveAfter(at, place) {
    this.done(this.calls.ic_list32_move_after(this.table, this.places, this.self, placeNumber(at, "at"), placeNumber(place, "place")));
  }
  moveBefore(at, place) {
    this.done(this.calls.ic_list32_move_before(this.table, this.places, this.self, placeNumber(at, "at"), placeNumber(place, "place")));
  }
  moveToFront(place) { this.done(this.calls.ic_list32_move_to_front(this.table, this.places, this.self, placeNumber(place, "place"))); }
  moveToBack(place) { this.done(this.calls.ic_list32_move_to_back(this.table, this.places, this.self, placeNumber(place, "place"))); }
  spliceAfter(at, given) {
    this.done(this.calls.ic_list32_splice_after(this.table, this.places, this.self, placeNumber(at, "at"), this.given(given)));
  }
  spliceBefore(at, given) {
    this.done(this.calls.ic_list32_splice_before(this.table, this.places, this.self, placeNumber(at, "at"), this.given(given)));
  }
  append(given) { this.done(this.calls.ic_list32_append(this.table, this.places, this.self, this.given(given))); }
  clear() { this.done(this.calls.ic_list32_clear(this.table, this.places, this.self)); }
  splitAfter(at) {
    return this.parted((rest) => this.calls.ic_list32_split_after(this.table, this.places, this.self, placeNumber(at, "at"), rest));
  }
  splitBefore(at) {
    return this.parted((rest) => this.calls.ic_list32_split_before(this.table, this.places, this.self, placeNumber(at, "at"), rest));
  }
  check() { return this.counted(this.calls.ic_list32_check(this.table, this.places, this.self, this.out)); }
  transferAfter(at, given, place) {
    this.done(this.calls.ic_list32_transfer_after(
      this.table, this.places, this.self, placeNumber(at, "at"), this.given(given), placeNumber(place, "place"),
    ));
  }
  transferBefore(at, given, place) {
    this.done(this.calls.ic_list32_transfer_before(
      this.table, this.places, this.self, placeNumber(at, "at"), this.given(given), placeNumber(place, "place"),
    ));
  }
  // to here
}

/** What rings of both widths have. */
class Rings extends Calls {
  constructor(links, wordBytes, head) {
    super(links, 2, wordBytes);
    this.head = head;
  }
  get isEmpty() { return this.next(this.head) === this.head; }
  get first() { return this.unlessHead(this.next(this.head)); }
  get last() { return this.unlessHead(this.prev(this.head)); }
  next(at) { return this.links.beside(at, 0); }
  prev(at) { return this.links.beside(at, 1); }
  [Symbol.iterator]() { return walk(this.links, this.first, (at) => this.unlessHead(this.next(at))); }
  removeIf(isUnwanted) {
    return removeIf(this.links, isUnwanted, (_, at) => this.unlessHead(this.next(at ?? this.head)), (_, at) => this.remove(at));
  }
  pushFront(place) { this.insertAfter(this.head, place); }
  pushBack(place) { this.insertBefore(this.head, place); }
  unlessHead(place) { return place === this.head ? null : place; }
  /** The head of another ring of this table. */
  given(other) {
    if (other === this || other.links !== this.links) throw new TypeError("what is given is another ring of the same table");
    return other.head;
  }
}

/** A ring over links2, whose head is a place of the table. */
export class Ring extends Rings {
  constructor(links, head) {
    super(links, 8, head);
    this.done(this.calls.ic_ring_init(this.table, this.places, placeNumber(head, "head")));
  }
  // Made by tools/c-calls --write: ring ring-check ring-keys
  insertAfter(at, place) {
    this.done(this.calls.ic_ring_insert_after(this.table, this.places, placeNumber(at, "at"), placeNumber(place, "place")));
  }
  insertBefore(at, place) {
    this.done(this.calls.ic_ring_insert_before(this.table, this.places, placeNumber(at, "at"), placeNumber(place, "place")));
  }
  remove(place) { this.done(this.calls.ic_ring_remove(this.table, this.places, placeNumber(place, "place"))); }
  exchange(one, other) {
    this.done(this.calls.ic_ring_exchange(this.table, this.places, placeNumber(one, "one"), placeNumber(other, "other")));
  }
  popFront() { return this.member(this.calls.ic_ring_pop_front(this.table, this.places, this.head, this.out)); }
  popBack() { return this.member(this.calls.ic_ring_pop_back(this.table, this.places, this.head, this.out)); }
  replace(at, place) { this.done(this.calls.ic_ring_replace(this.table, this.places, placeNumber(at, "at"), placeNumber(place, "place"))); }
  moveAfter(at, place) {
    this.done(this.calls.ic_ring_move_after(this.table, this.places, placeNumber(at, "at"), placeNumber(place, "place")));
  }
  moveBefore(at, place) {
    this.done(this.calls.ic_ring_move_before(this.table, this.places, placeNumber(at, "at"), placeNumber(place, "place")));
  }
  spliceAfter(at, head) { this.done(this.calls.ic_ring_splice_after(this.table, this.places, placeNumber(at, "at"), this.given(head))); }
  spliceBefore(at, head) { this.done(this.calls.ic_ring_splice_before(this.table, this.places, placeNumber(at, "at"), this.given(head))); }
  check() { return this.counted(this.calls.ic_ring_check(this.table, this.places, this.head, this.out)); }
  sort(keys) { this.done(this.calls.ic_ring_sort(this.table, this.places, ...keyParts(keys, this.links), this.head)); }
  merge(keys, given) {
    this.done(this.calls.ic_ring_merge(this.table, this.places, ...keyParts(keys, this.links), this.head, this.given(given)));
  }
  // to here
}

/** A ring over links2x32, whose head is a place of the table. */
export class Ring32 extends Rings {
  constructor(links, head) {
    super(links, 4, head);
    this.done(this.calls.ic_ring32_init(this.table, this.places, placeNumber(head, "head")));
  }
  // Made by tools/c-calls --write: ring32
  insertAfter(at, place) {
    this.done(this.calls.ic_ring32_insert_after(this.table, this.places, placeNumber(at, "at"), placeNumber(place, "place")));
  }
  insertBefore(at, place) {
    this.done(this.calls.ic_ring32_insert_before(this.table, this.places, placeNumber(at, "at"), placeNumber(place, "place")));
  }
  remove(place) { this.done(this.calls.ic_ring32_remove(this.table, this.places, placeNumber(place, "place"))); }
  exchange(one, other) {
    this.done(this.calls.ic_ring32_exchange(this.table, this.places, placeNumber(one, "one"), placeNumber(other, "other")));
  }
  popFront() { return this.member(this.calls.ic_ring32_pop_front(this.table, this.places, this.head, this.out)); }
  popBack() { return this.member(this.calls.ic_ring32_pop_back(this.table, this.places, this.head, this.out)); }
  replace(at, place) {
    this.done(this.calls.ic_ring32_replace(this.table, this.places, placeNumber(at, "at"), placeNumber(place, "place")));
  }
  moveAfter(at, place) {
    this.done(this.calls.ic_ring32_move_after(this.table, this.places, placeNumber(at, "at"), placeNumber(place, "place")));
  }
  moveBefore(at, place) {
    this.done(this.calls.ic_ring32_move_before(this.table, this.places, placeNumber(at, "at"), placeNumber(place, "place")));
  }
  spliceAfter(at, head) { this.done(this.calls.ic_ring32_splice_after(this.table, this.places, placeNumber(at, "at"), this.given(head))); }
  spliceBefore(at, head) {
    this.done(this.calls.ic_ring32_splice_before(this.table, this.places, placeNumber(at, "at"), this.given(head)));
  }
  // to here
}

/** A singly linked list over links1. */
export class Stack extends Collection {
  constructor(links, ends) { super(links, 1, 1, ends); }
  get first() { return this.ends.place(0, 0); }
  next(at) { return this.links.beside(at, 0); }
  [Symbol.iterator]() { return walk(this.links, this.first, (at) => this.next(at)); }
  removeIf(isUnwanted) {
    return removeIf(this.links, isUnwanted, (_, at) => (at === null ? this.first : this.next(at)), (before) => this.removeAfter(before));
  }
  // Made by tools/c-calls --write: stack stack-keys
  pushFront(place) { this.done(this.calls.ic_stack_push_front(this.table, this.places, this.self, placeNumber(place, "place"))); }
  popFront() { return this.member(this.calls.ic_stack_pop_front(this.table, this.places, this.self, this.out)); }
  insertAfter(at, place) {
    this.done(this.calls.ic_stack_insert_after(this.table, this.places, this.self, placeNumber(at, "at"), placeNumber(place, "place")));
  }
  removeAfter(at) {
    return this.member(this.calls.ic_stack_remove_after(this.table, this.places, this.self, placeNumber(at, "at"), this.out));
  }
  replaceAfter(at, place) {
    return this.member(this.calls.ic_stack_replace_after(
      this.table, this.places, this.self, placeNumber(at, "at"), placeNumber(place, "place"), this.out,
    ));
  }
  spliceAfter(at, given) {
    this.done(this.calls.ic_stack_splice_after(this.table, this.places, this.self, placeNumber(at, "at"), this.given(given)));
  }
  splitAfter(at) {
    return this.parted((rest) => this.calls.ic_stack_split_after(this.table, this.places, this.self, placeNumber(at, "at"), rest));
  }
  fill(first, count) { this.done(this.calls.ic_stack_fill(this.table, this.places, this.self, u32(first, "first"), u32(count, "count"))); }
  clear() { this.done(this.calls.ic_stack_clear(this.table, this.places, this.self)); }
  check() { return this.counted(this.calls.ic_stack_check(this.table, this.places, this.self, this.out)); }
  sort(keys) { this.done(this.calls.ic_stack_sort(this.table, this.places, ...keyParts(keys, this.links), this.self)); }
  merge(keys, given) {
    this.done(this.calls.ic_stack_merge(this.table, this.places, ...keyParts(keys, this.links), this.self, this.given(given)));
  }
  // to here
  // A list is a hash table with one bucket.
  remove(place) { this.done(this.calls.ic_hash_remove(this.table, this.places, this.self, 1n, 0n, placeNumber(place, "place"))); }
}

/** A hash table over links1. Each call for one object takes the same hash. */
export class HashTable extends Calls {
  constructor(links, buckets, keys = null) {
    super(links, 1);
    [this.keysAt, this.keyCount] = keyParts(keys, links);
    Object.assign(this, { keys, buckets: new Words(links.library, natural(buckets, "buckets"), 1) });
    [this.bucketsAt, this.bucketCount] = this.buckets.parts;
  }
  get calls() { return this.links.isFreed || this.keys?.isFreed ? FREED : this.buckets.calls; }
  /** Gives the memory of the buckets back, but not that of the table of links. The members stay linked. */
  free() { this.buckets.free(); }
  *[Symbol.iterator]() {
    let left = this.links.length;
    for (let bucket = 0; bucket < this.buckets.length; bucket++) {
      for (const place of this.bucket(bucket)) {
        if (left-- === 0) return;
        yield place;
      }
    }
  }
  removeIf(isUnwanted) {
    let removed = 0;
    for (let bucket = 0; bucket < this.buckets.length; bucket++) removed += this.bucket(bucket).removeIf(isUnwanted);
    return removed;
  }
  /** The chain of a hash. A list that was made before of the same chain has the same members. */
  chain(hash) { return this.bucket(Number(u64(hash, "hash") % this.bucketCount)); }
  bucket(at) { return new Stack(this.links, new Words(this.library, 1, 1, this.buckets, at)); }
  /** A list of this table of links, which is no chain of this hash table. */
  given(chain) {
    const isOther = chain instanceof Stack && chain.links === this.links && chain.ends.of !== this.buckets;
    if (!isOther || (chain.ends.of ?? chain.ends).isFreed) throw new TypeError("the chain is another list of the same table of links");
    return chain.self;
  }
  // Made by tools/c-calls --write: hash hash-growth
  insert(hash, place) {
    this.done(this.calls.ic_hash_insert(
      this.table, this.places, this.bucketsAt, this.bucketCount, u64(hash, "hash"), placeNumber(place, "place"),
    ));
  }
  remove(hash, place) {
    this.done(this.calls.ic_hash_remove(
      this.table, this.places, this.bucketsAt, this.bucketCount, u64(hash, "hash"), placeNumber(place, "place"),
    ));
  }
  find(hash, key) {
    return this.member(this.calls.ic_hash_find(
      this.table, this.places, this.keysAt, this.keyCount, this.bucketsAt, this.bucketCount, u64(hash, "hash"), u64(key, "key"), this.out,
    ));
  }
  nextEqual(at) {
    return this.member(this.calls.ic_hash_next_equal(this.table, this.places, this.keysAt, this.keyCount, placeNumber(at, "at"), this.out));
  }
  check(hashes) {
    return this.counted(this.calls.ic_hash_check(
      this.table, this.places, ...keyParts(hashes, this.links), this.bucketsAt, this.bucketCount, this.out,
    ));
  }
  moveChain(hashes, chain) {
    this.done(this.calls.ic_hash_move_chain(
      this.table, this.places, ...keyParts(hashes, this.links), this.given(chain), this.bucketsAt, this.bucketCount,
    ));
  }
  // to here
}

/** An XOR list over links1. A gap is named by both members beside it. */
export class XorList extends Collection {
  constructor(links) { super(links, 2, 1); }
  get first() { return this.ends.place(0, 0); }
  get last() { return this.ends.place(0, 1); }
  step(from, at) {
    const word = wordOf(placeNumber(from, "from"));
    return this.links.hasMember(placeNumber(at, "at")) ? this.links.within(placeOf(this.links.word(at) ^ word)) : null;
  }
  [Symbol.iterator]() {
    let from = null;
    return walk(this.links, this.first, (at) => {
      const next = this.step(from, at);
      from = at;
      return next;
    });
  }
  removeIf(isUnwanted) {
    const follow = (before, at) => (at === null ? this.first : this.step(before, at));
    return removeIf(this.links, isUnwanted, follow, (before, at) => this.remove(before, at));
  }
  // Made by tools/c-calls --write: xor
  pushFront(place) { this.done(this.calls.ic_xor_push_front(this.table, this.places, this.self, placeNumber(place, "place"))); }
  pushBack(place) { this.done(this.calls.ic_xor_push_back(this.table, this.places, this.self, placeNumber(place, "place"))); }
  popFront() { return this.member(this.calls.ic_xor_pop_front(this.table, this.places, this.self, this.out)); }
  popBack() { return this.member(this.calls.ic_xor_pop_back(this.table, this.places, this.self, this.out)); }
  insertBetween(before, place, after) {
    this.done(this.calls.ic_xor_insert_between(
      this.table, this.places, this.self, placeNumber(before, "before"), placeNumber(place, "place"), placeNumber(after, "after"),
    ));
  }
  remove(before, at) {
    this.done(this.calls.ic_xor_remove(this.table, this.places, this.self, placeNumber(before, "before"), placeNumber(at, "at")));
  }
  replace(before, at, place) {
    this.done(this.calls.ic_xor_replace(
      this.table, this.places, this.self, placeNumber(before, "before"), placeNumber(at, "at"), placeNumber(place, "place"),
    ));
  }
  spliceBetween(before, given, after) {
    this.done(this.calls.ic_xor_splice_between(
      this.table, this.places, this.self, placeNumber(before, "before"), this.given(given), placeNumber(after, "after"),
    ));
  }
  append(given) { this.done(this.calls.ic_xor_append(this.table, this.places, this.self, this.given(given))); }
  fill(first, count) { this.done(this.calls.ic_xor_fill(this.table, this.places, this.self, u32(first, "first"), u32(count, "count"))); }
  clear() { this.done(this.calls.ic_xor_clear(this.table, this.places, this.self)); }
  splitBetween(before, after) {
    return this.parted((rest) => this.calls.ic_xor_split_between(
      this.table, this.places, this.self, placeNumber(before, "before"), placeNumber(after, "after"), rest,
    ));
  }
  reverse() { this.done(this.calls.ic_xor_reverse(this.self)); }
  // to here
}

/** A red-black tree over links3, by keys if it is handed any. */
export class Tree extends Collection {
  constructor(links, keys = null) {
    const [keysAt, keyCount] = keyParts(keys, links);
    super(links, 1, 3);
    Object.assign(this, { keys, keysAt, keyCount });
  }
  another() { return new this.constructor(this.links, this.keys); }
  get root() { return this.ends.place(0, 0); }
  left(at) { return this.links.beside(at, 0); }
  right(at) { return this.links.beside(at, 1); }
  parent(at) { return this.links.beside(at, 2); }
  isBlack(at) { return this.links.hasMember(placeNumber(at, "at")) && (this.links.word(at, 2) & 1n) === 1n; }
  sumsTotal(sums) {
    sumParts(sums, this.links);
    return this.root !== null && this.root < sums.length ? sums.sum(this.root) : 0n;
  }
  // Made by tools/c-calls --write: tree tree-keys tree-steps tree-sums
  insertLeft(at, place) {
    this.done(this.calls.ic_tree_insert_left(this.table, this.places, this.self, placeNumber(at, "at"), placeNumber(place, "place")));
  }
  insertRight(at, place) {
    this.done(this.calls.ic_tree_insert_right(this.table, this.places, this.self, placeNumber(at, "at"), placeNumber(place, "place")));
  }
  remove(at) { this.done(this.calls.ic_tree_remove(this.table, this.places, this.self, placeNumber(at, "at"))); }
  replace(at, place) {
    this.done(this.calls.ic_tree_replace(this.table, this.places, this.self, placeNumber(at, "at"), placeNumber(place, "place")));
  }
  append(given) { this.done(this.calls.ic_tree_append(this.table, this.places, this.self, this.given(given))); }
  join(place, given) {
    this.done(this.calls.ic_tree_join(this.table, this.places, this.self, placeNumber(place, "place"), this.given(given)));
  }
  clear() { this.done(this.calls.ic_tree_clear(this.table, this.places, this.self)); }
  split(at) { return this.parted((rest) => this.calls.ic_tree_split(this.table, this.places, this.self, placeNumber(at, "at"), rest)); }
  check() { return this.counted(this.calls.ic_tree_check(this.table, this.places, this.self, this.out)); }
  insert(place) {
    this.done(this.calls.ic_tree_insert(this.table, this.places, this.keysAt, this.keyCount, this.self, placeNumber(place, "place")));
  }
  find(key) {
    return this.member(this.calls.ic_tree_find(this.table, this.places, this.keysAt, this.keyCount, this.self, u64(key, "key"), this.out));
  }
  lowerBound(key) {
    return this.member(this.calls.ic_tree_lower_bound(
      this.table, this.places, this.keysAt, this.keyCount, this.self, u64(key, "key"), this.out,
    ));
  }
  upperBound(key) {
    return this.member(this.calls.ic_tree_upper_bound(
      this.table, this.places, this.keysAt, this.keyCount, this.self, u64(key, "key"), this.out,
    ));
  }
  next(at) { return this.member(this.calls.ic_tree_next(this.table, this.places, this.self, placeNumber(at, "at"), this.out)); }
  prev(at) { return this.member(this.calls.ic_tree_prev(this.table, this.places, this.self, placeNumber(at, "at"), this.out)); }
  sumsInsert(sums, kind, place) {
    this.done(this.calls.ic_tree_sums_insert(
      this.table, this.places, this.keysAt, this.keyCount, ...sumParts(sums, this.links), u32(kind, "kind"), this.self,
      placeNumber(place, "place"),
    ));
  }
  sumsInsertLeft(sums, kind, at, place) {
    this.done(this.calls.ic_tree_sums_insert_left(
      this.table, this.places, ...sumParts(sums, this.links), u32(kind, "kind"), this.self, placeNumber(at, "at"),
      placeNumber(place, "place"),
    ));
  }
  sumsInsertRight(sums, kind, at, place) {
    this.done(this.calls.ic_tree_sums_insert_right(
      this.table, this.places, ...sumParts(sums, this.links), u32(kind, "kind"), this.self, placeNumber(at, "at"),
      placeNumber(place, "place"),
    ));
  }
  sumsRemove(sums, kind, at) {
    this.done(this.calls.ic_tree_sums_remove(
      this.table, this.places, ...sumParts(sums, this.links), u32(kind, "kind"), this.self, placeNumber(at, "at"),
    ));
  }
  sumsRenew(sums, kind, at) {
    this.done(this.calls.ic_tree_sums_renew(
      this.table, this.places, ...sumParts(sums, this.links), u32(kind, "kind"), placeNumber(at, "at"),
    ));
  }
  sumsFind(sums, kind, at, bound) {
    return this.member(this.calls.ic_tree_sums_find(
      this.table, this.places, ...sumParts(sums, this.links), u32(kind, "kind"), this.self, placeNumber(at, "at"), u64(bound, "bound"),
      this.out,
    ));
  }
  sumsBefore(sums, kind, at) {
    return this.summed(this.calls.ic_tree_sums_before(
      this.table, this.places, ...sumParts(sums, this.links), u32(kind, "kind"), placeNumber(at, "at"), this.out,
    ));
  }
  sumsOverlap(sums, at, from, to) {
    return this.member(this.calls.ic_tree_sums_overlap(
      this.table, this.places, this.keysAt, this.keyCount, ...sumParts(sums, this.links), this.self, placeNumber(at, "at"),
      u64(from, "from"), u64(to, "to"), this.out,
    ));
  }
  // to here
  insertUnique(place) {
    const at = placeNumber(place, "place"), isKnown = this.keys !== null && at < this.keys.length && !this.links.isLinked(place);
    const member = isKnown ? this.find(this.keys.word(at)) : null;
    if (member !== null) return member;
    this.insert(place);
    return place;
  }
  findBy(compare) {
    let found = null;
    this.descend((at) => {
      const order = compare(at);
      if (order === 0) found = at;
      return order <= 0;
    });
    return found;
  }
  insertBy(place, compare) {
    const at = placeNumber(place, "place"), mayGoIn = at < this.links.length && !this.links.isLinked(place);
    const { under, isLeft } = mayGoIn ? this.descend((member) => compare(place, member) < 0) : { under: null, isLeft: true };
    if (isLeft) this.insertLeft(under, place);
    else this.insertRight(under, place);
  }
  // Goes down to the left of each member for which `goesLeft` returns true, and to the right of the others. It returns where the way ends.
  descend(goesLeft) {
    let gap = { under: null, isLeft: true }, at = this.root;
    for (let left = this.links.length; left > 0 && this.links.isLinked(at); left--) {
      gap = { under: at, isLeft: goesLeft(at) };
      at = gap.isLeft ? this.left(at) : this.right(at);
    }
    return gap;
  }
  // The member after one, or null if the call is refused.
  after(at) {
    const status = this.calls.ic_tree_next(this.table, this.places, this.self, placeNumber(at, "at"), this.out);
    return status === OK ? this.member(status) : null;
  }
  [Symbol.iterator]() { return walk(this.links, this.after(null), (at) => this.after(at)); }
  removeIf(isUnwanted) {
    return removeIf(this.links, isUnwanted, (_, at) => this.next(at), (_, at) => this.remove(at));
  }
}

// Writes the first and the last member of each tree that keeps them, after a call that has not.
function findEnds(...trees) {
  for (const tree of trees.filter((it) => it instanceof TreeWithEnds)) {
    tree.both.words.set([tree.next(null), tree.prev(null)].map(wordOf));
  }
}

/** A red-black tree that keeps its first and its last member, which its edits renew. */
export class TreeWithEnds extends Tree {
  constructor(links, keys = null) {
    super(links, keys);
    this.both = new Words(links.library, 2, 1);
    this.endsAt = this.library.at(this.both.address);
  }
  /** Gives the memory of the tree and of its ends back, but not that of the table. Its members stay linked. */
  free() {
    super.free();
    this.both.free();
  }
  get first() { return this.end(0); }
  get last() { return this.end(1); }
  end(which) {
    const place = this.both.place(which, 0);
    return this.links.isLinked(place) ? place : null;
  }
  clear() {
    super.clear();
    this.both.words.fill(0n);
  }
  append(given) {
    super.append(given);
    findEnds(this, given);
  }
  join(place, given) {
    super.join(place, given);
    findEnds(this, given);
  }
  split(at) {
    const rest = super.split(at);
    findEnds(this, rest);
    return rest;
  }
  // The edits that keep sums leave the ends as they are.
  sumsInsert(sums, kind, place) {
    super.sumsInsert(sums, kind, place);
    findEnds(this);
  }
  sumsInsertLeft(sums, kind, at, place) {
    super.sumsInsertLeft(sums, kind, at, place);
    findEnds(this);
  }
  sumsInsertRight(sums, kind, at, place) {
    super.sumsInsertRight(sums, kind, at, place);
    findEnds(this);
  }
  sumsRemove(sums, kind, at) {
    super.sumsRemove(sums, kind, at);
    findEnds(this);
  }
  // Made by tools/c-calls --write: tree-ends
  insert(place) {
    this.done(this.calls.ic_tree_ends_insert(
      this.table, this.places, this.keysAt, this.keyCount, this.self, this.endsAt, placeNumber(place, "place"),
    ));
  }
  insertLeft(at, place) {
    this.done(this.calls.ic_tree_ends_insert_left(
      this.table, this.places, this.self, this.endsAt, placeNumber(at, "at"), placeNumber(place, "place"),
    ));
  }
  insertRight(at, place) {
    this.done(this.calls.ic_tree_ends_insert_right(
      this.table, this.places, this.self, this.endsAt, placeNumber(at, "at"), placeNumber(place, "place"),
    ));
  }
  remove(at) { this.done(this.calls.ic_tree_ends_remove(this.table, this.places, this.self, this.endsAt, placeNumber(at, "at"))); }
  replace(at, place) {
    this.done(this.calls.ic_tree_ends_replace(
      this.table, this.places, this.self, this.endsAt, placeNumber(at, "at"), placeNumber(place, "place"),
    ));
  }
  popFirst() { return this.member(this.calls.ic_tree_ends_pop_first(this.table, this.places, this.self, this.endsAt, this.out)); }
  // to here
}
