// Makes the same random calls by ic.wasm and by ic32.wasm, also on words that no call wrote, and compares statuses and memory after each.
//     node --experimental-wasm-memory64 tests/library/same_memory.mjs CALLS
import fs from "node:fs";
import { open } from "../../dist/wasm/ic.mjs";

const calls = Number(process.argv[2]), PLACES = 12, NONE = 0xffffffff;
const file = (name) => fs.readFileSync(new URL(`../../${name}`, import.meta.url));
const both = await Promise.all(["ic.wasm", "ic32.wasm"].map((name) => open(file(`dist/wasm/${name}`))));
const declared = [...file("include/ic.h").toString().matchAll(/^uint32_t (ic_\w+)\(([^)]*)\);/gm)].map(([, name, parameters]) => ({
  name,
  parameters: parameters.split(",").map((it) => it.trim()),
  statuses: [0, 0, 0, 0, 0, 0],
}));

let state = 1n;
function random(below) {
  state = BigInt.asUintN(64, state * 6364136223846793005n + 1442695040888963407n);
  return Number((state >> 33n) % BigInt(below));
}
const place = () => (random(40) === 0 ? NONE : random(PLACES + 2));
const half = () => BigInt(random(3) === 0 ? random(16) : 8 * random(PLACES + 2) + random(2));
const word = () => half() | (random(60) === 0 ? 1n << 60n : 0n);
const halves = () => half() | half() << 32n;

// An area of each memory has the table, the keys, which are hashes, too, two lists or a tree, what a call hands out, buckets, the ends of the tree, and
// the values with their sums. Keys are words 48 to 79, and values every second one of the words 96 to 119.
const AREA = 1024, KEYS = [48, 80], SUMS = 96;
const OUT = Object.fromEntries(["popped", "removed", "replaced", "found", "members", "sum"].map((name) => [name, 672]));
const OFFSETS = { table: 0, keys: 8 * KEYS[0], hashes: 8 * KEYS[0], list: 640, tree: 640, chain: 640, given: 656, rest: 656, ...OUT, buckets: 680, ends: 720, sums: 8 * SUMS };
const BUCKETS = 4;
const bases = both.map((library) => library.take(AREA));
const areas = both.map((library, at) => new BigUint64Array(library.calls.memory.buffer, bases[at], AREA / 8));
function write(at, value) {
  for (const area of areas) area[at] = value;
}

/** What a parameter gets in either memory, by its type and name. */
function argument(parameter, length) {
  const [name] = parameter.match(/\w+$/);
  if (parameter.includes("*")) return { offset: OFFSETS[name] ?? unknown(parameter) };
  if (name === "kind") return { value: random(3) };
  if (name === "bucket_count") return { value: BigInt(random(40) === 0 ? 0 : BUCKETS) };
  if (parameter.startsWith("ic_length")) return { value: BigInt(name !== "places" && random(40) === 0 ? random(PLACES) : length) };
  return { value: parameter.startsWith("uint64_t") ? BigInt(random(20)) : place() };
}

function unknown(parameter) {
  throw new Error(`no part of the area is for ${parameter}`);
}

/** Zeroed memory with random keys and values at first, and later words that no call wrote, of 4 bytes if the kind has such. */
function prepare(turn, any) {
  if (turn === 0) {
    areas.forEach((area) => area.fill(0n));
    for (let at = KEYS[0]; at < KEYS[1]; at++) write(at, BigInt(random(20)));
    for (let place = 0; place < PLACES; place++) write(SUMS + 2 * place, BigInt(random(20)));
  } else if (turn > 200 && random(6) === 0) {
    for (let at = 0; at < AREA / 8; at++) if (random(8) === 0) write(at, any());
  }
}

// A table is of one kind, so the calls of a round are of one kind.
const kindOf = ({ name }) => name.split("_")[1], names = [...new Set(declared.map(kindOf))];
const KINDS = names.map((name) => ({ any: name.endsWith("32") ? halves : word, calls: declared.filter((call) => kindOf(call) === name) }));
for (let turn = 0; turn < calls; turn++) {
  const kind = KINDS[Math.floor(turn / 400) % KINDS.length], call = kind.calls[random(kind.calls.length)];
  prepare(turn % 400, kind.any);
  const length = random(10) === 0 ? random(PLACES) : PLACES, words = call.parameters.map((it) => argument(it, length));
  const said = both.map((library, at) =>
    library.calls[call.name](...words.map((it) => ("offset" in it ? library.at(bases[at] + it.offset) : it.value))),
  );
  const last = `call ${turn}, ${call.name}(${words.map((it) => it.offset ?? it.value)})`;
  if (said[0] !== said[1] || said[0] > 5) throw new Error(`${last} returned ${said}`);
  if (areas[0].some((it, at) => it !== areas[1][at])) throw new Error(`${last} left another memory`);
  call.statuses[said[0]]++;
}
const refused = ({ statuses }) => statuses.slice(1).some(Boolean);
const untested = declared.filter((call) => !call.statuses[0] || (!refused(call) && call.name !== "ic_xor_reverse"));
if (untested.length) throw new Error(`never succeeded, or never refused: ${untested.map(({ name }) => name)}`);
const succeeded = declared.reduce((sum, { statuses }) => sum + statuses[0], 0);
console.log(`${calls} calls of ${declared.length} functions with the same statuses and memory, ${succeeded} of them succeeded`);
