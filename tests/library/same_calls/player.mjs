// Plays a text of calls by ic.mjs, and prints what each returns. tools/same-calls says how a line is written, and writes made.mjs, which has a
// function for each call.
//     node player.mjs MADE FOLDER MODULE CALLS
import fs from "node:fs";
import { pathToFileURL } from "node:url";

const [made, folder, module, path] = process.argv.slice(2);
const ic = await import(pathToFileURL(`${folder}/ic.mjs`));
const { callsOf, linksOf, listsOf, partsOf, treePlaces } = await import(pathToFileURL(made));
const library = await ic.open(pathToFileURL(`${folder}/${module}`)), FEW = 5;

// Any place may be named as a head, also one that is none of a ring. A ring that is made so tests nothing.
function headed(Kind, links) {
  const ring = new Kind(links, 0);
  return (head) => Object.assign(Object.create(Kind.prototype), ring, { head: head ?? ic.NONE });
}

// What all calls are made of. Of three hash tables the second has too few keys, as the second list and the second tree do, also too few sums, and the
// third has no buckets.
const links = linksOf(library), allOrFew = (make) => [treePlaces, FEW].map((places) => library[make](places));
const [keys, sums] = ["keys", "sums"].map(allOrFew).map(([all, few]) => [all, few, all]);
const lists = listsOf(ic, links, keys, headed), tables = [4, 3, 0].map((buckets, slot) => new ic.HashTable(links.stack, buckets, keys[slot]));
// The same trees, with their ends.
const ended = lists.trees.map(({ ends, self, keys }) => Object.assign(new ic.TreeWithEnds(links.tree, keys), { ends, self }));
/** Moves the members of a split to the list `rest`, which is empty, and frees the list that was made. */
function fill(rest, split) {
  const made = split();
  rest.ends.words.set(made.ends.words);
  made.free();
}
const world = { links, ...lists, ended, tables, keys, sums, fill };
const calls = callsOf(ic, world), parts = partsOf(world);

/** A word as an array of words has it. */
const wordIn = (words, word) => (words instanceof Uint32Array ? Number(word) : word);
function set(part, at, word) {
  for (const { words } of parts[part]) {
    if (at < words.length) return void (words[at] = wordIn(words, word));
    at -= words.length;
  }
}
const reset = () => parts.flat().forEach(({ words }) => words.fill(wordIn(words, 0n)));
const show = () => parts.map((part) => part.flatMap(({ words }) => [...words]).join(" ") + (part.length ? " " : "")).join("\n");

function answer(name, words) {
  try {
    const found = calls[name](words);
    return found === undefined ? "OK" : found === null ? "NULL" : String(found);
  } catch (error) {
    if (!(error instanceof ic.Refused)) throw error;
    return error.message;
  }
}

const said = [];
reset();
for (const line of fs.readFileSync(path, "utf8").split("\n")) {
  const [name, ...words] = line.split(" ");
  if (name === "reset") reset();
  else if (name === "show") said.push(show());
  else if (name === "values") words.forEach((value, place) => sums[0].setValue(place, BigInt(value)));
  else if (name === "keys") keys.forEach((it) => it.words.set(words.slice(0, it.length).map(BigInt)));
  else if (name === "word") set(Number(words[0]), Number(words[1]), BigInt(words[2]));
  else if (name) said.push(answer(name, words));
}
process.stdout.write(said.join("\n") + "\n");
