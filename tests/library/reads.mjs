// Plays the cases of reads.txt by ic.mjs.
//     node --experimental-wasm-memory64 tests/library/reads.mjs MODULE ..
import fs from "node:fs";
import { List, NONE, Refused, Ring, Stack, Tree, XorList, open } from "../../dist/wasm/ic.mjs";

const KINDS = {
  list: { width: 2, make: (links) => new List(links) },
  ring: { width: 2, make: (links, [head]) => new Ring(links, Number(head)) },
  stack: { width: 1, make: (links) => new Stack(links) },
  xor: { width: 1, make: (links) => new XorList(links) },
  tree: { width: 3, make: (links) => new Tree(links) },
};
const placeOf = (word) => (word === "none" ? null : Number(word));
const yesOrNo = (is) => (is ? "yes" : "no");

/** The list, ring or tree of a part, made of unlinked places, whose words are then written. */
function made(ic, { kind, links: words, head }) {
  const { width, make } = KINDS[kind], links = ic[`links${width}`](words.length / width), it = make(links, head);
  words.forEach((word, at) => (links.words[at] = word));
  if (it.ends) it.ends.words.set(head.slice(0, it.ends.width));
  return it;
}

/** What a read returns. A step through a tree that is refused finds no member, as in a loop of C. */
function said(it, read, places) {
  if (read === "walk") return [...it].join(" ");
  if (read === "is_linked") return yesOrNo(it.links.isLinked(...places));
  if (read === "is_empty") return yesOrNo(it instanceof Ring ? ringOf(it, places[0] ?? NONE).isEmpty : it.isEmpty);
  try {
    const found = typeof it[read] === "function" ? it[read](...places) : it[read];
    return String(found ?? "none");
  } catch (error) {
    if (!(it instanceof Tree && error instanceof Refused)) throw error;
    return "none";
  }
}

/** A ring with another head, over the same table. */
function ringOf(ring, head) {
  return Object.assign(Object.create(Ring.prototype), ring, { head });
}

let played = 0, wrong = 0;
for (const module of process.argv.slice(2)) {
  const ic = await open(new URL(`../../dist/wasm/${module}`, import.meta.url));
  let part, it;
  for (const [at, line] of fs.readFileSync(new URL("reads.txt", import.meta.url), "utf8").split("\n").entries()) {
    const [left, right] = line.replace(/#.*/, "").split("="), [first, ...rest] = left.split(" ").filter(Boolean);
    if (first && right === undefined) {
      if (first in KINDS) part = { kind: first };
      else part[first] = rest.map(BigInt);
      it = undefined;
    } else if (first) {
      it ??= made(ic, part);
      const got = said(it, first, rest.map(placeOf)), wanted = right.trim();
      played++;
      if (got !== wanted) console.log(`${module}, line ${at + 1}, ${part.kind} ${first}: ${got} in place of ${wanted}`, ++wrong);
    }
  }
}
console.log(`${played} reads, ${wrong} of them wrong`);
process.exitCode = Number(wrong > 0 || played === 0);
