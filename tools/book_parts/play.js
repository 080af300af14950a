// The play page: calls on lists, rings, a hash table and a tree, over the module that stands above as `MODULES`, by the classes of ic.mjs.
const PLACES = 16, BUCKETS = 4;
const REASONS = {
  NULL: "the call needs a place, and none is named",
  BROKEN: "the links beside the place do not lead to each other",
};
// What is wrong with a place, and with which of those that a call names. The one to insert is `place`.
const FAULTS = {
  OUT_OF_RANGE: ["is not one of the table", (name, number) => name !== "key" && name !== "count" && number >= PLACES],
  LINKED: ["is linked already", (name, number, links) => name === "place" && links.isLinked(number)],
  NOT_LINKED: ["is not linked", (name, number, links) => name !== "place" && number !== null && !links.isLinked(number)],
};

const bytes = (text) => Uint8Array.from(atob(text), (it) => it.charCodeAt(0));
const isWide = hasMemory64() && !location.search.includes("narrow");
const ic = await open(bytes(isWide ? MODULES.wide : MODULES.narrow));
const count = Object.keys(ic.calls).filter((it) => it.startsWith("ic_")).length;
document.querySelector("#module").textContent = `${count} calls, with a memory of ${isWide ? 64 : 32} bits`;

const ARROW = '<defs><marker id="tip" viewBox="0 0 8 8" refX="7" refY="4" markerWidth="7" markerHeight="7" orient="auto"><path d="M0 0 8 4 0 8z" fill="currentColor"/></marker></defs>';
const svg = (width, height, parts, kind) => `<svg viewBox="0 0 ${width} ${height}" role="img" class="${kind}">${ARROW}${parts.join("")}</svg>`;
const text = (x, y, words, kind = "") => `<text x="${x}" y="${y}" class="${kind}">${words}</text>`;
const arrow = (path) => `<path d="${path}" class="edge" marker-end="url(#tip)"/>`;
const shown = (place) => (place === null ? "-" : place);

// The table: a column for each place, a row for each word. A head has a double border.
function drawTable(links, rows, heads = new Set()) {
  const width = 34, parts = [];
  rows.forEach(([name, cell], row) => {
    parts.push(text(2, 17 + 22 * row, name, "head"));
    for (let place = 0; place < links.length; place++) {
      const x = 66 + width * place, isLinked = links.isLinked(place);
      parts.push(`<rect x="${x}" y="${1 + 22 * row}" width="${width}" height="22" class="cell${isLinked ? " on" : ""}"/>`);
      if (!row && heads.has(place)) parts.push(`<rect x="${x + 3}" y="4" width="${width - 6}" height="16" class="box"/>`);
      parts.push(text(x + width / 2, 17 + 22 * row, cell(place), row && !isLinked ? "pale" : ""));
    }
  });
  return svg(68 + width * links.length, 4 + 22 * rows.length, parts, "table");
}

// Members in order from a point on, some in a row. A list of two directions has an arrow each way.
function drawChain(names, left, top, inRow, isTwoWay) {
  const step = 58, parts = [];
  names.forEach((name, at) => {
    const x = left + step * (at % inRow), y = top + 52 * Math.floor(at / inRow);
    parts.push(`<rect x="${x}" y="${y}" width="34" height="28" rx="4" class="box on"/>`, text(x + 17, y + 19, name));
    if (at + 1 === names.length) return;
    if (at % inRow === inRow - 1) {
      parts.push(arrow(`M${x + 17} ${y + 28}v9H${left + 17}v14`));
      return;
    }
    parts.push(arrow(`M${x + 35} ${y + (isTwoWay ? 10 : 14)}h21`));
    if (isTwoWay) parts.push(arrow(`M${x + 57} ${y + 19}h-21`));
  });
  return parts;
}

function drawList(list, isTwoWay) {
  const parts = drawChain([...list], 12, 14, 10, isTwoWay);
  if (!parts.length) parts.push(text(60, 34, "no members"));
  return svg(612, 118, parts, "members");
}

// The buckets in a column, each by its number, with the keys of its chain.
function drawHashTable(table) {
  const parts = [];
  let y = 2;
  for (let bucket = 0; bucket < table.buckets.length; bucket++) {
    const keys = [...table.chain(bucket)].map((place) => table.keys.word(place));
    const chain = [`<rect x="2" y="${y}" width="34" height="28" class="cell"/>`, text(19, y + 19, bucket, "faint"), ...drawChain(keys, 60, y, 9, false)];
    if (keys.length) chain.push(arrow(`M37 ${y + 14}h21`));
    parts.push(`<g class="chain">${chain.join("")}</g>`);
    y += 34 + 52 * Math.floor(Math.max(0, keys.length - 1) / 9);
  }
  return svg(612, y + 8, parts, "members");
}

// The circles of a table side by side, ten places in a row where they are small. A head has a double border.
function drawRings(rings) {
  const parts = [];
  let x = 0, y = 0, height = 0;
  for (const circle of rings.circles()) {
    const radius = Math.max(24, 26 * circle.length / Math.PI), size = 2 * radius + 46;
    if (x + size > 612) [x, y, height] = [0, y + height, 0];
    parts.push(`<g class="circle">${drawCircle(circle, rings.heads, x + size / 2, y + size / 2, radius).join("")}</g>`);
    [x, height] = [x + size, Math.max(height, size)];
  }
  if (!parts.length) parts.push(text(60, 34, "no rings"));
  return svg(612, Math.max(118, y + height), parts, "members");
}

// The places of a circle clockwise from the top. The outer arrows are next, and the inner ones prev.
function drawCircle(places, heads, x, y, radius) {
  const turn = 2 * Math.PI / places.length, parts = [];
  const point = (angle, away) => `${(x + away * Math.sin(angle)).toFixed(1)} ${(y - away * Math.cos(angle)).toFixed(1)}`;
  const arc = (from, to, away) => arrow(`M${point(from, away)}A${away} ${away} 0 ${Math.abs(to - from) > Math.PI ? 1 : 0} ${to > from ? 1 : 0} ${point(to, away)}`);
  // How far from a place an arrow begins, as an angle, so that it keeps clear of the place's border.
  const gap = (away) => Math.acos((away ** 2 + radius ** 2 - 18 ** 2) / (2 * away * radius));
  places.forEach((place, at) => {
    const outer = radius + 5, inner = radius - 5, [from, to] = [turn * at, turn * (at + 1)];
    parts.push(arc(from + gap(outer), to - gap(outer), outer), arc(to - gap(inner), from + gap(inner), inner));
    const [left, top] = point(from, radius).split(" ").map(Number);
    parts.push(`<circle cx="${left}" cy="${top}" r="15" class="box on"/>`);
    if (heads.has(place)) parts.push(`<circle cx="${left}" cy="${top}" r="12" class="box"/>`);
    parts.push(text(left, top + 4, place));
  });
  return parts;
}

// The tree, each member by its key, in its color.
function drawTree(tree) {
  const at = new Map(), parts = [];
  let column = 0, deepest = 0;
  const visit = (place, depth) => {
    if (place === null || depth > 8) return;
    visit(tree.left(place), depth + 1);
    at.set(place, [22 + 37 * column++, 20 + 40 * depth]);
    deepest = Math.max(deepest, depth);
    visit(tree.right(place), depth + 1);
  };
  visit(tree.root, 0);
  for (const [place, [x, y]] of at) {
    const above = at.get(tree.parent(place));
    if (above) parts.unshift(`<path d="M${above[0]} ${above[1]}L${x} ${y}" class="edge"/>`);
    parts.push(`<circle cx="${x}" cy="${y}" r="14" class="${tree.isBlack(place) ? "black" : "red"}"/>`, text(x, y + 4, tree.keys.word(place)));
  }
  if (!at.size) parts.push(text(60, 34, "no members"));
  return svg(612, 44 + 40 * Math.max(deepest, 3), parts, "members");
}

// The rings of a table, and the places that were made heads. What ic.h makes of one call of the module is made so here.
class DrawnRings {
  constructor(links) {
    [this.links, this.heads] = [links, new Set()];
  }
  edit(name, ...places) {
    const { library, parts } = this.links;
    library.done(library.calls[`ic_ring_${name}`](...parts, ...places.map((it) => it ?? NONE)));
  }
  init(head) {
    this.edit("init", head);
    this.heads.add(head);
  }
  remove(place) {
    this.edit("remove", place);
    this.heads.delete(place);
  }
  // A place beside a head: behind it by word 0, in front of it by word 1.
  beside(head, word) {
    return this.links.isLinked(head) ? this.links.place(head, word) : null;
  }
  pop(head, word) {
    const member = this.beside(head, word);
    if (member !== null && member === head) return null;
    // Without a member the head is at fault, and the call says how.
    this.remove(member ?? head);
    return member;
  }
  // The places of each circle, from its first head on.
  *circles() {
    const seen = new Set();
    for (const first of [...[...this.heads].sort((one, other) => one - other), ...Array(this.links.length).keys()]) {
      const circle = [];
      for (let at = first; at !== null && this.links.isLinked(at) && !seen.has(at); at = this.beside(at, 0)) {
        seen.add(at);
        circle.push(at);
      }
      if (circle.length) yield circle;
    }
  }
}

// Gives a place its key before it is linked. A member keeps its key.
function setKey(links, keys, place, key) {
  if (key !== null && place !== null && place < PLACES && !links.isLinked(place)) keys.words[place] = BigInt(key);
}

// Why a call is refused, in words.
function reason(status, names, numbers, links) {
  if (Object.hasOwn(REASONS, status)) return REASONS[status];
  const [fault, isFaulty] = FAULTS[status], at = names.findIndex((name, it) => isFaulty(name, numbers[it], links));
  return `${at < 0 ? "a place" : `place ${numbers[at]}`} ${fault}`;
}

// Runs one line, and returns what the log has of it. The key of a call is its name with those of its numbers.
function run(calls, links, line) {
  const [name, ...words] = line.trim().split(/\s+/);
  const key = Object.keys(calls).find((it) => it.split(" ")[0] === name);
  if (!key) return [`is not a call. The calls are: ${Object.keys(calls).join("; ")}.`, "refused"];
  const names = key.split(" ").slice(1), numbers = words.map((it) => (it === "-" ? null : Number(it)));
  if (numbers.length !== names.length || numbers.some((it) => it !== null && !(Number.isInteger(it) && it >= 0 && it < NONE))) {
    return [names.length ? `needs a number for ${names.join(" and for ")}` : "needs no number", "refused"];
  }
  try {
    const member = calls[key](...numbers);
    return [member === undefined ? "done" : member === null ? "there is none" : `returns place ${member}`, "done"];
  } catch (error) {
    if (!(error instanceof Refused)) throw error;
    return [`is refused (${error.message}): ${reason(error.message, names, numbers, links)}. Nothing has changed.`, "refused"];
  }
}

// A section of the page. Returns what types lines into its field.
function panel(name, title, links, calls, hints, draw, note = "") {
  const section = document.createElement("section");
  section.id = name;
  section.innerHTML = `<h2>${title}</h2>${note}<form><input spellcheck="false" aria-label="a call"><button>Call</button></form><div class="hints"></div><div class="drawn"></div><div class="log" aria-live="polite"></div>`;
  document.querySelector("#panels").append(section);
  document.querySelector("#jump").insertAdjacentHTML("beforeend", `<li><a href="#${name}">${title.split(",")[0]}</a></li>`);
  const [form, input, log, drawn] = ["form", "input", ".log", ".drawn"].map((it) => section.querySelector(it));
  const play = (line) => {
    if (!line.trim()) return;
    const [words, kind] = run(calls, links, line), row = document.createElement("div");
    row.className = kind;
    row.textContent = `${line.trim()}: ${words}`;
    log.append(row);
    log.scrollTop = log.scrollHeight;
    drawn.innerHTML = draw();
  };
  form.onsubmit = (event) => {
    event.preventDefault();
    input.value.split(";").forEach(play);
    if (event.submitter) input.select();
  };
  for (const hint of hints) {
    const button = document.createElement("button");
    button.textContent = hint;
    button.onclick = () => hint.split(";").forEach(play);
    section.querySelector(".hints").append(button);
  }
  drawn.innerHTML = draw();
  return (lines) => {
    input.value = lines;
    form.requestSubmit();
  };
}

const links = ic.links2(PLACES), list = new List(links);
const ones = ic.links1(PLACES), xor = new XorList(ones);
const nexts = ic.links1(PLACES), stack = new Stack(nexts);
const pairs = ic.links2(PLACES), rings = new DrawnRings(pairs);
const chains = ic.links1(PLACES), hash = new HashTable(chains, BUCKETS, ic.keys(PLACES));
const nodes = ic.links3(PLACES), keys = ic.keys(PLACES), tree = new Tree(nodes, keys);
const numbered = ["place", (it) => it];

const plays = {
  list: panel("list", "A doubly linked list, with two words a place", links, {
    "push_front place": (place) => list.pushFront(place),
    "push_back place": (place) => list.pushBack(place),
    pop_front: () => list.popFront(),
    pop_back: () => list.popBack(),
    "insert_after at place": (at, place) => list.insertAfter(at, place),
    "insert_before at place": (at, place) => list.insertBefore(at, place),
    "remove at": (at) => list.remove(at),
    "replace at place": (at, place) => list.replace(at, place),
    "move_to_front at": (at) => list.moveToFront(at),
    "move_to_back at": (at) => list.moveToBack(at),
    "fill first count": (first, count) => list.fill(first, count),
    clear: () => list.clear(),
  }, ["push_back 7", "push_front 3", "insert_after 3 5", "insert_before - 9", "move_to_front 9", "remove 5", "pop_front", "push_back 7", "push_back 99", "clear"],
  () => drawList(list, true) + drawTable(links, [numbered, ["next", (it) => shown(links.place(it, 0))], ["prev", (it) => shown(links.place(it, 1))]])),
  xor: panel("xor", "An XOR list, with one word a place", ones, {
    "push_front place": (place) => xor.pushFront(place),
    "push_back place": (place) => xor.pushBack(place),
    pop_front: () => xor.popFront(),
    pop_back: () => xor.popBack(),
    "insert_between before place behind": (before, place, behind) => xor.insertBetween(before, place, behind),
    "remove before at": (before, at) => xor.remove(before, at),
    "replace before at place": (before, at, place) => xor.replace(before, at, place),
    reverse: () => xor.reverse(),
    clear: () => xor.clear(),
  }, ["push_back 1; push_back 4; push_back 6", "insert_between 1 2 4", "reverse", "remove 6 4", "insert_between 6 9 1", "pop_back", "clear"],
  () => drawList(xor, true) + drawTable(ones, [numbered, ["word", (it) => ones.word(it) >> 3n]])),
  stack: panel("stack", "A singly linked list, with one word a place", nexts, {
    "push_front place": (place) => stack.pushFront(place),
    pop_front: () => stack.popFront(),
    "insert_after at place": (at, place) => stack.insertAfter(at, place),
    "remove_after at": (at) => stack.removeAfter(at),
    "replace_after at place": (at, place) => stack.replaceAfter(at, place),
    "fill first count": (first, count) => stack.fill(first, count),
    clear: () => stack.clear(),
  }, ["fill 0 16", "pop_front", "push_front 0", "remove_after 3", "remove_after 15", "clear"],
  () => drawList(stack, false) + drawTable(nexts, [numbered, ["next", (it) => shown(nexts.place(it, 0))]])),
  ring: panel("ring", "Rings, with two words a place", pairs, {
    "init place": (place) => rings.init(place),
    "insert_after at place": (at, place) => rings.edit("insert_after", at, place),
    "insert_before at place": (at, place) => rings.edit("insert_before", at, place),
    "push_front head place": (head, place) => rings.edit("insert_after", head, place),
    "push_back head place": (head, place) => rings.edit("insert_before", head, place),
    "pop_front head": (head) => rings.pop(head, 0),
    "pop_back head": (head) => rings.pop(head, 1),
    "remove at": (at) => rings.remove(at),
    "exchange one other": (one, other) => rings.edit("exchange", one, other),
  }, ["init 14; init 15", "push_back 14 3; push_back 14 5; push_back 14 7", "push_back 15 9", "insert_after 5 1", "remove 5; insert_after 9 5", "exchange 7 15", "pop_front 14", "remove 15", "push_back 14 9", "insert_after 0 2"],
  () => drawRings(rings) + drawTable(pairs, [numbered, ["next", (it) => shown(pairs.place(it, 0))], ["prev", (it) => shown(pairs.place(it, 1))]], rings.heads),
  `<p>A ring has its head among the places of the table. <code>init</code> makes a place a head, which has a double border here. The calls name places, and
  no ring: <code>remove</code> takes a place out of whichever ring it is in. <code>exchange</code> makes one ring of two, and two of one. <code>push_front</code>,
  <code>push_back</code>, <code>pop_front</code> and <code>pop_back</code> are each made of one of the other calls, as in <code>ic.h</code>.</p>`),
  hash: panel("hash", "A hash table by keys, with one word a place and one a bucket", chains, {
    "insert place key": (place, key) => {
      setKey(chains, hash.keys, place, key);
      hash.insert(key ?? 0, place);
    },
    "remove at": (at) => hash.remove(at < PLACES ? hash.keys.word(at ?? 0) : 0, at),
    "find key": (key) => hash.find(key ?? 0, key ?? 0),
    "next_equal at": (at) => hash.nextEqual(at),
  }, ["insert 0 12; insert 1 7; insert 2 23", "insert 3 4", "insert 4 7", "find 7", "next_equal 4", "next_equal 1", "insert 5 15; insert 6 8", "remove 2", "find 23", "insert 0 5", "remove 9"],
  () => drawHashTable(hash) + drawTable(chains, [numbered, ["key", (it) => hash.keys.word(it)], ["next", (it) => shown(chains.place(it, 0))]]),
  `<p>Each bucket, on the left, leads to its chain of members, which are drawn by their keys. A program hands each call the hash of the key. Here
  the hash of a key is the key, and its bucket is the remainder of the key divided by ${BUCKETS}.</p>`),
  tree: panel("tree", "A red-black tree by keys, with three words a place", nodes, {
    "insert place key": (place, key) => {
      setKey(nodes, keys, place, key);
      tree.insert(place);
    },
    "remove at": (at) => tree.remove(at),
    "find key": (key) => tree.find(key),
    "lower_bound key": (key) => tree.lowerBound(key),
    "upper_bound key": (key) => tree.upperBound(key),
    "next at": (at) => tree.next(at),
    "prev at": (at) => tree.prev(at),
    clear: () => tree.clear(),
  }, ["insert 0 50", "insert 1 20", "insert 2 80", "insert 3 10; insert 4 30; insert 5 60; insert 6 90", "remove 1", "find 60", "lower_bound 55", "next -", "find 1", "clear"],
  () => drawTree(tree) + drawTable(nodes, [numbered, ["key", (it) => keys.word(it)], ["left", (it) => shown(nodes.place(it, 0))], ["right", (it) => shown(nodes.place(it, 1))],
    ["parent", (it) => shown(nodes.place(it, 2))], ["color", (it) => (!nodes.isLinked(it) ? "" : tree.isBlack(it) ? "B" : "R")]])),
};

// An address plays calls: play.html#list=push_back 1;push_back 2&tree=insert 0 50
for (const [name, lines] of new URLSearchParams(location.hash.slice(1))) {
  if (!Object.hasOwn(plays, name)) continue;
  if (lines) plays[name](lines);
  else document.getElementById(name).scrollIntoView();
}
document.body.dataset.ready = "yes";
