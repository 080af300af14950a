// The search of the book: each entry of `entries` is a title, an address, a line of text, and perhaps the words of that part of a page.
"use strict";
const field = document.getElementById("search");
const found = document.getElementById("found");

// How near an entry is to the words: 0 if its title is the first one, then if that begins it or is in it, then if all are in its line, then in its part.
function distance([title, , text, words], asked) {
  const name = title.toLowerCase(), line = name + " " + text.toLowerCase();
  if (asked.every((word) => line.includes(word))) {
    return name === asked[0] ? 0 : name.startsWith(asked[0]) ? 1 : name.includes(asked[0]) ? 2 : 3;
  }
  return words !== undefined && asked.every((word) => line.includes(word) || words.includes(word)) ? 4 : 5;
}

function ranked(asked) {
  const near = entries.map((entry) => [distance(entry, asked), entry]).filter(([far]) => far < 5);
  return near.sort(([a, one], [b, other]) => a - b || one[0].length - other[0].length).slice(0, 40).map(([, entry]) => entry);
}

function show() {
  const asked = field.value.toLowerCase().split(/\s+/).filter(Boolean);
  found.replaceChildren();
  for (const [title, address, text] of asked.length ? ranked(asked) : []) {
    const link = document.createElement("a");
    const line = document.createElement("span");
    link.href = root + address;
    link.textContent = title + " ";
    line.textContent = text;
    link.append(line);
    found.append(link);
  }
}

field.addEventListener("input", show);
field.value = new URLSearchParams(location.search).get("search") ?? "";
show();

// On a narrow screen the list of pages begins folded.
if (matchMedia("(max-width: 48rem)").matches) {
  document.querySelector("nav details").open = false;
}
