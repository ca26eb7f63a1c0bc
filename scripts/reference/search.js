"use strict";
// The search of the reference. An entry is [name, kind, library, link, first sentence, text]. A page's address may preset it: ?q=words.
const up = document.currentScript.dataset.up;
const field = document.getElementById("search");
const list = document.getElementById("found");
const entries = (window.ENTRIES || []).map((it) => ({
  name: it[0], kind: it[1], library: it[2], link: it[3], sentence: it[4],
  low: it[0].toLowerCase(),
  last: it[0].split("::").pop().toLowerCase(),
  // The words of `RwLockReadGuard::source` are rw, lock, read, guard and source.
  parts: words(it[0].replace(/([a-z])(?=[A-Z])|_/g, "$1 ")),
  head: words(`${it[2]} ${it[4]}`),
  text: words(it[5]),
}));
// A call has the words of its type's first sentence, too: `wait_timeout` of a Lock is found by `mutex`, of which it says nothing.
const types = new Map(entries.filter((it) => !it.link.includes("#")).map((it) => [it.link, it]));
for (const it of entries) {
  const type = types.get(it.link.split("#")[0]);
  if (type && type !== it && it.kind !== "definition") it.text = it.text.concat(type.head);
}
// Words that users bring, and those of names and texts here.
const ALSO = {
  several: "many", many: "count", number: "count many total", length: "len", size: "len", limit: "timeout deadline", time: "timeout",
  own: "arc", owned: "arc", shared: "arc", keep: "arc", keeps: "arc", await: "future", async: "future", fence: "relaxed",
  condvar: "monitor", free: "available", remove: "discard", cancel: "discard", replace: "force", drop: "forget",
  second: "timeout", seconds: "timeout", become: "upgrade", becomes: "upgrade", upgradable: "upgrade", exactly: "additional",
  lazy: "once", initialize: "init", backpressure: "send", pressure: "send", disconnected: "closed", either: "select whichever",
  race: "select whichever", merge: "select whichever", select: "whichever", monitor: "condition", concurrency: "permits",
};
// Words that say nothing of a call, unless nothing else is looked for.
const SKIPPED = new Set(
  "a an and are at be by can do does for from get how i if in is it its of on one or that the then to want what which who with without".split(" "),
);
// What a kind counts for: whoever looks for a call wants few variants, and fewer definitions; and the name of a recipe is a sentence,
// of which each word counts as a name. What a module has stands behind types, and of a trait the trait itself tells more than what
// implements it, whose kind is `call of` it.
const KINDS = { constant: 0.7, law: 0.7, variant: 0.7, field: 0.7, recipe: 0.8, definition: 0.45 };
let chosen = 0;

function words(text) {
  return text.toLowerCase().split(/[^\w\u0080-\uffff]+/).filter(Boolean);
}

// A word without its ending, so that `waits`, `waited` and `waiting` find one another.
function stem(word) {
  const short = word.length > 4 ? word.replace(/(ies|ied|ers?|ing|ed|es|s)$/, "") : word;
  return short.length < 3 ? word : short;
}

// How well a word fits an entry: its name counts most, then its first sentence, then its text.
function fit(entry, word) {
  const root = stem(word);
  const begins = (it) => it.startsWith(root);
  if (entry.low === word || entry.last === word) return 12;
  if (entry.parts.includes(word)) return 8;
  if (entry.parts.some(begins)) return 6;
  if (entry.low.includes(word) && word.length > 2) return 5;
  if (entry.head.some(begins)) return 3;
  return entry.text.some(begins) ? 1 : 0;
}

// The entries that fit, best first. A word that few entries have counts more than one that many have, and an earlier library somewhat
// more than a later one.
function found(query) {
  const scores = new Map();
  const all = words(query);
  const wanted = all.filter((it) => !SKIPPED.has(it));
  for (const word of wanted.length ? wanted : all) {
    const others = ALSO[word] ? ALSO[word].split(" ") : [];
    const fits = entries.map((entry) => Math.max(fit(entry, word), ...others.map((it) => 0.9 * fit(entry, it))));
    const many = fits.filter(Boolean).length;
    const weight = Math.log(1.05 * entries.length / (many || 1));
    entries.forEach((entry, at) => fits[at] && scores.set(entry, (scores.get(entry) || 0) + weight * Math.sqrt(fits[at]) + weight / 2));
  }
  const early = new Map(entries.map((it, at) => [it, 1 - at / entries.length / 8]));
  const behind = (it) => (it.library.includes("::") || it.kind.includes(" ") ? 0.75 : 1);
  const score = (it) => scores.get(it) * early.get(it) * (KINDS[it.kind] || 1) * behind(it) - it.low.length / 100;
  return [...scores.keys()].sort((a, b) => score(b) - score(a)).slice(0, 30);
}

function part(tag, text) {
  const it = document.createElement(tag);
  it.textContent = text;
  return it;
}

function show() {
  chosen = 0;
  list.replaceChildren(...found(field.value).map((entry) => {
    const item = document.createElement("li");
    const link = document.createElement("a");
    link.href = up + entry.link;
    link.append(part("b", entry.name), part("span", `${entry.kind}, ${entry.library}`), part("span", entry.sentence));
    item.append(link);
    return item;
  }));
  list.hidden = field.value.trim() === "";
  if (!list.hidden && !list.children.length) list.append(part("li", "Nothing is found."));
  choose(0);
}

function choose(at) {
  const items = [...list.querySelectorAll("li")];
  if (!items.length) return;
  chosen = (at + items.length) % items.length;
  items.forEach((it, index) => it.classList.toggle("chosen", index === chosen));
  if (at) items[chosen].scrollIntoView({ block: "nearest" });
}

function close() {
  list.hidden = true;
  field.blur();
}

field.addEventListener("input", show);
field.addEventListener("focus", () => field.value.trim() && show());
document.addEventListener("click", (event) => {
  if (event.target !== field) list.hidden = true;
});
document.addEventListener("keydown", (event) => {
  const inside = document.activeElement === field;
  if (event.key === "/" && !inside && !event.ctrlKey && !event.metaKey && !event.altKey) {
    field.focus();
    field.select();
  } else if (inside && event.key === "Enter") {
    const link = list.querySelector(".chosen a");
    if (link) {
      close();
      location.href = link.href;
    }
  } else if (inside && event.key === "ArrowDown") choose(chosen + 1);
  else if (inside && event.key === "ArrowUp") choose(chosen - 1);
  else if (inside && event.key === "Escape") close();
  else return;
  event.preventDefault();
});

// An address that leads to something folded opens it.
function unfold() {
  const target = document.getElementById(decodeURIComponent(location.hash.slice(1)));
  if (target && target.tagName === "DETAILS") target.open = true;
}

window.addEventListener("hashchange", unfold);
unfold();
const preset = new URLSearchParams(location.search).get("q");
if (preset) {
  field.value = preset;
  show();
}
