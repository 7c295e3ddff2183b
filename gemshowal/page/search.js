// Searching in names and terms.
import { byId } from "./elements.js";
import { eventName, number, rows, terms, visible } from "./trace.js";
import { shown } from "./layout.js";
import { choose, chosen } from "./choice.js";
import { redraw } from "./drawing.js";

export let matches = [], matched = new Set();

// The texts in which a term is searched, made when it is searched first.
const searched = [];
const textsOf = term => searched[term] ??=
  terms[term].filter(text => typeof text === "string").map(text => visible(text).toLowerCase());

export function find(words, jump = true) {
  const wanted = words.trim().toLowerCase();
  matches = [];
  if (wanted !== "") {
    const inTerm = terms.map((_, term) => textsOf(term).some(text => text.includes(wanted)));
    for (const row of shown)
      if (rows.term[row] >= 0 && inTerm[rows.term[row]] || eventName(row).toLowerCase().includes(wanted)) matches.push(row);
  }
  matched = new Set(matches);
  byId("found").textContent = wanted === "" ? "" : number(matches.length) + " found";
  if (jump && matches.length > 0) goToMatch(1);
  redraw();
}

export function goToMatch(by) {
  if (matches.length === 0) return;
  const after = matches.findIndex(row => row > chosen), exact = matches.indexOf(chosen);
  const at = exact >= 0 ? exact + by : by > 0 ? (after < 0 ? 0 : after) : (after < 0 ? matches.length : after) - 1;
  const next = (at + matches.length) % matches.length;
  choose(matches[next], false);
  byId("found").textContent = number(next + 1) + " of " + number(matches.length);
}
