// The panel, which tells all of the chosen event.
import { byId, element } from "./elements.js";
import {
  causeText, clock, data, effectsOf, eventName, labels, laneName, lanes, message, number, rows, seconds, sentence,
  terms, visible
} from "./trace.js";
import { refitLanes } from "./layout.js";
import { causes, choose, chosen, effects } from "./choice.js";

// A message is put into the panel in pieces, of which a browser lays out those in sight, and so many in a frame.
const PIECE = 16384, PIECES = 4;

const link = (row, text) => element("button", { type: "button", class: "link", onclick: () => choose(row) }, text);

export function showPanel() {
  const panel = byId("panel"), wasHidden = panel.hidden;
  panel.hidden = chosen < 0;
  if (panel.hidden !== wasHidden) refitLanes(false);
  if (chosen < 0) return;
  const row = chosen, before = rows.cause[row], facts = [];
  const fact = (term, ...value) => facts.push(element("dt", {}, term), element("dd", {}, ...value));
  fact("What", sentence(row));
  fact("Why", causeText(row), before >= 0 ? element("br", {}) : "", before >= 0 ? link(before, eventName(before) + ": " + sentence(before)) : "");
  fact("Label", visible(labels[rows.label[row]]));
  fact("Serial", "{" + rows.serial[row] + "}");
  if (rows.time !== null && rows.time[row] !== null) {
    fact("Time", seconds(rows.time[row]));
    if (data.begin !== null) fact("Clock", clock(rows.time[row]));
    if (before >= 0 && rows.time[before] !== null)
      fact(rows.how[row] === "s" ? "Since its send" : "Since its cause", seconds(rows.time[row] - rows.time[before]));
  }
  fact("Process", laneName(rows.lane[row]) + ", " + visible(lanes[rows.lane[row]].about));
  const after = effectsOf(row);
  panel.replaceChildren(
    element("h2", {}, eventName(row)), element("dl", {}, ...facts),
    element("h2", { id: "length" }, lengthText(row)),
    element("button", { type: "button", id: "copy", onclick: () => copyText(visible(message(row))) }, "Copy the message"),
    messageElement(row),
    element("h2", {}, "Causes: " + number(causes.size) + ", effects: " + number(effects.size)),
    element("ul", {}, ...after.slice(0, 50).map(one => element("li", {}, link(one, eventName(one) + ": " + sentence(one)))),
            ...(after.length > 50 ? [element("li", {}, "and " + (after.length - 50) + " more")] : [])),
    element("button", { type: "button", onclick: () => choose(-1) }, "Close"));
}

function lengthText(row) {
  const length = rows.term[row] < 0 ? 0 : terms[rows.term[row]][2] ?? 0;
  return length === 0 ? "Message" : `Message, the first ${number(data.most)} characters of ${number(length)}`;
}

function messageElement(row) {
  const text = message(row), made = element("pre", { tabindex: "0", id: "message" });
  const fill = from => {
    let to = from;
    for (let piece = 0; piece < PIECES && to < text.length; piece++) {
      const begin = to;
      to = Math.min(text.length, begin + PIECE);
      if (/[\ud800-\udbff]/.test(text[to - 1])) to++;
      made.append(element("div", {}, visible(text.slice(begin, to))));
    }
    if (to < text.length) requestAnimationFrame(() => { if (made.isConnected) fill(to); });
  };
  fill(0);
  return made;
}

// The browser asks what to copy. The newer way to copy needs a permission, which a page of a file may not get.
function copyText(text) {
  const answer = event => { event.clipboardData.setData("text/plain", text); event.preventDefault(); };
  document.addEventListener("copy", answer);
  byId("live").textContent = document.execCommand("copy") ? "the message is copied" : "this browser copies nothing";
  document.removeEventListener("copy", answer);
}
