// The elements of the rows in sight: the names of lanes and a row for each event.
import { byId, element } from "./elements.js";
import {
  VERBS, brief, causeText, eventName, isPlain, labels, laneName, lanes, rows, seconds, sentence, visible
} from "./trace.js";
import { UPRIGHT, column, laneWidth, listWidth, place, rowHeight, shown, top } from "./layout.js";
import { causes, chosen, effects } from "./choice.js";
import { x, y } from "./drawing.js";
import { matched } from "./search.js";

export function drawNames(inSight) {
  const names = byId("names");
  names.style.left = listWidth() + "px";
  names.style.right = "0";
  names.style.height = top() + "px";
  byId("corner").style.width = listWidth() + "px";
  byId("corner").style.height = top() + "px";
  const focused = document.activeElement?.dataset?.lane;
  names.replaceChildren(...inSight.map(lane => {
    const name = element("button", { type: "button", class: laneWidth < UPRIGHT ? "name narrow" : "name",
      "data-lane": lane, title: laneName(lane) + "\n" + visible(lanes[lane].pid) + "\n" + visible(lanes[lane].about),
      "aria-label": laneName(lane) + ", lane " + (column[lane] + 1) + "; Delete hides it, Alt with an arrow moves it" }, laneName(lane));
    name.style.left = x(lane) - listWidth() - laneWidth / 2 + 2 + "px";
    name.style.width = Math.max(10, laneWidth - 4) + "px";
    return name;
  }));
  if (focused !== undefined) names.querySelector(`[data-lane="${focused}"]`)?.focus({ preventScroll: true });
}

export function drawList(first, last) {
  const list = byId("list"), hadFocus = list.contains(document.activeElement);
  list.style.top = top() + "px";
  list.style.width = listWidth() + "px";
  list.style.bottom = "0";
  const every = rowHeight >= 11 ? 1 : Math.ceil(11 / rowHeight);
  const elements = [];
  for (let at = first; at <= last; at++)
    if (at % every === 0 || shown[at] === chosen) elements.push(listRow(shown[at], at, every));
  if (elements.length > 0 && (chosen < 0 || place[chosen] < first || place[chosen] > last))
    elements[0].tabIndex = 0;
  list.replaceChildren(...elements);
  if (hadFocus) list.querySelector("[tabindex='0']")?.focus({ preventScroll: true });
}

function listRow(row, at, every) {
  const sign = row === chosen ? "\u25cf" : causes.has(row) ? "\u2191" : effects.has(row) ? "\u2193" : "";
  const words = ["row", at % 2 ? "odd" : "", row === chosen ? "chosen" : causes.has(row) ? "cause" : effects.has(row) ? "effect" : "",
                 isPlain(row) ? "" : "unreported", matched.has(row) ? "match" : ""];
  const time = rows.time === null || rows.time[row] === null ? "" : seconds(rows.time[row]);
  const made = element("div", { class: words.join(" "), role: "row", "aria-rowindex": at + 1, "data-row": row,
    tabindex: row === chosen ? 0 : -1, "aria-selected": row === chosen ? "true" : "false",
    "aria-label": [eventName(row), sentence(row), causeText(row), "label " + visible(labels[rows.label[row]]), time,
                   causes.has(row) ? "a cause of the chosen event" : "",
                   effects.has(row) ? "an effect of the chosen event" : ""].filter(Boolean).join("; ") },
    element("span", { class: "sign", role: "gridcell" }, sign),
    element("span", { class: "event", role: "gridcell" }, eventName(row)),
    element("span", { class: "time", role: "gridcell" }, time),
    element("span", { class: "term", role: "gridcell" }, VERBS[rows.kind[row]] + " " + brief(row)));
  made.style.top = y(at) - rowHeight / 2 - top() + "px";
  made.style.height = rowHeight * every + "px";
  return made;
}
