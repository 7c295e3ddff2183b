// Which rows and lanes are shown, where, and how large.
import { byId } from "./elements.js";
import { count, counted, data, labels, lanes, moments, number, rows } from "./trace.js";
import { causes, chosen, effects } from "./choice.js";
import { redraw, sight } from "./drawing.js";
import { find } from "./search.js";

export const LIST = 330, ABOVE = 10;
// How wide a lane is at first, and from where on names and terms are written beside each other.
export const WIDEST = 220, NARROWEST = 24, UPRIGHT = 70;
// Browsers take elements up to some 17 million pixels high; a longer trace is scrolled in larger steps.
const TALLEST = 15e6;

export let rowHeight = 22, laneWidth = 150, step = 1, isZoomed = false;
export let order = lanes.map((_, lane) => lane);
export const hiddenLanes = new Set();
export const hiddenLabels = new Set(data.only === null ? [] : labels.keys());
if (data.only !== null) hiddenLabels.delete(data.only);
export let chainOnly = false, byTime = false;
export let shown = new Int32Array(0);
// How many rows' heights each row is below the first one: in the order by time pauses take room.
export let position = new Float64Array(0);
export const place = new Int32Array(count), column = new Int32Array(lanes.length);
let arrows = [];

export function layOut() {
  const inChain = row => !chainOnly || chosen < 0 || row === chosen || causes.has(row) || effects.has(row);
  const used = labelledLanes();
  const columns = order.filter(lane => !hiddenLanes.has(lane) && used.has(lane)
                                       && (!chainOnly || chosen < 0 || chainLanes().has(lane)));
  column.fill(-1);
  columns.forEach((lane, at) => { column[lane] = at; });
  const kept = [];
  place.fill(-1);
  for (let row = 0; row < count; row++)
    if (column[rows.lane[row]] >= 0 && !hiddenLabels.has(rows.label[row]) && inChain(row)) {
      kept.push(row);
    }
  if (byTime) kept.sort((a, b) => moments[a] - moments[b] || a - b);
  kept.forEach((row, at) => { place[row] = at; });
  shown = Int32Array.from(kept);
  position = positions();
  sortArrows();
  layOutSpace(columns.length);
  byId("list").setAttribute("aria-rowcount", shown.length);
  byId("corner").textContent = number(shown.length) + " of " + counted(count, "row") + ", "
    + number(columns.length) + " of " + counted(lanes.length, "process", "processes");
  find(byId("search").value, false);
  redraw();
}

// A pause takes as much room as its part of the time is of the rows, up to so many rows.
const LONGEST_PAUSE = 8;

function positions() {
  const made = new Float64Array(shown.length), last = shown.length - 1;
  const whole = last > 0 ? moments[shown[last]] - moments[shown[0]] : 0;
  for (let at = 1; at <= last; at++) {
    const share = byTime && whole > 0 ? (moments[shown[at]] - moments[shown[at - 1]]) / whole * last : 0;
    made[at] = made[at - 1] + 1 + Math.min(LONGEST_PAUSE, share);
  }
  return made;
}

// The last row that begins above so many rows' heights.
export function rowAbove(height) {
  let low = 0, high = shown.length;
  while (low < high) {
    const middle = (low + high) >> 1;
    if (position[middle] <= height) low = middle + 1; else high = middle;
  }
  return low - 1;
}

// The lanes that messages or prints with the labels of the filter touch.
function labelledLanes() {
  const used = new Set();
  for (let row = 0; row < count; row++)
    if (!hiddenLabels.has(rows.label[row])) used.add(rows.lane[row]).add(rows.other[row]);
  return used;
}

// The lanes on which the chain of the chosen event has rows.
let chainOf = -1, lanesOfChain = new Set();
function chainLanes() {
  if (chainOf !== chosen) {
    chainOf = chosen;
    lanesOfChain = new Set([chosen, ...causes, ...effects].map(row => rows.lane[row]));
  }
  return lanesOfChain;
}

function layOutSpace(columns) {
  const last = shown.length > 0 ? position[shown.length - 1] + 1 : 0;
  const height = Math.max(1, last * rowHeight + ABOVE + 40);
  step = Math.min(1, TALLEST / height);
  byId("space").style.height = height * step + top() + "px";
  byId("space").style.width = listWidth() + Math.max(1, columns) * laneWidth + 60 + "px";
}

export const top = () => laneWidth < UPRIGHT ? 110 : 30;
export const listWidth = () => Math.min(LIST, Math.round(byId("view").clientWidth * 0.4));

// A message's arrow by the places of its ends, in classes by length (each twice the one before), each
// sorted by its begin: those that cross what is in sight begin within twice their length of it.
function sortArrows() {
  arrows = [];
  for (let row = 0; row < count; row++) {
    if (rows.how[row] !== "s" || place[row] < 0) continue;
    const send = rows.cause[row];
    if (send < 0 || place[send] < 0) continue;
    const length = Math.max(1, endOf(row) - beginOf(row));
    const size = 31 - Math.clz32(length);
    (arrows[size] ||= []).push(row);
  }
  for (const size of arrows) if (size) size.sort((a, b) => beginOf(a) - beginOf(b));
}

// The upper and the lower end of an arrow. By the clocks of two nodes a message may come before it was sent.
export const beginOf = row => Math.min(place[rows.cause[row]], place[row]);
const endOf = row => Math.max(place[rows.cause[row]], place[row]);

export function arrowsWithin(first, last) {
  const found = [];
  arrows.forEach((size, power) => {
    const from = first - 2 ** (power + 1);
    let low = 0, high = size.length;
    while (low < high) {
      const middle = (low + high) >> 1;
      if (beginOf(size[middle]) < from) low = middle + 1; else high = middle;
    }
    for (; low < size.length && beginOf(size[low]) <= last; low++)
      if (endOf(size[low]) >= first) found.push(size[low]);
  });
  return found;
}

export function move(lane, by) {
  const visibleLanes = order.filter(one => column[one] >= 0), other = visibleLanes[visibleLanes.indexOf(lane) + by];
  if (other === undefined) return;
  order = order.filter(one => one !== lane);
  order.splice(order.indexOf(other) + (by > 0 ? 1 : 0), 0, lane);
  layOut();
}

// Lanes in the order of their first events that are shown, so that arrows go mostly to the right.
export function orderByFirst() {
  const first = new Map();
  for (const row of shown) for (const lane of [rows.lane[row], rows.other[row]])
    if (lane >= 0 && !first.has(lane)) first.set(lane, first.size);
  const rank = lane => first.has(lane) ? first.get(lane) : lanes.length + lane;
  order = [...order].sort((a, b) => rank(a) - rank(b));
  layOut();
}

export const shareOf = count => Math.floor((byId("view").clientWidth - listWidth() - 60) / Math.max(1, count));

// At first the lanes fill the window. If they are too many for that, those of the first events come first.
export function fitLanes() {
  const used = labelledLanes(), share = shareOf(lanes.filter((_, lane) => used.has(lane)).length);
  laneWidth = Math.max(NARROWEST, Math.min(WIDEST, share));
  layOut();
  if (share < NARROWEST) orderByFirst();
}

// They go on filling what the panel leaves of it, until somebody zooms. The names don't turn for the panel, since all
// rows would move then.
export function refitLanes(mayTurn) {
  const count = order.filter(lane => column[lane] >= 0).length, isNarrow = laneWidth < UPRIGHT;
  const least = isNarrow || mayTurn ? NARROWEST : UPRIGHT, most = isNarrow && !mayTurn ? UPRIGHT - 1 : WIDEST;
  if (!isZoomed) laneWidth = Math.max(least, Math.min(most, shareOf(count)));
  layOutSpace(count);
}

export function zoom(by) {
  const view = byId("view"), [middle] = sight();
  isZoomed = true;
  laneWidth = Math.max(16, Math.min(400, laneWidth * by));
  rowHeight = Math.max(4, Math.min(40, rowHeight * by));
  layOutSpace(order.filter(lane => column[lane] >= 0).length);
  view.scrollTop = (position[middle] ?? 0) * rowHeight * step;
  redraw();
}

// The order by time, or that by cause, with the same event in sight.
export function turnOrder() {
  byTime = !byTime;
  byId("by-time").setAttribute("aria-pressed", String(byTime));
  layOut();
}

// The chain of the chosen event alone, or all. Its lanes are side by side, and fill the window.
export function turnChain() {
  chainOnly = !chainOnly;
  byId("chain").setAttribute("aria-pressed", String(chainOnly));
  layOut();
  refitLanes(true);
}
