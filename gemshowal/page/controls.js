// Keys and the mouse.
import { byId } from "./elements.js";
import { effectsOf, rows } from "./trace.js";
import {
  ABOVE, column, hiddenLanes, laneWidth, layOut, move, order, place, position, refitLanes, rowAbove, rowHeight,
  shown, step, top, turnChain, turnOrder, zoom
} from "./layout.js";
import { choose, chosen, reveal } from "./choice.js";
import { redraw, sight } from "./drawing.js";
import { find, goToMatch } from "./search.js";

function onKey(event) {
  if (event.target.matches("input, button, pre") && !event.target.matches(".name")) {
    if (event.key === "Escape") event.target.blur();
    return;
  }
  const lane = event.target.matches(".name") ? Number(event.target.dataset.lane) : -1;
  if (lane >= 0 && event.key === "Delete") { hiddenLanes.add(lane); layOut(); event.preventDefault(); return; }
  if (lane >= 0 && event.altKey && event.key.startsWith("Arrow")) {
    move(lane, event.key === "ArrowLeft" ? -1 : 1); event.preventDefault(); return;
  }
  if (event.ctrlKey || event.metaKey || event.altKey) return;
  const [first, last] = sight(), page = Math.max(1, last - first - 2);
  const at = chosen >= 0 && place[chosen] >= 0 ? place[chosen] : first - 1;
  const to = { ArrowDown: at + 1, ArrowUp: at - 1, PageDown: at + page, PageUp: at - page, Home: 0, End: shown.length - 1 }[event.key];
  if (to !== undefined && shown.length > 0) choose(shown[Math.max(0, Math.min(shown.length - 1, to))]);
  else if (event.key === "c" && chosen >= 0 && rows.cause[chosen] >= 0) choose(rows.cause[chosen]);
  else if (event.key === "e" && chosen >= 0 && effectsOf(chosen).length > 0) choose(effectsOf(chosen)[0]);
  else if (event.key === "Escape") choose(-1);
  else if (event.key === "/") byId("search").focus();
  else if (event.key === "+") zoom(1.25);
  else if (event.key === "-") zoom(0.8);
  else return;
  event.preventDefault();
}

byId("list").addEventListener("click", event => {
  const row = event.target.closest(".row");
  if (row) choose(Number(row.dataset.row));
});
byId("canvas").addEventListener("click", event => {
  const box = byId("canvas").getBoundingClientRect();
  const height = (event.clientY - box.top - top() - ABOVE + byId("view").scrollTop / step) / rowHeight;
  const at = rowAbove(height);
  choose(at >= 0 && height < position[at] + 1 ? shown[at] : -1);
});

// A name is dragged to another place.
let dragged = -1;
byId("names").addEventListener("pointerdown", event => { dragged = Number(event.target.dataset?.lane ?? -1); });
document.addEventListener("pointerup", event => {
  const lane = dragged;
  dragged = -1;
  if (lane < 0) return;
  const over = Math.floor((event.clientX - byId("names").getBoundingClientRect().left + byId("view").scrollLeft) / laneWidth);
  const target = order.filter(one => column[one] >= 0)[Math.max(0, over)];
  if (target !== undefined && target !== lane) move(lane, column[target] - column[lane]);
});

byId("search").addEventListener("input", event => find(event.target.value, false));
byId("search").addEventListener("keydown", event => { if (event.key === "Enter") goToMatch(event.shiftKey ? -1 : 1); });
byId("next").addEventListener("click", () => goToMatch(1));
byId("previous").addEventListener("click", () => goToMatch(-1));
byId("larger").addEventListener("click", () => zoom(1.25));
byId("smaller").addEventListener("click", () => zoom(0.8));
byId("chain").addEventListener("click", () => {
  turnChain();
  if (chosen >= 0) reveal(chosen);
});
byId("by-time").hidden = rows.time === null;
byId("by-time").addEventListener("click", () => {
  turnOrder();
  if (chosen >= 0) reveal(chosen);
});
byId("view").addEventListener("scroll", redraw, { passive: true });
byId("view").addEventListener("wheel", event => {
  if (event.ctrlKey) { event.preventDefault(); zoom(event.deltaY < 0 ? 1.1 : 1 / 1.1); }
}, { passive: false });
document.addEventListener("keydown", onKey);
window.addEventListener("resize", () => { refitLanes(true); redraw(); });
