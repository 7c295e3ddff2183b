// The chosen event, with its causes and effects.
import { byId } from "./elements.js";
import { counted, effectsOf, eventName, rows } from "./trace.js";
import { chainOnly, column, laneWidth, layOut, listWidth, place, position, rowHeight, step, top } from "./layout.js";
import { draw } from "./drawing.js";
import { showPanel } from "./panel.js";

export let chosen = -1;
export const causes = new Set(), effects = new Set();

export function choose(row, focus = true) {
  chosen = row;
  causes.clear();
  effects.clear();
  if (row >= 0) {
    for (let before = rows.cause[row]; before >= 0 && !causes.has(before) && before !== row; before = rows.cause[before])
      causes.add(before);
    const open = [row];
    while (open.length > 0)
      for (const after of effectsOf(open.pop()))
        if (!effects.has(after) && after !== row) { effects.add(after); open.push(after); }
  }
  byId("chain").disabled = row < 0;
  if (chainOnly) layOut();
  // The panel takes a part of the window; what is left has to show the event.
  showPanel();
  if (row >= 0) reveal(row);
  draw();
  if (focus && row >= 0) byId("list").querySelector(`[data-row="${row}"]`)?.focus({ preventScroll: true });
  byId("live").textContent = row < 0 ? "no event is chosen"
    : eventName(row) + ": " + counted(causes.size, "cause") + ", " + counted(effects.size, "effect");
}

export function reveal(row) {
  const view = byId("view"), at = place[row];
  if (at < 0) return;
  const above = position[at] * rowHeight, below = above + rowHeight - (view.clientHeight - top());
  const now = view.scrollTop / step;
  if (above < now || below > now)
    view.scrollTop = step * Math.max(0, above - (view.clientHeight - top()) / 2);
  const left = column[rows.lane[row]] * laneWidth;
  if (left < view.scrollLeft || left + laneWidth > view.scrollLeft + view.clientWidth - listWidth())
    view.scrollLeft = Math.max(0, left - (view.clientWidth - listWidth()) / 2);
}
