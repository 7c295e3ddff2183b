// The drawing: the lanes, the scale of times and the chain of the chosen event, and when it is drawn.
import { byId } from "./elements.js";
import { isPlain, moments, rows, seconds } from "./trace.js";
import {
  ABOVE, byTime, column, laneWidth, listWidth, order, place, position, rowAbove, rowHeight, shown, step, top
} from "./layout.js";
import { causes, chosen, effects } from "./choice.js";
import { drawArrows, drawEnd, drawMark, drawPassing } from "./marks.js";
import { drawList, drawNames } from "./grid.js";

// The parts of a drawing. Each colour has a shape or a dash of its own, too.
const LIGHT = { message: "#333333", cause: "#0072b2", effect: "#d55e00", unreported: "#7a3e9d", dim: "#c8c8c8",
                life: "#b5b5b5", paper: "#ffffff", odd: "#f7f7f7", text: "#111111", faint: "#767676" };
const DARK = { message: "#d0d0d0", cause: "#56b4e9", effect: "#f5955a", unreported: "#c79be8", dim: "#4a4a4a",
               life: "#5c5c5c", paper: "#16181b", odd: "#1c1f23", text: "#e8e8e8", faint: "#8a8a8a" };
const darkness = matchMedia("(prefers-color-scheme: dark)");
export let INK = darkness.matches ? DARK : LIGHT;
darkness.addEventListener("change", () => { INK = darkness.matches ? DARK : LIGHT; redraw(); });

let asked = false;
export function redraw() {
  if (asked) return;
  asked = true;
  requestAnimationFrame(() => { asked = false; draw(); });
}

export const x = lane => listWidth() + column[lane] * laneWidth + laneWidth / 2 - byId("view").scrollLeft;
export const y = at => top() + ABOVE + position[at] * rowHeight + rowHeight / 2 - byId("view").scrollTop / step;

export function sight() {
  const view = byId("view");
  const above = view.scrollTop / step / rowHeight;
  const first = rowAbove(above), last = rowAbove(above + (view.clientHeight - top()) / rowHeight) + 1;
  return [Math.max(0, first), Math.min(shown.length - 1, last)];
}

export function draw() {
  const view = byId("view"), [width, height] = [view.clientWidth, view.clientHeight];
  const stick = byId("stick"), canvas = byId("canvas"), ratio = window.devicePixelRatio || 1;
  stick.style.width = width + "px";
  stick.style.height = height + "px";
  if (canvas.width !== Math.round(width * ratio) || canvas.height !== Math.round(height * ratio)) {
    canvas.width = Math.round(width * ratio);
    canvas.height = Math.round(height * ratio);
    canvas.style.width = width + "px";
    canvas.style.height = height + "px";
  }
  const pen = canvas.getContext("2d");
  pen.setTransform(ratio, 0, 0, ratio, 0, 0);
  pen.clearRect(0, 0, width, height);
  pen.font = "11px 'DejaVu Sans', Verdana, sans-serif";
  pen.direction = "ltr";
  const [first, last] = sight();
  const columns = order.filter(lane => column[lane] >= 0);
  const left = Math.max(0, Math.floor(view.scrollLeft / laneWidth) - 1);
  const right = Math.min(columns.length - 1, Math.ceil((view.scrollLeft + width) / laneWidth));
  const inSight = columns.slice(left, right + 1);
  pen.save();
  pen.beginPath();
  pen.rect(listWidth(), top(), width, height);
  pen.clip();
  drawGround(pen, first, last, inSight, width, height);
  drawChain(pen);
  const passing = drawArrows(pen, first, last);
  for (let at = first; at <= last; at++) drawEnd(pen, shown[at], at);
  for (let at = first; at <= last; at++) drawMark(pen, shown[at], at, width);
  if (byTime) drawScale(pen, first, last, height);
  if (passing > 0) drawPassing(pen, passing, width, height);
  pen.restore();
  drawNames(inSight);
  drawList(first, last);
}

function drawGround(pen, first, last, inSight, width, height) {
  pen.fillStyle = INK.odd;
  for (let at = first; at <= last; at++)
    if (at % 2 === 1) pen.fillRect(listWidth(), y(at) - rowHeight / 2, width, rowHeight);
  pen.strokeStyle = INK.life;
  pen.lineWidth = 1;
  pen.beginPath();
  for (const lane of inSight) { pen.moveTo(x(lane), top()); pen.lineTo(x(lane), height); }
  pen.stroke();
}

// Ticks of the scale are at least so many pixels from each other.
const TICK = 48;

// The scale of times: ticks at round times, each as far between the events before and behind it as its time is.
function drawScale(pen, first, last, height) {
  if (last <= first) return;
  const [from, to] = [moments[shown[first]], moments[shown[last]]];
  const apart = roundUp((to - from) * TICK / height);
  let at = first, above = -Infinity;
  for (let time = Math.ceil(from / apart) * apart; time <= to; time += apart) {
    while (at < last && moments[shown[at + 1]] < time) at++;
    const [before, after] = [moments[shown[at]], moments[shown[Math.min(last, at + 1)]]];
    const part = after > before ? Math.max(0, (time - before) / (after - before)) : 0;
    const tick = y(at) + part * (y(Math.min(last, at + 1)) - y(at));
    if (tick - above < TICK / 2) continue;
    above = tick;
    drawTick(pen, tick, seconds(time));
  }
}

function drawTick(pen, tick, words) {
  pen.lineWidth = 3;
  pen.strokeStyle = INK.paper;
  pen.strokeText(words, listWidth() + 12, tick + 4);
  pen.fillStyle = INK.faint;
  pen.fillText(words, listWidth() + 12, tick + 4);
  pen.fillRect(listWidth(), tick, 9, 1.5);
}

// The least of 1, 2, 5, 10, 20, .. that isn't below a number.
function roundUp(least) {
  const ten = 10 ** Math.floor(Math.log10(Math.max(1, least)));
  return [1, 2, 5, 10].map(digit => digit * ten).find(round => round >= least) ?? 10 * ten;
}

export const isLit = row => row === chosen || causes.has(row) || effects.has(row);
export const ink = row => chosen < 0 ? (isPlain(row) ? INK.message : INK.unreported)
  : row === chosen || causes.has(row) ? INK.cause : effects.has(row) ? INK.effect : INK.dim;

// The lines from event to event within a process are drawn for the chain alone.
function drawChain(pen) {
  if (chosen < 0) return;
  const [first, last] = sight();
  for (const row of [chosen, ...causes, ...effects]) {
    const before = rows.cause[row];
    if (rows.how[row] !== "r" || before < 0 || place[row] < 0 || place[before] < 0
        || !isLit(before) || place[row] < first || place[before] > last) continue;
    stroke(pen, effects.has(row) ? INK.effect : INK.cause, 4, []);
    pen.beginPath();
    pen.moveTo(x(rows.lane[row]), y(place[before]));
    pen.lineTo(x(rows.lane[row]), y(place[row]));
    pen.stroke();
  }
}

export function stroke(pen, colour, thick, dash) {
  pen.strokeStyle = pen.fillStyle = colour;
  pen.lineWidth = thick;
  pen.setLineDash(dash);
}
