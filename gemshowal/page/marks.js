// The arrows of messages, and a mark for each event.
import { arrived, brief, counted, isDoubtful, isPlain, rows } from "./trace.js";
import { arrowsWithin, beginOf, column, laneWidth, listWidth, place, rowHeight } from "./layout.js";
import { chosen, effects } from "./choice.js";
import { INK, ink, isLit, stroke, x, y } from "./drawing.js";

// The number of arrows that are drawn at once.
const MOST_ARROWS = 3000;

// Arrows with an end in sight come first; the number of those that aren't drawn is the result.
export function drawArrows(pen, first, last) {
  const near = row => place[row] <= last || place[rows.cause[row]] >= first;
  const found = arrowsWithin(first, last).filter(row => beginOf(row) <= last);
  const ends = found.filter(near);
  const drawn = ends.length > MOST_ARROWS
    ? ends.filter(row => isLit(row) || place[row] <= last && place[rows.cause[row]] >= first).slice(0, MOST_ARROWS)
    : ends;
  for (const row of drawn) if (!isLit(row)) drawArrow(pen, row);
  for (const row of drawn) if (isLit(row)) drawArrow(pen, row);
  pen.setLineDash([]);
  return found.length - drawn.length;
}

function drawArrow(pen, row) {
  const send = rows.cause[row], dashed = !isPlain(row) || !isPlain(send);
  const lit = isLit(row) && isLit(send);
  stroke(pen, lit ? (effects.has(row) ? INK.effect : INK.cause)
         : chosen >= 0 ? INK.dim : dashed ? INK.unreported : INK.message, lit ? 3 : 1.2, dashed ? [6, 4] : []);
  const [x1, y1, x2, y2] = [x(rows.lane[send]), y(place[send]), x(rows.lane[row]), y(place[row])];
  pen.beginPath();
  pen.moveTo(x1, y1);
  if (x1 === x2) pen.bezierCurveTo(x1 + 40, y1, x1 + 40, y2, x2 + 4, y2); else pen.lineTo(x2, y2);
  pen.stroke();
  // The tip touches the edge of the receive's disc.
  const angle = x1 === x2 ? Math.PI : Math.atan2(y2 - y1, x2 - x1), size = Math.min(lit ? 13 : 9, rowHeight / 2);
  const [tipX, tipY] = [x2 - markSize() * Math.cos(angle), y2 - markSize() * Math.sin(angle)];
  pen.setLineDash([]);
  pen.beginPath();
  pen.moveTo(tipX, tipY);
  pen.lineTo(tipX - size * Math.cos(angle - 0.4), tipY - size * Math.sin(angle - 0.4));
  pen.lineTo(tipX - size * Math.cos(angle + 0.4), tipY - size * Math.sin(angle + 0.4));
  pen.fill();
}

// A message whose receive isn't in the trace ends in a bar on the lane of the process that it was sent to.
export function drawEnd(pen, row, at) {
  const other = rows.other[row];
  if (!"sh".includes(rows.kind[row]) || arrived[row] || other < 0 || column[other] < 0 || other === rows.lane[row]) return;
  const lit = isLit(row);
  stroke(pen, ink(row), lit ? 3 : 1.2, isPlain(row) ? [] : [6, 4]);
  pen.beginPath();
  pen.moveTo(x(rows.lane[row]), y(at));
  pen.lineTo(x(other), y(at));
  pen.stroke();
  pen.setLineDash([]);
  pen.fillRect(x(other) - 1.5, y(at) - rowHeight / 3, 3, rowHeight * 2 / 3);
}

export function drawPassing(pen, passing, width, height) {
  pen.fillStyle = "#fff3b0";
  pen.fillRect(width - 330, height - 22, 330, 22);
  pen.fillStyle = "#111";
  pen.fillText(counted(passing, "more message") + " not drawn; hide lanes or labels", width - 324, height - 7);
}

const markSize = () => Math.max(1.5, Math.min(4.5, rowHeight / 4));

// A send is a ring, a receive a disc, a print a diamond; an unreported event is dashed, and a receive
// says that it is.
export function drawMark(pen, row, at, width) {
  const [cx, cy, size] = [x(rows.lane[row]), y(at), markSize()];
  if (cx < listWidth() - 200 || cx > width + 200) return;
  stroke(pen, ink(row), isLit(row) ? 3 : 1.4, isPlain(row) ? [] : [2, 2]);
  pen.beginPath();
  if (rows.kind[row] === "p") {
    pen.moveTo(cx, cy - size); pen.lineTo(cx + size, cy); pen.lineTo(cx, cy + size); pen.lineTo(cx - size, cy);
    pen.closePath();
  } else pen.arc(cx, cy, size, 0, 2 * Math.PI);
  pen.fillStyle = rows.kind[row] === "r" || rows.kind[row] === "p" ? ink(row) : INK.paper;
  if (!isPlain(row)) pen.fillStyle = INK.paper;
  pen.fill();
  pen.stroke();
  pen.setLineDash([]);
  if (row === chosen) { pen.strokeStyle = INK.text; pen.lineWidth = 2; pen.strokeRect(cx - 9, cy - 9, 18, 18); }
  // Right above the mark there is neither a term nor a tip.
  if (isDoubtful(row)) writeOver(pen, "?", cx, cy - size - 3, "center", INK.unreported);
  if (rowHeight < 14 || laneWidth < 60) return;
  if (rows.kind[row] !== "r") drawTerm(pen, row, cx, cy - 5);
  else if (!isPlain(row)) drawNotReported(pen, row, cx, cy + 4);
}

// Text on an edge of the ground's colour, so that lines under it don't cross it.
function writeOver(pen, text, textX, textY, align, colour) {
  pen.textAlign = align;
  pen.lineWidth = 3;
  pen.strokeStyle = INK.paper;
  pen.strokeText(text, textX, textY);
  pen.fillStyle = colour;
  pen.fillText(text, textX, textY);
  pen.textAlign = "left";
}

// Whether the process at the other end has its lane further left.
const isLeftwards = row => rows.other[row] >= 0 && column[rows.other[row]] >= 0
  && column[rows.other[row]] < column[rows.lane[row]];

function drawTerm(pen, row, cx, base) {
  writeBeside(pen, row, brief(row), cx, base, isLeftwards(row));
}

// It stands where no arrow comes from.
function drawNotReported(pen, row, cx, base) {
  writeBeside(pen, row, "receive not reported", cx, base, !isLeftwards(row));
}

function writeBeside(pen, row, text, cx, base, leftwards) {
  const most = Math.max(8, Math.floor(laneWidth / 6.2));
  const cut = text.length > most ? text.slice(0, most - 1) + "\u2026" : text;
  writeOver(pen, cut, cx + (leftwards ? -9 : 9), base, leftwards ? "right" : "left",
            chosen >= 0 && !isLit(row) ? INK.faint : INK.text);
}
