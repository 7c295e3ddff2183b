// The trace as the page has it, and what is said of its events in words.

export const data = JSON.parse(document.getElementById("data").textContent);
export const { lanes, labels, terms, rows } = data;
export const count = rows.lane.length;
export const VERBS = { s: "sends", h: "sends", r: "receives", p: "prints" };

// Control characters and those that turn the direction of text are shown by their numbers.
export const visible = text => text.replace(
  /[\u0000-\u001f\u007f-\u009f\u061c\u200b-\u200f\u2028-\u202e\u2060-\u206f\ufeff\ud800-\udfff]/gu,
  sign => "\\x{" + sign.codePointAt(0).toString(16).toUpperCase() + "}");
export const laneName = lane => visible(lanes[lane].name);
// A term is what a row shows, the text of the message if that is another, and its length if that is cut.
export const message = row => rows.term[row] < 0 ? "(an unknown message)" : terms[rows.term[row]][1] ?? terms[rows.term[row]][0];
export const brief = row => rows.term[row] < 0 ? "(an unknown message)" : visible(terms[rows.term[row]][0]);
export const isPlain = row => rows.plain[row] === "1";
export const seconds = nanos => (nanos / 1e9).toFixed(6) + " s";
// By the clock of the node, in UTC. It is known in microseconds; a date has milliseconds alone.
export const clock = nanos => {
  const micros = data.begin + Math.floor(nanos / 1000), rest = ((micros % 1000) + 1000) % 1000;
  return new Date((micros - rest) / 1000).toISOString().replace("Z", String(rest).padStart(3, "0") + "Z");
};
export const span = nanos => nanos < 1e4 ? nanos + " ns" : nanos < 1e7 ? Math.floor(nanos / 1e3) + " us"
  : nanos < 1e10 ? Math.floor(nanos / 1e6) + " ms" : Math.floor(nanos / 1e9) + " s";
export const number = many => many.toLocaleString("en");
export const counted = (many, one, several = one + "s") => number(many) + " " + (many === 1 ? one : several);

// The effects of each row: row r's are listed from offset[r] to offset[r + 1].
export const offset = new Int32Array(count + 1), listed = new Int32Array(count);
for (let row = 0; row < count; row++) if (rows.cause[row] >= 0) offset[rows.cause[row] + 1]++;
for (let row = 0; row < count; row++) offset[row + 1] += offset[row];
const filled = offset.slice();
for (let row = 0; row < count; row++) if (rows.cause[row] >= 0) listed[filled[rows.cause[row]]++] = row;
export const effectsOf = row => Array.from(listed.subarray(offset[row], offset[row + 1]));

// Sends whose message arrives at an event here.
export const arrived = new Uint8Array(count);
for (let row = 0; row < count; row++)
  if (rows.how[row] === "s" && rows.cause[row] >= 0) arrived[rows.cause[row]] = 1;

// A send that only its receive tells of has no name of its own.
export const eventName = row =>
  rows.kind[row] === "h" ? "the send of " + eventName(listed[offset[row]])
  : laneName(rows.lane[row]) + "#" + rows.at[row];

export const sentence = row => {
  const [self, other] = [laneName(rows.lane[row]), rows.other[row] < 0 ? "" : laneName(rows.other[row])];
  const link = { s: " to " + other, h: " to " + other, r: " from " + other, p: "" }[rows.kind[row]];
  return self + " " + VERBS[rows.kind[row]] + " " + brief(row) + link;
};

// On which premises it rests what an event follows, mostly by the last one; the legend has their words.
const PREMISES = { c: "", 2: " (1, 2)", 3: " (1, 2, 3)", 4: " (4)", 7: " (5, 6, 7)", 8: " (6, 8)",
  o: " (6, 7, 8)", 9: " (6, 8, 9)", p: "" };

// In the words of `gemshowal why`.
export const causeText = row => {
  const cause = rows.cause[row], others = rows.others[row] ?? [], perhaps = rows.grade[row] === "p" ? "perhaps " : "";
  const after = of => "follows " + eventName(of) + (isPlain(of) ? "" : ", which wasn't reported");
  const origin = of => of < 0 ? "begins this chain" : "follows " + eventName(of);
  const labelOf = of => visible(labels[rows.label[of]]);
  const premises = PREMISES[rows.grade[row]];
  const follows = () => rows.kind[cause] === "h" ? "nobody reported the send that it follows" : "it " + perhaps + after(cause) + premises;
  return {
    s: follows, r: follows, g: () => "it follows the message of " + eventName(cause) + ", whose receive wasn't reported" + premises,
    b: () => "it " + perhaps + "begins this chain" + premises,
    l: () => "it " + perhaps + "begins label " + labelOf(row) + ", or its process set that on its token; it had last received "
      + eventName(others[0]) + " of label " + labelOf(others[0]) + premises,
    e: () => "it " + origin(others[0]) + " or " + origin(others[1]) + ", or another event: several tokens fit" + premises,
    m: () => "what it follows isn't known: " + (others[0] < 0 ? "before it " : "since " + eventName(others[0]) + " ")
      + laneName(rows.lane[row]) + " took a token whose receive wasn't reported, put one back or spawned a process",
    u: () => "nothing is known of what it follows",
  }[rows.how[row]]() + (isPlain(row) || rows.kind[row] === "h" ? "" : " (this event wasn't reported)");
};

// Whether it isn't certain what an event follows. A receive that nobody reported follows its send.
export const isDoubtful = row => "emu".includes(rows.how[row])
  || rows.grade[row] === "p" && (isPlain(row) || rows.kind[row] !== "r");

// When each event happened; one without a time counts as the event above it does.
export const moments = new Float64Array(count);
if (rows.time !== null)
  for (let row = 0, last = 0; row < count; row++) moments[row] = last = rows.time[row] ?? last;
