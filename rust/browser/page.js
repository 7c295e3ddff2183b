// The page: the files that somebody drops, what gemshowal says of them, and the event and the label that are chosen.

const byId = id => document.getElementById(id);

// The files that aren't a trace, but belong to one.
const BESIDE = /\.(terms|facts|times|messages)$/;
// The lines of a text whose events are listed: a browser shows more only slowly.
const LISTED = 2000;

let program, files = new Map(), trace = "";

async function compile() {
  const packed = Uint8Array.from(atob(byId("program").textContent), letter => letter.charCodeAt(0));
  const unpacked = new Blob([packed]).stream().pipeThrough(new DecompressionStream("gzip"));
  return WebAssembly.compile(await new Response(unpacked).arrayBuffer());
}

async function gemshowal(...words) {
  return new System(["gemshowal", ...words], files).run(program);
}

const quoted = word => /^[\w./-]+$/.test(word) ? word : "'" + word.replaceAll("'", "'\\''") + "'";

// Runs a command, and shows it with what it writes; returns the texts of the files that it writes.
async function show(id, ...words) {
  const { output, errors, written } = await gemshowal(...words);
  byId(id + "-command").textContent = "$ " + ["gemshowal", ...words].map(quoted).join(" ");
  byId(id).textContent = output + errors;
  return written;
}

async function take(dropped) {
  byId("state").textContent = "Reading ..";
  files = new Map(await Promise.all(dropped.map(async file => [file.name, new Uint8Array(await file.arrayBuffer())])));
  const names = [...files.keys()].filter(name => !BESIDE.test(name));
  const first = names.find(name => name.endsWith(".seqtrace")) ?? names[0];
  if (first === undefined) {
    byId("state").textContent = "There is no trace among these files: drop NAME.seqtrace too.";
    return;
  }
  trace = first.replace(/\.seqtrace$/, "");
  await show("audit", "audit", trace);
  await list();
  await draw();
  byId("why-command").textContent = byId("why").textContent = "";
  byId("found").hidden = false;
  byId("state").textContent = "";
}

// Lists the events as buttons: each line begins with its number, by which `why` takes an event.
async function list() {
  const words = ["list", trace, "--lines", "1-" + LISTED], { output, errors } = await gemshowal(...words);
  byId("events").replaceChildren(...output.split("\n").slice(0, -1).map(line => {
    const button = document.createElement("button");
    button.textContent = line;
    button.addEventListener("click", () => ask(line.slice(0, line.indexOf(":"))));
    return button;
  }));
  byId("events-note").textContent = errors;
  const events = JSON.parse((await gemshowal(...words, "--json")).output).events ?? [];
  const terms = new Map(events.map(({ label, term }) => [label, term ?? label]));
  byId("labels").replaceChildren(...[...terms].map(([label, term]) => new Option(term, label)));
  byId("label").value = terms.size > 1 ? events[0].label : "";
  byId("label-part").hidden = terms.size < 2;
}

function ask(event) {
  byId("event").value = event;
  wish(async () => {
    await show("why", "why", trace, event);
    byId("ask").scrollIntoView({ block: "nearest" });
  });
}

// Draws the chosen label. A trace that falls into parts has a drawing of each.
async function draw() {
  const label = byId("label").value;
  const drawings = await show("chart", "chart", trace, ...(label === "" ? [] : ["--label", label]), "--svg", trace + ".svg");
  byId("drawing").replaceChildren(...drawings.map(text => {
    const svg = new DOMParser().parseFromString(text, "image/svg+xml");
    const place = document.createElement("div");
    // The drawing's style is for it alone.
    place.attachShadow({ mode: "open" }).append(document.importNode(svg.documentElement, true));
    return place;
  }));
}

// The title of a mark or of its text begins with the name of the event.
function chooseInDrawing(event) {
  const title = event.composedPath().find(it => it.localName === "g" && it.firstChild?.localName === "title")?.textContent;
  const name = /^(.*?): (?:send|receive|print) \{/.exec(title ?? "")?.[1];
  if (name !== undefined) ask(name);
}

// The list of what was dropped is empty after its event.
function takeAll(dropped) {
  const all = [...dropped];
  wish(() => take(all));
}

function listen() {
  const stop = event => event.preventDefault();
  const shop = () => Object.entries(JSON.parse(byId("shop").textContent)).map(([name, text]) => new File([text], name));
  addEventListener("dragover", stop);
  addEventListener("drop", event => { stop(event); takeAll(event.dataTransfer.files); });
  byId("files").addEventListener("change", event => takeAll(event.target.files));
  byId("example").addEventListener("click", () => takeAll(shop()));
  byId("ask").addEventListener("submit", event => { stop(event); ask(byId("event").value); });
  byId("label").addEventListener("change", () => wish(draw));
  byId("drawing").addEventListener("click", chooseInDrawing);
}

// Works off one wish after the other, and says what breaks off.
let last = Promise.resolve();
function wish(work) {
  document.body.ariaBusy = "true";
  const own = last = last.then(work).catch(error => { byId("state").textContent = "It broke off: " + error; })
    .finally(() => { if (last === own) document.body.ariaBusy = "false"; });
}

listen();
wish(async () => { program = await compile(); });
