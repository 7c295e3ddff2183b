// The beginning of the page.
import { byId, element } from "./elements.js";
import { count, data, eventName, visible } from "./trace.js";
import { fitLanes } from "./layout.js";
import { choose } from "./choice.js";
import { draw } from "./drawing.js";

byId("title").textContent = visible(data.title);
byId("headline").append(element("span", { class: data.fits ? "" : "doubt" }, visible(data.headline)));
if (data.notes.length > 0) byId("headline").append(element("small", {}, data.notes.map(visible).join("\n")));
fitLanes();
draw();

// A page is opened at an event by its name: page.html#shop%2324. What names none chooses nothing.
function goToNamed() {
  let named;
  try { named = decodeURIComponent(location.hash.slice(1)); } catch { return; }
  if (named !== "") for (let row = 0; row < count; row++) if (eventName(row) === named) { choose(row); break; }
}
addEventListener("hashchange", goToNamed);
goToNamed();
