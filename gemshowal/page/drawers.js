// The drawers: labels, lanes, times and the legend.
import { byId, element } from "./elements.js";
import { data, labels, laneName, number, span, visible } from "./trace.js";
import { hiddenLabels, hiddenLanes, layOut, move, order, orderByFirst } from "./layout.js";

const MOST_LISTED = 500;

function drawer(name, fill) {
  const button = byId(name + "-button"), section = byId(name);
  button.addEventListener("click", () => {
    const open = section.hidden;
    for (const other of ["labels", "lanes", "times", "help"]) {
      byId(other).hidden = true;
      byId(other + "-button").setAttribute("aria-expanded", "false");
    }
    section.hidden = !open;
    button.setAttribute("aria-expanded", String(open));
    if (open) fill(section);
  });
}

// A list of boxes with a filter above; only the first ones are listed.
function boxes(section, title, all, nameOf, hidden, extra) {
  const filter = element("input", { type: "search", "aria-label": "Filter the " + title.toLowerCase() });
  const items = element("ul", {});
  const fill = () => {
    const wanted = filter.value.toLowerCase(), fit = all().filter(one => nameOf(one).toLowerCase().includes(wanted));
    items.replaceChildren(...fit.slice(0, MOST_LISTED).map(one => {
      const box = element("input", { type: "checkbox", "data-one": one, "aria-label": nameOf(one) });
      box.checked = !hidden.has(one);
      box.addEventListener("change", () => { if (box.checked) hidden.delete(one); else hidden.add(one); layOut(); });
      return element("li", {}, box, element("span", { title: nameOf(one) }, nameOf(one)), ...extra(one, fill));
    }), ...(fit.length > MOST_LISTED ? [element("li", {}, "and " + (fit.length - MOST_LISTED) + " more; filter them")] : []));
  };
  const every = show => () => {
    const wanted = filter.value.toLowerCase();
    for (const one of all()) if (nameOf(one).toLowerCase().includes(wanted)) { if (show) hidden.delete(one); else hidden.add(one); }
    fill();
    layOut();
  };
  filter.addEventListener("input", fill);
  section.replaceChildren(element("h2", {}, title), filter,
    element("button", { type: "button", onclick: every(true) }, "Show these"),
    element("button", { type: "button", onclick: every(false) }, "Hide these"), items);
  fill();
}

drawer("labels", section => boxes(section, "Labels", () => [...labels.keys()], label => visible(labels[label]), hiddenLabels, () => []));
drawer("lanes", function fillLanes(section) {
  boxes(section, "Lanes", () => order, laneName, hiddenLanes, (lane, fill) => [
    element("button", { type: "button", "aria-label": "Move " + laneName(lane) + " left", onclick: () => { move(lane, -1); fill(); } }, "\u2190"),
    element("button", { type: "button", "aria-label": "Move " + laneName(lane) + " right", onclick: () => { move(lane, 1); fill(); } }, "\u2192")]);
  section.querySelector("ul").before(element("button", { type: "button", id: "by-first",
    onclick: () => { orderByFirst(); fillLanes(section); } }, "Order by first event"));
});
// How long messages took, from their sends until they were taken; what a table leaves out is counted below it.
byId("times-button").hidden = data.durations.length === 0;
drawer("times", section => section.replaceChildren(
  element("p", {}, "From the send until the receiver took the message: waiting in the mailbox is in that."),
  ...data.durations.flatMap(table => [
  element("h2", {}, table.title),
  element("table", {},
    element("tr", {}, ...["", "count", "median", "99 %", "greatest"].map(title => element("th", { scope: "col" }, title))),
    ...table.entries.map(([of, many, ...times]) => element("tr", {}, element("td", {}, visible(of)), element("td", {}, number(many)),
                                                           ...times.map(time => element("td", {}, span(time)))))),
  ...(table.more > 0 ? [element("p", {}, "and " + number(table.more) + " more")] : [])])));
drawer("help", section => section.replaceChildren(
  element("h2", {}, "Legend"),
  element("ul", {}, ...[
    "ring: a send; disc: a receive; diamond: a print",
    "arrow: a message, from its send to its receive; time runs downwards",
    "a line that ends in a bar: a message whose receive isn't in the trace",
    "dashed: unreported, as gemshowal complete adds it; its name has a ~",
    "?: what the event follows may be something else, or may not have been reported",
    "what an event follows rests on the lines whose numbers are behind it", ...data.rests_on,
    "\u25cf the chosen event; \u2191 its causes, blue; \u2193 its effects, orange",
    "by time: events by their nodes' clocks, with a scale; pauses take room, the longest up to 8 rows",
    "arrow keys, Page Up and Down, Home, End: go to another event",
    "c: go to its cause; e: go to its first effect; Escape: choose no event",
    "...: there a message goes on; the panel has it whole",
    ...(data.most === null ? [] : [`all messages together have more than ${number(data.limit)} characters: of the longest `
      + `this page has the first ${number(data.most)}, and the panel says so`]),
    "/: search; + and -: zoom; on a name, Delete hides that lane, Alt with an arrow moves it"
  ].map(text => element("li", {}, text)))));
