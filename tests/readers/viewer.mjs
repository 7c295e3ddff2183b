// Has the trace viewer of chrome://tracing import each FILE, and writes what it then knows, a line of JSON for each:
//
//     node viewer.mjs trace_viewer_full.html FILE..
//
// The viewer is one page. Its scripts are run here without a browser, as their own tests run them (`tr.isHeadless`). Those that
// draw need one, and fail; what imports a trace doesn't.
import fs from "fs";
import vm from "vm";

const [page, ...files] = process.argv.slice(2);
const scripts = [...fs.readFileSync(page, "utf8").matchAll(/<script[^>]*>(.*?)<\/script>/gs)].map((it) => it[1]);
const parts = scripts.join("\n;\n").split("'use strict';");

const nothing = () => {};
const room = { console, performance, setTimeout, clearTimeout, Polymer: () => nothing, process: { versions: { node: "20" } } };
Object.assign(room, { HTMLImportsLoader: { hrefToAbsolutePath: nothing }, require: () => ({}) });
for (const name of ["window", "self", "global", "globalThis"]) {
    room[name] = room;
}
vm.createContext(room);
for (const part of parts) {
    try {
        vm.runInContext(`'use strict';${part}`, room);
    } catch {
        // A part that draws.
    }
}

function place(slice) {
    return slice && { thread: slice.parentContainer.name, start: slice.start };
}

for (const file of files) {
    const options = new room.tr.importer.ImportOptions();
    options.showImportWarnings = false;
    const model = new room.tr.Model();
    new room.tr.importer.Import(model, options).importTraces([fs.readFileSync(file, "utf8")]);
    const threads = Object.values(model.processes).flatMap((it) => Object.values(it.threads));
    console.log(JSON.stringify({
        threads: threads.map((it) => ({
            name: it.name,
            slices: it.sliceGroup.slices.map((slice) => ({ title: slice.title, start: slice.start, args: slice.args })),
        })),
        flows: model.flowEvents.map((it) => ({ from: place(it.startSlice), to: place(it.endSlice) })),
        warnings: model.importWarnings,
    }));
}
