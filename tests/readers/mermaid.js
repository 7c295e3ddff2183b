// Has Mermaid read each FILE, and writes a line for each, `true` or `false`:
//
//     node mermaid.js mermaid.min.js FILE..
const fs = require("fs");

globalThis.window = globalThis;
const [bundle, ...files] = process.argv.slice(2);
const mermaid = require(fs.realpathSync(bundle));
const { mermaidAPI } = mermaid.default || mermaid;
for (const file of files) {
    console.log(mermaidAPI.parse(fs.readFileSync(file, "utf8"), () => {}));
}
