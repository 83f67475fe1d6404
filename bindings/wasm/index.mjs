// The calls of puffgrit.mjs over the module beside this file, in node and in pages.
import { load } from "./puffgrit.mjs";

export * from "./puffgrit.mjs";

const place = new URL("./puffgrit_32.wasm", import.meta.url);
const source = place.protocol === "file:" ? (await import("node:fs")).readFileSync(place) : await (await fetch(place)).arrayBuffer();

export default await load(source);
