// All calls of messages.mjs over the module beside this file, which a release has, in node and in pages.
import { loadAll } from "./messages.mjs";

export * from "./messages.mjs";

const place = new URL("./puffgrit_all_32.wasm", import.meta.url);
const source = place.protocol === "file:" ? (await import("node:fs")).readFileSync(place) : await (await fetch(place)).arrayBuffer();

export default await loadAll(source);
