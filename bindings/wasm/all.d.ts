import type { PuffgritAll } from "./messages.mjs";

export * from "./messages.mjs";

/** The calls of the module beside this file. */
declare const calls: PuffgritAll;
export default calls;
