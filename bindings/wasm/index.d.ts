import type { Puffgrit } from "./puffgrit.mjs";

export * from "./puffgrit.mjs";

/** The calls of the module beside this file. */
declare const calls: Puffgrit;
export default calls;
