import type { Puffgrit } from "./puffgrit.mjs";

export * from "./puffgrit.mjs";

/** The kinds of `rewrite`, of `decode` and of `explain`. */
export const KINDS: readonly string[];
export const DECODED: readonly string[];
export const RECORDS: readonly string[];
export const EXPLAINED: readonly string[];
/** The rules of CTAP2's canonical form. */
export const RULES: readonly string[];

/** What is asked of bytes beside that their kind accepts them: that a data item is in CTAP2's canonical form; that arrays, maps and tags are
 * inside one another at no more than four levels; that no bytes follow. Of authenticator data, TPM structures and JSON only the last is. */
export interface Asked {
  canonical?: boolean;
  fourLevels?: boolean;
  allBytes?: boolean;
}

/** Why an input is rejected: its first fault. */
export class Fault extends Error {
  /** Its name, as `Refused`; `NotAMap` of a JSON value that is no object. */
  fault: string;
  /** The number of the message's member that it is about. */
  member: number | null;
  /** Of `NotCanonical` the rule that is broken, one of RULES. */
  rule: string | null;
  /** Where and why, as "user.id: a byte string is wanted (offset 58, length 10)"; null for kinds that `explain` hasn't. Of `encode`
   * without an offset. */
  explanation: string | null;
  /** The offset and the length of what is refused. */
  offset: number | null;
  length: number | null;
}

/** All calls of a module. Those below throw Fault, RangeError for a kind that they don't have or for lack of memory. */
export interface PuffgritAll extends Puffgrit {
  version(): number;
  rewrite(kind: string, bytes: Uint8Array, asked?: Asked): Uint8Array;
  rewriteFront(kind: string, bytes: Uint8Array, asked?: Asked): { bytes: Uint8Array; read: number };
  /** The JSON text that `decode` parses, which has the members in the order of the bytes. */
  jsonFront(kind: string, bytes: Uint8Array, asked?: Asked): { text: string; read: number };
  decode(kind: string, bytes: Uint8Array, asked?: Asked): unknown;
  decodeFront(kind: string, bytes: Uint8Array, asked?: Asked): { value: unknown; read: number };
  explain(kind: string, bytes: Uint8Array, asked?: Asked): Fault | null;
  /** What is in the bytes, exactly: byte strings that no table wants as a Uint8Array, integers beyond 2^53 - 1 as a BigInt. */
  values(kind: string, bytes: Uint8Array, asked?: Asked): unknown;
  valuesFront(kind: string, bytes: Uint8Array, asked?: Asked): { value: unknown; read: number };
  /** Encodes what `values` returns, changed, or written by hand. A Fault's `explanation` says by its names what is refused. */
  encode(kind: string, value: unknown): Uint8Array;
}

export function loadAll(source: BufferSource | WebAssembly.Module): Promise<PuffgritAll>;
