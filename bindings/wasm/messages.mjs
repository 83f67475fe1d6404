// Messages, decoded, encoded again, explained, and made of values by proved code (crates/passkey_c) as WebAssembly, beside the calls that
// look.
//
// A kind is one of the names in KINDS; bytes are a Uint8Array, of a JSON text its UTF-8. Bytes after a data item, a message or
// authenticator data are ignored. What a kind rejects is thrown as a Fault, and so is what isn't as is asked: { canonical, fourLevels,
// allBytes } ask that a data item is in CTAP2's canonical form, has at most four levels of arrays, maps and tags, or ends the bytes.
import { DECODED, EXPLAINED, KINDS, RECORDS, RULES } from "./kinds.mjs";
import { instantiate, looks, placing } from "./puffgrit.mjs";

export * from "./kinds.mjs";
export * from "./puffgrit.mjs";

const OK = 0, TOO_SHORT = 1, OUT_OF_MEMORY = 2, FIRST_FAULT = 16;
const FAULTS = [
  "DecodeFailed", "NotAMap", "BadKey", "Repeated", "Refused", "Missing", "OutOfRangeIntegerValue", "DuplicateMapKey", "UnexpectedItem",
  "Float", "BadJson", "NoItem", "NotCanonical",
];
const WITH_MEMBER = ["Repeated", "Refused", "Missing"];

/** Why an input is rejected: its first fault (docs/FAULTS.md). */
export class Fault extends Error {
  constructor(status, explained = {}) {
    const fault = FAULTS[(status & 255) - FIRST_FAULT];
    const member = WITH_MEMBER.includes(fault) && status >> 8 ? status >> 8 : null;
    const rule = fault === "NotCanonical" ? RULES[(status >> 8) - 1] : null;
    const { explanation = null, offset = null, length = null } = explained;
    super(explanation ?? (member === null ? fault : `${fault}(${member})`));
    Object.assign(this, { name: "Fault", fault, member, rule, explanation, offset, length });
  }
}

function numberOf(kind, kinds, { canonical = false, fourLevels = false, allBytes = false } = {}) {
  if (!kinds.includes(kind)) throw new RangeError(`no kind ${kind}`);
  return KINDS.indexOf(kind) + 1 + (canonical ? 0x100 : 0) + (fourLevels ? 0x200 : 0) + (allBytes ? 0x400 : 0);
}

function base64urlOf(bytes) {
  const text = btoa(Array.from(bytes, (it) => String.fromCharCode(it)).join(""));
  return text.replaceAll("+", "-").replaceAll("/", "_").replaceAll("=", "");
}

const bytesOf = (text) => Uint8Array.from(atob(text.replaceAll("-", "+").replaceAll("_", "/")), (it) => it.charCodeAt(0));

const isBytes = (it) => Object.prototype.toString.call(it) === "[object Uint8Array]";

/** What the JSON of `puffgrit_values` is: bytes of an escape as a Uint8Array, and integers beyond 2 ** 53 - 1 as BigInts. */
function valueOf(text) {
  const whole = text.replace(/"(?:[^"\\]|\\.)*"|-?\d{16,}/g, (it) => (it[0] === '"' ? it : `{"$int":"${it}"}`));
  return JSON.parse(whole, (_, it) => {
    const [name, ...others] = it !== null && typeof it === "object" && !Array.isArray(it) ? Object.keys(it) : [];
    if (others.length > 0 || typeof it?.[name] !== "string") return it;
    if (name === "$bytes") return bytesOf(it.$bytes);
    if (name !== "$int") return it;
    return Number.isSafeInteger(Number(it.$int)) ? Number(it.$int) : BigInt(it.$int);
  });
}

/**
 * The JSON that a value is; that of a record has no escapes, and bytes in it are base64url. Nothing is converted: a number has to be the
 * integer that it says, and what JSON would leave out is refused.
 */
function jsonOf(value, isRecord) {
  const text = JSON.stringify(value, function (name, made) {
    const it = this[name];
    if (typeof it === "bigint") return { $int: String(it) };
    if (isBytes(it)) return isRecord ? base64urlOf(it) : { $bytes: base64urlOf(it) };
    if (typeof it === "number" && !Number.isSafeInteger(it)) throw new RangeError(`${it} is no integer, or has to be a BigInt`);
    if (["undefined", "function", "symbol"].includes(typeof it)) throw new TypeError(`a value can't be ${typeof it}`);
    return made;
  });
  return isRecord ? text.replace(/\{"\$int":"(-?\d+)"\}/g, "$1") : text;
}

/** Returns all calls of a module: of its bytes, or of a WebAssembly.Module. One in which a call trapped has to be loaded again. */
export async function loadAll(source) {
  const calls = await instantiate(source);
  const put = placing(calls);

  /** Makes a call with an output of so many bytes, and a heap that begins after it. */
  function written(name, number, bytes, room) {
    const words = new Uint8Array(32), isExplain = name === "puffgrit_explain";
    const [given, place, out] = put([bytes, words], room);
    calls.puffgrit_heap(out + room);
    const [input, output, at] = [[given, bytes.length], [out, room], [place, place + 8, place + 16]].map((it) => it.map(BigInt));
    const status = calls[name](number, ...input, at[0], ...(isExplain ? [at[2]] : []), ...output, at[1]) >>> 0;
    const view = new DataView(calls.memory.buffer, place, 32);
    const [read, len, offset, length] = [0, 8, 16, 24].map((k) => Number(view.getBigUint64(k, true)));
    return { status, read, len, offset, length, bytes: new Uint8Array(calls.memory.buffer, out, Math.min(len, room)).slice() };
  }

  /** Encodes JSON with an output of so many bytes, so many for a text, and a heap that begins after them. */
  function encoded(number, json, room, most) {
    const words = new Uint8Array(16);
    const [given, place, out] = put([json, words], room + most);
    calls.puffgrit_heap(out + room + most);
    const [input, output, len, why, size] = [[given, json.length], [out, room], [place], [out + room, most], [place + 8]].map((it) => it.map(BigInt));
    const status = calls.puffgrit_encode(number, ...input, ...output, ...len, ...why, ...size) >>> 0;
    const view = new DataView(calls.memory.buffer, place, 16), [made, told] = [0, 8].map((k) => Number(view.getBigUint64(k, true)));
    const slice = (from, count) => new Uint8Array(calls.memory.buffer, from, count).slice();
    return { status, len: made, size: told, bytes: slice(out, Math.min(made, room)), why: slice(out + room, Math.min(told, most)) };
  }

  /** The encoding of what the value is as this kind, one of KINDS, as `rewrite` writes it. */
  function encode(kind, value) {
    const number = numberOf(kind, KINDS), json = new TextEncoder().encode(jsonOf(value, RECORDS.includes(kind)));
    for (let room = json.length + 64, most = 1024; ; ) {
      const { status, len, size, bytes, why } = encoded(number, json, room, most);
      if (status === OK) return bytes;
      if (status === OUT_OF_MEMORY) throw new RangeError("puffgrit is out of memory");
      if (status !== TOO_SHORT && size <= most) throw new Fault(status, size === 0 ? {} : { explanation: new TextDecoder().decode(why) });
      [room, most] = [Math.max(room, len), Math.max(most, size)];
    }
  }

  /** Makes a call with as much room as its output needs. */
  function whole(name, number, bytes) {
    for (let room = bytes.length + 1024; ; ) {
      const made = written(name, number, bytes, room);
      if (made.status === OUT_OF_MEMORY) throw new RangeError("puffgrit is out of memory");
      if (made.status !== TOO_SHORT && made.len <= room) return made;
      room = made.len;
    }
  }

  /** Why the bytes are rejected as this kind, one of EXPLAINED, or aren't as is asked; null if neither. */
  function explain(kind, bytes, asked) {
    const { status, offset, length, bytes: text } = whole("puffgrit_explain", numberOf(kind, EXPLAINED, asked), bytes);
    return status === OK ? null : new Fault(status, { explanation: new TextDecoder().decode(text), offset, length });
  }

  /** What a call makes of bytes that the kind accepts; throws the fault of others. */
  function accepted(name, kind, kinds, bytes, asked) {
    const made = whole(name, numberOf(kind, kinds, asked), bytes);
    if (made.status === OK) return made;
    throw explain(kind, bytes, asked) ?? new Fault(made.status);
  }

  /** What `rewrite` returns, and how many of the bytes were decoded. */
  function rewriteFront(kind, bytes, asked) {
    const made = accepted("puffgrit_rewrite", kind, KINDS, bytes, asked);
    return { bytes: made.bytes, read: made.read };
  }

  /** The JSON text of which `decode` returns the value, and how many of the bytes were decoded. */
  function jsonFront(kind, bytes, asked) {
    const made = accepted("puffgrit_json", kind, DECODED, bytes, asked);
    return { text: new TextDecoder().decode(made.bytes), read: made.read };
  }

  /** What `values` returns, and how many of the bytes were decoded. */
  function valuesFront(kind, bytes, asked) {
    const { bytes: text, read } = accepted("puffgrit_values", kind, KINDS, bytes, asked);
    return { value: valueOf(new TextDecoder().decode(text)), read };
  }

  /** What `decode` returns, and how many of the bytes were decoded. */
  function decodeFront(kind, bytes, asked) {
    const { text, read } = jsonFront(kind, bytes, asked);
    return { value: JSON.parse(text), read };
  }

  return {
    ...looks(calls),
    rewriteFront,
    jsonFront,
    decodeFront,
    valuesFront,
    explain,
    encode,

    /** The version of the interface (puffgrit.h). */
    version: () => calls.puffgrit_version() >>> 0,

    /** The encoding of what the bytes are as this kind, one of KINDS: CTAP2's canonical form, or compact JSON in UTF-8. */
    rewrite: (kind, bytes, asked) => rewriteFront(kind, bytes, asked).bytes,

    /** What is in the bytes, which are of this kind, one of DECODED: members by their names, byte strings in base64url. */
    decode: (kind, bytes, asked) => decodeFront(kind, bytes, asked).value,

    /** What is in the bytes, exactly, so that `encode` makes what `rewrite` does: with unknown members, and escapes of JSON. */
    values: (kind, bytes, asked) => valuesFront(kind, bytes, asked).value,
  };
}
