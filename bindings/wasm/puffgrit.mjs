// Data items of CBOR and authenticator data, looked at by proved code (crates/passkey_view_c) as WebAssembly.
//
// Bytes are a Uint8Array, which is copied into the module's memory for each call; offsets and lengths are numbers, and an item's
// number is a BigInt. What isn't there is null. An argument of another type is a TypeError, and a number that is no offset, or no
// integer of 64 bits as a key, a RangeError. The module needs a memory of 64 bits, or puffgrit_32.wasm one of 32.

/** The number of a string, an array or a map of indefinite length. */
export const INDEFINITE = 2n ** 64n - 1n;

/** The types of data items: the major types (RFC 8949, section 3.1), and one for floats. */
export const UNSIGNED = 0, NEGATIVE = 1, BYTES = 2, TEXT = 3, ARRAY = 4, MAP = 5, TAG = 6, SIMPLE = 7, FLOAT = 8;

const PAGE = 65536, ITEM = 40, PARTS = 56;

/** What kind of typed array `this` is, whatever its prototype, and whichever page made it; undefined if it is none. */
const arrayKind = Object.getOwnPropertyDescriptor(Object.getPrototypeOf(Uint8Array.prototype), Symbol.toStringTag).get;

function checkBytes(bytes) {
  if (arrayKind.call(bytes) !== "Uint8Array") throw new TypeError("bytes have to be a Uint8Array");
}

/** An offset, for the module. */
function offsetGiven(offset) {
  if (typeof offset !== "number") throw new TypeError("an offset has to be a number");
  if (!Number.isSafeInteger(offset) || offset < 0) throw new RangeError("an offset has to be an integer from 0 to 2 ** 53 - 1");
  return BigInt(offset);
}

function checkCount(count) {
  if (typeof count !== "number") throw new TypeError("a count has to be a number");
  if (!Number.isSafeInteger(count) || count < 0) throw new RangeError("a count has to be an integer from 0 to 2 ** 53 - 1");
}

/** A key that is no text, for the module. */
function keyGiven(key) {
  if (typeof key !== "number" && typeof key !== "bigint") throw new TypeError("a key has to be a number, a BigInt or a string");
  if (typeof key === "number" && !Number.isSafeInteger(key)) throw new RangeError("a key has to be an integer, and a BigInt beyond 2 ** 53 - 1");
  const integer = BigInt(key);
  if (BigInt.asIntN(64, integer) !== integer) throw new RangeError("a key has to be from -(2n ** 63n) to 2n ** 63n - 1n");
  return integer;
}

/** Whether UTF-8, and so a text of CBOR, can have this string: no surrogate in it is without its other half. */
const isText = (text) => !/\p{Surrogate}/u.test(text);

/** Returns the calls of a module: of its bytes, or of a WebAssembly.Module. */
export async function load(source) {
  return looks(await instantiate(source));
}

/** Returns what the module exports. */
export async function instantiate(source) {
  const made = await WebAssembly.instantiate(source, {});
  return (made.instance ?? made).exports;
}

/** Returns what places bytes in a module's memory. */
export function placing(calls) {
  const base = Number(calls.__heap_base.value); // the stack lies below

  /** Writes the parts one after the other, each at a multiple of 8, with room for `more` bytes; returns their places and the room's. */
  return function put(parts, more) {
    const places = [];
    let place = base;
    for (const part of parts) {
      checkBytes(part);
      places.push(place);
      place += Math.ceil(part.length / 8) * 8;
    }
    const lack = Math.ceil((place + more - calls.memory.buffer.byteLength) / PAGE);
    if (lack > 0) {
      try {
        calls.memory.grow(BigInt(lack));
      } catch {
        calls.memory.grow(lack); // engines of before 2025, and a memory of 32 bits
      }
    }
    const memory = new Uint8Array(calls.memory.buffer);
    parts.forEach((part, k) => memory.set(part, places[k]));
    return [...places, place];
  };
}

/** Returns the calls that look, of what a module exports. */
export function looks(calls) {
  const put = placing(calls);
  const slice = (place, bytes) => [BigInt(place), BigInt(bytes.length)];
  const is = (result) => (Number(result) & 1) === 1;

  function itemHere(place) {
    const view = new DataView(calls.memory.buffer, place, ITEM);
    const [from, content, end] = [8, 16, 24].map((at) => Number(view.getBigUint64(at, true)));
    return { kind: view.getUint32(32, true), number: view.getBigUint64(0, true), from, content, end };
  }

  return {
    /** The length in bytes of the data item at the beginning; 0 if no well-formed item of at most 256 levels is there. */
    itemLen(bytes) {
      const [place] = put([bytes], 0);
      return Number(calls.puffgrit_item_len(...slice(place, bytes)));
    },

    /** Whether the bytes are exactly one data item in CTAP2's canonical form (CTAP 2.1, section 8). */
    isCanonical(bytes) {
      const [place] = put([bytes], 0);
      return is(calls.puffgrit_is_canonical(...slice(place, bytes)));
    },

    /** The data item at an offset. */
    itemAt(bytes, offset) {
      const [place, out] = put([bytes], ITEM);
      return is(calls.puffgrit_item_at(...slice(place, bytes), offsetGiven(offset), BigInt(out))) ? itemHere(out) : null;
    },

    /** The data items one after the other from an offset on, up to so many. */
    itemsAt(bytes, offset, most) {
      checkCount(most);
      const [place, out] = put([bytes], ITEM), items = [];
      const isThere = (at) => is(calls.puffgrit_item_at(...slice(place, bytes), at, BigInt(out)));
      for (let at = offsetGiven(offset); items.length < most && isThere(at); at = BigInt(items.at(-1).end)) items.push(itemHere(out));
      return items;
    },

    /** The value of the first member with this key, an integer or a text, in the map at an offset. */
    member(bytes, map, key) {
      if (typeof key === "string") {
        const name = new TextEncoder().encode(key);
        const [place, named, out] = put([bytes, name], ITEM);
        const found = calls.puffgrit_named(...slice(place, bytes), offsetGiven(map), ...slice(named, name), BigInt(out));
        return is(found) && isText(key) ? itemHere(out) : null;
      }
      const [place, out] = put([bytes], ITEM);
      return is(calls.puffgrit_member(...slice(place, bytes), offsetGiven(map), keyGiven(key), BigInt(out))) ? itemHere(out) : null;
    },

    /** Whether the bytes begin as client data of this type, challenge and origins (WebAuthn Level 3, section 5.8.1.2). */
    isClientData(bytes, { type, challenge, origin, topOrigin = null, requiresTopOrigin = true }) {
      const texts = [type, origin, topOrigin ?? ""];
      if (texts.some((it) => typeof it !== "string")) throw new TypeError("a type and an origin have to be strings");
      if (topOrigin === "") throw new RangeError("a top origin isn't empty");
      const [said, from, top] = texts.map((it) => new TextEncoder().encode(it));
      const parts = [bytes, said, challenge, from, top];
      const places = put(parts, 0);
      const found = calls.puffgrit_is_client_data(...parts.flatMap((it, k) => slice(places[k], it)), requiresTopOrigin ? 1 : 0);
      return is(found) && texts.every(isText);
    },

    /** The parts of authenticator data by their offsets, 0 for one that is absent (WebAuthn Level 3, section 6.1). */
    authParts(bytes) {
      const [place, out] = put([bytes], PARTS);
      if (!is(calls.puffgrit_auth_parts(...slice(place, bytes), BigInt(out)))) return null;
      const view = new DataView(calls.memory.buffer, out, PARTS);
      const [aaguid, credentialId, credentialIdLen, publicKey, extensions, end] = [0, 8, 16, 24, 32, 40].map((at) =>
        Number(view.getBigUint64(at, true)),
      );
      return { flags: view.getUint32(52, true), counter: view.getUint32(48, true), aaguid, credentialId, credentialIdLen, publicKey, extensions, end };
    },
  };
}
