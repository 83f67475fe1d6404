// Bytes as people paste them, read as passkey_inspect reads them (docs/INSPECT.md): an object of JSON, hexadecimal, also as a dump, or
// base64. And bytes and texts as the inspector page shows them.

const SPACE = /[\t\n\r ]/g;

/** The digits of a dump by xxd, or by hexdump -C if no colon is after its offsets. */
function digitsOfDump(text) {
  const isBarred = text[8] !== ":";
  return text.split("\n").map((line) => {
    const [offset] = /^[0-9a-fA-F*]*:?/.exec(line);
    const rest = line.slice(offset.length), end = isBarred ? rest.indexOf("|") : rest.search(/\S {2}/) + 1;
    return (offset.includes("*") ? "*" : "") + (end > 0 ? rest.slice(0, end) : rest);
  }).join("");
}

/** Reads hexadecimal, with white space, colons, quotes or commas, and with 0x or h before it; null if it is none. */
function ofHexadecimal(text) {
  const digits = (/^00000000(:| {2})/.test(text) ? digitsOfDump(text) : text).replace(/[\s:"',]/g, "").replace(/^(0[xX]|h)/, "");
  if (digits.length % 2 || /[^0-9a-fA-F]/.test(digits)) return null;
  const bytes = new Uint8Array(digits.length / 2);
  for (let k = 0; k < bytes.length; k++) bytes[k] = parseInt(digits.slice(2 * k, 2 * k + 2), 16);
  return bytes;
}

/** Reads base64 or base64url (RFC 4648, sections 4 and 5), padded or not, with quotes and commas around it; null if it is none. */
export function ofBase64(text) {
  const symbols = text.replace(SPACE, "").replace(/[",]/g, "").replace(/-/g, "+").replace(/_/g, "/").replace(/=+$/, "");
  if (symbols.length % 4 === 1 || /[^A-Za-z0-9+/]/.test(symbols)) return null;
  return Uint8Array.from(atob(symbols), (it) => it.charCodeAt(0));
}

/** What a text spells: the form, and the bytes, of a JSON text its UTF-8; null if it spells none. It is one of JSON if it begins as an
 * object, or has to be one. */
export function spelled(text, isJson = false) {
  if (isJson || /^[\t\n\r ]*\{/.test(text)) return { form: "JSON", bytes: new TextEncoder().encode(text) };
  for (const [form, read] of [["hexadecimal", ofHexadecimal], ["base64", ofBase64]]) {
    const bytes = read(text);
    if (bytes !== null) return { form, bytes };
  }
  return null;
}

const DIGITS = Array.from({ length: 256 }, (_, it) => it.toString(16).padStart(2, "0"));

/** Bytes in hexadecimal. */
export const hexOf = (bytes, between = "") => Array.from(bytes, (it) => DIGITS[it]).join(between);

/** A text in which no character is invisible or turns the direction of others: each of those as its number. */
export const visible = (text) => text.replace(/[\p{C}\p{Zl}\p{Zp}]/gu, (it) => `\\u{${it.codePointAt(0).toString(16)}}`);
