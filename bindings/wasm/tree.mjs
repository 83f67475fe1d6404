// What is in bytes, as a tree: the JSON that proved code writes of them, beside the data items where they lie. The two have the same
// elements and members in the same order.
import { ARRAY, BYTES, INDEFINITE, MAP, NEGATIVE, SIMPLE, TAG, UNSIGNED } from "./puffgrit.mjs";
import { hexOf, visible } from "./spelling.mjs";

// So many items are looked at in one go.
const BATCH = 256;
// Of a longer byte string only the first bytes are written out.
const SHOWN = 256;

/** A node: what is at these bytes, `count` parts inside, which `parts` yields, and the JSON that it is made of. Without a place, its bytes
 * aren't in the input as they are. */
function nodeOf(label, text, place, json, parts = null, count = 0) {
  return { label: visible(label), text: visible(text), from: place?.from ?? null, end: place?.end ?? null, json, parts, count };
}

const bytesText = (bytes) => {
  const noun = bytes.length === 1 ? "byte" : "bytes", more = bytes.length > SHOWN ? ".." : "";
  return `${bytes.length} ${noun} ${hexOf(bytes.subarray(0, SHOWN))}${more}`;
};

/** The content of a string, its chunks joined. */
function contentOf(puffgrit, bytes, item) {
  if (item.number !== INDEFINITE) return bytes.subarray(item.content, item.end);
  const chunks = [...itemsInside(puffgrit, bytes, item)].map((it) => bytes.subarray(it.content, it.end));
  const joined = new Uint8Array(chunks.reduce((sum, it) => sum + it.length, 0));
  chunks.reduce((place, it) => (joined.set(it, place), place + it.length), 0);
  return joined;
}

/** The items inside an item, one after the other: elements, keys and values, chunks, or a tag's content. */
function* itemsInside(puffgrit, bytes, item) {
  let place = item.content;
  while (place < item.end) {
    const batch = puffgrit.itemsAt(bytes.subarray(0, item.end), place, BATCH);
    if (batch.length === 0) return; // the break
    yield* batch;
    place = batch.at(-1).end;
  }
}

/** What an integer says, with its name if the JSON has one. */
function integerText(item, json) {
  const number = String(item.kind === UNSIGNED ? item.number : -1n - item.number);
  return json.plain === number ? number : `${json.plain} (${number})`;
}

const isUuid = (json) => /^"[0-9a-f]{8}-[0-9a-f]{4}-[0-9a-f]{4}-[0-9a-f]{4}-[0-9a-f]{12}"$/.test(json.token);

/** What an item says that isn't divided. */
function leafText(puffgrit, bytes, item, json) {
  if (item.kind === UNSIGNED || item.kind === NEGATIVE) return integerText(item, json);
  if (item.kind === SIMPLE && item.number === 23n) return "undefined";
  if (item.kind !== BYTES) return item.kind === TAG || item.kind >= SIMPLE ? json.plain : json.token;
  const content = contentOf(puffgrit, bytes, item);
  return content.length === 16 && isUuid(json) ? json.plain : bytesText(content);
}

/** The parts of authenticator data, which begin at an offset of the input, or at none (WebAuthn Level 3, section 6.1). */
function* dataNodes(puffgrit, data, base, json) {
  const found = puffgrit.authParts(data);
  const at = (from, end) => (base === null ? null : { from: base + from, end: base + end });
  const moved = (node) => {
    const place = node.from === null || base === null ? { from: null, end: null } : { from: base + node.from, end: base + node.end };
    const { parts } = node;
    return { ...node, ...place, parts: parts && function* () { for (const it of parts()) yield moved(it); } };
  };
  const id = [found.credentialId, found.credentialId + found.credentialIdLen];
  const places = { rpIdHash: [0, 32], flags: [32, 33], signCount: [33, 37], aaguid: [found.aaguid, found.aaguid + 16], credentialId: id };
  const items = { credentialPublicKey: found.publicKey, extensions: found.extensions };
  for (const [name, part] of json.members) {
    if (items[name]) {
      yield moved({ ...treeAt(puffgrit, data, items[name], part), label: name });
    } else if (part.elements) {
      yield nodeOf(name, part.elements.map((it) => it.plain).join(", "), at(...places[name]), part);
    } else {
      const isPlain = !part.isString || isUuid(part);
      yield nodeOf(name, isPlain ? part.plain : bytesText(data.subarray(...places[name])), at(...places[name]), part);
    }
  }
}

/** Authenticator data as a node. */
export function dataNode(puffgrit, data, base, json, label = "", place = { from: base, end: base + data.length }) {
  return nodeOf(label, "authenticator data", place, json, () => dataNodes(puffgrit, data, base, json), json.members.length);
}

function* elementNodes(puffgrit, bytes, item, json) {
  let count = 0;
  for (const inner of itemsInside(puffgrit, bytes, item)) yield labelled(puffgrit, bytes, inner, json.elements[count], `[${count++}]`);
}

function* memberNodes(puffgrit, bytes, item, json) {
  const items = itemsInside(puffgrit, bytes, item);
  for (const [name, part] of json.members) {
    const key = items.next().value, value = items.next().value;
    yield { ...labelled(puffgrit, bytes, value, part, name), from: key.from };
  }
}

function labelled(puffgrit, bytes, item, json, label) {
  if (item.kind === ARRAY && json.elements) {
    return nodeOf(label, `array of ${json.elements.length}`, item, json, () => elementNodes(puffgrit, bytes, item, json), json.elements.length);
  }
  if (item.kind === MAP && json.members) {
    return nodeOf(label, `map of ${json.members.length}`, item, json, () => memberNodes(puffgrit, bytes, item, json), json.members.length);
  }
  if (item.kind === BYTES && json.members) {
    const isWhole = item.number !== INDEFINITE;
    return dataNode(puffgrit, contentOf(puffgrit, bytes, item), isWhole ? item.content : null, json, label, item);
  }
  return nodeOf(label, leafText(puffgrit, bytes, item, json), item, json);
}

/** The data item at an offset and what is inside, with the JSON of it. */
export function treeAt(puffgrit, bytes, offset, json) {
  return labelled(puffgrit, bytes, puffgrit.itemAt(bytes, offset), json, "");
}

/** A JSON text as a tree. `inside` gives a node for what is inside a member that is a string, or null. */
export function jsonTree(json, inside, label = "") {
  const { elements, members } = json;
  if (elements) {
    const parts = () => elements.map((it, k) => jsonTree(it, inside, `[${k}]`));
    return nodeOf(label, `array of ${elements.length}`, null, json, parts, elements.length);
  }
  if (members) {
    const parts = () => members.map(([name, it]) => jsonTree(it, inside, name));
    return nodeOf(label, `object of ${members.length}`, null, json, parts, members.length);
  }
  const inner = json.isString ? inside(label, json.plain) : null;
  return nodeOf(label, json.token, null, json, inner && (() => [inner]), inner ? 1 : 0);
}
