// What the inspector page tells: the kinds that accept an input, the best first, what is in it as one of them, or where and why it is
// refused. All of that is what proved code answers (messages.mjs); which kind is the best, and what is left out of a message, are found
// here, as passkey_inspect does. LISTS are the sources' tables, as tools/page.py writes them.
import { BYTES, DECODED, EXPLAINED, Fault, INDEFINITE, MAP, TEXT } from "./messages.mjs";
import { partsOf } from "./json_text.mjs";
import { ofBase64 } from "./spelling.mjs";
import { dataNode, jsonTree, treeAt } from "./tree.mjs";

/** The fault's name, with the number of its member. */
export const faultText = (fault) => (fault.member === null ? fault.fault : `${fault.fault}(${fault.member})`);

const isNumber = (name) => /^-?\d+$/.test(name);

/** What a call gives, or the fault that it throws. */
function orFault(call) {
  try {
    return call();
  } catch (error) {
    if (error instanceof Fault) return error;
    throw error;
  }
}

/** What the bytes are as a kind: their JSON, of kinds that have none that of the data item, and how many were read; or the fault. */
export function examine(puffgrit, kind, bytes) {
  return orFault(() => {
    if (DECODED.includes(kind)) {
      const { text, read } = puffgrit.jsonFront(kind, bytes);
      return { kind, read, json: partsOf(text) };
    }
    const { read } = puffgrit.rewriteFront(kind, bytes);
    return { kind, read, json: kind.startsWith("att-") ? partsOf(puffgrit.jsonFront("cbor", bytes).text) : null };
  });
}

/** The keys of the map that begins the bytes. */
function keysOf(puffgrit, bytes, count) {
  const map = puffgrit.itemAt(bytes, 0);
  return puffgrit.itemsAt(bytes.subarray(0, map.end), map.content, 2 * count).filter((_, k) => k % 2 === 0);
}

/** How well a kind fits: how many members it names, less those that it doesn't. Of what is no message it is 0. */
function scoreOf(puffgrit, lists, { kind, json }, bytes) {
  if (kind === "cbor" || !json?.members) return 0;
  if (kind === "auth") return json.members.length;
  const keys = keysOf(puffgrit, bytes, json.members.length), names = Object.values(lists.members[kind] ?? {});
  const isNamed = ([name], k) => (keys[k].kind === TEXT ? names.includes(name) : !isNumber(name));
  return json.members.reduce((sum, it, k) => sum + (isNamed(it, k) ? 1 : -1), 0);
}

/** What the kinds that accept all of the bytes, and know more than half of the members, make of them, the best first. */
function found(puffgrit, lists, bytes, kinds) {
  const matches = [];
  for (const kind of kinds) {
    const made = examine(puffgrit, kind, bytes);
    if (made instanceof Fault || made.read < bytes.length) continue;
    const score = scoreOf(puffgrit, lists, made, bytes);
    if (kind !== "cbor" && made.json.members?.length > 0 && score <= 0) continue;
    if (matches.length === 0 || matches[0].score < score) matches.unshift({ ...made, score });
    else matches.push({ ...made, score });
  }
  return matches;
}

/** What stands before a message, as text, how many bytes that are, and the kind that it says (CTAP 2.1, section 8). */
function frameOf(lists, bytes) {
  const isBody = bytes.length === 1 || bytes[1] >> 5 === MAP;
  const [first] = bytes, hex = first?.toString(16).padStart(2, "0");
  if (first === 0 && isBody) return { text: "status byte: 00 (CTAP2_OK)", length: 1, kind: null };
  const command = lists.commands[first];
  if (command && isBody) return { text: `command byte: ${command.name}`, length: 1, kind: command.kind };
  const status = bytes.length === 1 ? lists.statuses[first] : undefined;
  return { text: status ? `status byte: ${hex} (${status})` : "", length: 0, kind: null };
}

/** The kind of which the members of a JSON text tell; null if none does. */
function toldKind(json) {
  const response = json.member("response"), options = json.member("publicKey");
  if (response) return response.member("attestationObject") ? "created" : "authenticated";
  return options ? (options.member("rp") ? "creation" : "request") : null;
}

// ---- what is known beside the members

/** A part as text, which is the same for the same parts. */
function textOf({ token, elements, members }) {
  return token ?? (elements ? `[${elements.map(textOf)}]` : `{${members.map(([name, it]) => `${name}:${textOf(it)}`)}}`);
}

/** Whether an element may be the one that the encoding has in its place: they are the same, or have a member that is the same. */
function isLike(json, kept) {
  if (!json.members || !kept.members) return textOf(json) === textOf(kept);
  return json.members.some(([name, it]) => kept.member(name) !== null && textOf(it) === textOf(kept.member(name)));
}

/** Yields what of a message isn't in its encoding, by its path, and the part. */
function* leftOut(json, kept, path = "") {
  if (json.members && kept.members) {
    const others = new Map(kept.members);
    for (const [name, it] of json.members) {
      const inner = path ? `${path}.${name}` : name;
      if (others.has(name)) yield* leftOut(it, others.get(name), inner);
      else yield [inner, it];
    }
  } else if (json.elements && kept.elements) {
    let k = 0;
    for (const [index, it] of json.elements.entries()) {
      const inner = `${path}[${index}]`, other = kept.elements[k];
      const isForced = json.elements.length - index === kept.elements.length - k;
      if (other && (isForced || isLike(it, other))) {
        yield* leftOut(it, other, inner);
        k++;
      } else {
        yield [inner, it];
      }
    }
  } else if (textOf(json) !== textOf(kept)) {
    yield [path, json];
  }
}

/** What differs in a message that is encoded again: lines, and the parts that are left out. */
function encodedAgain(puffgrit, { kind, json, read }, bytes) {
  const again = puffgrit.rewrite(kind, bytes);
  if (again.length === read && again.every((it, k) => it === bytes[k])) return { lines: [], left: [] };
  const lines = ["encoded again it differs"];
  if (!DECODED.includes(kind) || kind === "cbor") return { lines, left: [] };
  const left = [...leftOut(json, partsOf(puffgrit.jsonFront(kind, again).text))];
  return { lines: [...lines, ...left.map(([path]) => `left out: ${path}`)], left: left.map(([, part]) => part) };
}

/** A line with the members of an authenticatorGetInfo response that `info-23` knows and `info` doesn't. */
function newerMembers(puffgrit, { kind, json }, bytes) {
  if (kind !== "info") return [];
  const newer = orFault(() => partsOf(puffgrit.jsonFront("info-23", bytes).text));
  if (newer instanceof Fault) return [];
  const names = json.members.map(([name]) => name).filter((name, k) => isNumber(name) && name !== newer.members[k][0]);
  return names.length ? [`info-23 has members that info hasn't: ${names.join(", ")}`] : [];
}

/** A line about an item that is kept undecoded, if it is refused as the kind; `base` is where the bytes begin in the input. */
function undecodedLine(puffgrit, kind, bytes, base, path) {
  const fault = puffgrit.explain(kind, bytes);
  if (fault === null) return [];
  const text = movedText(fault, base);
  const joint = text[0] === "[" ? "" : /^[\w-]+[.[:]/.test(text) ? "." : ": ";
  return [{ text: `undecoded: ${path}${joint}${text}`, ...rangeOf(fault, base) }];
}

/** Lines about what is refused in a TPM's structures of the statement at an offset. */
function structureLines(puffgrit, bytes, offset, path) {
  return [["pubArea", "tpm-pub-area"], ["certInfo", "tpm-cert-info"]].flatMap(([name, kind]) => {
    const item = puffgrit.member(bytes, offset, name);
    return item ? undecodedLine(puffgrit, kind, bytes.subarray(item.content, item.end), item.content, path + name) : [];
  });
}

/** Lines about what is refused in what a response or a statement keeps undecoded (WebAuthn Level 3, section 8). */
function undecoded(puffgrit, { kind, json }, bytes) {
  if (kind === "att-tpm") return structureLines(puffgrit, bytes, 0, "");
  const format = kind === "mc-response" ? `att-${json.member("fmt")?.plain}` : null;
  const statement = EXPLAINED.includes(format) && (puffgrit.member(bytes, 0, 3) ?? puffgrit.member(bytes, 0, "attStmt"));
  if (!statement) return [];
  const lines = undecodedLine(puffgrit, format, bytes.subarray(statement.from, statement.end), statement.from, "attStmt");
  return lines.length || format !== "att-tpm" ? lines : structureLines(puffgrit, bytes, statement.from, "attStmt.");
}

const WITHIN = new Map([["attestationObject", "mc-response"], ["authenticatorData", "auth"], ["clientDataJSON", "client-data"]]);

/** What is inside a credential's member that is bytes in base64url, as a node; null if the member's kind refuses them. */
function within(puffgrit, name, text) {
  const kind = WITHIN.get(name), bytes = kind ? ofBase64(text) : null;
  if (!bytes) return null;
  if (kind === "client-data") {
    const json = orFault(() => recordOf(puffgrit, kind, bytes));
    return json instanceof Fault ? null : jsonTree(json, () => null, kind);
  }
  const made = examine(puffgrit, kind, bytes);
  return made instanceof Fault ? null : withoutPlaces(treeOf(puffgrit, made, bytes));
}

/** A node whose parts are what a function makes of them. */
const mapped = (node, change) => ({ ...node, parts: node.parts && function* () { for (const it of node.parts()) yield change(it); } });

const withoutPlaces = (node) => mapped({ ...node, from: null, end: null }, withoutPlaces);

const recordOf = (puffgrit, kind, bytes) => partsOf(new TextDecoder().decode(puffgrit.rewrite(kind, bytes)));

/** The tree of bytes as a kind that accepts them; null for structures of a TPM. */
function treeOf(puffgrit, { kind, json }, bytes) {
  if (json === null) return null;
  return kind === "auth" ? dataNode(puffgrit, bytes, 0, json, kind) : { ...treeAt(puffgrit, bytes, 0, json), label: kind };
}

/** A message's data item as a tree, with the names of its own members, if one begins the bytes; for bytes that are refused. */
function plainTree(puffgrit, lists, kind, bytes) {
  const made = examine(puffgrit, "cbor", bytes), names = lists.members[kind] ?? {};
  if (made instanceof Fault) return null;
  const named = (it) => (Object.hasOwn(names, it.label) ? { ...it, label: `${names[it.label]} (${it.label})` } : it);
  return mapped({ ...treeOf(puffgrit, made, bytes), label: kind }, named);
}

/** What is known of an input at first: its kind; the bytes that are looked at; what stands before them; the kinds that
 * accept it, the best first; lines about it; the JSON of what is left out; a tree, or null; the fault, or null, with its explanation and the
 * range of what is refused; and whether a node is on the way to that, by the node and by how many nodes of the way are known. */
const NOTHING = {
  kind: "", bytes: null, before: "", kinds: [], lines: [], left: [], tree: null, fault: null, explanation: null, range: null, isWay: null,
};

const holds = (node, { from, end }) => node.from !== null && node.from <= from && end <= node.end && from < node.end;

/** The way to what an explanation is about, as the tree's labels: of `response.transports[1]: ..` three. */
function labelsOf(explanation) {
  const labels = [], step = /\.?([^.[\]:"]+)|(\[\d+\])|\["((?:[^"\\]|\\.)*)"\]/y;
  for (let found = step.exec(explanation); found; found = step.exec(explanation)) labels.push(found[1] ?? found[2] ?? found[3]);
  return labels;
}

const rangeOf = ({ offset, length }, base) => ({ from: offset + base, end: offset + base + length });

const movedText = ({ explanation }, base) => explanation.replace(/offset (\d+)/, (_, offset) => `offset ${Number(offset) + base}`);

/** Why bytes are refused as a kind, and where: of a member that has to be authenticator data what in them is, and of one that is missing
 * its name, too. */
function refusedIn(puffgrit, lists, kind, bytes, fault) {
  const item = fault.explanation?.includes(": a byte string with authenticator data is wanted") ? puffgrit.itemAt(bytes, fault.offset) : null;
  const inner = item?.kind === BYTES && item.number !== INDEFINITE ? puffgrit.explain("auth", bytes.subarray(item.content, item.end)) : null;
  if (inner) return { explanation: fault.explanation.split(":")[0] + "." + movedText(inner, item.content), range: rangeOf(inner, item.content) };
  const name = fault.explanation?.startsWith(`member ${fault.member} is missing`) ? lists.members[kind]?.[fault.member] : null;
  return { explanation: fault.explanation + (name ? `: ${name}` : ""), range: rangeOf(fault, 0) };
}

/** Returns what is known of bytes as the kind that was chosen, or as the best one. */
function inspectBytes(puffgrit, lists, bytes, chosen) {
  const frame = chosen ? { text: "", length: 0, kind: null } : frameOf(lists, bytes);
  const body = bytes.subarray(frame.length), kinds = frame.kind ? [frame.kind] : lists.found;
  const matches = chosen ? [] : found(puffgrit, lists, body, kinds);
  const kind = chosen ?? matches[0]?.kind ?? frame.kind ?? "cbor";
  const known = { ...NOTHING, kind, bytes: body, before: frame.text, kinds: matches.map((it) => it.kind) };
  if (frame.length && body.length === 0) return known;
  const made = matches[0] ?? examine(puffgrit, kind, body);
  if (made instanceof Fault) {
    const refused = refusedIn(puffgrit, lists, kind, body, made);
    const tree = plainTree(puffgrit, lists, kind, body);
    return { ...known, fault: made, ...refused, tree, isWay: (node) => holds(node, refused.range) };
  }
  const again = encodedAgain(puffgrit, made, body), trailing = body.length - made.read;
  const lines = [...newerMembers(puffgrit, made, body), ...again.lines, ...undecoded(puffgrit, made, body)];
  if (trailing) lines.push({ text: `trailing bytes: ${trailing}`, from: made.read, end: body.length });
  return { ...known, lines, left: again.left, tree: treeOf(puffgrit, made, body) };
}

/** Returns what is known of a JSON text. */
function inspectJson(puffgrit, lists, bytes, chosen) {
  const accepts = (kind) => !(orFault(() => puffgrit.rewrite(kind, bytes)) instanceof Fault);
  const isJson = puffgrit.explain("client-data", bytes)?.fault !== "BadJson", kinds = chosen ? [] : lists.foundJson.filter(accepts);
  const kind = chosen ?? (isJson ? toldKind(partsOf(new TextDecoder().decode(bytes))) : null) ?? kinds[0] ?? "client-data";
  const known = { ...NOTHING, kind, bytes, kinds };
  const json = orFault(() => recordOf(puffgrit, kind, bytes));
  if (json instanceof Fault) {
    const labels = isJson ? labelsOf(json.explanation ?? "") : [];
    const tree = isJson ? jsonTree(partsOf(new TextDecoder().decode(bytes)), () => null, kind) : null;
    return { ...known, fault: json, explanation: json.explanation, tree, isWay: (node, level) => node.label === labels[level] };
  }
  return { ...known, tree: jsonTree(json, (name, text) => within(puffgrit, name, text), kind) };
}

/** Returns what is known of an input: its bytes, whether they are a JSON text, and the kind that was chosen, or null. */
export function inspect(puffgrit, lists, bytes, isJson, chosen) {
  return isJson ? inspectJson(puffgrit, lists, bytes, chosen) : inspectBytes(puffgrit, lists, bytes, chosen);
}

/** The kinds that refuse bytes, with the faults, those first that were read furthest. */
export function refusals(puffgrit, lists, bytes, isJson) {
  const kinds = isJson ? lists.foundJson : lists.found;
  const all = kinds.map((kind) => [kind, puffgrit.explain(kind, bytes)]).filter(([, fault]) => fault !== null);
  return all.sort(([, one], [, other]) => other.offset - one.offset);
}
