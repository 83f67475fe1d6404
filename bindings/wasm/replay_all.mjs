// node replay_all.mjs MODULE REQUESTS ANSWERS: requests of bindings/c/looks.c to the calls that decode, and the answers of the library in
// C, which a module with all calls has to give too; and the same by the calls of messages.mjs.
import { readFileSync } from "node:fs";
import { DECODED, EXPLAINED, Fault, instantiate, KINDS, loadAll, placing, RULES } from "./messages.mjs";

const [module, requests, answers] = process.argv.slice(2).map((it) => readFileSync(it));
const calls = await instantiate(module), put = placing(calls), all = await loadAll(module);
const hexOf = (bytes) => Buffer.from(bytes).toString("hex");

/** The answer as bindings/c/looks.c prints it, with what it puts in the outputs before. */
function answer(name, kind, room, bytes) {
  const isExplain = name === "explain", outputs = Buffer.alloc(32);
  [55n, 77n, 7n, 9n].forEach((it, k) => outputs.writeBigUInt64LE(it, 8 * k));
  const [given, place, out] = put([bytes, outputs, new Uint8Array(room).fill(0xa5)], 0);
  calls.puffgrit_heap(out + room);
  const [from, count, read, more, to, most, len] = [given, bytes.length, place, place + 16, out, room, place + 8].map(BigInt);
  const status = calls[`puffgrit_${name}`](kind, from, count, read, ...(isExplain ? [more] : []), to, most, len) >>> 0;
  const memory = new Uint8Array(calls.memory.buffer), view = new DataView(calls.memory.buffer, place, 32);
  const words = [0, 8, 16, 24].map((k) => Number(view.getBigUint64(k, true)));
  const told = isExplain ? status >= 16 : status === 0, length = told ? Math.min(words[1], room) : 0;
  const changed = memory.subarray(out + length, out + room).some((it) => it !== 0xa5) ? "changed" : "";
  const shown = isExplain ? [words[0], words[2], words[3], words[1]] : words.slice(0, 2);
  return { status, words, text: [status, ...shown, hexOf(memory.subarray(out, out + length)) + changed].join(" ") };
}

/** Returns whether messages.mjs says the same. */
function isSame(name, kind, bytes, { status, words }) {
  const word = KINDS[(kind % 256) - 1], kinds = { rewrite: KINDS, json: DECODED, explain: EXPLAINED, values: KINDS }[name];
  const flags = Math.floor(kind / 256), asked = { canonical: (flags & 1) !== 0, fourLevels: (flags & 2) !== 0, allBytes: (flags & 4) !== 0 };
  if (flags > 7) return status === 3;
  try {
    const made = { rewrite: all.rewriteFront, json: all.decodeFront, explain: all.explain, values: all.valuesFront }[name](word, bytes, asked);
    if (name === "values" && hexOf(all.encode(word, made.value)) !== hexOf(all.rewrite(word, bytes))) return false;
    if (name !== "explain") return status <= 1 && made.read === words[0];
    if (made === null) return status === 0;
    return status >= 16 && made.offset === words[2] && made.length === words[3] && made.explanation.length === words[1];
  } catch (error) {
    if (error instanceof Fault) {
      const second = error.rule === null ? error.member : RULES.indexOf(error.rule) + 1;
      return status >= 16 && (second === null || second === status >> 8);
    }
    return error instanceof RangeError && !kinds.includes(word) && status === 3;
  }
}

const asked = requests.toString().trimEnd().split("\n");
const wanted = answers.toString().replace(/\n$/, "").split("\n");
const wrong = asked.filter((line, k) => {
  const [name, kind, room, hex] = line.split(" ");
  const bytes = hex === "-" ? new Uint8Array() : new Uint8Array(Buffer.from(hex, "hex"));
  const found = answer(name, Number(kind), Number(room), bytes);
  return found.text !== wanted[k] || !isSame(name, Number(kind), bytes, found);
});
for (const line of wrong.slice(0, 3)) console.error(line.slice(0, 200));
console.log(`${asked.length} requests, ${wrong.length} answered otherwise`);
process.exit(wrong.length || asked.length !== wanted.length ? 1 : 0);
