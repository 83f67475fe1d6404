// node [--experimental-wasm-memory64] replay.mjs MODULE REQUESTS ANSWERS: the requests `all` of bindings/c/looks.c, and the answers of the
// library in C, which a module has to give too.
import { readFileSync } from "node:fs";
import { load } from "./puffgrit.mjs";

const [module, requests, answers] = process.argv.slice(2).map((it) => readFileSync(it));
const calls = await load(module);
const KEYS = [1n, 2n, 3n, -1n, 24n, -(2n ** 63n), 2n ** 63n - 1n];
// The last one of C isn't UTF-8, which no name of JavaScript is.
const NAMES = ["id", "alg", "fmt"];

const item = (it) => (it ? `1 ${it.number} ${it.from} ${it.content} ${it.end} ${it.kind}` : "0 1 2 3 4 5");

function answer(offset, bytes) {
  const parts = calls.authParts(bytes);
  const found = [calls.itemLen(bytes), calls.isCanonical(bytes) ? 1 : 0, item(calls.itemAt(bytes, offset))];
  KEYS.forEach((key, k) => found.push(item(calls.member(bytes, k % 2 ? offset : 0, key))));
  NAMES.forEach((name, k) => found.push(item(calls.member(bytes, k % 2 ? offset : 0, name))));
  found.push(item(null));
  found.push(parts ? `1 ${parts.aaguid} ${parts.credentialId} ${parts.credentialIdLen} ${parts.publicKey} ${parts.extensions} ${parts.end} ${parts.counter} ${parts.flags}` : "0 1 2 3 4 5 6 7 8");
  return found.join(" ");
}

const asked = requests.toString().trimEnd().split("\n");
const wanted = answers.toString().trimEnd().split("\n");
const wrong = asked.filter((line, k) => {
  const [, offset, hex] = line.split(" ");
  return answer(Number(offset), hex === "-" ? new Uint8Array() : new Uint8Array(Buffer.from(hex, "hex"))) !== wanted[k];
});
for (const line of wrong.slice(0, 3)) console.error(line.slice(0, 200));
console.log(`${asked.length} requests, ${wrong.length} answered otherwise`);
process.exit(wrong.length || asked.length !== wanted.length ? 1 : 0);
