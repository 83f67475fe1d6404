// node [--experimental-wasm-memory64] test.mjs MODULE: a module over items whose answers come from RFC 8949 and WebAuthn Level 3.
import assert from "node:assert/strict";
import { readFileSync } from "node:fs";
import { partsOf } from "./json_text.mjs";
import { INDEFINITE, load } from "./puffgrit.mjs";
import { hexOf, spelled, visible } from "./spelling.mjs";
import { treeAt } from "./tree.mjs";

const calls = await load(readFileSync(process.argv[2]));
const bytesOf = (text) => spelled(text).bytes;

// the item's length, and whether the bytes are canonical (RFC 8949, section 3; CTAP 2.1, section 8)
const items = [
  ["", 0, false], ["00", 1, true], ["1800", 2, false], ["9f1801ff", 4, false], ["8101", 2, true], ["810100", 2, false],
  ["a2616101616202", 7, true], ["a2616201616102", 7, false], ["62c328", 0, false], ["5bffffffffffffffff00", 0, false], ["1c", 0, false],
  ["ff", 0, false], ["bf00ff", 0, false],
];
for (const [hex, len, canonical] of items) {
  assert.equal(calls.itemLen(bytesOf(hex)), len, hex);
  assert.equal(calls.isCanonical(bytesOf(hex)), canonical, hex);
}
for (const levels of [256, 257]) {
  const nested = new Uint8Array(levels + 1).fill(0x81);
  nested[levels] = 0;
  assert.equal(calls.itemLen(nested), levels === 256 ? 257 : 0);
  assert.equal(calls.isCanonical(nested), levels === 256);
}
const large = new Uint8Array(1_000_005);
large.set([0x5a, 0x00, 0x0f, 0x42, 0x40]);
assert.equal(calls.itemLen(large), 1_000_005);

// an item, and members
const map = bytesOf("00a2 3863 9f01ff 6161 5f4101420203ff");
assert.deepEqual(calls.itemAt(map, 1), { kind: 5, number: 2n, from: 1, content: 2, end: 16 });
assert.deepEqual(calls.member(map, 1, -100), { kind: 4, number: INDEFINITE, from: 4, content: 5, end: 7 });
assert.deepEqual(calls.member(map, 1, "a"), { kind: 2, number: INDEFINITE, from: 9, content: 10, end: 16 });
assert.equal(calls.member(map, 1, 99), null);
assert.equal(calls.member(map, 0, 99), null);
assert.equal(calls.itemAt(map, 15), null);
assert.equal(calls.itemAt(map, 2 ** 53 - 1), null);
assert.deepEqual(calls.itemsAt(map, 2, 3).map((it) => [it.from, it.end]), [[2, 4], [4, 7], [7, 9]]);
assert.deepEqual(calls.itemsAt(map, 5, 9).map((it) => [it.from, it.end]), [[5, 6]]);
assert.deepEqual(calls.itemsAt(map, 2, 0), []);
assert.equal(calls.member(bytesOf("a1 3b7fffffffffffffff 05"), 0, -(2n ** 63n)).number, 5n);
assert.equal(calls.itemLen(Buffer.from(map.subarray(1))), 15);

// arguments of another type, and numbers that are out of range; a string that is no text of CBOR
const keyed = bytesOf("a2 01 05 63 efbfbd 06");
const withBytes = [calls.itemLen, calls.isCanonical, (it) => calls.itemAt(it, 0), (it) => calls.itemsAt(it, 0, 1), (it) => calls.member(it, 0, 1), (it) => calls.member(it, 0, "a"), calls.authParts];
const noBytes = ["a10105", [0xa1, 1, 5], keyed.buffer, new Uint16Array(3), new DataView(keyed.buffer), { length: 3 }, 3, null, undefined];
withBytes.forEach((call) => noBytes.forEach((it) => assert.throws(() => call(it), TypeError)));
const withOffset = [(it) => calls.itemAt(keyed, it), (it) => calls.itemsAt(keyed, it, 1), (it) => calls.itemsAt(keyed, 0, it), (it) => calls.member(keyed, it, 1), (it) => calls.member(keyed, it, "a")];
for (const call of withOffset) {
  for (const offset of ["0", 0n, false, [], null, undefined]) assert.throws(() => call(offset), TypeError, String(offset));
  for (const offset of [-1, 0.5, NaN, Infinity, 2 ** 53, 2 ** 64]) assert.throws(() => call(offset), RangeError, String(offset));
}
for (const key of [true, [1], {}, null, undefined]) assert.throws(() => calls.member(keyed, 0, key), TypeError, String(key));
for (const key of [2n ** 64n + 1n, 2n ** 63n, -(2n ** 63n) - 1n, 2 ** 53, -(2 ** 53), 1.5, NaN, Infinity]) {
  assert.throws(() => calls.member(keyed, 0, key), RangeError, String(key));
}
assert.equal(calls.member(keyed, 0, 1).number, 5n);
assert.equal(calls.member(keyed, 0, "\ufffd").number, 6n);
assert.equal(calls.member(keyed, 0, "\ud800"), null);

// authenticator data: an assertion's, 37 bytes; and with AT, an id of two bytes, an empty key, and ED, extensions {"a": 1}
const assertion = bytesOf("11".repeat(32) + "05" + "00000102");
const signIn = { type: "webauthn.get", challenge: new Uint8Array([0xfb]), origin: "https://example.org" };
const signedIn = new TextEncoder().encode('{"type":"webauthn.get","challenge":"-w","origin":"https://example.org","crossOrigin":false}');
assert.equal(calls.isClientData(signedIn, signIn), true);
assert.equal(calls.isClientData(signedIn, { ...signIn, topOrigin: "https://example.com" }), false);
assert.throws(() => calls.isClientData(signedIn, { ...signIn, origin: 1 }), TypeError);

assert.deepEqual(calls.authParts(assertion), {
  flags: 5, counter: 258, aaguid: 0, credentialId: 0, credentialIdLen: 0, publicKey: 0, extensions: 0, end: 37,
});
const registration = bytesOf("11".repeat(32) + "c1" + "00000001" + "22".repeat(16) + "0002" + "abcd" + "a0" + "a1616101");
assert.deepEqual(calls.authParts(registration), {
  flags: 0xc1, counter: 1, aaguid: 37, credentialId: 55, credentialIdLen: 2, publicKey: 57, extensions: 58, end: 62,
});
assert.equal(calls.authParts(registration.subarray(0, 61)), null);

// JSON texts as they are written: members in their order, also repeated ones, numbers of any length and escapes
const written = partsOf(' {"b":[1e400,"\\u202e\\"]",18446744073709551615],"1":null,"b":{"":[]}} ');
assert.deepEqual(written.members.map(([name]) => name), ["b", "1", "b"]);
assert.deepEqual(written.member("b").elements.map((it) => it.token), ["1e400", '"\\u202e\\"]"', "18446744073709551615"]);
assert.deepEqual(written.members[2][1].members[0][1].elements, []);
assert.equal(partsOf("\"a\"").plain, "a");

// the page's tree: names, texts, and where each part is
const shown = (it) => [...it.parts()].map(({ label, text, from, end }) => [label, text, from, end]);
const info = treeAt(calls, bytesOf("a2 01 82 68 4649444f5f325f30 05 05 1904b0"), 0, partsOf('{"versions":["FIDO_2_0",5],"maxMsgSize":1200}'));
assert.deepEqual(shown(info), [["versions", "array of 2", 1, 13], ["maxMsgSize", "1200", 13, 17]]);
assert.deepEqual(shown([...info.parts()][0]), [["[0]", '"FIDO_2_0"', 3, 12], ["[1]", "5", 12, 13]]);
const dataText = `{"rpIdHash":"ERE","flags":["UP","AT","ED"],"signCount":1,"aaguid":"22222222-2222-2222-2222-222222222222","credentialId":"q80",
  "credentialPublicKey":{},"extensions":{"a":1}}`;
const response = new Uint8Array([0xa1, 0x02, 0x58, registration.length, ...registration]);
const [opened] = treeAt(calls, response, 0, partsOf(`{"authData":${dataText}}`)).parts();
assert.deepEqual(
  shown(opened).map(([label, text, from, end]) => [label, text, from - 4, end - 4]),
  [["rpIdHash", `32 bytes ${"11".repeat(32)}`, 0, 32], ["flags", "UP, AT, ED", 32, 33], ["signCount", "1", 33, 37],
   ["aaguid", "22222222-2222-2222-2222-222222222222", 37, 53], ["credentialId", "2 bytes abcd", 55, 57], ["credentialPublicKey", "map of 0", 57, 58],
   ["extensions", "map of 1", 58, 62]],
);
assert.deepEqual(shown([...opened.parts()][6]), [["a", "1", 63, 66]]);
const leaves = [
  ["26", "ES256", "ES256 (-7)"], ["f7", null, "undefined"], ["f97e00", "NaN", "NaN"], ["7f61616162ff", "ab", '"ab"'], ["c001", "0(1)", "0(1)"],
  ["5f4101420203ff", "AQID", "3 bytes 010203"], ["50" + "22".repeat(16), "IiIiIiIiIiIiIiIiIiIiIg", `16 bytes ${"22".repeat(16)}`],
];
for (const [hex, value, text] of leaves) assert.equal(treeAt(calls, bytesOf(hex), 0, partsOf(JSON.stringify(value))).text, text, hex);
const chunked = treeAt(calls, bytesOf("5f" + "5825" + hexOf(assertion) + "ff"), 0, partsOf('{"rpIdHash":"ERE","flags":["UP"],"signCount":258}'));
assert.deepEqual([chunked.from, chunked.end, ...shown(chunked)[2]], [0, 41, "signCount", "258", null, null]);
const many = treeAt(calls, new Uint8Array([0x99, 0x03, 0xe8, ...Array(1000).fill(1)]), 0, partsOf(`[${Array(1000).fill(1)}]`));
assert.deepEqual(shown(many).at(-1), ["[999]", "1", 1002, 1003]);

// hexadecimal, dumps by xxd and hexdump -C, base64 and JSON; characters that are invisible or turn others around
const spellings = [
  ["0xA1: 01,02\n", "hexadecimal", "a10102"], ["h'a101'", "hexadecimal", "a101"], ["oQEC-_8=", "base64", "a10102fbff"], ['"oQ",', "base64", "a1"],
  [' {"a":1}', "JSON", "207b2261223a317d"],
  ["00000000: a163 6162 6301                           .cabc.\n00000006: 05       .\n", "hexadecimal", "a16361626301" + "05"],
  ["00000000  a1 01 05 61  62                                   |...ab|\n00000005\n", "hexadecimal", "a101056162"],
];
for (const [text, form, hex] of spellings) assert.deepEqual([spelled(text).form, hexOf(spelled(text).bytes)], [form, hex], text);
for (const text of ["?", "a1 0$", "00000000  a1 01  |..|\n*\n00000020\n"]) assert.equal(spelled(text), null, text);
assert.equal(visible("a\u202e\u2066\u061c\u0007\u00adb\ud800é"), "a\\u{202e}\\u{2066}\\u{61c}\\u{7}\\u{ad}b\\u{d800}é");
console.log("all as expected");
