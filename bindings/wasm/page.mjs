// The inspector page: what is pasted, as a tree beside its bytes. Nothing is sent anywhere, and all that comes from the input is put into
// the page as text.
import { Dump, element } from "./dump.mjs";
import { faultText, inspect, refusals } from "./inspect.mjs";
import { KINDS, loadAll } from "./messages.mjs";
import { hearOutline, Outline } from "./outline.mjs";
import { spelled, visible } from "./spelling.mjs";
import { EXAMPLES, LISTS, MODULE } from "./lists.mjs";

// A longer input gets no link.
const LONGEST_LINK = 60000;

const at = (id) => document.getElementById(id);
const compiled = await WebAssembly.compile(await unpacked(MODULE));
let puffgrit = await loadAll(compiled), dump = null, outline = null;

/** The bytes that were compressed by gzip and written in base64. */
async function unpacked(text) {
  const packed = Uint8Array.from(atob(text), (it) => it.charCodeAt(0));
  return new Response(new Blob([packed]).stream().pipeThrough(new DecompressionStream("gzip"))).arrayBuffer();
}

/** A button that chooses a kind. */
function kindButton(kind) {
  const button = element("button", "kind", kind);
  button.addEventListener("click", () => {
    at("kind").value = kind;
    show();
  });
  return button;
}

/** Adds a line about the input; one about bytes lights them. */
function tell(line) {
  const { text, from = null, end = null } = typeof line === "string" ? { text: line } : line;
  const made = element("li", "", visible(text));
  if (from !== null) {
    made.addEventListener("mouseenter", () => dump?.light({ from, end }));
    made.addEventListener("mouseleave", () => dump?.light(null));
  }
  at("lines").append(made);
}

function tellKinds(kinds) {
  if (kinds.length === 0) return;
  const line = element("li", "", "kinds: ");
  line.append(...kinds.flatMap((it) => [kindButton(it), " "]));
  at("lines").append(line);
}

function tellFault({ kind, fault, explanation }) {
  at("fault").append(element("strong", "", `${kind} refuses it: ${faultText(fault)}`));
  if (explanation) at("fault").append(element("p", "", visible(explanation)));
}

/** Fills in which other kinds refuse the bytes, and why, when that is asked for. */
function tellRefusals({ bytes, kind }, isJson) {
  at("others").hidden = false;
  at("others").open = false;
  at("others").ontoggle = () => {
    if (!at("others").open || at("refusals").hasChildNodes()) return;
    for (const [other, fault] of refusals(puffgrit, LISTS, bytes, isJson).filter(([it]) => it !== kind)) {
      const line = element("li", "");
      line.append(kindButton(other), ` ${faultText(fault)}: `, element("bdi", "", visible(fault.explanation ?? "")));
      at("refusals").append(line);
    }
  };
}

function showTree(known) {
  outline = new Outline(at("tree"), known.tree, known.left, (node, isFocus) => {
    dump?.light(node === null || node.from === null ? null : { from: node.from, end: node.end }, isFocus);
  });
  if (known.isWay) outline.reach(known.isWay).element.classList.add("refused");
}

/** Shows what is known of an input. */
function showKnown(known, { form, bytes }) {
  const isJson = form === "JSON", { fault } = known;
  tell(`${form}, ${bytes.length} ${bytes.length === 1 ? "byte" : "bytes"}`);
  if (known.before) tell(known.before);
  tellKinds(known.kinds);
  if (fault) tellFault(known);
  known.lines.forEach(tell);
  if (!isJson && !fault && known.tree && puffgrit.itemLen(known.bytes) === known.bytes.length) {
    tell(puffgrit.isCanonical(known.bytes) ? "canonical" : "not in CTAP2's canonical form");
  }
  dump = isJson ? null : new Dump(at("bytes"), known.bytes, known.range);
  if (known.tree) showTree(known);
  tellRefusals(known, isJson);
}

/** Shows the input anew. */
function show() {
  const input = at("input").value, chosen = at("kind").value || null;
  for (const it of ["lines", "fault", "bytes", "tree", "refusals"]) at(it).replaceChildren();
  at("others").hidden = true;
  [dump, outline] = [null, null];
  const fragment = new URLSearchParams({ ...(chosen ? { kind: chosen } : {}), input }).toString();
  at("link").hidden = input === "" || fragment.length > LONGEST_LINK;
  at("link").href = `#${fragment}`;
  if (input.trim() === "") return;
  const isJsonKind = LISTS.ofJson.includes(chosen), given = spelled(input, isJsonKind), isJson = given?.form === "JSON";
  if (given === null) {
    tell("neither JSON nor hexadecimal nor base64");
    return;
  }
  if (isJson && chosen && !isJsonKind) {
    tell(`${chosen} is for bytes, and the input is JSON`);
    return;
  }
  try {
    showKnown(inspect(puffgrit, LISTS, given.bytes, isJson, chosen), given);
  } catch (error) {
    console.error(error);
    tell(error instanceof RangeError ? error.message : "puffgrit stopped");
    loadAll(compiled).then((it) => (puffgrit = it));
  }
}

/** Takes the input and the kind out of the fragment of the page's address. */
function takeLink() {
  const link = new URLSearchParams(location.hash.slice(1));
  if (!link.has("input")) return;
  at("input").value = link.get("input");
  at("kind").value = KINDS.includes(link.get("kind")) ? link.get("kind") : "";
  show();
}

async function takeFile(file) {
  const bytes = new Uint8Array(await file.arrayBuffer());
  const text = new TextDecoder().decode(bytes);
  at("input").value = /^[\x09\x0a\x0d\x20-\x7e]*$/.test(text) ? text : Array.from(bytes, (it) => it.toString(16).padStart(2, "0")).join("");
  show();
}

at("kind").append(new Option("the best one", ""), ...KINDS.map((it) => new Option(it, it)));
for (const [title, kind, input] of EXAMPLES) {
  const link = element("a", "", title);
  link.href = `#${new URLSearchParams({ ...(kind ? { kind } : {}), input })}`;
  at("examples").append(link, " ");
}
at("input").addEventListener("input", show);
at("kind").addEventListener("change", show);
at("input").addEventListener("dragover", (event) => event.preventDefault());
at("input").addEventListener("drop", (event) => {
  if (event.dataTransfer.files.length === 0) return;
  event.preventDefault();
  takeFile(event.dataTransfer.files[0]);
});
addEventListener("hashchange", takeLink);
hearOutline(at("tree"), () => outline);
takeLink();
show();
