// Bytes in lines of hexadecimal, of which parts are lit. Of many lines only the first are made, and those around what is lit.
import { hexOf } from "./spelling.mjs";

const WIDTH = 16, FIRST = 128, MORE = 1024, AROUND = 8;

/** Makes an element with this text, which never is HTML. */
export function element(name, className, text = "") {
  const made = document.createElement(name);
  made.className = className;
  made.textContent = text;
  return made;
}

export class Dump {
  /** Shows bytes in this element. `refused` is the range of what is refused in them, or null. */
  constructor(root, bytes, refused) {
    Object.assign(this, { root, bytes, refused, lit: null, limit: FIRST, around: null, lines: new Map() });
    this.draw();
    if (refused) this.reach(refused);
  }

  /** The numbers of the lines that are shown, but for those around what is lit. */
  get count() {
    return Math.min(this.limit, Math.ceil(this.bytes.length / WIDTH));
  }

  draw() {
    this.root.replaceChildren();
    this.lines.clear();
    this.addLines(0, this.count);
    const left = Math.ceil(this.bytes.length / WIDTH) - this.count;
    if (left <= 0) return;
    const more = element("button", "more", `${left} more lines`);
    more.addEventListener("click", () => {
      this.limit += MORE;
      this.draw();
    });
    this.root.append(more);
    if (this.around) this.addLines(Math.max(this.around[0], this.count), this.around[1]);
  }

  addLines(from, end) {
    for (let k = from; k < end; k++) {
      const line = element("div", "bytes");
      this.lines.set(k, line);
      this.fill(k);
      this.root.append(line);
    }
  }

  /** Writes a line anew: its offset, and its bytes, those of a range that is lit in an element of their own. */
  fill(number) {
    const line = this.lines.get(number), first = number * WIDTH, end = Math.min(first + WIDTH, this.bytes.length);
    line.replaceChildren(element("span", "offset", first.toString(16).padStart(4, "0")));
    const isIn = (range, k) => range !== null && range.from <= k && k < range.end;
    const classAt = (k) => ["refused", "lit"].filter((name) => isIn(this[name], k)).join(" ");
    for (let k = first; k < end; ) {
      const name = classAt(k);
      let after = k + 1;
      while (after < end && classAt(after) === name) after++;
      line.append(element(name ? "mark" : "span", name, hexOf(this.bytes.subarray(k, after), " ")), " ");
      k = after;
    }
  }

  /** Makes the line of a range's first byte, if it isn't shown, and those around. */
  reach({ from, end }) {
    const last = Math.ceil(this.bytes.length / WIDTH), first = Math.floor(Math.min(from, this.bytes.length - 1) / WIDTH);
    if (this.lines.has(first) || first < 0) return;
    const after = Math.min(Math.ceil(end / WIDTH), first + 2 * AROUND);
    this.around = [Math.max(0, first - AROUND), Math.min(last, after + AROUND)];
    this.draw();
  }

  /** Lights a range, or nothing. A range that `isReached` is made if it isn't shown, and scrolled to. */
  light(range, isReached = false) {
    const before = this.lit;
    this.lit = range;
    if (range && isReached) this.reach(range);
    const isIn = (number, it) => it && it.from < (number + 1) * WIDTH && it.end > number * WIDTH;
    for (const number of this.lines.keys()) if (isIn(number, before) || isIn(number, range)) this.fill(number);
    if (range && isReached) this.lines.get(Math.floor(range.from / WIDTH))?.scrollIntoView({ block: "nearest" });
  }
}
