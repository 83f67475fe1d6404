// A tree as lines that open and close, by the pointer and by the keyboard (WAI-ARIA, "Tree View Pattern"). What is inside a line is made
// when it opens, so many lines at a time.
import { element } from "./dump.mjs";

// How many lines are made at once, at first, and to come to what is refused; and the deepest level that is indented.
const AT_ONCE = 100, AT_FIRST = 400, REACHED = 2000, DEEPEST = 12;

/** The element of a line, at a level of the tree, the outermost of which is 1. */
function lineElement(className, text, level) {
  const made = element("div", className, text);
  made.style.setProperty("--level", Math.min(level - 1, DEEPEST));
  for (const [name, it] of Object.entries({ role: "treeitem", "aria-level": level, tabindex: -1 })) made.setAttribute(name, it);
  return made;
}

/** A line that makes more lines of those inside another one. */
class More {
  node = null;

  constructor(above) {
    const { node, inside, level, outline } = above;
    this.above = above;
    this.element = lineElement("line more", `${Math.min(AT_ONCE, node.count - inside.length)} more of ${node.count}`, level + 1);
    outline.lines.set(this.element, this);
  }

  toggle() {
    this.above.addMore(AT_ONCE);
  }
}

/** A line of a node, with those inside that were made. */
class Line {
  constructor(outline, node, above) {
    Object.assign(this, { outline, node, above, level: above ? above.level + 1 : 1, left: null, inside: [], more: null });
    this.element = lineElement(outline.left.has(node.json) ? "line left" : "line", "", this.level);
    if (node.parts) this.element.setAttribute("aria-expanded", false);
    const place = node.from === null ? "" : node.from === node.end ? `${node.from}` : `${node.from}\u2013${node.end - 1}`;
    this.element.append(element("bdi", "label", node.label), element("bdi", "text", node.text), element("span", "place", place));
    outline.lines.set(this.element, this);
  }

  get isOpen() {
    return this.left !== null;
  }

  /** The last element that is shown of this line and of what is inside. */
  get lastElement() {
    return this.more?.element ?? this.inside.at(-1)?.lastElement ?? this.element;
  }

  open() {
    if (!this.node.parts || this.isOpen) return;
    this.left = this.node.parts()[Symbol.iterator]();
    this.element.setAttribute("aria-expanded", true);
    this.addMore(AT_ONCE);
  }

  /** Makes so many more of the lines inside. */
  addMore(count) {
    const wasFocused = this.more !== null && this.more.element === document.activeElement;
    this.more?.element.remove();
    this.more = null;
    const first = this.inside.length;
    let last = this.lastElement;
    while (this.inside.length < Math.min(first + count, this.node.count)) {
      const line = new Line(this.outline, this.left.next().value, this);
      this.inside.push(line);
      last.after(line.element);
      last = line.element;
    }
    if (this.inside.length < this.node.count) {
      this.more = new More(this);
      last.after(this.more.element);
    }
    if (wasFocused) this.outline.focus(this.inside[first].element);
  }

  close() {
    for (const it of this.inside) {
      it.close();
      it.element.remove();
    }
    this.more?.element.remove();
    Object.assign(this, { left: null, inside: [], more: null });
    if (this.node.parts) this.element.setAttribute("aria-expanded", false);
  }

  toggle() {
    if (this.isOpen) this.close();
    else this.open();
  }
}

export class Outline {
  /** Shows a tree in this element; `chosen` is called with the node of a line that has the pointer or the focus, and whether it is the
   * focus, or with null. `left` has the JSON of what a message leaves out. */
  constructor(root, node, left, chosen) {
    Object.assign(this, { root, chosen, left: new Set(left), lines: new WeakMap() });
    root.replaceChildren();
    this.top = new Line(this, node, null);
    root.append(this.top.element);
    this.openFirst();
    this.top.element.tabIndex = 0;
  }

  /** Opens lines, the outer ones first, as long as few are shown. */
  openFirst() {
    let count = 1;
    for (const waiting = [this.top]; waiting.length > 0; ) {
      const line = waiting.shift(), added = Math.min(line.node.count, AT_ONCE);
      if (count + added > AT_FIRST) continue;
      line.open();
      count += added;
      waiting.push(...line.inside);
    }
  }

  /** Opens the lines on a way, and returns the last one; `isWay` says whether a node is on it, by the node and by the number of lines
   * before, the outermost aside. */
  reach(isWay) {
    for (let line = this.top, level = 0; ; level++) {
      line.open();
      const isNext = (it) => isWay(it.node, level);
      while (!line.inside.some(isNext) && line.more && line.inside.length < REACHED) line.addMore(AT_ONCE);
      const inner = line.inside.find(isNext);
      if (!inner) return line;
      line = inner;
    }
  }

  /** Gives the focus to the element of a line, which then is the one that the tabulator comes to. */
  focus(it) {
    this.root.querySelector('[tabindex="0"]')?.setAttribute("tabindex", -1);
    it.tabIndex = 0;
    it.focus();
  }

  /** Does what a key does; returns whether it does anything. */
  press(key) {
    const at = document.activeElement, line = this.lines.get(at);
    if (!line) return false;
    const moves = { ArrowDown: at.nextElementSibling, ArrowUp: at.previousElementSibling };
    Object.assign(moves, { Home: this.root.firstElementChild, End: this.root.lastElementChild });
    if (key in moves) {
      if (moves[key]) this.focus(moves[key]);
    } else if (key === "Enter" || key === " ") {
      line.toggle();
    } else if (key === "ArrowRight" && line.node?.parts) {
      if (line.isOpen && line.inside.length) this.focus(line.inside[0].element);
      line.open();
    } else if (key === "ArrowLeft") {
      if (line.isOpen) line.close();
      else if (line.above) this.focus(line.above.element);
    } else {
      return false;
    }
    return true;
  }

  /** The line at which an event is; undefined if it is at none. */
  lineOf(event) {
    return this.lines.get(event.target.closest('[role="treeitem"]'));
  }
}

/** Hears what is done in this element to the outline that `current` gives, if there is one. */
export function hearOutline(root, current) {
  const choose = (event, isFocus) => {
    current()?.chosen(current().lineOf(event)?.node ?? null, isFocus);
  };
  root.addEventListener("mouseover", (event) => choose(event, false));
  root.addEventListener("mouseleave", () => current()?.chosen(null, false));
  root.addEventListener("focusin", (event) => choose(event, true));
  root.addEventListener("click", (event) => {
    const line = current()?.lineOf(event);
    if (!line || !getSelection().isCollapsed) return; // text that is marked stays so
    current().focus(line.element);
    line.toggle();
  });
  root.addEventListener("keydown", (event) => {
    if (!event.altKey && !event.ctrlKey && !event.metaKey && current()?.press(event.key)) event.preventDefault();
  });
}
