// JSON texts with all that JSON.parse drops: the order of members whose names are numbers, repeated names, and how numbers and strings are
// written.

/** A part of a JSON text: a leaf has its token, an array its elements, and an object its members, as pairs of a name and a part. */
export class Part {
  constructor(token, elements = null, members = null) {
    Object.assign(this, { token, elements, members });
  }

  /** Whether it is a string. */
  get isString() {
    return this.token !== null && this.token[0] === '"';
  }

  /** A leaf as it is written, a string without its quotes. */
  get plain() {
    return this.isString ? this.token.slice(1, -1) : this.token;
  }

  /** The first member of this name; null if there is none. */
  member(name) {
    return this.members?.find(([it]) => it === name)?.[1] ?? null;
  }
}

/** Where the token at a place ends. */
function endOfToken(text, place) {
  if (text[place] !== '"') {
    let end = place + 1;
    while (end < text.length && !'[]{},:" \t\n\r'.includes(text[end])) end++;
    return "[]{},:".includes(text[place]) ? place + 1 : end;
  }
  let end = place + 1;
  while (text[end] !== '"') end += text[end] === "\\" ? 2 : 1;
  return end + 1;
}

function* tokensOf(text) {
  for (let place = 0; place < text.length; ) {
    if (" \t\n\r".includes(text[place])) {
      place++;
      continue;
    }
    const end = endOfToken(text, place);
    yield text.slice(place, end);
    place = end;
  }
}

/** Reads a text that is JSON (RFC 8259); of other texts it makes anything. A member's name is as it is written, without its quotes. */
export function partsOf(text) {
  const tokens = tokensOf(text), next = () => tokens.next().value;

  function partAfter(token) {
    if (token === "[") return new Part(null, listUpTo("]", (first) => partAfter(first)));
    if (token !== "{") return new Part(token);
    return new Part(null, null, listUpTo("}", (name) => {
      next(); // a colon
      return [name.slice(1, -1), partAfter(next())];
    }));
  }

  function listUpTo(end, read) {
    const list = [];
    for (let token = next(); token !== end && token !== undefined; token = next()) if (token !== ",") list.push(read(token));
    return list;
  }

  return partAfter(next());
}
