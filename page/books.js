// Blueprint books: the bytes of each design in a book, with its place there. Bytes are walked, and not made into
// values, so that each design stays what it was, faults and all, for the program to judge; and without recursion. The
// same as `collection/books.py`.

/** How many books stand in one another at most, and how many designs are read. */
const [MOST_NESTED, MOST_DESIGNS] = [WORDS.numbers.most_nested, WORDS.numbers.most_designs];

/** How many signs a label has at most, and the greatest number of a place in a book. */
const [LONGEST_LABEL, MOST_INDEX] = [WORDS.numbers.longest_label, 10 ** 9];

/** How many digits of such a number are looked at. */
const LONGEST_INDEX = 16;

class Fault extends Error {}

const STRING_DECODER = new TextDecoder("utf-8", { ignoreBOM: true });
const QUOTE = 0x22;
const SIGN = Object.fromEntries([..."{}[],:"].map((it) => [it, it.charCodeAt(0)]));
const [OPEN, CLOSE, OPEN_LIST, CLOSE_LIST, COMMA_SIGN, COLON] = [..."{}[],:"].map((it) => it.charCodeAt(0));
const BACKSLASH = 0x5c;
const BLANKS = [0x20, 0x09, 0x0a, 0x0d];

/** What ends a number or a word. */
const ENDING = new Set([OPEN, CLOSE, OPEN_LIST, CLOSE_LIST, COMMA_SIGN, COLON, QUOTE, ...BLANKS]);

/** Which bytes neither open nor close anything. */
const IS_PLAIN = new Uint8Array(256).fill(1);
for (const it of [OPEN, CLOSE, OPEN_LIST, CLOSE_LIST, QUOTE]) IS_PLAIN[it] = 0;
const isBlank = (byte) => byte === 0x20 || byte === 0x09 || byte === 0x0a || byte === 0x0d;

class Walk {
  constructor(bytes) {
    this.bytes = bytes;
    this.at = 0;
  }

  /** The next byte that isn't blank, or undefined at the end. */
  sign() {
    while (isBlank(this.bytes[this.at])) this.at += 1;
    return this.bytes[this.at];
  }

  expect(sign) {
    if (this.sign() !== SIGN[sign]) throw new Fault(
      `the text is damaged at byte ${this.at}: ${sign} is expected there`
    );
    this.at += 1;
  }

  /** Goes past the value that stands here, by its brackets and strings alone. */
  value() {
    const { bytes } = this;
    this.sign();
    const start = this.at;
    const length = bytes.length;
    let at = start;
    let depth = 0;
    do {
      if (at >= length) throw new Fault(`the text ends in the value at byte ${start}`);
      const sign = bytes[at];
      at += 1;
      if (IS_PLAIN[sign] && depth) continue;
      if (sign === QUOTE) {
        while (at < length && bytes[at] !== QUOTE) at += bytes[at] === BACKSLASH ? 2 : 1;
        at += 1;
        if (at > length) throw new Fault(`the text ends in a string of the value at byte ${start}`);
      } else if (sign === OPEN || sign === OPEN_LIST) depth += 1;
      else if (sign === CLOSE || sign === CLOSE_LIST) depth -= 1;
      else if (depth === 0) {
        if (sign === COMMA_SIGN || sign === COLON) depth = -1;
        else while (at < length && !ENDING.has(bytes[at])) at += 1;
      }
    } while (depth > 0);
    if (depth < 0) throw new Fault(`the text is damaged at byte ${at - 1}: a value is expected there`);
    this.at = at;
    return bytes.subarray(start, at);
  }

  /** Stops at each item of the list or object that stands here; who asks goes past the item. */
  *parts(opening, closing) {
    this.expect(opening);
    if (this.sign() !== SIGN[closing]) {
      yield;
      while (this.sign() !== SIGN[closing]) {
        this.expect(",");
        yield;
      }
    }
    this.expect(closing);
  }

  /** The name of each member of the object that stands here; who asks goes past the value. */
  *members() {
    for (const _ of this.parts("{", "}")) {
      if (this.sign() !== QUOTE) throw new Fault(`the text is damaged at byte ${this.at}: a name is expected there`);
      const name = text(this.value());
      this.expect(":");
      yield name;
    }
  }
}

/** A label without the blanks around it, and only so long; null where nothing else is in it. */
const shortLabel = (label) => (label === null ? null : short(unblanked(label), LONGEST_LABEL) || null);

/** A string's value, or what is written where it isn't one. */
const text = (bytes) => {
  const isPlain = bytes[0] === QUOTE && bytes.length > 1 && bytes.every((it) => it >= 0x20 && it !== BACKSLASH);
  if (isPlain) return STRING_DECODER.decode(bytes.subarray(1, bytes.length - 1));
  const written = STRING_DECODER.decode(bytes);
  try {
    const value = JSON.parse(written);
    return typeof value === "string" ? value : written;
  } catch {
    return written;
  }
};

/** Goes past the value that stands here, of a design or of anything: its label, or null. Where it is damaged within,
    its brackets and strings alone tell where it ends. */
const labelOf = (walk) => {
  let label = null;
  if (walk.sign() === OPEN) {
    const start = walk.at;
    try {
      for (const name of walk.members()) {
        const isString = walk.sign() === QUOTE;
        const value = walk.value();
        if (name === "label") label = isString ? text(value) : null;
      }
      return shortLabel(label);
    } catch (fault) {
      if (!(fault instanceof Fault)) throw fault;
      walk.at = start;
    }
  }
  walk.value();
  return shortLabel(label);
};

/** A whole number as JSON writes it. */
const WHOLE = /^-?(?:0|[1-9]\d*)$/;

/** The number of a place that a member `index` tells, or where that is none, this one. */
const indexOf = (bytes, number) => {
  const written = new TextDecoder().decode(bytes.subarray(0, LONGEST_INDEX + 1));
  const value = bytes.length <= LONGEST_INDEX && WHOLE.test(written) ? Number(written) : -1;
  return value >= 0 && value <= MOST_INDEX ? String(value + 0) : number;
};

/** What an entry of a book with members of these names is, where it is no design; of what may be one, nothing. */
const kindOf = (names) => {
  if (names.includes("deconstruction_planner") || names.includes("upgrade_planner")) return "planner";
  return names.every((it) => it === "index" || it === "active_index") ? "empty slot" : "";
};

/** Reads one entry: a design, a book, or what is neither. Its number is that of its place, as the book that it stands
    in tells it; where it doesn't, counted from 1. */
function* entry(walk, found, book, number, depth) {
  walk.sign();
  const start = walk.at;
  let label = null;
  let held = null;
  const names = [];
  if (walk.sign() !== SIGN["{"]) walk.value();
  else
    for (const name of walk.members()) {
      names.push(name);
      if (name === "blueprint_book" && walk.sign() === SIGN["{"]) {
        held = { above: book, number, label: null };
        yield pages(walk, found, held, depth + 1);
        continue;
      }
      walk.sign();
      const begin = walk.at;
      label = labelOf(walk) ?? label;
      if (name === "index") number = indexOf(walk.bytes.subarray(begin, walk.at), number);
      if (held) held.number = number;
    }
  if (held) return;
  if (found.length >= MOST_DESIGNS) throw new Fault(filledIn(WORDS.inputs.designs, MOST_DESIGNS));
  found.push({ book, number, label, kind: book ? kindOf(names) : "", bytes: walk.bytes.subarray(start, walk.at) });
}

/** Reads a book: its label, and its entries. */
function* pages(walk, found, book, depth) {
  if (depth > MOST_NESTED) throw new Fault(`more than ${MOST_NESTED} books stand in one another`);
  for (const name of walk.members()) {
    if (name === "blueprints" && walk.sign() === SIGN["["]) {
      let number = 0;
      for (const _ of walk.parts("[", "]")) {
        number += 1;
        yield entry(walk, found, book, String(number), depth);
      }
    } else {
      const isString = walk.sign() === QUOTE;
      const value = walk.value();
      if (name === "label" && isString) book.label = shortLabel(text(value)) ?? book.label;
    }
  }
}

/** The entries of a text of JSON, and what is wrong with the text, or null. Those before the fault are told too. */
const entries = (bytes) => {
  const walk = new Walk(bytes);
  const found = [];
  const open = [entry(walk, found, null, "1", 0)];
  try {
    while (open.length) {
      const { done, value } = open[open.length - 1].next();
      if (done) open.pop();
      else if (value) open.push(value);
    }
    if (walk.sign() !== undefined) throw new Fault(`more follows at byte ${walk.at}, where the text's value ends`);
  } catch (fault) {
    if (!(fault instanceof Fault)) throw fault;
    return { found, fault: fault.message };
  }
  return { found, fault: null };
};

/** The books around an entry, from the outermost on. */
const booksAround = (it) => {
  const line = [];
  for (let book = it.book; book; book = book.above) line.unshift(book);
  return line;
};
