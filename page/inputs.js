// What was pasted or dropped: the designs in it, each with its name, its place in a book and its bytes, or why there is
// none.

/** How many bytes are read of a file at most, and of a design. */
const [MOST_READ, LONGEST_DESIGN] = [WORDS.numbers.most_read, WORDS.numbers.longest_design];

/** How many brackets JSON has at most that is read, and how many commas. */
const [MOST_BRACKETS, MOST_COMMAS] = [WORDS.numbers.most_brackets, WORDS.numbers.most_commas];

/** How long the labels of the books around a design are together at most. */
const LONGEST_PATH = WORDS.numbers.longest_path;

/** How a blueprint string begins: the version byte, and what base64 makes of the head of zlib's formats. */
const BEGINNING = /(?<![\w+/])0e[AFJN][\w+/-]+=*/g;
const GOING_ON = /^[\w+/-]+=*$/;

const decoder = new TextDecoder();
const encoder = new TextEncoder();
const isJson = (bytes) => new Walk(bytes).sign() === SIGN["{"];

/** A line without the blanks around it, and without the signs by which it is quoted. */
const unquoted = (line) => {
  const whole = unblanked(line);
  let at = 0;
  while (whole[at] === ">" || BLANK.test(whole[at] ?? "")) at += 1;
  return whole.slice(at);
};

/** The blueprint strings in a text: each may be wrapped over lines or quoted, and other words may stand around them. */
const stringsIn = (written) => {
  const found = [];
  let isOpen = false;
  for (const line of written.split("\n").map(unquoted)) {
    const begun = line.match(BEGINNING) ?? [];
    if (isOpen && !begun.length && GOING_ON.test(line)) found[found.length - 1] += line;
    else {
      for (const it of begun) if (found.length <= MOST_DESIGNS) found.push(it);
      isOpen = begun.length > 0 && line.endsWith(begun[begun.length - 1]);
    }
  }
  return found;
};

/** A design, or where its text is too long, that it is. */
const bounded = (design) => {
  if (design.bytes.length <= LONGEST_DESIGN) return design;
  return { ...design, bytes: null, trouble: filledIn(WORDS.inputs.design, Math.floor(LONGEST_DESIGN / 2 ** 20)) };
};

/** Whether JSON has more brackets or commas than are read. */
const isCrowded = (bytes) => {
  let [brackets, commas] = [0, 0];
  for (const byte of bytes) {
    if (byte === OPEN || byte === OPEN_LIST) brackets += 1;
    else if (byte === COMMA_SIGN) commas += 1;
  }
  return brackets > MOST_BRACKETS || commas > MOST_COMMAS;
};

/** The designs in a text of JSON: itself, or those of a book. */
const fromJson = (bytes, name) => {
  if (isCrowded(bytes)) return [
    { name, books: [], place: "", bytes: null, trouble: filledIn(WORDS.inputs.brackets, MOST_BRACKETS, MOST_COMMAS) }
  ];
  const { found, fault } = entries(bytes);
  // No book: the program tells what is wrong with the text.
  if (fault && !found.some((it) => it.book)) return [bounded({ name, books: [], place: "", bytes })];
  if (!found.length) return [
    { name, books: [], place: "", bytes: null, trouble: "it is a book in which nothing stands" }
  ];
  const passed = new Map();
  for (const { kind } of found) if (kind) passed.set(kind, (passed.get(kind) ?? 0) + 1);
  const designs = found.filter((it) => !it.kind).map((it) => {
    const around = booksAround(it);
    const isLong = around.slice(1).reduce((sum, book) => sum + signsOf(book.label ?? ""), 0) > LONGEST_PATH;
    const books = around.slice(1).map((book) => plain(isLong ? book.number : book.label ?? book.number));
    const place = around.length ? [...around.slice(1).map((book) => book.number), it.number].join(".") : "";
    const label = plain(it.label ?? (it.book ? it.number : name));
    return bounded({ name: label, books, place, bytes: it.book ? it.bytes : bytes });
  });
  if (passed.size) {
    const told = [...passed].map(([kind, number]) => count(number, kind)).join(" and ");
    const trouble = `passed over: ${told}`;
    designs.push({ name: "no designs", books: [], place: "", bytes: null, isPassed: true, trouble });
  }
  if (fault) designs.push(
    { name: "the rest", books: [], place: "", bytes: null, trouble: `${fault}, and what stands behind isn't read` }
  );
  return designs;
};

/** The designs of one blueprint string. */
const fromString = async (string, name, allowance) => {
  try {
    const bytes = await inflate(string.replace(/-/g, "+").replace(/_/g, "/"), allowance);
    if (!isJson(bytes)) throw new Damaged("the string holds no object of JSON");
    return fromJson(bytes, name);
  } catch (fault) {
    if (!(fault instanceof Damaged)) throw fault;
    return [{ name, books: [], place: "", bytes: null, trouble: fault.message }];
  }
};

const FENCE = /^[ \t]*```.*(?:\r?\n|$)/gm;

/** How a design of JSON begins in the midst of words. */
const JSON_START = /\{\s*"blueprint(?:_book)?"\s*:/;

/** A text of JSON without the words behind it, where it can be told where they begin. */
const unworded = (bytes) => {
  const walk = new Walk(bytes);
  try {
    walk.value();
  } catch (fault) {
    if (!(fault instanceof Fault)) throw fault;
    return bytes;
  }
  return bytes.subarray(0, walk.at);
};

/** The bytes as signs of one byte each, in which places are those of the bytes. */
const latin = (bytes) => new TextDecoder("latin1").decode(bytes);

/** The designs in what was given: blueprint strings, JSON or a network text, with fences or words around them. */
const designsIn = async (given, name) => {
  let bytes = given[0] === 0xef && given[1] === 0xbb && given[2] === 0xbf ? given.subarray(3) : given;
  let written = decoder.decode(bytes);
  if (!written.trim()) return [];
  if (written.trimStart().startsWith("```")) {
    written = written.replace(FENCE, "");
    bytes = encoder.encode(written);
  }
  if (isJson(bytes)) return fromJson(bytes, name);
  if (/^\s*net(\s|$)/.test(written)) return [
    bounded({ name, books: [], place: "", bytes: encoder.encode(written.replace(/\r\n/g, "\n")) })
  ];
  const found = stringsIn(written);
  const [designs, allowance] = [[], new Allowance()];
  for (const [at, it] of found.slice(0, MOST_DESIGNS).entries()) {
    designs.push(...(await fromString(it, found.length === 1 ? name : `${name}, string ${at + 1}`, allowance)));
    if (allowance.left < 0) return designs;
  }
  if (found.length > MOST_DESIGNS) designs.push(
    { name: "the rest", books: [], place: "", bytes: null, trouble: filledIn(WORDS.inputs.designs, MOST_DESIGNS) }
  );
  if (designs.length) return designs;
  const begin = latin(bytes).search(JSON_START);
  if (begin >= 0) return fromJson(unworded(bytes.subarray(begin)), name);
  const word = written.trim();
  if (/^\d\S+$/.test(word)) return fromString(word, name);
  return [
    { name, books: [], place: "", bytes: null, trouble: "it is no blueprint string, no JSON and no network text" }
  ];
};
