// What a design's label tells: how many inputs and outputs, as "4 to 4", 4-4, 4:4, 4x4, 4→4 and the like, and which
// properties it claims, as TU, balanced or universal. The same as `collection/labels.py`.

const SIGNS_IN_LABELS = WORDS.labels;
const [LABEL_BLANKS, BRIEF_SIGNS] = [new Set(SIGNS_IN_LABELS.blanks), new Set(SIGNS_IN_LABELS.brief)];
const JOINTS = new Set([...LABEL_BLANKS, ...SIGNS_IN_LABELS.joints]);
const DIGITS = new Set("0123456789");
const LETTERS = new Set("abcdefghijklmnopqrstuvwxyzABCDEFGHIJKLMNOPQRSTUVWXYZ");

/** What between two words makes them no words of one claim. */
const APART = new Set([...DIGITS, ..."()[]{};:."]);
const [LONGEST_NUMBER, MOST_WORDS] = [3, 4];

/** The game's marks in a label, as of colours and of small pictures. */
const RICH_TEXT = /\[\/?[a-z-]{1,40}(?:=[^\][]{0,200})?\]/g;

/** What parts words. */
const WHITE = /[\t-\r\x1c-\x20\x85\xa0\u1680\u2000-\u200a\u2028\u2029\u202f\u205f\u3000]+/;

/** What is told in place of a mark: of a small picture its name, and of a colour or a font nothing. */
const markInWords = (mark) => {
  const written = mark.slice(1, -1);
  const at = written.indexOf("=");
  const [name, value] = at < 0 ? [written, ""] : [written.slice(0, at), written.slice(at + 1)];
  if (["color", "font"].includes(name.replace(/^\/+/, ""))) return "";
  return value ? ` ${value.split(",")[0]} ` : mark;
};

/** A text with the game's marks as words. */
const inWords = (text) => text.replace(RICH_TEXT, markInWords).split(WHITE).filter(Boolean).join(" ");

/** So much of a label as is looked at, without the game's marks. */
const lookedAt = (label) => [...label.slice(0, 2 * SIGNS_IN_LABELS.most)].slice(0, SIGNS_IN_LABELS.most).join(
  ""
).replace(RICH_TEXT, " ");

/** The place behind all of these signs that stand here. */
const past = (text, at, signs) => {
  while (at < text.length && signs.has(text[at])) at += 1;
  return at;
};

/** The place behind a word or an arrow that leads from inputs to outputs, or null where there is none. */
const arrowEnd = (text, at) => {
  for (const word of SIGNS_IN_LABELS.words) if (
    text.slice(at, at + word.length).toLowerCase() === word
  ) return at + word.length;
  for (const shaft of SIGNS_IN_LABELS.shafts) {
    const end = past(text, at, new Set(shaft));
    if (end > at && text[end] === SIGNS_IN_LABELS.head) return end + 1;
  }
  return at < text.length && SIGNS_IN_LABELS.arrows.includes(text[at]) ? at + 1 + (
    text[at + 1] === SIGNS_IN_LABELS.selector
  ) : null;
};

/** Where the second number begins of two between which a word or an arrow stands, or null. */
const plainlyAt = (text, at) => {
  const end = past(text, at, JOINTS);
  let found = arrowEnd(text, end);
  // The shaft of an arrow may be signs that were passed over.
  if (
    found === null && end > at && SIGNS_IN_LABELS.shafts.includes(text[end - 1]) && text[end] === SIGNS_IN_LABELS.head
  ) found = end + 1;
  return found === null ? null : past(text, found, JOINTS);
};

/** Where the second number begins of two between which one sign stands, or null. */
const brieflyAt = (text, at) => {
  const sign = past(text, at, LABEL_BLANKS);
  return sign === text.length || !BRIEF_SIGNS.has(text[sign]) ? null : past(text, sign + 1, LABEL_BLANKS);
};

/** Whether a second number may end here. */
const isEndOfPair = (text, at, isPlain) => {
  if (isPlain) return !DIGITS.has(text[past(text, at, new Set("."))]);
  if (LETTERS.has(text[at]) || (text[at] === "." && DIGITS.has(text[at + 1]))) return false;
  const then = brieflyAt(text, at);
  return then === null || !DIGITS.has(text[then]);
};

/** Whether a first number may begin here. */
const isBeginOfPair = (text, at, isPlain) => {
  const before = text[at - 1];
  return isPlain ? !(DIGITS.has(before) || before === ".") : !(
    LETTERS.has(before) || BRIEF_SIGNS.has(before) || before === "."
  );
};

/** The numbers of inputs and outputs that stand in a text: in words and arrows, or briefly; each with whether it may be
    a size. */
const pairsOfKind = (text, isPlain) => {
  const found = [];
  for (let at = 0; at < text.length; ) {
    const end = past(text, at, DIGITS);
    if (end === at) {
      at += 1;
      continue;
    }
    const begin = at;
    at = end;
    if (end - begin > LONGEST_NUMBER || !isBeginOfPair(text, begin, isPlain)) continue;
    const second = (isPlain ? plainlyAt : brieflyAt)(text, end);
    if (second === null) continue;
    const last = past(text, second, DIGITS);
    if (second < last && last <= second + LONGEST_NUMBER && isEndOfPair(text, last, isPlain)) {
      const sign = text[past(text, end, LABEL_BLANKS)].toLowerCase();
      found.push([
        Number(text.slice(begin, end)),
        Number(text.slice(second, last)),
        !isPlain && SIGNS_IN_LABELS.size.includes(sign),
      ]);
      at = last;
    }
  }
  return found;
};

/** The pairs that a label tells of, each with whether it may be the size of a layout too. */
const pairsWithSizes = (label) => {
  const text = lookedAt(label);
  const plainly = pairsOfKind(text, true);
  const found = [];
  for (const [inputs, outputs, isSize] of plainly.length ? plainly : pairsOfKind(text, false)) {
    if (!inputs || !outputs) continue;
    const before = found.find((it) => it[0] === inputs && it[1] === outputs);
    if (before) before[2] = before[2] && isSize;
    else found.push([inputs, outputs, isSize]);
  }
  return found;
};

/** The numbers of inputs and outputs that a label tells of: one pair, or several where it isn't clear, or none. */
const pairsIn = (label) => pairsWithSizes(label).map(([inputs, outputs]) => [inputs, outputs]);

const isAmong = (pair, pairs) => pairs.some((it) => it[0] === pair[0] && it[1] === pair[1]);

/** Such pairs in words. */
const spelledPairs = (pairs) => pairs.map((it) => it.join(" to ")).join(" or ");

/** The words of letters in a text: each with where it begins and ends. */
const wordsIn = (text) => {
  const found = [];
  for (let at = 0; at < text.length; ) {
    const end = past(text, at, LETTERS);
    if (end > at) found.push([text.slice(at, end).toLowerCase(), at, end]);
    at = Math.max(end, at + 1);
  }
  return found;
};

/** The words that stand together from one on: with no number and no bracket between. */
const nearWords = (text, words, at) => {
  const found = [words[at][0]];
  for (let k = at + 1; k < words.length && found.length < MOST_WORDS; k += 1) {
    if ([...text.slice(words[k - 1][2], words[k][1])].some((it) => APART.has(it))) break;
    found.push(words[k][0]);
  }
  return found;
};

/** What a label claims: of each property the words that claim it, as they stand there; and whether it speaks of lanes.
    A claim behind a word that denies it is none. */
const claimsIn = (label) => {
  const text = lookedAt(label);
  const words = wordsIn(text);
  const properties = {};
  let [at, lanes] = [0, false];
  while (at < words.length) {
    const there = nearWords(text, words, at);
    const fitting = WORDS.claims.filter((it) => it.words.every((word, k) => there[k] === word));
    if (!fitting.length) {
      at += 1;
      continue;
    }
    const told = fitting.reduce((a, b) => (b.words.length > a.words.length ? b : a));
    const end = at + told.words.length;
    lanes ||= told.lanes ?? false;
    if (at === 0 || !WORDS.negations.includes(words[at - 1][0]))
      for (const property of told.properties) if (PROPERTIES.includes(property)) properties[property] ??= text.slice(
        words[at][1], words[end - 1][2]
      ).split(WHITE).filter(Boolean).join(" ");
    at = end;
  }
  return { properties, lanes };
};
