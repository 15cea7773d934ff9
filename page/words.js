// Numbers, lengths and times in words, and names of files.

const count = (number, word) => `${number} ${word}${number === 1 ? "" : "s"}`;

/** A length of bytes, in words. */
const size = (bytes) => (
  bytes < 1000 ? count(bytes, "byte") : bytes < 1e6 ? `${(bytes / 1000).toFixed(1)} KB`
  : `${(bytes / 1e6).toFixed(1)} MB`
);

const seconds = (number) => (
  number < 0.1 ? "under 0.1 s" : number < 60 ? `${number.toFixed(1)} s`
  : `${Math.floor(number / 60)} min ${Math.floor(number % 60)} s`
);

/** A file's name for a design of this name: letters, digits and dashes alone. */
const slug = (name) =>
  name
    .normalize("NFKD")
    .replace(/\p{M}/gu, "")
    .replace(/[^A-Za-z0-9]+/g, "-")
    .slice(0, 80)
    .replace(/^-+|-+$/g, "")
    .toLowerCase() || "design";

/** A text with these in the places that are numbered. */
const filledIn = (text, ...told) => text.replace(/\{(\d)\}/g, (_, at) => told[at] ?? "");

/** A sentence's beginning. */
const capital = (text) => text[0].toUpperCase() + text.slice(1);

/** The signs that are blank to the tools for collections. */
const BLANK = /^[\t-\r\x1c-\x20\x85\xa0\u1680\u2000-\u200a\u2028\u2029\u202f\u205f\u3000]$/;

/** A text without the blanks around it. */
const unblanked = (text) => {
  let [begin, end] = [0, text.length];
  while (begin < end && BLANK.test(text[begin])) begin += 1;
  while (begin < end && BLANK.test(text[end - 1])) end -= 1;
  return text.slice(begin, end);
};

/** How many signs a text has; two halves of a wide one are one. */
const signsOf = (text) => {
  let number = 0;
  for (const _ of text) number += 1;
  return number;
};

/** A text of so many signs at most; where more were cut, with how many. */
const short = (text, most) => {
  if (text.length <= most) return text;
  const [kept, all] = [[...text.slice(0, 2 * most)].slice(0, most).join(""), signsOf(text)];
  return all <= most ? text : filledIn(WORDS.inputs.cut, kept, all - most);
};
