// Blueprint strings: a version byte, and then, in base64, JSON that is compressed with zlib.

class Damaged extends Error {}

/** These bytes one behind the other. */
const glued = (parts) => {
  const whole = new Uint8Array(parts.reduce((length, it) => length + it.length, 0));
  let at = 0;
  for (const it of parts) {
    whole.set(it, at);
    at += it.length;
  }
  return whole;
};

const fromBase64 = (text) => {
  const binary = atob(text);
  const bytes = new Uint8Array(binary.length);
  for (let at = 0; at < binary.length; at += 1) bytes[at] = binary.charCodeAt(at);
  return bytes;
};

/** The digits of base 85, from 0: those of RFC 1924, with a comma for its `<`. */
const DIGITS_85 = "0123456789ABCDEFGHIJKLMNOPQRSTUVWXYZabcdefghijklmnopqrstuvwxyz!#$%&()*+-;,=>?@^_`{|}~";

/** The bytes of a text in base 85, of which five characters stand for four bytes. */
const fromBase85 = (text) => {
  const values = new Uint8Array(128);
  [...DIGITS_85].forEach((digit, value) => {
    values[digit.charCodeAt(0)] = value;
  });
  const missing = (5 - (text.length % 5)) % 5;
  const padded = text + "~".repeat(missing);
  const bytes = new DataView(new ArrayBuffer((padded.length / 5) * 4));
  for (let at = 0; at < padded.length; at += 5) {
    let sum = 0;
    for (let digit = 0; digit < 5; digit += 1) {
      sum = sum * 85 + values[padded.charCodeAt(at + digit)];
    }
    bytes.setUint32((at / 5) * 4, sum);
  }
  return new Uint8Array(bytes.buffer, 0, bytes.byteLength - missing);
};

const toBase64 = (bytes) => {
  const parts = [];
  for (let at = 0; at < bytes.length; at += 0x8000) parts.push(String.fromCharCode(...bytes.subarray(at, at + 0x8000)));
  return btoa(parts.join(""));
};

/** What passes through a stream; each piece is told to `pass`, with the first one and how many bytes came so far, which
    throws where that is too much. */
const through = async (bytes, stream, pass) => {
  const writer = stream.writable.getWriter();
  // What goes wrong here shows where it is read.
  writer.write(bytes).then(() => writer.close()).catch(() => {});
  const reader = stream.readable.getReader();
  const parts = [];
  let length = 0;
  for (;;) {
    const { done, value } = await reader.read();
    if (done) break;
    length += value.length;
    parts.push(value);
    try {
      pass(value.length, length, parts[0]);
    } catch (fault) {
      reader.cancel().catch(() => {});
      throw fault;
    }
  }
  return glued(parts);
};

/** How what is a design begins, and no book. */
const OF_DESIGN = /^\s*\{\s*"blueprint"\s*:/;

/** How many bytes the strings of a text may still inflate to. */
class Allowance {
  constructor() {
    this.left = WORDS.numbers.most_in_all;
  }

  /** Takes so many of a string that has so many by now, and begins so; throws where that is too much. */
  take(count, length, begin) {
    const { most_inflated: mostInflated, most_in_all: mostInAll, longest_design: longest } = WORDS.numbers;
    const told = (text, most) => new Damaged(filledIn(text, Math.floor(most / 2 ** 20)));
    this.left -= count;
    if (this.left < 0) throw told(WORDS.inputs.all, mostInAll);
    if (length > longest && OF_DESIGN.test(new TextDecoder().decode(begin.subarray(0, 256)))) throw told(
      WORDS.inputs.design, longest
    );
    if (length > mostInflated) throw told("the string inflates past {0} MB", mostInflated);
  }
}

/** The bytes that a blueprint string holds. */
const inflate = async (string, allowance = new Allowance()) => {
  if (!string.startsWith("0")) throw new Damaged(
    `a blueprint string begins with 0, its version byte, and not with ${string.slice(0, 1)}`
  );
  let packed = null;
  try {
    packed = fromBase64(string.slice(1));
  } catch {
    throw new Damaged("the string is damaged: it is no base64");
  }
  try {
    return await through(packed, new DecompressionStream("deflate"), (...told) => allowance.take(...told));
  } catch (fault) {
    if (fault instanceof Damaged) throw fault;
    throw new Damaged("the string is damaged: it doesn't inflate, or it ends too early, or more follows behind it");
  }
};

/** The blueprint string of these bytes. */
const deflate = async (bytes) => `0${toBase64(await through(bytes, new CompressionStream("deflate"), () => {}))}`;
