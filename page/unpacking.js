// What page/sheet.py packed: a raw LZMA stream whose context is four bits of the byte before and none of the place.

/** Bits that are coded by chances: each chance is that of a 0, in 2048ths, and follows what came. */
class Bits {
  constructor(bytes) {
    this.bytes = bytes;
    this.at = 1;
    this.range = 2 ** 32 - 1;
    this.code = 0;
    for (let more = 0; more < 4; more += 1) this.code = this.code * 256 + this.next();
  }

  next() {
    if (this.at >= this.bytes.length) throw new Damaged("what is packed in the page ends too early");
    this.at += 1;
    return this.bytes[this.at - 1];
  }

  widen() {
    if (this.range >= 2 ** 24) return;
    this.range *= 256;
    this.code = this.code * 256 + this.next();
  }

  bit(chances, at) {
    const chance = chances[at];
    const bound = (this.range >>> 11) * chance;
    const bit = this.code < bound ? 0 : 1;
    if (bit) {
      this.range -= bound;
      this.code -= bound;
      chances[at] = chance - (chance >> 5);
    } else {
      this.range = bound;
      chances[at] = chance + ((2048 - chance) >> 5);
    }
    this.widen();
    return bit;
  }

  /** A number of so many bits that have no chances, the greatest first. */
  plain(count) {
    let number = 0;
    for (let more = 0; more < count; more += 1) {
      this.range = Math.floor(this.range / 2);
      const bit = this.code < this.range ? 0 : 1;
      if (bit) this.code -= this.range;
      this.widen();
      number = number * 2 + bit;
    }
    return number;
  }

  /** A number of so many bits, the greatest first, each by those before it. */
  number(chances, count, from = 0) {
    let node = 1;
    for (let more = 0; more < count; more += 1) node = node * 2 + this.bit(chances, from + node);
    return node - (1 << count);
  }

  /** The same with the least bit first. */
  turned(chances, count, from = 0) {
    let [node, number] = [1, 0];
    for (let more = 0; more < count; more += 1) {
      const bit = this.bit(chances, from + node);
      node = node * 2 + bit;
      number += bit << more;
    }
    return number;
  }
}

const chances = (count) => new Uint16Array(count).fill(1024);

/** Lengths of copies, from 2 on: of 8, then of 8 more, then of 256 more. */
class Lengths {
  constructor() {
    [this.choice, this.short, this.middle, this.long] = [2, 8, 8, 256].map(chances);
  }

  read(bits) {
    if (!bits.bit(this.choice, 0)) return 2 + bits.number(this.short, 3);
    if (!bits.bit(this.choice, 1)) return 10 + bits.number(this.middle, 3);
    return 18 + bits.number(this.long, 8);
  }
}

/** How far back copies begin: a slot by the copy's length, then the bits that the slot leaves open. */
class Ways {
  constructor() {
    this.slots = [0, 1, 2, 3].map(() => chances(64));
    this.near = chances(128);
    this.low = chances(16);
  }

  read(bits, length) {
    const slot = bits.number(this.slots[Math.min(length - 2, 3)], 6);
    if (slot < 4) return slot;
    const open = (slot >> 1) - 1;
    const least = (2 + (slot & 1)) * 2 ** open;
    if (slot < 14) return least + bits.turned(this.near, open, least - slot);
    return least + bits.plain(open - 4) * 16 + bits.turned(this.low, 4);
  }
}

/** Bytes by themselves: by the byte before, and behind a copy by the byte that would have continued it. */
class Literals {
  constructor() {
    this.chances = chances(16 * 0x300);
  }

  read(bits, before, expected) {
    const from = (before >> 4) * 0x300;
    let node = 1;
    for (let shift = 7; expected !== null && shift >= 0 && node < 0x100; shift -= 1) {
      const wanted = (expected >> shift) & 1;
      const bit = bits.bit(this.chances, from + 0x100 + wanted * 0x100 + node);
      node = node * 2 + bit;
      if (bit !== wanted) break;
    }
    while (node < 0x100) node = node * 2 + bits.bit(this.chances, from + node);
    return node - 0x100;
  }
}

/** What comes next, by what came last: twelve states, from 7 on behind a copy. */
class Steps {
  constructor() {
    this.state = 0;
    this.ways = [0, 0, 0, 0];
    [this.copies, this.again, this.first, this.single, this.second, this.third] = Array.from(
      { length: 6 }, () => chances(12)
    );
    this.lengths = new Lengths();
    this.lengthsAgain = new Lengths();
    this.far = new Ways();
  }

  /** Whether a copy comes, and no byte by itself. */
  isCopy(bits) {
    if (bits.bit(this.copies, this.state)) return true;
    this.state = this.state < 4 ? 0 : this.state - (this.state < 10 ? 3 : 6);
    return false;
  }

  /** The length of the copy that comes; its way back is the first of the ways then. */
  copy(bits) {
    const afterByte = this.state < 7;
    if (!bits.bit(this.again, this.state)) {
      this.state = afterByte ? 7 : 10;
      const length = this.lengths.read(bits);
      this.ways = [this.far.read(bits, length), ...this.ways.slice(0, 3)];
      return length;
    }
    const which = this.which(bits);
    if (which === null) {
      this.state = afterByte ? 9 : 11;
      return 1;
    }
    this.ways = [this.ways[which], ...this.ways.filter((_, at) => at !== which)];
    this.state = afterByte ? 8 : 11;
    return this.lengthsAgain.read(bits);
  }

  /** Which of the last four ways is taken again; none where it is the last, for a single byte. */
  which(bits) {
    if (!bits.bit(this.first, this.state)) return bits.bit(this.single, this.state) ? 0 : null;
    if (!bits.bit(this.second, this.state)) return 1;
    return bits.bit(this.third, this.state) ? 3 : 2;
  }
}

/** The bytes, so many of them, that a stream stands for. */
const fromLzma = (packed, count) => {
  const [bits, steps, literals, whole] = [new Bits(packed), new Steps(), new Literals(), new Uint8Array(count)];
  let at = 0;
  while (at < count) {
    // The chances of a byte need the state of before, which isCopy leaves behind.
    const behindCopy = steps.state >= 7;
    const back = steps.ways[0] + 1;
    if (steps.isCopy(bits)) {
      const length = steps.copy(bits);
      const from = at - steps.ways[0] - 1;
      if (from < 0 || at + length > count) throw new Damaged(
        "what is packed in the page copies bytes that aren't there"
      );
      for (let more = 0; more < length; more += 1) whole[at + more] = whole[from + more];
      at += length;
    } else {
      whole[at] = literals.read(bits, at ? whole[at - 1] : 0, behindCopy ? whole[at - back] : null);
      at += 1;
    }
  }
  return whole;
};
