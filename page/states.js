// Networks and states as the program writes them, and what a state shows in words. The same as `collection/states.py`.

const PROPERTIES = WORDS.properties.map((it) => it.name);

const greatestDivisor = (a, b) => {
  while (b) [a, b] = [b, a % b];
  return a;
};

/** A fraction that is never negative, in lowest terms. */
class Fraction {
  constructor(above, below) {
    const common = greatestDivisor(above, below) || 1n;
    this.above = above / common;
    this.below = below / common;
  }

  static read(word) {
    const [above, below] = word.split("/");
    return new Fraction(BigInt(above), BigInt(below ?? 1));
  }

  plus(other) {
    return new Fraction(this.above * other.below + other.above * this.below, this.below * other.below);
  }

  minus(other) {
    return new Fraction(this.above * other.below - other.above * this.below, this.below * other.below);
  }

  times(other) {
    return new Fraction(this.above * other.above, this.below * other.below);
  }

  isLess(other) {
    return this.above * other.below < other.above * this.below;
  }

  toString() {
    return this.below === 1n ? `${this.above}` : `${this.above}/${this.below}`;
  }

  /** As one says it: what is whole, and the part that is left, as in 36 7/8. */
  mixed() {
    const [whole, rest] = [this.above / this.below, new Fraction(this.above % this.below, this.below)];
    return whole && rest.above ? `${whole} ${rest}` : `${whole ? whole : rest}`;
  }

  /** Its text where it is short, else a decimal number of three places: the nearest, of two the greater. */
  short() {
    const text = this.toString();
    if (text.length <= 5) return text;
    const thousandths = (2000n * this.above + this.below) / (2n * this.below);
    return `${thousandths / 1000n}.${String(thousandths % 1000n).padStart(3, "0")}`.replace(/0+$/, "").replace(
      /\.$/, ""
    );
  }
}

const sum = (fractions) => fractions.reduce((a, b) => a.plus(b), new Fraction(0n, 1n));

/** The network of a text that the program wrote. */
const readNet = (text) => {
  const [head, ...lines] = text.split("\n");
  const [inputs, outputs, splitters] = head.split(" ").slice(1, 4).map(Number);
  const words = lines.filter((it) => it.startsWith("edge ")).map((it) => it.split(" ").slice(1));
  return {
    inputs, outputs, splitters, edges: words.map(([source, target, cap]) => ({ source, target, cap: Number(cap ?? 1) }))
  };
};

/** The state of a text that the program wrote: of a property, or the first or second of two networks. */
const readState = (text, which = 0) => {
  const rows = text.split("\n").map((it) => it.split(" "));
  const row = (name, at = 0) => rows.filter((it) => it[0] === name)[at].slice(1);
  const [loads, rooms, flows] = [row("load"), row("room"), row("flow", which)].map((it) => it.map(Fraction.read));
  return { loads, rooms, flows, marks: row("mark", which) };
};

/** The load at each input and the room at each output, by the end's name. */
const toldAtEnds = (state) => new Map(
  [...state.loads.map((it, k) => [`i${k}`, it]), ...state.rooms.map((it, k) => [`o${k}`, it])]
);

/** The flow at each input, and at each output. */
const atEnds = (net, state) => {
  const carried = new Map();
  net.edges.forEach(({ source, target }, at) => carried.set(source, state.flows[at]).set(target, state.flows[at]));
  const ends = (word, count) => Array.from({ length: count }, (_, k) => carried.get(`${word}${k}`));
  return [ends("i", net.inputs), ends("o", net.outputs)];
};

/** How many numbers a sentence has at most. */
const MOST_LISTED = WORDS.numbers.most_listed;

/** How many items a second a full basic belt carries; a full belt of each tier above carries so many more. */
const ITEMS = WORDS.numbers.items;

/** The numbers, so spelled; where there are many, the first ones and between which all are. */
const listed = (numbers, spelled = (it) => it.mixed()) => {
  if (numbers.length <= MOST_LISTED) return numbers.map(spelled).join(", ");
  const least = numbers.reduce((a, b) => (b.isLess(a) ? b : a));
  const most = numbers.reduce((a, b) => (a.isLess(b) ? b : a));
  const first = numbers.slice(0, MOST_LISTED).map(spelled).join(", ");
  return `${first} and so on, from ${spelled(least)} to ${spelled(most)}`;
};

/** A number with two decimal places at most: the nearest, of two the greater. */
const decimal = (number) => {
  const hundredths = (200n * number.above + number.below) / (2n * number.below);
  return `${hundredths / 100n}.${String(hundredths % 100n).padStart(2, "0")}`.replace(/0+$/, "").replace(/\.$/, "");
};

/** Names in a row, the last two with a word between. */
const together = (names) => (names.length > 1 ? `${names.slice(0, -1).join(", ")} and ${names.at(-1)}` : names[0]);

/** What is told of each of some ends, those of which the same is told together, and one thing last, of all others. */
const toldOfEnds = (word, names, told, rest) => {
  const groups = new Map();
  names.forEach((name, at) => groups.set(told[at], [...(groups.get(told[at]) ?? []), name]));
  if (groups.size === 1 && names.length > 1) return `all ${word}s ${told[0]}`;
  const shownOnes = [...groups].filter(([it]) => it !== rest || groups.size === 1).map(
    ([it, them]) => `${together(them)} ${it}`
  );
  const others = groups.has(rest) && groups.size > 1 ? [`the others ${rest}`] : [];
  const isMany = names.length - (groups.get(rest) ?? []).length > 1;
  return `${word}${isMany ? "s" : ""} ${[...shownOnes, ...others].join(", ")}`;
};

/** What comes in at each input and what is taken at each output, in words. */
const setUp = (net, state) => {
  const caps = new Map(net.edges.flatMap(({ source, target, cap }) => [[source, cap], [target, cap]]));
  const namesOf = (word, count) => Array.from({ length: count }, (_, k) => `${word}${k}`);
  const wordOf = (end, number, none, whole, part) => (
    `${number}` === "0" ? none : `${number}` === `${caps.get(end)}` ? whole : `${part} ${number.mixed()}`
  );
  const [inputs, outputs] = [namesOf("i", net.inputs), namesOf("o", net.outputs)];
  const loads = inputs.map((end, at) => wordOf(end, state.loads[at], "empty", "full", "with"));
  const rooms = outputs.map((end, at) => wordOf(end, state.rooms[at], "blocked", "open", "open for"));
  return `${toldOfEnds("input", inputs, loads, "empty")}; ${toldOfEnds("output", outputs, rooms, "open")}`;
};

/** Two ends of a state in which what is left isn't shared evenly: the end that has least of those that could have more,
    with its flow and how much it could be, and the end that has most; null where the property isn't one of sharing. */
const unshared = (property, net, state) => {
  if (property !== "fair" && property !== "drawn-fairly") return null;
  const isOutput = property === "fair";
  const [given, carried] = atEnds(net, state);
  const [sign, flows, most] = isOutput ? ["o", carried, state.rooms] : ["i", given, state.loads];
  const short = flows.map((_, at) => at).filter((at) => flows[at].isLess(most[at]));
  const less = short.reduce((a, b) => (flows[b].isLess(flows[a]) ? b : a));
  const more = flows.map((_, at) => at).reduce((a, b) => (flows[a].isLess(flows[b]) ? b : a));
  return {
    isOutput, less: `${sign}${less}`, flow: flows[less], could: most[less], more: `${sign}${more}`, greater: flows[more]
  };
};

/** Which end has less than is fair in a state, and which more, by their names. */
const apartOf = (property, net, state) => {
  const them = unshared(property, net, state);
  return them ? { [them.less]: "less", [them.more]: "more" } : {};
};

/** Which of two ends has more, and which less, in words. */
const toldOfUnshared = ({ isOutput, less, flow, could, more, greater }, belt, itemsOf) => {
  const [word, verb] = isOutput ? ["Output", "carries"] : ["Input", "gives"];
  const wants = isOutput ? `would take ${could.mixed()}` : `has ${could.mixed()}`;
  const items = itemsOf ? ` (${itemsOf(greater)} and ${itemsOf(flow)} items a second)` : "";
  const belts = `${greater.mixed()} ${belt}${`${greater}` === "1" ? "" : "s"}`;
  return `${word} ${more} ${verb} ${belts} and ${less}, which ${wants}, only ${flow.mixed()}${items}`;
};

/** What the state shows, in words: in belts and, where the tiers of the design's parts are known, in items a second. */
const shown = (property, net, state, tiers = []) => {
  const [given, carried] = atEnds(net, state);
  const belt = tiers.length > 1 ? "basic belt" : "belt";
  const speed = new Fraction(BigInt(ITEMS * (tiers.length === 1 ? SPEED[tiers[0]] : 1)), 1n);
  const itemsOf = (it) => decimal(it.times(speed));
  if (property === "balanced" || property === "drawn-evenly") {
    const [ends, verb, flows] = property === "balanced" ? ["outputs", "carry", carried] : ["inputs", "give", given];
    const items = tiers.length ? `, or ${listed(flows, itemsOf)} items a second` : "";
    const told = `${listed(flows)} ${belt}s${items}`;
    return `The ${ends} ${verb} ${told}, and should all ${verb} the same: ${setUp(net, state)}.`;
  }
  const them = unshared(property, net, state);
  if (them) return `${toldOfUnshared(them, belt, tiers.length ? itemsOf : null)}: ${setUp(net, state)}.`;
  const [out, loaded, taken] = [carried, state.loads, state.rooms].map(sum);
  const most = taken.isLess(loaded) ? taken : loaded;
  const items = tiers.length ? `, ${itemsOf(out)} of ${itemsOf(most)} items a second` : "";
  const comes = `${most}` === "1" || (out.above > 0n && out.above <= out.below) ? "comes" : "come";
  const belts = `${belt}${`${most}` === "1" ? "" : "s"}`;
  return `${out.mixed()} of ${most.mixed()} ${belts} ${comes} through${items}: ${setUp(net, state)}.`;
};
