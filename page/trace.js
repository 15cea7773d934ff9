// The network that a design's parts form, with the cells that each of its edges runs over. The program has the last
// word on networks: this only tells where on a picture an edge lies, and only where its text is what the program
// prints. The same as `collection/trace.py`.

/** Why parts have no network, in words. */
class Untraced extends Error {}

const keyOf = ([x, y]) => `${x},${y}`;

/** What stands on each cell: a part's number, and which of its cells it is. */
const standing = (parts) => new Map(
  parts.flatMap((part, number) => part.cells.map((cell, at) => [keyOf(cell), { part: number, half: at }]))
);

/** The number of the exit that an entrance leads to, or null: the first piece of its tier on its line decides. */
const exitAhead = (parts, at, entrance) => {
  for (let count = 1; count < REACH[entrance.tier] + 2; count += 1) {
    const there = at.get(keyOf(step(entrance.cells[0], entrance.direction, count)));
    const part = there && parts[there.part];
    if (
      part && (part.kind === "entrance" || part.kind === "exit") && part.tier === entrance.tier
      && (part.direction - entrance.direction) % 2 === 0
    )
      return part.kind === "exit" && part.direction === entrance.direction ? there.part : null;
  }
  return null;
};

/** The ends of splitters' halves to which no belt leads, in the order of the parts, and of a half that at the back
    first. */
const bareEnds = (parts) => {
  const at = standing(parts);
  const found = [];
  parts.forEach((part, number) => {
    (part.kind === "splitter" ? part.cells : []).forEach((cell, which) => {
      const behind = at.get(keyOf(step(cell, part.direction, -1)));
      const feeder = behind && parts[behind.part];
      if (!feeder || feeder.kind === "entrance" || feeder.direction !== part.direction) found.push(
        { part: number, half: which, front: false }
      );
      if (!at.has(keyOf(step(cell, part.direction)))) found.push({ part: number, half: which, front: true });
    });
  });
  return found;
};

const tile = ([x, y]) => `(${x}, ${y})`;

/** A bare end as what it would be, an input or an output, and the cell of its half. */
const placeOf = (parts, bare) => ({ kind: bare.front ? "output" : "input", cell: parts[bare.part].cells[bare.half] });

/** Such places in words, so many at most. */
const spelled = (places, most = Infinity) => {
  const more = Math.max(0, places.length - most);
  const words = ["input", "output"].flatMap((kind) => {
    const tiles = places.slice(0, places.length - more).filter((it) => it.kind === kind).map((it) => tile(it.cell));
    return tiles.length ? [`${kind}${tiles.length > 1 ? "s" : ""} at ${tiles.join(", ")}`] : [];
  });
  return words.join(" and ") + (more ? `, and ${more} more` : "");
};

const nameOf = (it) => `${it.part}.${it.half}`;

/** Parts with what each hands on to. */
class Layout {
  constructor(parts) {
    this.parts = parts;
    this.at = standing(parts);
    if (this.at.size !== parts.reduce((sum, it) => sum + it.cells.length, 0)) throw new Untraced(
      "two parts stand on one tile"
    );
    this.exitOf = new Map();
    parts.forEach((it, number) => it.kind === "entrance" && this.exitOf.set(number, exitAhead(parts, this.at, it)));
    if ([...this.exitOf.values()].includes(null)) throw new Untraced("an underground belt has no other end");
    const exits = new Set(this.exitOf.values());
    this.next = new Map();
    this.fed = new Set();
    let isFedTwice = false;
    parts.forEach((part, number) => {
      if (part.kind === "exit" && !exits.has(number)) throw new Untraced("an underground belt has no other end");
      part.cells.forEach((_, which) => {
        const own = { part: number, half: which };
        const taker = this.taker(own);
        this.next.set(nameOf(own), taker);
        if (!taker) return;
        isFedTwice ||= this.fed.has(nameOf(taker));
        this.fed.add(nameOf(taker));
      });
    });
    if (isFedTwice) throw new Untraced("a belt is loaded from its side");
  }

  /** What a part's cell hands on to, or null where its front is empty. */
  taker({ part: number, half: which }) {
    const part = this.parts[number];
    if (part.kind === "entrance") return { part: this.exitOf.get(number), half: 0 };
    const taker = this.at.get(keyOf(step(part.cells[which], part.direction)));
    if (!taker) return null;
    const other = this.parts[taker.part];
    const turn = (other.direction - part.direction + 4) % 4;
    if (turn === 2 || (turn && other.kind === "splitter") || (turn === 0 && other.kind === "exit")) throw new Untraced(
      "what leaves a part can't go on"
    );
    if (turn && (other.kind === "entrance" || other.kind === "exit")) throw new Untraced(
      "an underground belt is loaded from its side"
    );
    return taker;
  }

  cell(it) {
    return this.parts[it.part].cells[it.half];
  }

  /** The network, numbered as the program numbers it; its caps as the program tells them, or in basic belts. */
  network(inBasicBelts = false) {
    const { parts } = this;
    const ofKinds = (...kinds) => parts.flatMap(
      (it, number) => (kinds.includes(it.kind) ? [{ part: number, half: 0 }] : [])
    );
    const fromWest = (a, b) => this.cell(a)[0] - this.cell(b)[0] || this.cell(a)[1] - this.cell(b)[1];
    const inputs = ofKinds("belt", "entrance").filter((it) => !this.fed.has(nameOf(it))).sort(fromWest);
    const outputs = ofKinds("belt", "exit").filter((it) => !this.next.get(nameOf(it))).sort(fromWest);
    const splitters = ofKinds("splitter").map((it) => it.part);
    const names = new Map(outputs.map((it, k) => [nameOf(it), `o${k}`]));
    splitters.forEach((part, k) => [0, 1].forEach((which) => names.set(nameOf({ part, half: which }), `s${k}`)));
    const isMixed = new Set(parts.map((it) => it.tier)).size > 1;
    const sources = inputs.map((it, k) => [`i${k}`, [it]]);
    splitters.forEach((part, k) => {
      for (const which of [0, 1]) {
        const taker = this.next.get(nameOf({ part, half: which }));
        if (taker) sources.push([`s${k}`, [{ part, half: which }, taker]]);
      }
    });
    const edges = sources.map(([source, run]) => this.edge(source, run, names, isMixed || inBasicBelts));
    const seen = new Set(edges.flatMap((edge) => edge.run.map((it) => it.half.part)));
    if (!parts.every((it, number) => it.kind === "splitter" || seen.has(number))) throw new Untraced(
      "a ring of belts has no splitter"
    );
    return { edges, inputs, outputs, splitters };
  }

  /** An edge from here on: what it runs over, each cell with the part there. */
  edge(source, run, names, inBasicBelts) {
    for (let last = run[run.length - 1]; !names.has(nameOf(last)); last = run[run.length - 1]) run.push(
      this.next.get(nameOf(last))
    );
    const cap = inBasicBelts ? Math.min(...run.map((it) => SPEED[this.parts[it.part].tier])) : 1;
    return {
      source,
      target: names.get(nameOf(run[run.length - 1])),
      cap,
      run: run.map((it) => ({ cell: this.cell(it), half: it })),
    };
  }
}

/** A network's text, in lines. */
const linesOf = ({ edges, inputs, outputs, splitters }) => [
  `net ${inputs.length} ${outputs.length} ${splitters.length}`,
  ...edges.map((it) => `edge ${it.source} ${it.target}${it.cap === 1 ? "" : ` ${it.cap}`}`),
  "end",
];

/** Whether the program's text tells the same network; lines about preferred sides are passed over. */
const isSameNetwork = (network, written) => {
  const lines = written.split("\n").filter((it) => ["net", "edge", "end"].includes(it.split(" ")[0]));
  const own = linesOf(network);
  return lines.length === own.length && lines.every((it, at) => it === own[at]);
};
