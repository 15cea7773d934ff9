// Which bare halves of a design's splitters are ends, where its label tells how many inputs and outputs it has. The
// same as `collection/ends.py`, which says what is chosen and why.

/** How many choices there are at most, and how many networks; where there are more, none is told. */
const [MOST_CHOICES, MOST_NETWORKS] = [256, 64];

/** How many ways to share ends among splitters are looked at for a label at most. */
const MOST_LOOKED_AT = 20000;

/** How many splitters, bare ends, and cells of the design's box there are at most where choices are looked for. */
const [MOST_SPLITTERS, MOST_BARE, MOST_CELLS] = [512, 512, 65536];

/** How many cells are come by at most where it is looked whether ends can be led out; beyond that there are too many to
    look at. */
const MOST_VISITED = 1000000;

/** How many choices are tried to find that two networks are the same at most. */
const MOST_TRIED = 200;

/** The direction from a bare end of a splitter to what is beyond it. */
const wayOut = (part, bare) => (bare.front ? part.direction : (part.direction + 2) % 4);

/** The cell beyond a bare end of a splitter. */
const outsideOf = (part, bare) => step(part.cells[bare.half], wayOut(part, bare));

/** The free tiles that lie in front of an output or a bare half, and from which a belt would feed an input or a bare
    half, from west to east and then from north to south. */
const gapsOf = (parts, taken, network, bare) => {
  const there = new Set([...parts.flatMap((it) => it.cells), ...taken].map(keyOf));
  const [fronts, fed] = [new Map(), new Map()];
  const put = (them, cell) => them.set(keyOf(cell), cell);
  for (const it of network.outputs) put(fronts, step(parts[it.part].cells[it.half], parts[it.part].direction));
  for (const it of network.inputs) {
    const part = parts[it.part];
    for (const turn of part.kind === "belt" ? [1, 2, 3] : [2]) put(
      fed, step(part.cells[it.half], (part.direction + turn) % 4)
    );
  }
  for (const it of bare) put(it.front ? fronts : fed, outsideOf(parts[it.part], it));
  const found = [...fronts].filter(([key]) => fed.has(key) && !there.has(key)).map(([, cell]) => cell);
  return found.sort((a, b) => a[1] - b[1] || a[0] - b[0]);
};

const total = (numbers) => numbers.reduce((sum, it) => sum + it, 0);

/** All ways to share a total among places from one on, so many at least and at most at each; in order. */
function* shares(least, most, whole, from = 0) {
  if (from === least.length) {
    if (whole === 0) yield [];
    return;
  }
  const low = Math.max(least[from], whole - total(most.slice(from + 1)));
  const high = Math.min(most[from], whole - total(least.slice(from + 1)));
  for (let count = low; count <= high; count += 1) for (
    const rest of shares(least, most, whole - count, from + 1)
  ) yield [count, ...rest];
}

/** A graph in which as much flows as can: edges in pairs, there and back, each with its room. */
class Flow {
  constructor() {
    [this.out, this.target, this.room] = [[], [], []];
    /** How many nodes were come by so far. */
    this.visited = 0;
  }

  node() {
    this.out.push([]);
    return this.out.length - 1;
  }

  /** The number of a new edge; that of its way back is the next one. */
  edge(source, target, room) {
    for (const [at, to, much] of [[source, target, room], [target, source, 0]]) {
      this.out[at].push(this.target.length);
      this.target.push(to);
      this.room.push(much);
    }
    return this.target.length - 2;
  }

  /** Lets one more flow, and takes it out of the rooms; whether it could. */
  isRaised(source, sink, room) {
    const came = new Map([[source, null]]);
    const line = [source];
    for (const node of line) {
      this.visited += 1;
      if (this.visited > MOST_VISITED) return false;
      for (const edge of this.out[node]) {
        const to = this.target[edge];
        if (room[edge] && !came.has(to)) {
          came.set(to, edge);
          line.push(to);
        }
      }
      if (came.has(sink)) break;
    }
    if (!came.has(sink)) return false;
    for (let node = sink; node !== source; ) {
      const edge = came.get(node);
      room[edge] -= 1;
      room[edge ^ 1] += 1;
      node = this.target[edge ^ 1];
    }
    return true;
  }
}

/** A design's splitters with their bare halves: what can be chosen, and what comes of it. A choice is two lists: how
    many ends each splitter gets at its back, and in front. */
class Plan {
  constructor(parts, taken, network, bare) {
    Object.assign(this, { parts, bare, network });
    this.taken = new Set([...parts.flatMap((it) => it.cells), ...taken].map(keyOf));
    this.box = spanOf(parts.flatMap((it) => it.cells));
    this.count = network.splitters.length;
    this.number = new Map(network.splitters.map((part, at) => [part, at]));
    /** Of each splitter the numbers of the bare ends at its back, and of those in front. */
    this.halves = network.splitters.map(() => [[], []]);
    bare.forEach((it, at) => this.halves[this.number.get(it.part)][Number(it.front)].push(at));
    this.ways = bare.map((it) => this.straight(it));
    this.readEdges();
    this.makeFlow();
  }

  /** Whether the straight way from a bare end to beyond the border is taken, and how many belts it has. */
  straight(bare) {
    const part = this.parts[bare.part];
    let [cell, belts, isTaken] = [part.cells[bare.half], 0, 0];
    while (this.isInside(cell)) {
      cell = step(cell, wayOut(part, bare));
      belts += 1;
      if (this.taken.has(keyOf(cell))) isTaken = 1;
    }
    return [isTaken, belts];
  }

  isInside([x, y]) {
    const [leastX, leastY, mostX, mostY] = this.box;
    return leastX <= x && x <= mostX && leastY <= y && y <= mostY;
  }

  /** Reads from the network which splitters lead to which, and the ends that stand at each. */
  readEdges() {
    const of = (value) => Array.from({ length: this.count }, value);
    this.stands = of(() => [0, 0]);
    [this.isFed, this.isLeading] = [of(() => false), of(() => false)];
    this.next = of(() => []);
    this.isPassing = false;
    for (const edge of this.network.edges) {
      const source = edge.source[0] === "s" ? Number(edge.source.slice(1)) : null;
      const target = edge.target[0] === "s" ? Number(edge.target.slice(1)) : null;
      if (source === null && target === null) this.isPassing = true;
      else if (source === null) this.stands[target][0] += 1;
      else if (target === null) this.stands[source][1] += 1;
      else this.next[source].push(target);
      if (target !== null) this.isFed[target] = true;
      if (source !== null) this.isLeading[source] = true;
    }
    this.reach = this.next.map((_, at) => this.reached(at));
  }

  /** The splitters that are reached from one, itself too. */
  reached(start) {
    const found = new Set([start]);
    for (const at of found) for (const to of this.next[at]) found.add(to);
    return found;
  }

  /** Makes the graph of the free tiles by which bare ends are led out, and finds which can be. */
  makeFlow() {
    this.flow = new Flow();
    [this.source, this.sink] = [this.flow.node(), this.flow.node()];
    /** The node of each tile, and of each bare end the edge on which it is led out. */
    [this.into, this.starts] = [new Map(), []];
    const line = [];
    for (let number = 0; number < this.bare.length; number += 1) {
      const start = this.flow.node();
      this.starts.push(this.flow.edge(this.source, start, 0));
      if (this.lead(start, this.beyond(number))) line.push(this.beyond(number));
    }
    for (const cell of line) for (let direction = 0; direction < 4; direction += 1) if (
      this.lead(this.into.get(keyOf(cell)) + 1, step(cell, direction))
    ) line.push(step(cell, direction));
    this.outer = this.flooded(line);
    const filled = new Set(this.parts.flatMap((it) => it.cells).map(keyOf));
    this.halves = this.halves.map((sides) => sides.map((side) => side.filter(
      (it) => !filled.has(keyOf(this.beyond(it)))
    )));
    /** How many bare ends each splitter has at its back and in front that no part stands in front of. */
    this.free = this.halves.map((sides) => sides.map((side) => side.length));
    /** Whether all bare ends that can be led out alone can be together. */
    this.isAllLedOut = false;
    this.isAllLedOut = !this.lacking(this.halves.flat(2).filter((it) => this.isOut(it)));
  }

  /** The cell beyond a bare end. */
  beyond(number) {
    return outsideOf(this.parts[this.bare[number].part], this.bare[number]);
  }

  /** An edge from a node to a free cell, or out of the box; whether the cell is a new one. */
  lead(node, cell) {
    if (!this.isInside(cell)) {
      this.flow.edge(node, this.sink, 1);
      return false;
    }
    const key = keyOf(cell);
    if (this.taken.has(key)) return false;
    const isNew = !this.into.has(key);
    if (isNew) {
      this.into.set(key, this.flow.node());
      this.flow.edge(this.into.get(key), this.flow.node(), 1);
    }
    this.flow.edge(node, this.into.get(key), 1);
    return isNew;
  }

  /** Whether a bare end can be led out where it is alone. */
  isOut(number) {
    const cell = this.beyond(number);
    return !this.isInside(cell) || this.outer.has(keyOf(cell));
  }

  /** The free cells, those of this line, from which a way leads out of the box. */
  flooded(cells) {
    const found = new Map();
    for (const cell of cells) if ([0, 1, 2, 3].some((it) => !this.isInside(step(cell, it)))) found.set(
      keyOf(cell), cell
    );
    for (const cell of found.values())
      for (let direction = 0; direction < 4; direction += 1) {
        const beside = step(cell, direction);
        if (this.into.has(keyOf(beside))) found.set(keyOf(beside), found.get(keyOf(beside)) ?? beside);
      }
    return found;
  }

  /** The cell beyond the first of these bare ends that can't be led out, alone or together with those before it; null
      where all can. */
  lacking(halves) {
    const alone = halves.find((it) => !this.isOut(it));
    if (alone !== undefined) return this.beyond(alone);
    if (this.isAllLedOut) return null;
    const room = [...this.flow.room];
    for (const it of halves) {
      room[this.starts[it]] = 1;
      if (!this.flow.isRaised(this.source, this.sink, room)) return this.beyond(it);
    }
    return null;
  }

  /** How many ends each splitter gets at least and at most, where only some may get any; null where one that must may
      not. */
  bounds(front, may) {
    const least = (front ? this.isLeading : this.isFed).map((there) => (there ? 0 : 1));
    const most = this.free.map((sides, at) => (may[at] ? sides[front] : 0));
    return least.some((low, at) => low > most[at]) ? null : [least, most];
  }

  /** All ways to share so many ends among the splitters that may get some. */
  *shared(front, may, whole) {
    const both = this.bounds(front, may);
    if (!both) return;
    const [least, most] = both;
    const places = most.flatMap((it, at) => (it ? [at] : []));
    for (const them of shares(places.map((at) => least[at]), places.map((at) => most[at]), whole)) {
      const found = Array(this.count).fill(0);
      places.forEach((at, k) => (found[at] = them[k]));
      yield found;
    }
  }

  /** All choices that make so many inputs and outputs, or null where there are too many to look at. */
  choices(pair) {
    if (this.isPassing || this.count === 0) return [];
    const [inputs, outputs] = [0, 1].map((side) => pair[side] - total(this.stands.map((it) => it[side])));
    /** The splitters that have an output, or must get one. */
    const wanted = this.stands.flatMap((it, at) => (it[1] || !this.isLeading[at] ? [at] : []));
    const may = this.reach.map((reach) => wanted.every((it) => reach.has(it)));
    const found = [];
    let looked = 0;
    for (const ins of this.shared(0, may, inputs)) {
      looked += 1;
      const common = this.common(ins);
      if (common)
        for (const outs of this.shared(1, this.reach.map((_, at) => common.has(at)), outputs)) {
          looked += 1;
          if (this.isLeadingOn(outs)) found.push([ins, outs]);
          if (looked > MOST_LOOKED_AT || found.length > MOST_CHOICES) return null;
        }
      if (looked > MOST_LOOKED_AT) return null;
    }
    return found;
  }

  /** The splitters that are reached from all inputs; null where one is reached from none of them, or an output that
      stands isn't reached from all. */
  common(ins) {
    const entered = this.stands.flatMap((it, at) => (ins[at] || it[0] ? [at] : []));
    if (!entered.length) return null;
    const either = new Set();
    for (const at of entered) for (const it of this.reach[at]) either.add(it);
    const common = new Set([...this.reach[entered[0]]].filter((it) => entered.every((at) => this.reach[at].has(it))));
    const isSound = either.size === this.count && this.stands.every((it, at) => !it[1] || common.has(at));
    return isSound ? common : null;
  }

  /** Whether each splitter leads to an output. */
  isLeadingOn(outs) {
    const left = this.stands.flatMap((it, at) => (outs[at] || it[1] ? [at] : []));
    return this.reach.every((reach) => left.some((it) => reach.has(it)));
  }

  /** The bare ends of a choice: of two one that can be led out, then the one whose straight way is free, and then the
      shorter. */
  halvesOf(choice) {
    const found = [];
    for (let at = 0; at < this.count; at += 1)
      for (const front of [0, 1]) {
        const told = (it) => [this.isOut(it) ? 0 : 1, ...this.ways[it]];
        const them = [...this.halves[at][front]].sort((a, b) => byNumbers(told(a), told(b)) || a - b);
        found.push(...them.slice(0, choice[front][at]));
      }
    return found.sort((a, b) => a - b);
  }

  /** By what choices are put in order: whether they lack room, how many straight ways are taken, and then how many
      belts there are. */
  cost(halves, lacking) {
    return [lacking ? 1 : 0, ...[0, 1].map((which) => total(halves.map((it) => this.ways[it][which])))];
  }

  /** The bare ends of one choice for each network that they make, and where they lack room, the likely one first, each
      the likeliest of its network; null where there are too many networks. */
  grouped(choices) {
    const kept = choices.map((it) => this.halvesOf(it)).map((halves) => [halves, this.lacking(halves)]);
    kept.sort((a, b) => byNumbers(this.cost(...a), this.cost(...b)));
    const [alike, found] = [new Map(), []];
    for (const [halves, lacking] of kept) {
      const [marks, edges] = this.told(halves);
      const shape = shapeKey(refined(marks, edges), edges);
      if (!alike.has(shape)) alike.set(shape, []);
      const others = alike.get(shape);
      if (!others.some((it) => isSameShape(marks, edges, ...it))) {
        others.push([marks, edges]);
        found.push([halves, lacking]);
      }
      if (found.length > MOST_NETWORKS) return null;
    }
    return found;
  }

  /** The network with these ends, as what stands at each splitter and the edges between splitters. Each edge has its
      cap, and whether a splitter with two edges at that side prefers it. */
  told(halves) {
    const isMixed = new Set(this.parts.map((it) => it.tier)).size > 1;
    const at = (half) => this.number.get(half.part) ?? null;
    const lines = this.network.edges.map(({ cap, run }) => [
      at(run[0].half), run[0].half.half, at(run[run.length - 1].half), run[run.length - 1].half.half, cap
    ]);
    for (const it of halves) {
      const bare = this.bare[it];
      const cap = isMixed ? SPEED[this.parts[bare.part].tier] : 1;
      lines.push(bare.front ? [at(bare), bare.half, null, 0, cap] : [null, 0, at(bare), bare.half, cap]);
    }
    const count = this.next.map(() => [0, 0]);
    for (const [source, , target] of lines) for (const [which, front] of [[source, 1], [target, 0]]) if (
      which !== null
    ) count[which][front] += 1;
    const [marks, found] = [this.next.map(() => []), []];
    for (const [source, first, target, last, cap] of lines) {
      const gives = source !== null && count[source][1] === 2 && this.prefers(source, first, "give");
      const takes = target !== null && count[target][0] === 2 && this.prefers(target, last, "take");
      const kind = 4 * cap + 2 * gives + takes;
      if (source === null && target !== null) marks[target].push([0, kind]);
      else if (target === null && source !== null) marks[source].push([1, kind]);
      else if (source !== null) found.push([source, target, kind]);
    }
    return [marks.map((it) => it.sort((a, b) => a[0] - b[0] || a[1] - b[1])), found];
  }

  /** Whether a splitter prefers this half's side of its output, or of its input. */
  prefers(at, which, member) {
    const part = this.parts[this.network.splitters[at]];
    return Boolean(part[member]) && (which === leftHalf(part)) === (part[member] === "left");
  }
}

/** Of each of some things the number of those that come before it in an order by what they are, without repeats. */
const ranksIn = (told) => {
  const keys = told.map((it) => JSON.stringify(it));
  const order = new Map([...new Set(keys)].sort().map((it, at) => [it, at]));
  return keys.map((it) => order.get(it));
};

const byNumbers = (a, b) => a[0] - b[0] || a[1] - b[1] || (a[2] ?? 0) - (b[2] ?? 0);

/** Colours by which vertices are told apart as far as by what stands around them; equal ones stay equal. */
const refined = (marks, edges) => {
  let [colours, number] = [ranksIn(marks), 0];
  while (new Set(colours).size !== number) {
    number = new Set(colours).size;
    const [out, into] = [colours.map(() => []), colours.map(() => [])];
    for (const [source, target, kind] of edges) {
      out[source].push([colours[target], kind]);
      into[target].push([colours[source], kind]);
    }
    colours = ranksIn(colours.map((it, at) => [it, out[at].sort(byNumbers), into[at].sort(byNumbers)]));
  }
  return colours;
};

/** What is equal of networks that are the same. */
const shapeKey = (colours, edges) => JSON.stringify([
  [...colours].sort((a, b) => a - b),
  edges.map(([source, target, kind]) => [colours[source], colours[target], kind]).sort(byNumbers),
]);

/** Whether a renaming of its splitters takes one network to another; two for which none is found in so many tries are
    taken for different ones. Both are refined as one network, in which two vertices of a pair stay equal. */
const isSameShape = (marks, edges, otherMarks, otherEdges) => {
  const count = marks.length;
  const both = [...edges, ...otherEdges.map(([source, target, kind]) => [source + count, target + count, kind])];
  const waiting = [[...marks, ...otherMarks].map((it) => [it, -1])];
  const wanted = JSON.stringify([...otherEdges].sort(byNumbers));
  const sorted = (numbers) => [...numbers].sort((a, b) => a - b).join();
  for (let tried = 1; waiting.length && tried <= MOST_TRIED; tried += 1) {
    const pairs = waiting.pop();
    const colours = refined(pairs, both);
    if (sorted(colours.slice(0, count)) !== sorted(colours.slice(count))) continue;
    const classes = new Map();
    colours.forEach((colour, at) => {
      if (!classes.has(colour)) classes.set(colour, [[], []]);
      classes.get(colour)[at >= count ? 1 : 0].push(at);
    });
    const open = [...classes.values()].filter(([ours]) => ours.length > 1);
    if (!open.length) {
      const name = new Map([...classes.values()].map(([ours, theirs]) => [ours[0], theirs[0] - count]));
      const renamed = edges.map(([source, target, kind]) => [name.get(source), name.get(target), kind]).sort(byNumbers);
      if (
        JSON.stringify(renamed) === wanted
        && marks.every((it, at) => JSON.stringify(it) === JSON.stringify(otherMarks[name.get(at)]))
      ) return true;
      continue;
    }
    const [ours, theirs] = open.sort(([a], [b]) => a.length - b.length || a[0] - b[0])[0];
    for (const other of [...theirs].reverse()) {
      const next = [...pairs];
      next[ours[0]] = next[other] = [pairs[ours[0]][0], tried];
      waiting.push(next);
    }
  }
  return false;
};

/** What is told of the ends of these parts, where other things stand on the taken cells, and a label tells of these
    pairs of numbers: whether the ends that stand are those that are meant, or all bare halves, or one choice of them,
    or one of several that make other networks, or none, or whether there are too many to look at, or a belt may be
    missing. */
const endsOf = (parts, taken, pairs) => {
  const network = new Layout(parts).network();
  const bare = bareEnds(parts);
  const stand = [network.inputs.length, network.outputs.length];
  const could = [stand[0] + bare.filter((it) => !it.front).length, stand[1] + bare.filter((it) => it.front).length];
  const told = (status, groups = [], gaps = []) => ({
    status, choices: groups.map(([halves]) => halves), rooms: groups.map(([, lacking]) => lacking), gaps, stand, could
  });
  const everything = bare.map((_, at) => at);
  if (isAmong(could, pairs)) return told(bare.length ? "all" : "whole", [[everything, null]]);
  const gaps = gapsOf(parts, taken, network, bare);
  if (gaps.length) return told("gap", [], gaps);
  if (isAmong(stand, pairs) || (!pairs.length && Math.min(...stand) > 0)) return told("whole", [[[], null]]);
  if (!pairs.length) return told("all", [[everything, null]]);
  const [leastX, leastY, mostX, mostY] = spanOf(parts.flatMap((it) => it.cells));
  const cells = (mostX - leastX + 1) * (mostY - leastY + 1);
  if (network.splitters.length > MOST_SPLITTERS || bare.length > MOST_BARE || cells > MOST_CELLS) return told("many");
  const plan = new Plan(parts, taken, network, bare);
  const found = [];
  for (const pair of pairs)
    if (pair.every((it, side) => stand[side] <= it && it <= could[side])) {
      const them = plan.choices(pair);
      if (!them || found.length + them.length > MOST_CHOICES) return told("many");
      found.push(...them);
    }
  const groups = plan.grouped(found);
  if (!groups || plan.flow.visited > MOST_VISITED) return told("many");
  return told(!groups.length ? "none" : groups.length === 1 ? "one" : "several", groups);
};
