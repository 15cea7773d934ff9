// Bare halves of splitters, and how they are opened: with belts of the splitter's tier, straight from the half to one
// cell beyond the border of the design, where that way is free; where it crosses another such way, turned at the first
// belt. What comes out has the network of before and just these ends more, by the program's own word; a half for which
// that isn't so stays bare. The same as `collection/openings.py`.

/** Why a design has no network, as the program says it. */
class Refused extends Error {}

const WITHOUT_ENDS = `refused ${NO_ENDS} `;

/** The cells that are taken, by row and by column, and by what. */
class Ground {
  constructor(found, bystanders) {
    this.taken = new Map(bystanders.flatMap((it) => it.cells.map((cell) => [keyOf(cell), { cell, by: it.name }])));
    for (const part of found.parts) for (const cell of part.cells) this.taken.set(
      keyOf(cell), { cell, by: `the ${part.kind}` }
    );
    this.box = spanOf(found.parts.flatMap((it) => it.cells));
    this.lines = new Map();
    for (const { cell } of this.taken.values())
      for (const axis of [0, 1]) {
        const line = `${axis}:${cell[1 - axis]}`;
        if (!this.lines.has(line)) this.lines.set(line, []);
        this.lines.get(line).push(cell[axis]);
      }
    for (const line of this.lines.values()) line.sort((a, b) => a - b);
  }

  /** The first taken cell ahead, so many cells away at most, or null. */
  firstTaken(cell, direction, most) {
    const axis = direction === EAST || direction === WEST ? 0 : 1;
    const line = this.lines.get(`${axis}:${cell[1 - axis]}`) ?? [];
    const isAhead = direction === EAST || direction === SOUTH;
    const found = isAhead ? line.find((it) => it > cell[axis]) : line.findLast((it) => it < cell[axis]);
    if (found === undefined || Math.abs(found - cell[axis]) > most) return null;
    return axis === 0 ? [found, cell[1]] : [cell[0], found];
  }

  /** How many cells lie between this one and that beyond the border ahead, which counts. */
  toBorder([x, y], direction) {
    const [leastX, leastY, mostX, mostY] = this.box;
    return [y - leastY, mostX - x, mostY - y, x - leastX][direction] + 1;
  }
}

/** The belts of a straight way that leads from a half in a direction, each with its cell and its direction. */
const straight = (cell, direction, count, isFront) => {
  const belt = isFront ? direction : (direction + 2) % 4;
  return Array.from({ length: count }, (_, at) => ({ cell: step(cell, direction, at + 1), direction: belt }));
};

/** The belts of the shorter way that is turned at its first belt, to the left or to the right; or null. */
const turnedWay = (ground, used, cell, direction, isFront) => {
  const first = step(cell, direction);
  const found = [(direction + 3) % 4, (direction + 1) % 4].flatMap((aside) => {
    const count = ground.toBorder(first, aside);
    if (count <= 0 || ground.firstTaken(first, aside, count)) return [];
    return [
      [{ cell: first, direction: isFront ? aside : (direction + 2) % 4 }, ...straight(first, aside, count, isFront)]
    ];
  });
  const free = found.filter((way) => !way.some((it) => used.has(keyOf(it.cell))));
  return free.sort((a, b) => a.length - b.length)[0] ?? null;
};

/** The ways of all bare ends, with so many belts at most. No two of them cross: the shorter goes before, and the other
    is turned where it can be. */
const waysOf = (found, bystanders, most) => {
  const ground = new Ground(found, bystanders);
  const used = new Map();
  const ends = bareEnds(found.parts).map((bare) => {
    const part = found.parts[bare.part];
    const direction = bare.front ? part.direction : (part.direction + 2) % 4;
    const cell = part.cells[bare.half];
    return { bare, part, direction, cell, count: ground.toBorder(cell, direction) };
  });
  for (const end of [...ends].sort((a, b) => a.count - b.count)) {
    const { bare, part, direction, cell, count } = end;
    const place = placeOf(found.parts, bare);
    const there = ground.firstTaken(cell, direction, count);
    let why = null;
    let belts = [];
    if (there) why = `${ground.taken.get(keyOf(there)).by} at tile ${tile(there)} is in the way`;
    else if (count <= most - used.size) {
      belts = straight(cell, direction, count, bare.front);
      const crossed = belts.map((it) => used.get(keyOf(it.cell))).find(Boolean);
      if (crossed) belts = turnedWay(ground, used, cell, direction, bare.front) ?? [];
      why = belts.length ? null : `its way crosses that of the ${spelled([crossed])}`;
    }
    if (!why && !(belts.length > 0 && belts.length <= most - used.size)) {
      why = `the design would have more than ${MOST_ENTITIES} entities`;
      belts = [];
    }
    for (const it of belts) used.set(keyOf(it.cell), place);
    end.way = { place, splitter: part, front: bare.front, belts, why };
  }
  return ends.map((it) => it.way);
};

/** The entities of the belts of these ways, as texts. */
const beltsOf = (found, bytes, ways) => {
  const list = new Listed(bytes);
  let number = Math.max(0, ...list.entities.map((it) => list.value(it, "entity_number")).filter(Number.isInteger));
  const quarter = found.isSixteenths ? 4 : 2;
  return ways.flatMap((way) =>
    way.belts.map(({ cell, direction }) => {
      number += 1;
      const [x, y] = cell.map((it, axis) => (2 * it + 1 + found.shift[axis]) / 2);
      const name = `${PREFIXES[way.splitter.tier]}transport-belt`;
      return asBytes(
        `{"entity_number":${number},"name":"${name}","position":{"x":${x},"y":${y}},"direction":${quarter * direction}}`
      );
    }),
  );
};

/** A network's lines without these ends and the edges at them, all else numbered anew. */
const linesWithout = (lines, ends) => {
  const head = lines[0].split(" ");
  const places = new Map();
  const counts = [0, 0];
  ["i", "o"].forEach((sign, which) => {
    for (let k = 0; k < Number(head[1 + which]); k += 1)
      if (!ends.has(`${sign}${k}`)) {
        places.set(`${sign}${k}`, `${sign}${counts[which]}`);
        counts[which] += 1;
      }
  });
  const told = lines.slice(1).map((it) => it.split(" "));
  const numbers = new Map();
  const kept = [];
  told
    .filter((it) => it[0] === "edge")
    .forEach(([, source, target, ...cap], number) => {
      if (ends.has(source) || ends.has(target)) return;
      numbers.set(String(number), numbers.size);
      kept.push(["edge", places.get(source) ?? source, places.get(target) ?? target, ...cap].join(" "));
    });
  for (const [word, splitter, edge] of told) if ((word === "give" || word === "take") && numbers.has(edge)) kept.push(
    `${word} ${splitter} ${numbers.get(edge)}`
  );
  return [`net ${counts[0]} ${counts[1]} ${head[3]}`, ...kept, "end"];
};

const plainLines = (lines) => lines.filter((it) => !/^(give|take) /.test(it));
const areSame = (some, others) => some.length === others.length && some.every((it, at) => it === others[at]);
const linesIn = (written) => written.split("\n").filter((it, at, all) => it || at < all.length - 1);

/** A design with the program's word on it, from which ways are opened. `recover` asks the program. */
class Opening {
  static async of(bytes, bystanders, recover) {
    const it = new Opening();
    const taken = bystanders.flatMap((other) => other.cells);
    Object.assign(
      it, { bytes, recover, taken, answer: await recover(bytes), found: null, network: null, ways: [], bare: [] }
    );
    it.isWhole = it.answer.startsWith("net ");
    if (!it.isWhole && !it.answer.startsWith(WITHOUT_ENDS)) throw new Refused(it.answer);
    it.lines = it.isWhole ? linesIn(it.answer) : [];
    try {
      const found = readDesign(bytes);
      it.network = new Layout(found.parts).network();
      it.found = found;
      it.bare = bareEnds(found.parts);
      if (it.network.splitters.length) it.ways = waysOf(found, bystanders, MOST_ENTITIES - found.parts.length);
    } catch (fault) {
      if (!(fault instanceof Unreadable || fault instanceof Untraced)) throw fault;
      it.network = null;
    }
    if (it.network && !it.isWhole) it.lines = linesOf(it.network);
    return it;
  }

  /** How many inputs and outputs there are. */
  ends() {
    return this.lines.length ? this.lines[0].split(" ").slice(1, 3).map(Number) : [0, 0];
  }

  /** How many there are with these ways open. */
  moreEnds(ways) {
    const [inputs, outputs] = this.ends();
    return [inputs + ways.filter((it) => !it.front).length, outputs + ways.filter((it) => it.front).length];
  }

  /** The bytes with these ways open, and what the program says of them; and why they can't be taken, or null. */
  async withWays(ways) {
    const bytes = new Listed(this.bytes).withMore(beltsOf(this.found, this.bytes, ways));
    const answer = await this.recover(bytes);
    const other = "with belts there the network would be another one";
    if (!answer.startsWith("net ") && !answer.startsWith(WITHOUT_ENDS)) return {
      bytes, answer, why: `with belts there the program says: ${toldRefusal(answer, bytes).words}`
    };
    let network = null;
    try {
      network = new Layout(readDesign(bytes).parts).network();
    } catch (fault) {
      if (!(fault instanceof Unreadable || fault instanceof Untraced)) throw fault;
      return { bytes, answer, why: other };
    }
    const before = this.found.parts.length;
    const added = (sign, them) => them.flatMap((it, k) => (it.part >= before ? [`${sign}${k}`] : []));
    const ends = new Set([...added("i", network.inputs), ...added("o", network.outputs)]);
    const isTold = answer.startsWith("net ");
    const left = linesWithout(isTold ? linesIn(answer) : linesOf(network), ends);
    const isSame = this.isWhole ? areSame(left, this.lines) : areSame(plainLines(left), this.lines);
    const isTraced = isTold ? isSameNetwork(network, answer) : !(network.inputs.length && network.outputs.length);
    return { bytes, answer, why: isTraced && isSame && ends.size === ways.length ? null : other };
  }

  /** Opens these ways, but for those with which the network would be another one. */
  async opened(ways) {
    let best = { bytes: this.bytes, answer: this.answer };
    let kept = [];
    const refused = new Map();
    const left = ways.length ? [ways] : [];
    while (left.length) {
      const batch = left.pop();
      const { bytes, answer, why } = await this.withWays([...kept, ...batch]);
      if (why === null) {
        best = { bytes, answer };
        kept = [...kept, ...batch];
      } else if (batch.length === 1) refused.set(batch[0], why);
      else {
        const middle = Math.floor(batch.length / 2);
        left.push(batch.slice(middle), batch.slice(0, middle));
      }
    }
    const unopened = this.ways.filter((it) => it.why || refused.has(it)).map(
      (it) => ({ place: it.place, why: it.why ?? refused.get(it) })
    );
    const after = this.moreEnds(kept);
    const belts = kept.reduce((count, it) => count + it.belts.length, 0);
    return {
      ...UNTOLD, ...best, belts, opened: kept.map((it) => it.place), unopened, before: this.ends(), after, would: after
    };
  }

  /** The design with these ends marked in its network alone; null where that is another one. */
  async marked(ways) {
    const bytes = asBytes(this.withEnds(ways));
    const answer = await this.recover(bytes);
    const [ends, after] = [this.ends(), this.moreEnds(ways)];
    const added = new Set(["i", "o"].flatMap(
      (sign, side) => Array.from({ length: after[side] - ends[side] }, (_, k) => `${sign}${ends[side] + k}`)
    ));
    if (!answer.startsWith("net ")) return null;
    const isSame = !this.isWhole || areSame(linesWithout(linesIn(answer), added).sort(), [...this.lines].sort());
    return isSame ? {
      ...UNTOLD,
      bytes: this.bytes,
      answer,
      belts: 0,
      opened: ways.map((it) => it.place),
      unopened: [],
      before: ends,
      after,
      would: after,
      isMarked: true,
    } : null;
  }

  /** The network's text with these bare halves as ends, behind those that there are. */
  withEnds(ways) {
    const { parts } = this.found;
    const names = new Map(this.network.splitters.map((part, k) => [part, `s${k}`]));
    const isMixed = new Set(parts.map((it) => it.tier)).size > 1;
    const edges = this.network.edges.map(({ source, target, cap, run }) => (
      { source, target, cap, first: nameOf(run[0].half), last: nameOf(run[run.length - 1].half) }
    ));
    const counts = this.ends();
    for (const bare of ways.map((it) => this.bare[this.ways.indexOf(it)])) {
      const cap = isMixed ? SPEED[parts[bare.part].tier] : 1;
      const side = Number(bare.front);
      const [end, name] = [`${"io"[side]}${counts[side]}`, names.get(bare.part)];
      counts[side] += 1;
      edges.push(
        bare.front ? { source: name, target: end, cap, first: nameOf(bare), last: null }
        : { source: end, target: name, cap, first: null, last: nameOf(bare) }
      );
    }
    const lines = edges.map((it) => `edge ${it.source} ${it.target}${it.cap === 1 ? "" : ` ${it.cap}`}`);
    for (const [part, name] of names)
      for (const [word, which] of [["give", "first"], ["take", "last"]]) {
        const side = parts[part][word];
        const half = nameOf({ part, half: side === "left" ? leftHalf(parts[part]) : 1 - leftHalf(parts[part]) });
        const at = edges.findLastIndex((it) => it[which] === half);
        if (side && at >= 0) lines.push(`${word} ${name} ${at}`);
      }
    return [`net ${counts[0]} ${counts[1]} ${names.size}`, ...lines, "end\n"].join("\n");
  }

  /** The design with all of these ends: with belts where each has room for them, straight or along paths; else
      marked. */
  async openedAs(ways) {
    if (ways.every((it) => !it.why)) {
      const found = await this.opened(ways);
      if (found.opened.length === ways.length) return found;
    }
    return (await this.led(ways)) ?? this.marked(ways);
  }

  /** The design with all of these ends led out along paths; null where that can't be, or makes another network. */
  async led(ways) {
    const { parts } = this.found;
    const cells = parts.flatMap((it) => it.cells);
    const pairs = ways.map((way) => ({ way, bare: this.bare[this.ways.indexOf(way)] }));
    const found = ledAlong(parts, [...this.taken, ...cells].map(keyOf), spanOf(cells), this.bare, this.network, pairs);
    const belts = found?.reduce((count, it) => count + it.belts.length, 0);
    if (!found || parts.length + belts > MOST_ENTITIES) return null;
    const { bytes, answer, why } = await this.withWays(found);
    const after = this.moreEnds(ways);
    return why === null ? {
      ...UNTOLD,
      bytes,
      answer,
      belts,
      opened: ways.map((it) => it.place),
      unopened: [],
      before: this.ends(),
      after,
      would: after,
    } : null;
  }

  /** What the rule of ends tells of the design, or null where its parts can't be traced; a pair that may be its own
      size, and fits its size and not its ends, is none. */
  toldEnds(label) {
    if (!this.network) return null;
    const pairs = pairsWithSizes(label);
    const ofPairs = (them) => endsOf(this.found.parts, this.taken, them.map(([inputs, outputs]) => [inputs, outputs]));
    const told = ofPairs(pairs);
    const [leastX, leastY, mostX, mostY] = spanOf(this.found.parts.flatMap((it) => it.cells));
    const [width, height] = [mostX - leastX + 1, mostY - leastY + 1];
    const left = pairs.filter(
      ([inputs, outputs, isSize]) => !(isSize && isAmong([inputs, outputs], [[width, height], [height, width]]))
    );
    return told.status === "none" && left.length < pairs.length ? ofPairs(left) : told;
  }
}

/** What is told of ends where the rule isn't asked. */
const UNTOLD = { ends: "", gaps: [], choices: [], isMarked: false };

/** What the rule of ends tells where nothing is decided. */
const UNJUDGED = ["none", "many", "gap"];

/** Opens bare halves: none; or all; or by the rule of ends those that the label tells of, and where it tells of none,
    all where without them there is no input or no output. */
const openedBy = async (opening, mode, label) => {
  const free = opening.ways.filter((it) => !it.why);
  const told = opening.toldEnds(label);
  const gaps = told?.gaps ?? [];
  const could = told ? { would: told.could } : {};
  if (mode === "always") return { ...(await opening.opened(free)), gaps };
  const shut = { ...(await opening.opened([])), ...could, gaps };
  if (mode === "never" || !told) return shut;
  if (told.status === "all" && !pairsIn(label).length) return {
    ...(await opening.opened(free)), ...could, ends: "all"
  };
  return byChoices(opening, told, { ...shut, ends: told.status, unopened: [] });
};

/** Opens the choice of halves that is told, or makes of several a design each; else the design as it stands. */
const byChoices = async (opening, told, shut) => {
  const found = [];
  for (const [at, halves] of told.choices.entries()) {
    if (!halves.length) continue;
    const one = await opening.openedAs(halves.map((it) => opening.ways[it]));
    if (!one) return { ...shut, ends: "none" };
    found.push({ ...one, lacking: told.rooms[at] });
  }
  const choices = found.map((it) => ({ ...it, ends: told.status, would: told.could, unopened: [] }));
  return told.status === "several" ? { ...shut, choices } : choices[0] ?? shut;
};
