// Belts by which bare halves are led out of a design where no straight way is free: along paths on free tiles, none of
// which is shared. The same as `collection/leading.py`.

/** The free tiles of a design as a graph, and the paths from some bare ends to beyond its border. */
class Paths {
  constructor(parts, taken, box, ends) {
    Object.assign(this, { parts, taken, box, ends, flow: new Flow() });
    [this.source, this.sink] = [this.flow.node(), this.flow.node()];
    /** The node of each tile, and the tile that each edge leads to. */
    [this.into, this.cellOf] = [new Map(), new Map()];
    this.line = [];
    this.starts = ends.map((it) => this.start(it));
    for (const cell of this.line) for (let direction = 0; direction < 4; direction += 1) this.lead(
      this.into.get(keyOf(cell)) + 1, step(cell, direction)
    );
  }

  /** The node of a bare end, whose one edge leads to the tile beyond it. */
  start(bare) {
    const node = this.flow.node();
    this.flow.edge(this.source, node, 1);
    this.lead(node, outsideOf(this.parts[bare.part], bare));
    return node;
  }

  isInside([x, y]) {
    const [leastX, leastY, mostX, mostY] = this.box;
    return leastX <= x && x <= mostX && leastY <= y && y <= mostY;
  }

  /** An edge from a node to a free tile, or out of the box. */
  lead(node, cell) {
    if (!this.isInside(cell)) {
      this.cellOf.set(this.flow.edge(node, this.sink, 1), cell);
      return;
    }
    const key = keyOf(cell);
    if (this.taken.has(key)) return;
    if (!this.into.has(key)) {
      this.into.set(key, this.flow.node());
      this.flow.edge(this.into.get(key), this.flow.node(), 1);
      this.line.push(cell);
    }
    this.cellOf.set(this.flow.edge(node, this.into.get(key), 1), cell);
  }

  /** The tiles of each end's path, from the half on; null where not all can be led out together. */
  found() {
    const room = [...this.flow.room];
    if (!this.ends.every(() => this.flow.isRaised(this.source, this.sink, room))) return null;
    return this.starts.map((it) => this.path(it, room));
  }

  /** The tiles from a node on, along the edges on which something flows. */
  path(node, room) {
    const cells = [];
    for (let at = node; ; ) {
      const edge = this.flow.out[at].find((it) => this.cellOf.has(it) && !room[it]);
      cells.push(this.cellOf.get(edge));
      const into = this.into.get(keyOf(cells[cells.length - 1]));
      if (into === undefined) return cells;
      at = into + 1;
    }
  }
}

/** The belts of a path, each with its tile and its direction: away from an end in front, and towards one at the
    back. */
const beltsAlong = (parts, bare, cells) => {
  const line = [parts[bare.part].cells[bare.half], ...cells];
  const ways = cells.map((it, at) => [0, 1, 2, 3].find((way) => keyOf(step(line[at], way)) === keyOf(it)));
  if (bare.front) return cells.map((cell, at) => ({ cell, direction: ways[Math.min(at + 1, ways.length - 1)] }));
  return cells.map((cell, at) => ({ cell, direction: (ways[at] + 2) % 4 }));
};

/** The ways of these ends, each with its bare end, with belts along paths; null where not all can be led out. What
    stands in front of an end, or of another bare half, is left free. */
const ledAlong = (parts, taken, box, bare, network, pairs) => {
  const chosen = pairs.map((it) => it.bare);
  const beyond = (it) => keyOf(outsideOf(parts[it.part], it));
  const ahead = (it) => keyOf(step(parts[it.part].cells[it.half], parts[it.part].direction));
  const starts = new Set(chosen.map(beyond));
  const kept = [...bare.filter((it) => !chosen.includes(it)).map(beyond), ...network.outputs.map(ahead)].filter(
    (it) => !starts.has(it)
  );
  const found = new Paths(parts, new Set([...taken, ...kept]), box, chosen).found();
  return found && pairs.map((it, at) => ({ ...it.way, belts: beltsAlong(parts, it.bare, found[at]), why: null }));
};
