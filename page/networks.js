// Which designs have the same network, but for the numbers of its ends and splitters. The same as
// `collection/networks.py`: each renaming that is found is tested before it is believed.

/** How many choices are tried for two networks at most. */
const MOST_RENAMED = 200;

/** Whether no splitter of a network prefers a side. */
const isPlainNetwork = (text) => !/^(?:give|take) /m.test(text);

/** A network's edges with vertices that no other network has. */
const markedEdges = (edges, side) => edges.map(
  ({ source, target, cap }) => ({ source: `${source} ${side}`, target: `${target} ${side}`, cap })
);

/** A colour for each vertex that tells an input, an output and a splitter apart. */
const kindsOf = (edges) => new Map(
  edges.flatMap(({ source, target }) => [source, target]).map((it) => [it, "ios".indexOf(it[0])])
);

/** Of each vertex, its edges out and in, with their caps. */
const neighboursOf = (edges) => {
  const [out, into] = [new Map(), new Map()];
  for (const { source, target, cap } of edges)
    for (const [them, from, to] of [[out, source, target], [into, target, source]]) them.set(
      from, [...(them.get(from) ?? []), [to, cap]]
    );
  return [out, into];
};

/** Colours by which vertices are told apart as far as by what stands around them; equal ones stay equal. */
const refinedColours = (colours, ways) => {
  for (let now = colours; ; ) {
    const around = (vertex, way) => (way.get(vertex) ?? []).map(([to, cap]) => `${now.get(to)}:${cap}`).sort().join();
    const seen = new Map(
      [...now].map(([vertex, colour]) => [vertex, [colour, ...ways.map((it) => around(vertex, it))].join("|")])
    );
    const order = new Map([...new Set(seen.values())].sort().map((it, at) => [it, at]));
    const found = new Map([...seen].map(([vertex, it]) => [vertex, order.get(it)]));
    if (order.size === new Set(now.values()).size) return found;
    now = found;
  }
};

/** How often each thing stands in a list, in a text. */
const countedIn = (list) => {
  const counts = new Map();
  for (const it of list) counts.set(it, (counts.get(it) ?? 0) + 1);
  return [...counts].map((it) => it.join(" ")).sort().join(";");
};

/** Whether a renaming takes one network's edges to those of the other, each to one. */
const isRenaming = (names, one, other) => {
  const isKept = [...names].every(([vertex, name]) => vertex[0] === name[0]) && new Set(
    names.values()
  ).size === names.size;
  const ours = one.map(({ source, target, cap }) => `${names.get(source)} ${names.get(target)} ${cap}`);
  return isKept && countedIn(ours) === countedIn(other.map(({ source, target, cap }) => `${source} ${target} ${cap}`));
};

/** The names in another network of the vertices of one, where both are the same; null where that isn't found. */
const renamingOf = (one, other) => {
  const both = [...markedEdges(one, 0), ...markedEdges(other, 1)];
  const ways = neighboursOf(both);
  const waiting = [refinedColours(kindsOf(both), ways)];
  for (let tried = 0; waiting.length && tried < MOST_RENAMED; tried += 1) {
    const colours = waiting.pop();
    const classes = new Map();
    for (const [vertex, colour] of colours) {
      const [name, side] = vertex.split(" ");
      if (!classes.has(colour)) classes.set(colour, [[], []]);
      classes.get(colour)[side].push(name);
    }
    const them = [...classes.values()];
    if (them.some(([ours, theirs]) => ours.length !== theirs.length)) continue;
    const choices = them.filter(([ours]) => ours.length > 1);
    if (!choices.length) {
      const names = new Map(them.map(([ours, theirs]) => [ours[0], theirs[0]]));
      if (isRenaming(names, one, other)) return names;
      continue;
    }
    const [ours, theirs] = choices.reduce((a, b) => (b[0].length < a[0].length ? b : a));
    for (const name of theirs) waiting.push(
      refinedColours(new Map([...colours, [`${ours[0]} 0`, colours.size], [`${name} 1`, colours.size]]), ways)
    );
  }
  return null;
};

/** What is equal of networks that are the same: their sizes, and how many vertices look alike. */
const networkShape = ({ inputs, outputs, splitters, edges }) => {
  const them = markedEdges(edges, 0);
  const colours = refinedColours(kindsOf(them), neighboursOf(them));
  const along = them.map(({ source, target, cap }) => `${colours.get(source)} ${colours.get(target)} ${cap}`);
  return [inputs, outputs, splitters, countedIn(colours.values()), countedIn(along)].join("/");
};

/** How many tiles a design's rectangle has, or none. */
const cellsOfRow = (row) => (row.judged?.size ? row.judged.size[0] * row.judged.size[1] : null);

/** Groups of networks that are the same, which come one after the other. */
class Networks {
  constructor() {
    this.shapes = new Map();
  }

  /** Tells the rows of a book which others have the same network; gives those of which this is new. */
  tell(rows) {
    const found = new Set();
    for (const row of rows) {
      const { judged } = row;
      if (row.group || !judged?.network || judged.choices.length || !isPlainNetwork(judged.network)) continue;
      row.group = this.groupOf(judged.net);
      row.group.push(row);
      if (row.group.length > 1) for (const it of row.group) found.add(it);
    }
    return found;
  }

  /** The group of this network, a list to which what has it is added. */
  groupOf(net) {
    const shape = networkShape(net);
    if (!this.shapes.has(shape)) this.shapes.set(shape, []);
    const alike = this.shapes.get(shape);
    let group = alike.find((it) => renamingOf(it.net.edges, net.edges) !== null);
    if (!group) alike.push((group = { net, them: [] }));
    return group.them;
  }
}
