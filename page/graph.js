// A drawing of a network without parts: inputs at the top, each splitter as far down as it is from them, outputs at the
// bottom, and each edge as a line. Plain lists of elements, as those of pictures.

/** How far apart the nodes of a rank and the ranks are. */
const [ACROSS, DOWN] = [52, 64];

/** How many edges a drawing has at most. */
const MOST_EDGES = 600;

/** How often the nodes of a rank are put in the order of the middles of those that they are joined to. */
const SWEEPS = 12;

/** Each node's rank: how many edges it is from the inputs at least; outputs stand below all others. */
const ranksOf = (net) => {
  const ranks = new Map(Array.from({ length: net.inputs }, (_, k) => [`i${k}`, 0]));
  let last = [...ranks.keys()];
  for (let rank = 1; last.length; rank += 1) {
    const from = new Set(last);
    const next = net.edges.filter((it) => from.has(it.source) && !ranks.has(it.target) && it.target[0] === "s").map(
      (it) => it.target
    );
    last = [...new Set(next)];
    for (const it of last) ranks.set(it, rank);
  }
  const deepest = Math.max(0, ...ranks.values());
  // What no input reaches stands below what one does.
  const unreached = Array.from({ length: net.splitters }, (_, k) => `s${k}`).filter((it) => !ranks.has(it));
  for (const it of unreached) ranks.set(it, deepest + 1);
  const bottom = deepest + (unreached.length ? 2 : 1);
  for (let k = 0; k < net.outputs; k += 1) ranks.set(`o${k}`, bottom);
  return ranks;
};

/** The nodes of each rank, in an order in which few edges cross. */
const orderedRanks = (net, ranks) => {
  const rows = [];
  for (const [name, rank] of ranks) (rows[rank] ??= []).push(name);
  for (let rank = 0; rank < rows.length; rank += 1) rows[rank] ??= [];
  const joined = new Map([...ranks.keys()].map((it) => [it, []]));
  for (const { source, target } of net.edges) {
    joined.get(source).push(target);
    joined.get(target).push(source);
  }
  const places = new Map();
  const spread = () => rows.forEach((row) => row.forEach((it, at) => places.set(it, (at + 0.5) / row.length)));
  spread();
  for (let sweep = 0; sweep < SWEEPS; sweep += 1)
    for (const rank of sweep % 2 ? [...rows.keys()].reverse() : rows.keys()) {
      const side = (it) => joined.get(it).filter(
        (other) => (sweep % 2 ? ranks.get(other) > rank : ranks.get(other) < rank)
      );
      const middle = (it) => {
        const them = side(it);
        return them.length ? them.reduce((sum, other) => sum + places.get(other), 0) / them.length : places.get(it);
      };
      const middles = new Map(rows[rank].map((it) => [it, middle(it)]));
      rows[rank].sort((a, b) => middles.get(a) - middles.get(b) || places.get(a) - places.get(b));
      rows[rank].forEach((it, at) => places.set(it, (at + 0.5) / rows[rank].length));
    }
  return rows;
};

/** The middles of all nodes, and the width and the height of the drawing. */
const placedNodes = (net) => {
  const rows = orderedRanks(net, ranksOf(net));
  const width = Math.max(...rows.map((it) => it.length)) * ACROSS;
  const middles = new Map(
    rows.flatMap((row, rank) => row.map((it, at) => [it, [((at + 0.5) * width) / row.length, rank * DOWN + 20]]))
  );
  return { middles, width, height: (rows.length - 1) * DOWN + 40 };
};

/** How far beside the middle of its node each edge leaves it and comes in: in the order of the nodes at the other
    ends. */
const besides = (net, middles) => {
  const found = net.edges.map(() => [0, 0]);
  for (const [which, own, other] of [[0, "source", "target"], [1, "target", "source"]]) {
    const groups = new Map();
    net.edges.forEach((it, at) => groups.set(it[own], [...(groups.get(it[own]) ?? []), at]));
    for (const them of groups.values()) {
      them.sort((a, b) => middles.get(net.edges[a][other])[0] - middles.get(net.edges[b][other])[0] || a - b);
      them.forEach((it, at) => (found[it][which] = (at - (them.length - 1) / 2) * 12));
    }
  }
  return found;
};

/** The line of an edge from one point to another, and where its number stands; one that leads back up, or to its own
    node, goes around at the side. */
const edgeLine = ([x, y], [farX, farY], width) => {
  if (farY > y) {
    const bend = (farY - y) / 2;
    // Of two edges that cross, the one to the right has its number further up.
    const down = 0.5 - 0.17 * Math.sign(Math.round(farX - x));
    const along = 3 * down ** 2 - 2 * down ** 3;
    return {
      path: `M${x} ${y}C${x} ${y + bend} ${farX} ${farY - bend} ${farX} ${farY}`,
      place: [x + (farX - x) * along, y + (farY - y) * down],
    };
  }
  const out = (x + farX > width ? 1 : -1) * 36;
  return {
    path: `M${x} ${y}C${x + out} ${y + 36} ${farX + out} ${farY - 36} ${farX} ${farY}`,
    place: [(x + farX) / 2 + out * 0.75, (y + farY) / 2],
  };
};

/** The elements that draw a network, with a state where one is given and which of two ends has less and which more; and
    how far they reach. */
const graphOf = (net, state = null, apart = {}) => {
  const { middles, width, height } = placedNodes(net);
  const aside = besides(net, middles);
  const [lines, tags] = [[], []];
  const most = Math.max(...net.edges.map((it) => it.cap));
  net.edges.forEach(({ source, target, cap }, at) => {
    const [from, to] = [middles.get(source), middles.get(target)];
    const { path, place } = edgeLine([from[0] + aside[at][0], from[1] + 8], [to[0] + aside[at][1], to[1] - 9], width);
    const flow = state?.flows[at];
    const kind = state ? (state.marks[at] === "b" ? "backed" : "free") : "wire";
    const thick = state ? 1.5 + Number((6n * flow.above) / (BigInt(most) * flow.below)) : 1 + cap / 2;
    const words = `${source} to ${target}${state ? `: ${flow} of ${cap}, ${kind}` : cap > 1 ? `, cap ${cap}` : ""}`;
    lines.push(titled(
      words,
      [
        "path",
        { class: state ? `flow ${kind}${flow.above === 0n ? " idle" : ""}` : kind, "stroke-width": thick, d: path },
        "",
      ],
    ));
    if (state) tags.push(
      ["rect", { class: `tag ${kind}`, x: place[0] - 11, y: place[1] - 6, width: 22, height: 12, rx: 3 }, ""],
      sign(flow.short(), place[0], place[1] + 3, kind),
    );
  });
  const told = state && toldAtEnds(state);
  const nodes = [...middles].flatMap(([name, [x, y]]) => {
    const isEnd = name[0] !== "s";
    const tall = told && isEnd ? 22 : 16;
    const badge = `badge ${name[0] === "i" ? "in" : "out"}${apart[name] ? ` ${apart[name]}` : ""}`;
    const place = { x: x - 15, y: y - tall / 2, width: 30, height: tall, rx: 4 };
    const box = ["rect", { class: isEnd ? badge : "node", ...place }, ""];
    const own = sign(name, x, told && isEnd ? y - 1 : y + 3, isEnd ? "on" : "");
    return told && isEnd ? [box, own, sign(told.get(name).short(), x, y + 8, "on")] : [box, own];
  });
  return { elements: [...lines, ...tags, ...nodes], box: [-40, 0, width + 80, height] };
};
