// Pictures of designs, as plain lists of elements: the same as `collection/picture.py` and `collection/flows.py` draw,
// which say what tells what, and a test compares both. An element is a name of SVG, its members, and a text or a list
// of elements.

const CELL = 24;
const HALF = CELL / 2;

const shapeOf = (words) => words.split(/ (?=[MLAZ])/).map(
  (it) => [it[0], ...it.slice(1).trim().split(" ").filter(Boolean).map(Number)]
);
const STRAIGHT = shapeOf("M-9 12 L-9 -12 L9 -12 L9 12 Z");
const STRAIGHT_RIM = shapeOf("M-9 12 L-9 -12 M9 12 L9 -12");
const STRAIGHT_WAY = shapeOf("M-5 4 L0 -2 L5 4");
const FROM_LEFT = shapeOf("M-12 -9 A3 0 -9 -12 L9 -12 A21 1 -12 9 Z");
const FROM_LEFT_RIM = shapeOf("M-12 -9 A3 0 -9 -12 M-12 9 A21 0 9 -12");
const FROM_LEFT_WAY = shapeOf("M-8 -5 L-1 -5 L-1 2");
const BEHIND = shapeOf("M-9 12 L-9 0 L9 0 L9 12 Z");
const BEHIND_RIM = shapeOf("M-9 12 L-9 0 M9 12 L9 0");
const GOING_DOWN = shapeOf("M-11 3 L-11 1 L-5 -9 A2 1 -3 -10 L3 -10 A2 1 5 -9 L11 1 L11 3 Z");
const GOING_DOWN_WAY = shapeOf("M-4 0 L0 -5 L4 0");
const COMING_UP = shapeOf("M-11 -3 L-11 -1 L-5 9 A2 0 -3 10 L3 10 A2 0 5 9 L11 -1 L11 -3 Z");
const COMING_UP_WAY = shapeOf("M-4 5 L0 0 L4 5");
const BAR = shapeOf("M-19 -8 L19 -8 A4 1 23 -4 L23 4 A4 1 19 8 L-19 8 A4 1 -23 4 L-23 -4 A4 1 -19 -8 Z");
const HALF_WAY = shapeOf("M-5 3 L0 -3 L5 3");
const HALF_WAY_FRONT = shapeOf("M-4 -1 L0 -6 L4 -1");
const HALF_WAY_BACK = shapeOf("M-4 6 L0 1 L4 6");
const HOLE_FRONT = shapeOf("M-8 -1 L-8 -6 L9 -6 L9 -1 Z");
const HOLE_BACK = shapeOf("M-8 6 L-8 1 L9 1 L9 6 Z");
const HOLE_BOTH = shapeOf("M-8 6 L-8 -6 L9 -6 L9 6 Z");
const PREFERRED_FRONT = shapeOf("M-7 -7 L0 -14 L7 -7 Z");
const PREFERRED_BACK = shapeOf("M-7 14 L0 7 L7 14 Z");

const LAYERS = ["body", "body added", "rim", "rim added", "way", "bend", "run", "solid", "hole", "cut", "hint"];

/** The layers that are the same for all tiers. */
const UNTIERED = ["body", "body added", "hole", "cut"];

/** What is marked on a picture where nothing is: bare ends, the numbers of added belts, and what is refused, with
    words. */
const NO_MARKS = { bare: [], added: new Set(), refused: [] };

/** The shape seen in a mirror that stands north to south. */
const mirrored = (shape) =>
  shape.map(([name, ...rest]) => {
    if (name === "Z") return [name];
    return name === "A" ? [name, rest[0], 1 - rest[1], -rest[2], rest[3]] : [name, -rest[0], rest[1]];
  });

/** The shape turned by half a turn. */
const backwards = (shape) => shape.map(
  (it) => (it.length > 1 ? [...it.slice(0, -2), -it[it.length - 2], -it[it.length - 1]] : it)
);

const turned = (x, y, direction) => {
  for (let count = 0; count < direction; count += 1) [x, y] = [-y, x];
  return [x, y];
};

/** The path of a shape that goes in this direction around this middle. */
const placed = (shape, direction, middle) =>
  shape
    .map(([name, ...rest]) => {
      if (!rest.length) return name;
      const [x, y] = turned(rest[rest.length - 2], rest[rest.length - 1], direction);
      const arc = name === "A" ? `${rest[0]} ${rest[0]} 0 0 ${rest[1]} ` : "";
      return `${name}${arc}${middle[0] + x} ${middle[1] + y}`;
    })
    .join("");

const middleOf = ([x, y]) => [x * CELL + HALF, y * CELL + HALF];

/** The middle of one cell, or of the two of a splitter. */
const middleOfAll = (cells) => {
  const [x, y] = middleOf(cells[0]);
  const [farX, farY] = middleOf(cells[cells.length - 1]);
  return [half(x + farX), half(y + farY)];
};

/** 1 or 3 quarter turns to the side from which alone something leads onto a belt, or 0. */
const fedFromSide = (parts, at, belt) => {
  const feeding = [0, 1, 3].filter((turn) => {
    const there = at.get(keyOf(step(belt.cells[0], (belt.direction + 2 + turn) % 4)));
    const other = there && parts[there.part];
    return other && other.kind !== "entrance" && other.direction === (belt.direction + turn) % 4;
  });
  return feeding.length === 1 ? feeding[0] : 0;
};

const FROM_LEFT_SHAPES = [FROM_LEFT, FROM_LEFT_RIM, FROM_LEFT_WAY];
const TURNS = { 0: [STRAIGHT, STRAIGHT_RIM, STRAIGHT_WAY], 1: FROM_LEFT_SHAPES, 3: FROM_LEFT_SHAPES.map(mirrored) };

/** The shapes of a belt, each with its layer; what is added is dashed. */
const beltShapes = (turn, isAdded) => {
  const [body, rim, way] = TURNS[turn];
  const dashed = isAdded ? " added" : "";
  return [[`body${dashed}`, body], [`rim${dashed}`, rim], [turn ? "bend" : "way", way]];
};

const BEFORE = backwards(BEHIND);
const BEFORE_RIM = backwards(BEHIND_RIM);
const SHAPES = {
  entrance: [["body", BEHIND], ["rim", BEHIND_RIM], ["solid", GOING_DOWN], ["cut", GOING_DOWN_WAY]],
  exit: [["body", BEFORE], ["rim", BEFORE_RIM], ["solid", COMING_UP], ["cut", COMING_UP_WAY]],
  splitter: [["solid", BAR]],
};

/** The shapes of a splitter's half but for the bar, by whether it is the left one, and whether its ends are bare. */
const halfShapes = (isLeft, isFrontBare, isBackBare) => {
  const shapes = isBackBare ? [] : [["body", BEHIND], ["rim", BEHIND_RIM]];
  if (!isFrontBare) shapes.push(["body", BEFORE], ["rim", BEFORE_RIM]);
  if (isFrontBare && isBackBare) shapes.push(["hole", HOLE_BOTH], ["hint", HALF_WAY]);
  else if (isFrontBare) shapes.push(["hole", HOLE_FRONT], ["cut", HALF_WAY_BACK]);
  else if (isBackBare) shapes.push(["hole", HOLE_BACK], ["cut", HALF_WAY_FRONT]);
  else shapes.push(["cut", HALF_WAY]);
  return isLeft ? shapes : shapes.map(([layer, shape]) => [layer, mirrored(shape)]);
};

/** The paths of all shapes, by layer and tier. */
const layersOf = (parts, marks) => {
  const at = standing(parts);
  const layers = new Map();
  const bare = new Set(marks.bare.map((it) => `${it.part}.${it.half}.${it.front}`));
  const put = (layer, tier, path) => {
    const name = UNTIERED.includes(layer) || !tier ? layer : `${layer} ${tier}`;
    if (!layers.has(name)) layers.set(name, []);
    layers.get(name).push(path);
  };
  parts.forEach((part, number) => {
    const shapes = part.kind === "belt" ? beltShapes(fedFromSide(parts, at, part), marks.added.has(number)) : SHAPES[
      part.kind
    ];
    for (const [layer, shape] of shapes) put(layer, part.tier, placed(shape, part.direction, middleOfAll(part.cells)));
    if (part.kind === "splitter")
      part.cells.forEach((cell, which) => {
        const [front, back] = [true, false].map((it) => bare.has(`${number}.${which}.${it}`));
        for (const [layer, shape] of halfShapes(which === leftHalf(part), front, back)) put(
          layer, part.tier, placed(shape, part.direction, middleOf(cell))
        );
      });
    const exit = part.kind === "entrance" ? exitAhead(parts, at, part) : null;
    if (exit !== null) put(
      "run", part.tier, `M${middleOf(part.cells[0]).join(" ")}L${middleOf(parts[exit].cells[0]).join(" ")}`
    );
  });
  return layers;
};

/** The elements of a layer. */
const pathsOf = (layers, layer) =>
  ["", ...TIERS]
    .map((tier) => (tier ? `${layer} ${tier}` : layer))
    .filter((name) => layers.has(name))
    .map((name) => ["path", { class: name, d: layers.get(name).join("") }, ""]);

/** A group of elements with a title. */
const titled = (title, ...elements) => ["g", {}, [["title", {}, title], ...elements]];

/** A word on the picture, in smaller letters where it is long. */
const sign = (word, x, y, kind = "") => {
  const names = ["sign", ...kind.split(" ").filter(Boolean), ...(word.length > 4 ? ["small"] : [])];
  return ["text", { class: names.join(" "), x, y }, word];
};

/** The marks on the sides that a splitter prefers. */
const preferredOf = (part) =>
  [[part.give, "output", PREFERRED_FRONT], [part.take, "input", PREFERRED_BACK]].flatMap(([side, word, shape]) => {
    if (!side) return [];
    const which = side === "left" ? leftHalf(part) : 1 - leftHalf(part);
    return [titled(
      `prefers its ${side} ${word}`,
      ["path", { class: "preferred", d: placed(shape, part.direction, middleOf(part.cells[which])) }, ""],
    )];
  });

/** The frame around what is refused, with the reason. */
const framed = ({ cells, words }) => {
  const [x, y] = cells[0];
  const [farX, farY] = cells[cells.length - 1];
  const size = { width: (farX - x + 1) * CELL + 4, height: (farY - y + 1) * CELL + 4 };
  return titled(words, ["rect", { class: "frame", x: x * CELL - 2, y: y * CELL - 2, ...size, rx: 5 }, ""]);
};

/** What is no part: a box over its tiles with its name as title, and with a question mark but where it stands by. */
const strangerOf = (it) => {
  const [x, y] = it.middle.map((value) => value * HALF);
  const [width, height] = it.size.map((value) => value * CELL - 4);
  const box = {
    class: it.standsBy ? "bystander" : "stranger", x: x - half(width), y: y - half(height), width, height, rx: 3
  };
  return titled(plain(it.name), ["rect", box, ""], ...(it.standsBy ? [] : [sign("?", x, y + 3)]));
};

/** The elements that draw parts, with what is no part and what is marked; the group of ways has this id. */
const drawn = ({ parts, strangers }, marks = NO_MARKS, ways = null) => {
  const layers = layersOf(parts, marks);
  const at = LAYERS.indexOf("way");
  return [
    ...LAYERS.slice(0, at).flatMap((it) => pathsOf(layers, it)),
    ["g", ways ? { id: ways } : {}, pathsOf(layers, "way")],
    ...LAYERS.slice(at + 1).flatMap((it) => pathsOf(layers, it)),
    ...parts.filter((it) => it.kind === "splitter").flatMap(preferredOf),
    ...strangers.map(strangerOf),
    ...marks.refused.map(framed),
  ];
};

/** The cell on which each end's number is drawn: the one outside, or its own where that isn't free. */
const badgeCells = (parts, network) => {
  const taken = new Set(standing(parts).keys());
  const cells = [];
  for (const [word, ends, sense] of [["i", network.inputs, -1], ["o", network.outputs, 1]])
    ends.forEach((it, k) => {
      const part = parts[it.part];
      const outside = step(part.cells[0], part.direction, sense);
      cells.push([`${word}${k}`, taken.has(keyOf(outside)) ? part.cells[0] : outside]);
      taken.add(keyOf(outside));
    });
  return cells;
};

/** The elements that number the ends on these cells; with a state, each with its load or room, and which of two ends
    has less and which more. */
const badges = (cells, told = null, apart = {}) =>
  cells.flatMap(([name, cell]) => {
    const [x, y] = middleOf(cell);
    const kind = name[0] === "i" ? "in" : "out";
    const height = told ? 20 : 14;
    const has = apart[name] ?? "";
    const look = `badge ${kind}${has ? ` ${has}` : ""}`;
    const box = ["rect", { class: look, x: x - 11, y: y - height / 2, width: 22, height, rx: 4 }, ""];
    if (!told) return [box, sign(name, x, y + 3, "on")];
    const what = `${kind === "in" ? "load" : "room"} ${told.get(name)}`;
    const title = `${name}: ${what}${has ? `, has ${has}` : ""}`;
    return [box, titled(title, sign(name, x, y - 1, "on"), sign(told.get(name).short(), x, y + 8, "on"))];
  });

/** The marks of ends at halves for whose belts there is no room, behind so many inputs and outputs. */
const halfBadges = (parts, places, before = [0, 0]) => {
  const at = standing(parts);
  const counts = [...before];
  return places.flatMap(({ kind, cell }) => {
    const side = kind === "input" ? 0 : 1;
    const name = `${kind[0]}${counts[side]}`;
    counts[side] += 1;
    const [along, down] = STEPS[parts[at.get(keyOf(cell)).part].direction];
    const away = side ? 7 : -7;
    const [x, y] = [middleOf(cell)[0] + away * along, middleOf(cell)[1] + away * down];
    return [
      ["rect", { class: `badge ${side ? "out" : "in"}`, x: x - 8, y: y - 5, width: 16, height: 10, rx: 3 }, ""],
      sign(name, x, y + 3, "on"),
    ];
  });
};

/** How far a picture reaches, with these cells of badges: its least x and y, its width and its height, in cells. */
const boxOf = (design, cells) => {
  const [leastX, leastY, mostX, mostY] = boxOfDesign(design);
  const [xs, ys] = [0, 1].map((axis) => cells.map(([, cell]) => cell[axis]));
  const [x, y] = [Math.min(leastX, ...xs), Math.min(leastY, ...ys)];
  return [x, y, Math.max(mostX, ...xs) - x + 1, Math.max(mostY, ...ys) - y + 1];
};

/** The part of the plane that a picture shows, with a narrow margin, and where it is ruled, the numbers. */
const viewOf = (box, isRuled = false) => {
  const [x, y, width, height] = box.map((it) => it * CELL);
  const more = isRuled ? 20 : 0;
  return `${x - 4 - more} ${y - 4 - more} ${width + 8 + more} ${height + 8 + more}`;
};

/** The elements that number each fifth column of tiles above a picture, and each fifth row at its left. */
const rulesOf = ([x, y, width, height]) => {
  const fifths = (first, size) => Array.from({ length: size }, (_, at) => first + at).filter((it) => it % 5 === 0);
  const columns = fifths(x, width).map((it) => sign(String(it), it * CELL + HALF, y * CELL - 7, "rule"));
  return [...columns, ...fifths(y, height).map((it) => sign(String(it), x * CELL - 12, it * CELL + HALF + 3, "rule"))];
};

/** An edge's way as lists of points, each with whether it lies under the ground. */
const pieces = (parts, edge) => {
  const points = edge.run.map((it) => middleOf(it.cell));
  const beside = (point, part, sense) => [
    point[0] + sense * HALF * STEPS[part.direction][0], point[1] + sense * HALF * STEPS[part.direction][1]
  ];
  const last = points.length - 1;
  if (edge.source[0] === "i") points[0] = beside(points[0], parts[edge.run[0].half.part], -1);
  if (edge.target[0] === "o") points.push(beside(points[last], parts[edge.run[last].half.part], 1));
  const found = [];
  let line = [points[0]];
  points.slice(1).forEach((point, before) => {
    const isEntering = before + 1 < edge.run.length && parts[edge.run[before].half.part].kind === "entrance";
    if (!isEntering) {
      line.push(point);
      return;
    }
    const begin = middleOf(edge.run[before].cell);
    const end = line[line.length - 1];
    found.push([end[0] === begin[0] && end[1] === begin[1] ? line : [...line, begin], false], [[begin, point], true]);
    line = [point];
  });
  return [...found, [line, false]].filter(([it]) => it.length > 1);
};

/** The path through these points; those in the midst of a straight line are left out. */
const drawnLine = (points) => {
  const kept = points.filter((here, at) => {
    if (at === 0 || at === points.length - 1) return true;
    const [before, after] = [points[at - 1], points[at + 1]];
    return (here[0] - before[0]) * (after[1] - here[1]) !== (here[1] - before[1]) * (after[0] - here[0]);
  });
  return `M${kept.map((it) => it.join(" ")).join("L")}`;
};

/** Where an edge's number stands: on a cell of it that no other number has, as near to its middle as can be. */
const labelPlace = (parts, edge, taken) => {
  const cells = edge.run.filter((it) => parts[it.half.part].kind !== "splitter").map((it) => it.cell);
  if (!cells.length) return middleOfAll([edge.run[0].cell, edge.run[edge.run.length - 1].cell]);
  const middle = cells.length - 1;
  const ordered = cells.map((_, at) => at).sort((a, b) => Math.abs(2 * a - middle) - Math.abs(2 * b - middle) || a - b);
  const cell = cells[ordered.find((at) => !taken.has(keyOf(cells[at]))) ?? ordered[0]];
  taken.add(keyOf(cell));
  return middleOf(cell);
};

/** The elements that draw a state's flows. Between them and their numbers stands what tells the belts' directions, the
    group of this name. */
const flowing = (parts, network, cells, state, ways) => {
  const lines = [];
  const labels = [];
  const most = Math.max(...network.edges.map((it) => it.cap));
  const at = standing(parts);
  const taken = new Set(cells.map(([, cell]) => keyOf(cell)).filter((it) => at.has(it)));
  network.edges.forEach((edge, number) => {
    const flow = state.flows[number];
    const isBacked = state.marks[number] === "b";
    const kind = isBacked ? "backed" : "free";
    const width = 2 + Number((8n * flow.above) / (BigInt(most) * flow.below));
    for (const [points, isUnder] of pieces(parts, edge)) {
      const path = drawnLine(points);
      lines.push([
        "path",
        {
          class: `flow ${kind}${isUnder ? " under" : ""}${flow.above === 0n ? " idle" : ""}`,
          "stroke-width": width,
          d: path,
        },
        "",
      ]);
      if (isBacked && !isUnder) lines.push(["path", { class: "ties", d: path }, ""]);
    }
    const [x, y] = labelPlace(parts, edge, taken);
    const box = ["rect", { class: `tag ${kind}`, x: x - 11, y: y - 6, width: 22, height: 12, rx: 3 }, ""];
    labels.push(titled(
      `${edge.source} to ${edge.target}: ${flow} of ${edge.cap}, ${kind}`, box, sign(flow.short(), x, y + 3, kind)
    ));
  });
  return [...lines, ["use", { class: "over", href: `#${ways}` }, ""], ...labels];
};
