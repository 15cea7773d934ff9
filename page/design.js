// A design's parts as they are drawn: what each entity is, where it stands, and which way it goes. What is read here is
// only drawn: the program has the last word on every design. The same as `collection/design.py`.

const TIERS = ["basic", "fast", "express", "turbo"];
const SPEED = { basic: 1, fast: 2, express: 3, turbo: 4 };

/** How many tiles lie between the two ends of an underground belt at most. */
const REACH = { basic: 4, fast: 6, express: 8, turbo: 10 };

const PREFIXES = { basic: "", fast: "fast-", express: "express-", turbo: "turbo-" };
const BODIES = { "transport-belt": "belt", "underground-belt": "underground", splitter: "splitter" };
const NAMES = new Map(
  TIERS.flatMap((tier) => Object.entries(BODIES).map(([body, kind]) => [PREFIXES[tier] + body, { kind, tier }]))
);
const PIECES = { input: "entrance", output: "exit" };

const [NORTH, EAST, SOUTH, WEST] = [0, 1, 2, 3];

/** The tiers of a design's parts, the slowest first; none where there is no design. */
const tiersOf = (design) => TIERS.filter((tier) => design?.parts.some((it) => it.tier === tier));

/** How a cell's coordinates change by a step: x grows to the east, y to the south. */
const STEPS = [[0, -1], [1, 0], [0, 1], [-1, 0]];

/** From this version on a full turn has sixteen directions, and eight before. */
const SIXTEENTHS_SINCE = 2 * 2 ** 48;

const MOST_ENTITIES = 16384;

/** How many cells a picture has at most, from west to east and from north to south. */
const WIDEST = 2048;

/** Why no picture can be drawn, in words. */
class Unreadable extends Error {}

/** The cell so many steps away. */
const step = ([x, y], direction, count = 1) => [x + count * STEPS[direction][0], y + count * STEPS[direction][1]];

const isObject = (value) => typeof value === "object" && value !== null && !Array.isArray(value);

/** Which of a splitter's cells is on the left hand of one who looks in its direction. */
const leftHalf = (part) => (part.direction === NORTH || part.direction === EAST ? 0 : 1);

/** Twice a coordinate, or null where that is no number within bounds. */
const halves = (value) => (typeof value === "number" && Math.abs(2 * value) <= 2 ** 31 ? 2 * value : null);

/** What can't touch a belt, with its size where it faces north. */
const BYSTANDERS = new Map(
  Object.entries(BYSTANDER_TILES).flatMap(([size, names]) => names.map((name) => [name, size.split("x").map(Number)]))
);

/** The blueprint's members. */
const blueprintOf = (bytes) => {
  let root = null;
  try {
    root = JSON.parse(new TextDecoder().decode(bytes));
  } catch {
    throw new Unreadable("the text is no JSON that can be drawn");
  }
  const blueprint = isObject(root) ? root.blueprint : null;
  if (!isObject(blueprint)) throw new Unreadable("the text is no blueprint");
  return blueprint;
};

/** What a design's author says of it, or nothing. */
const descriptionOf = (bytes) => {
  try {
    const { description } = isJson(bytes) ? blueprintOf(bytes) : {};
    return typeof description === "string" ? short(description, WORDS.numbers.longest_description) : "";
  } catch (fault) {
    if (!(fault instanceof Unreadable)) throw fault;
    return "";
  }
};

/** Whether a blueprint tells the game's version, without which directions are read as before 2.0. */
const hasVersion = (bytes) => {
  try {
    return "version" in blueprintOf(bytes);
  } catch (fault) {
    if (!(fault instanceof Unreadable)) throw fault;
    return true;
  }
};

/** The list of a blueprint's entities, whatever they are. */
const entitiesOf = (blueprint) => {
  const entities = blueprint.entities ?? [];
  if (!Array.isArray(entities)) throw new Unreadable("the blueprint has no list of entities");
  return entities;
};

/** North, east, south or west; null where it is none of these. */
const directionOf = (entity, isSixteenths) => {
  const turn = entity.direction === undefined ? 0 : entity.direction;
  const size = isSixteenths ? 4 : 2;
  return [0, size, 2 * size, 3 * size].includes(turn) ? turn / size : null;
};

/** Whether a part has two cells along this axis: 0 from west to east, 1 from north to south. */
const isWide = (kind, direction, axis) => kind === "splitter" && (direction === NORTH || direction === SOUTH) === (
  axis === 0
);

/** The side that a splitter prefers, where it prefers one. */
const sideOf = (entity, member) => (entity[member] === "left" || entity[member] === "right" ? entity[member] : null);

/** An entity's middle, in halves of a tile, or null where it has none. */
const middleOfEntity = (entity) => {
  if (!isObject(entity) || !isObject(entity.position)) return null;
  const middle = [halves(entity.position.x), halves(entity.position.y)];
  return middle.includes(null) ? null : middle;
};

const half = (value) => Math.floor(value / 2);

/** The cells of a part with this middle, the lesser one first. */
const cellsOf = (kind, direction, [x, y]) => {
  if (kind !== "splitter") return [[half(x - 1), half(y - 1)]];
  if (direction === NORTH || direction === SOUTH) return [[half(x) - 1, half(y - 1)], [half(x), half(y - 1)]];
  return [[half(x - 1), half(y) - 1], [half(x - 1), half(y)]];
};

/** The cells that what is no part reaches into, from west to east and then from north to south. */
const cellsOfStranger = (middle, size) => {
  const range = (axis) => {
    const [first, last] = [half(middle[axis] - size[axis]), half(middle[axis] + size[axis] + 1)];
    return Array.from({ length: last - first }, (_, at) => first + at);
  };
  const xs = range(0);
  return range(1).flatMap((y) => xs.map((x) => [x, y]));
};

/** The least and the greatest x and y of some cells. */
const spanOf = (cells) => {
  const found = [Infinity, Infinity, -Infinity, -Infinity];
  for (const [x, y] of cells) {
    found[0] = Math.min(found[0], x);
    found[1] = Math.min(found[1], y);
    found[2] = Math.max(found[2], x);
    found[3] = Math.max(found[3], y);
  }
  return found;
};

/** The least and the greatest x and y of a design's cells. */
const boxOfDesign = ({ parts, strangers }) => spanOf([...parts, ...strangers].flatMap((it) => it.cells));

/** What is no part, at the tiles nearest to its position. */
const strangerOfEntity = (index, entity, middle, isSixteenths) => {
  const own = typeof entity.name === "string" ? BYSTANDERS.get(entity.name) : undefined;
  const direction = directionOf(entity, isSixteenths);
  const size = own && (direction === EAST || direction === WEST) ? [own[1], own[0]] : own ?? [1, 1];
  const at = middle.map((it) => Math.trunc(it) + 0);
  return {
    entity: index,
    name: nameOfEntity(entity),
    middle: at,
    size,
    standsBy: own !== undefined,
    cells: cellsOfStranger(at, size),
  };
};

/** An entity's name as it is written; as the report writes it where it has none, or one that is no text. */
const nameOfEntity = ({ name }) => {
  if (typeof name === "string") return name;
  return name === undefined || name === null ? "None" : JSON.stringify(name);
};

/** The part that an entity is, on the grid with this shift, or where none is given on its own, and the shift; or
    null. */
const partOf = (index, entity, middle, shift, isSixteenths) => {
  const direction = directionOf(entity, isSixteenths);
  const known = typeof entity.name === "string" ? NAMES.get(entity.name) : undefined;
  if (!known || direction === null || !middle.every(Number.isInteger)) return null;
  const kind = known.kind === "underground" ? PIECES[entity.type] ?? "entrance" : known.kind;
  const off = [0, 1].map((axis) => Math.abs(middle[axis] + (isWide(kind, direction, axis) ? 0 : 1)) % 2);
  if (shift && (off[0] !== shift[0] || off[1] !== shift[1])) return null;
  const cells = cellsOf(kind, direction, [middle[0] - off[0], middle[1] - off[1]]);
  const [give, take] = kind === "splitter" ? [sideOf(entity, "output_priority"), sideOf(entity, "input_priority")] : [
    null, null
  ];
  return { part: { entity: index, kind, tier: known.tier, direction, cells, give, take }, off };
};

/** The parts of a blueprint's text, and what is no part; the first part tells how the grid lies. What has no position
    is left out. Where it is bounded, what is too much for a picture isn't read. */
const readDesign = (bytes, isBounded = true) => {
  const blueprint = blueprintOf(bytes);
  const entities = entitiesOf(blueprint);
  if (isBounded && entities.length > MOST_ENTITIES) throw new Unreadable(
    `there are more than ${MOST_ENTITIES} entities`
  );
  const isSixteenths = typeof blueprint.version === "number" && blueprint.version >= SIXTEENTHS_SINCE;
  const parts = [];
  const others = [];
  let shift = null;
  entities.forEach((entity, index) => {
    const middle = middleOfEntity(entity);
    if (!middle) return;
    const found = partOf(index, entity, middle, shift, isSixteenths);
    shift = found ? found.off : shift;
    if (found) parts.push(found.part);
    else others.push({ index, entity, middle });
  });
  if (!parts.length && !others.length) throw new Unreadable(
    entities.length ? "no entity has a position" : "the blueprint has no entities"
  );
  shift ??= [0, 0];
  const strangers = others.map(({ index, entity, middle }) => strangerOfEntity(
    index, entity, [middle[0] - shift[0], middle[1] - shift[1]], isSixteenths
  ));
  const found = { parts, strangers, shift, isSixteenths };
  const [leastX, leastY, mostX, mostY] = boxOfDesign(found);
  if (isBounded && Math.max(mostX - leastX, mostY - leastY) >= WIDEST) throw new Unreadable(
    `the entities reach over more than ${WIDEST} tiles`
  );
  return found;
};

/** What stands by in a blueprint's text, which may be more than a picture shows. */
const bystandersOf = (bytes) => {
  try {
    return readDesign(bytes, false).strangers.filter((it) => it.standsBy);
  } catch (fault) {
    if (!(fault instanceof Unreadable)) throw fault;
    return [];
  }
};
