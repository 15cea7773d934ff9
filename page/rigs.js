// Loaders at the ends of a test rig: what a loader gives to a belt comes in there, and what it takes from one goes out,
// so without them the belts that they stand at are ends. The same as `collection/rigs.py`.

/** The game's loaders, with how many tiles long they are. */
const LOADERS = new Map(
  [["loader", 2], ["fast-loader", 2], ["express-loader", 2], ["turbo-loader", 2], ["loader-1x1", 1]]
);

/** The cells of a loader with this middle, in halves of a tile. */
const cellsOfLoader = ([x, y], direction, length) => {
  if (length === 1) return [[half(x - 1), half(y - 1)]];
  return [-1, 0].map(
    (by) => (direction === EAST || direction === WEST ? [half(x) + by, half(y - 1)] : [half(x - 1), half(y) + by])
  );
};

/** The numbers in the list of entities of the loaders that stand at ends: each in line with the one belt that it
    touches, and no container between one that takes and one that gives; of all loaders, or of none. */
const endLoaders = (bytes) => {
  const written = new TextDecoder().decode(bytes);
  if (![...LOADERS.keys()].some((it) => written.includes(`"${it}"`))) return new Set();
  let [found, entities] = [null, []];
  try {
    [found, entities] = [readDesign(bytes), entitiesOf(blueprintOf(bytes))];
  } catch (fault) {
    if (!(fault instanceof Unreadable)) throw fault;
    return new Set();
  }
  const there = new Map(found.parts.flatMap((part) => part.cells.map((cell) => [keyOf(cell), part])));
  const boxes = new Map(
    found.strangers.filter((it) => !LOADERS.has(it.name)).flatMap((it) => it.cells.map((cell) => [keyOf(cell), it]))
  );
  const [sides, ends] = [new Map(), new Set()];
  for (const it of found.strangers.filter((one) => LOADERS.has(one.name))) {
    const entity = entities[it.entity];
    const direction = directionOf(entity, found.isSixteenths);
    if (direction === null) return new Set();
    const cells = cellsOfLoader(it.middle, direction, LOADERS.get(it.name));
    const [first, last] = direction === NORTH || direction === WEST ? [cells[cells.length - 1], cells[0]] : [
      cells[0], cells[cells.length - 1]
    ];
    const mouths = [step(first, direction, -1), step(last, direction)];
    const parts = mouths.map((cell) => there.get(keyOf(cell))).filter(Boolean);
    if (parts.length !== 1 || (parts[0].direction - direction) % 2) return new Set();
    for (const box of mouths.map((cell) => boxes.get(keyOf(cell))).filter(Boolean)) sides.set(
      box, (sides.get(box) ?? new Set()).add(String(entity.type))
    );
    ends.add(it.entity);
  }
  return [...sides.values()].some((them) => them.size > 1) ? new Set() : ends;
};
