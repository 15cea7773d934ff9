// Refusals of designs, in words, with the entities that they name. The same as `collection/refusals.py`.

/** The text without characters that steer what shows it: each of these as its number. */
const plain = (text) => text.replace(
  /[\p{Cc}\p{Cf}\p{Cs}\p{Co}\p{Cn}\p{Zl}\p{Zp}]/gu, (it) => `\\u${it.codePointAt(0).toString(16).padStart(4, "0")}`
);

/** How much of a name or a number is told, and how many bare halves. */
const [LONGEST, MOST_NAMED] = [WORDS.numbers.longest_name, WORDS.numbers.most_named];

/** What each refusal says, and how many entities it names first. */
const [REFUSALS, OF_ENTITIES] = [WORDS.refusals.words, WORDS.refusals.entities];

const [OFF_GRID, SIDE_LOAD, BLOCKED, NO_ENDS] = [25, 32, 33, 42];
const KINDS = { belt: "belt", entrance: "underground entrance", exit: "underground exit", splitter: "splitter" };

/** The number of a refusal's line, or null. */
const numberOf = (line) => {
  const words = line.split(" ");
  return words[0] === "refused" && words.length > 2 && /^\d+$/.test(words[1]) ? Number(words[1]) : null;
};

/** Some tiles in words. */
const tilesIn = (cells) => {
  const tiles = cells.map(tile);
  const first = tiles.slice(0, -1).join(", ");
  return tiles.length > 1 ? `tiles ${first} and ${tiles[tiles.length - 1]}` : `tile ${tiles[0]}`;
};

/** An entity by its number in the blueprint, its name and its tiles, or where it has none, its position. */
const toldEntity = (entities, index, cells) => {
  const entity = isObject(entities[index]) ? entities[index] : {};
  const cut = (value) => plain(String(value)).slice(0, LONGEST);
  let place = cells ? ` at ${tilesIn(cells)}` : "";
  if (!cells && isObject(entity.position)) place = ` at x ${cut(entity.position.x)}, y ${cut(entity.position.y)}`;
  return `entity ${cut(entity.entity_number ?? index + 1)} (${cut(entity.name ?? "no name")}${place})`;
};

/** The cells from which something is handed to a part. */
const feedersOf = (parts, part) => {
  const at = standing(parts);
  return part.cells.flatMap((cell) =>
    [0, 1, 2, 3].flatMap((direction) => {
      const there = at.get(keyOf(step(cell, direction, -1)));
      const other = there && parts[there.part];
      return other && other !== part && other.kind !== "entrance" && other.direction === direction ? [
        other.cells[there.half]
      ] : [];
    }),
  );
};

/** The cell in front of a part at which what leaves it can't go on, with the reason; or null. */
const obstacleOf = (parts, part) => {
  const at = standing(parts);
  for (const cell of part.kind === "entrance" ? [] : part.cells) {
    const ahead = step(cell, part.direction);
    const there = at.get(keyOf(ahead));
    const other = there && parts[there.part];
    const turn = other ? (other.direction - part.direction + 4) % 4 : 0;
    if (turn === 2) return { ahead, other, how: "runs head-on into" };
    if (turn && other.kind === "splitter") return { ahead, other, how: "runs into the side of" };
    if (other && !turn && other.kind === "exit") return { ahead, other, how: "runs into the back of" };
  }
  return null;
};

/** More words of what is wrong at a part, and more cells. */
const around = (number, parts, part) => {
  if (number === SIDE_LOAD) {
    const cells = feedersOf(parts, part);
    return { more: cells.length ? `, from ${tilesIn(cells)}` : "", cells };
  }
  const found = number === BLOCKED ? obstacleOf(parts, part) : null;
  return found ? {
    more: `: it ${found.how} the ${KINDS[found.other.kind]} at ${tilesIn([found.ahead])}`, cells: [found.ahead]
  } : { more: "", cells: [] };
};

/** The refusal of a side that a splitter prefers, where what was asked is of designs in which none does. */
const PREFERRED = 27;

/** Whether a refusal is of such a side: a member of an entity, or a line of the network text that was given. */
const isOfPreference = (line, given) => {
  const words = line.split(" ");
  if (numberOf(line) === PREFERRED) return /_priority$/.test(words[words.length - 1]);
  return numberOf(line) === 40 && /^(?:give|take) /.test(
    new TextDecoder().decode(given).split("\n")[Number(words[3]) - 1] ?? ""
  );
};

/** What a refusal's line says where something else was asked than what a design is: of these words, where it is one of
    them. */
const toldOfAsking = (line, given, said, otherwise) => {
  const number = isOfPreference(line, given) ? PREFERRED : numberOf(line);
  const words = number === PREFERRED && !isOfPreference(line, given) ? null : said[number];
  return words ? `refused ${numberOf(line)} ${line.split(" ")[2]}: ${words}` : otherwise();
};

/** What a refusal's line says where a layout was looked for. */
const toldOfLayouts = (line, given) => toldOfAsking(
  line, given, WORDS.refusals.to_lay_out, () => toldRefusal(line, given).words
);

/** What a refusal's line says where two designs were compared. */
const toldOfPairs = (line, given) => toldOfAsking(
  line, given, WORDS.refusals.to_compare, () => toldRefusal(line, new Uint8Array()).words
);

/** What a refusal's line says of a design's text, in words, and the places that it names, each with words; of any other
    line, the line. */
const toldRefusal = (line, bytes) => {
  const number = numberOf(line);
  const words = line.split(" ");
  if (!(number in REFUSALS)) return { words: line, places: [] };
  const named = words.slice(3, 3 + (OF_ENTITIES[number] ?? 0)).filter((it) => /^\d+$/.test(it)).map(Number);
  let entities = [];
  let found = { parts: [], strangers: [] };
  try {
    if (named.length || number === NO_ENDS) entities = entitiesOf(blueprintOf(bytes));
    if (entities.length) found = readDesign(bytes, false);
  } catch (fault) {
    if (!(fault instanceof Unreadable)) throw fault;
    entities = [];
  }
  const standsAt = new Map([...found.parts, ...found.strangers].map((it) => [it.entity, it]));
  const cellsAt = (index) => (
    standsAt.has(index) && (number !== OFF_GRID || found.parts.includes(standsAt.get(index)))
    ? standsAt.get(index).cells : null
  );
  const rest = [...named.map((it) => toldEntity(entities, it, cellsAt(it))), ...words.slice(3 + named.length)];
  const start = `refused ${number} ${words[2]}: ${REFUSALS[number].replace(/\{(\d)\}/g, (_, at) => rest[at] ?? "")}`;
  if (number === NO_ENDS) {
    const them = bareEnds(found.parts).map((it) => placeOf(found.parts, it));
    const wanted = them.length ? `; belts are wanted at halves of splitters: ${spelled(them, MOST_NAMED)}` : "";
    return {
      words: start + wanted,
      places: them.map(({ kind, cell }) => ({ cells: [cell], words: `a belt is wanted here, for an ${kind}` })),
    };
  }
  const marked = named.filter((it) => standsAt.has(it)).map((it) => ({ cells: standsAt.get(it).cells, words: start }));
  const first = named.length ? standsAt.get(named[0]) : null;
  if (!first || !found.parts.includes(first)) return { words: start, places: marked };
  const { more, cells } = around(number, found.parts, first);
  return { words: start + more, places: [...marked, ...cells.map((cell) => ({ cells: [cell], words: start + more }))] };
};
