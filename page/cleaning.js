// What is left out of a design before the program reads it: bystanders, and what only reads a belt. All else of the
// text stays, faults and all, for the program to judge. The same as `collection/cleaning.py`.

const CONTROL = "control_behavior";

/** What a belt's control behaviour has where it only reads what lies on the belt. */
const READING = ["circuit_read_hand_contents", "circuit_contents_read_mode"];

/** What stops a belt where its condition fails, unless it is false, and that condition. */
const ENABLING = {
  circuit_enable_disable: "circuit_condition",
  circuit_enabled: "circuit_condition",
  connect_to_logistic_network: "logistic_condition",
};

/** Whether a belt's control behaviour leaves the belt running. */
const onlyReads = (behaviour) => {
  if (!isObject(behaviour)) return false;
  const idle = Object.keys(ENABLING).filter((it) => behaviour[it] === false);
  const live = Object.keys(ENABLING).filter((it) => it in behaviour && !idle.includes(it));
  const dead = idle.map((it) => ENABLING[it]).filter((it) => !live.some((other) => ENABLING[other] === it));
  return !live.length && Object.keys(behaviour).every((it) => [...READING, ...idle, ...dead].includes(it));
};

const isBelt = (name) => NAMES.get(name)?.kind === "belt";

/** A design's bytes without what stands by and what only reads, and what was left out, in words. */
const cleaned = (bytes) => {
  let found = null;
  try {
    JSON.parse(new TextDecoder().decode(bytes));
    found = new Listed(bytes);
  } catch (fault) {
    if (!(fault instanceof Fault || fault instanceof SyntaxError)) throw fault;
    return { bytes, notes: [] };
  }
  const [leftOut, ends, texts] = [new Map(), new Map(), []];
  let readers = 0;
  const loaders = endLoaders(bytes);
  const nameIn = (entity) => found.value(entity, "name");
  const isGone = (entity, at) => loaders.has(at) || BYSTANDERS.has(nameIn(entity));
  const numbers = new Set(
    found.entities.filter(isGone).map((it) => found.value(it, "entity_number")).filter(Number.isInteger)
  );
  found.entities.forEach((entity, at) => {
    const name = nameIn(entity);
    if (isGone(entity, at)) {
      const them = loaders.has(at) ? ends : leftOut;
      them.set(name, (them.get(name) ?? 0) + 1);
      return;
    }
    const reads = isBelt(name) && entity.members.has(CONTROL) && onlyReads(found.value(entity, CONTROL));
    readers += reads;
    const linked = numbers.size && entity.members.has(CONNECTIONS) ? connectionsOf(
      found.value(entity, CONNECTIONS), numbers
    ) : null;
    const without = new Set([...(reads ? [CONTROL] : []), ...(linked === "" ? [CONNECTIONS] : [])]);
    const isChanged = reads || linked !== null;
    texts.push(
      isChanged ? found.changed(entity, without, new Map(linked ? [[CONNECTIONS, linked]] : [])) : found.textOf(entity)
    );
  });
  const counted = (them) => [...them].map(([name, number]) => `${number} × ${name}`).join(", ");
  const notes = leftOut.size ? [`left out, since it can't touch a belt: ${counted(leftOut)}`] : [];
  if (readers) notes.push(`left out, since it only reads: ${CONTROL} of ${readers} × transport belt`);
  if (ends.size) notes.push(`taken for ends, with the belts that they stand at: ${counted(ends)}`);
  return notes.length ? { bytes: found.withAll(texts, changedLinks(found, numbers)), notes } : { bytes, notes };
};
