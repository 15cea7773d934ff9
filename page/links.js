// What links the entities of a blueprint by their numbers: wires, circuit connections and schedules. Of entities that
// are left out these go too; all else of the text stays. The same as `collection/links.py`.

/** The member by which an entity tells its circuit connections, before version 2.0. */
const CONNECTIONS = "connections";

/** A value's text, in ASCII. */
const valueText = (value) => JSON.stringify(value).replace(
  /[^\0-\x7f]/g, (it) => `\\u${it.charCodeAt(0).toString(16).padStart(4, "0")}`
);

const isNumberOf = (value, gone) => Number.isInteger(value) && gone.has(value);

/** Whether a value is more than nothing. */
const isFull = (value) => (
  typeof value === "object" && value !== null ? Object.keys(value).length > 0 : Boolean(value)
);

/** A value without the objects in its lists that name one of these entities, and without what is empty then. */
const unlinked = (value, gone) => {
  if (Array.isArray(value)) return value.filter((it) => !(isObject(it) && isNumberOf(it.entity_id, gone))).map(
    (it) => unlinked(it, gone)
  );
  if (!isObject(value)) return value;
  const inner = Object.entries(value).map(([name, it]) => [name, unlinked(it, gone)]);
  return Object.fromEntries(inner.filter(([name, it]) => isFull(it) || !isFull(value[name])));
};

/** The text of an entity's circuit connections without those to these entities: null where nothing changes, and empty
    where none is left. */
const connectionsOf = (value, gone) => {
  const left = unlinked(value, gone);
  if (JSON.stringify(left) === JSON.stringify(value)) return null;
  return isFull(left) ? valueText(left) : "";
};

/** Of each member of a blueprint that links entities its value without these. */
const LINKS = {
  wires: (value, gone) => value.filter(
    (it) => !(Array.isArray(it) && (isNumberOf(it[0], gone) || isNumberOf(it[2], gone)))
  ),
  schedules: (value, gone) =>
    value.flatMap((it) => {
      const them = isObject(it) ? it.locomotives : null;
      if (!Array.isArray(them)) return [it];
      const left = them.filter((one) => !isNumberOf(one, gone));
      return left.length === them.length ? [it] : left.length ? [{ ...it, locomotives: left }] : [];
    }),
  stock_connections: (value, gone) => value.filter(
    (it) => !(isObject(it) && Object.values(it).some((one) => isNumberOf(one, gone)))
  ),
};

/** The texts of a blueprint's members that link entities, where these are left out; those that change. */
const changedLinks = (found, gone) => {
  const changed = new Map();
  for (const [name, without] of Object.entries(LINKS)) {
    const value = found.others.has(name) ? found.valueOf(found.others.get(name)) : null;
    const left = Array.isArray(value) ? without(value, gone) : value;
    if (JSON.stringify(left) !== JSON.stringify(value)) changed.set(name, valueText(left));
  }
  return changed;
};
