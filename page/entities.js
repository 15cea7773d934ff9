// The entities of a blueprint's bytes with their places in them, so that what is changed leaves all the rest as it was.
// The same as `collection/entities.py`.

/** The entity that stands here; the walk goes past it. */
const entityAt = (walk) => {
  walk.sign();
  const start = walk.at;
  const members = new Map();
  if (walk.sign() !== SIGN["{"]) {
    walk.value();
    return { start, end: walk.at, members };
  }
  for (const _ of walk.parts("{", "}")) {
    walk.sign();
    const begin = walk.at;
    if (walk.sign() !== QUOTE) throw new Fault(`the text is damaged at byte ${begin}: a name is expected there`);
    const name = text(walk.value());
    walk.expect(":");
    walk.sign();
    const valueStart = walk.at;
    walk.value();
    if (members.has(name)) throw new Fault("an entity's member has no name of its own");
    members.set(name, { start: begin, valueStart, end: walk.at });
  }
  return { start, end: walk.at, members };
};

/** How many entities are listed at most; with more, no program takes the design. */
const MOST_ENTITIES_LISTED = 16384;

/** A blueprint's bytes with its entities; a fault where they are no blueprint with a list of them, or are damaged. */
class Listed {
  constructor(bytes) {
    const walk = new Walk(bytes);
    this.bytes = bytes;
    this.entities = [];
    /** The blueprint's other members. */
    this.others = new Map();
    this.end = null;
    for (const name of walk.members()) {
      if (name !== "blueprint" || this.end !== null || walk.sign() !== SIGN["{"]) {
        walk.value();
        continue;
      }
      for (const inner of walk.members()) {
        if (inner === "entities" && this.end === null && walk.sign() === SIGN["["]) {
          for (const _ of walk.parts("[", "]")) {
            if (this.entities.length === MOST_ENTITIES_LISTED) throw new Fault(
              `there are more than ${MOST_ENTITIES_LISTED} entities`
            );
            this.entities.push(entityAt(walk));
          }
          this.end = walk.at - 1;
        } else {
          walk.sign();
          const valueStart = walk.at;
          walk.value();
          this.others.set(inner, { valueStart, end: walk.at });
        }
      }
    }
    if (this.end === null) throw new Fault("the text is no blueprint with a list of entities");
  }

  written(start, end) {
    return new TextDecoder().decode(this.bytes.subarray(start, end));
  }

  /** A member's value. */
  valueOf(member) {
    return JSON.parse(this.written(member.valueStart, member.end));
  }

  /** The value of an entity's member, or undefined. */
  value(entity, name) {
    const member = entity.members.get(name);
    return member && this.valueOf(member);
  }

  /** An entity's text. */
  textOf(entity) {
    return this.bytes.subarray(entity.start, entity.end);
  }

  /** An entity's text without some of its members, and with other texts for the values of some. */
  changed(entity, without, texts) {
    const kept = [...entity.members].filter(([it]) => !without.has(it));
    const written = kept.map(([name, { start, valueStart, end }]) => (
      texts.has(name)
        ? glued([this.bytes.subarray(start, valueStart), asBytes(texts.get(name))])
        : this.bytes.subarray(start, end)
    ));
    return glued([BRACES[0], ...between(written, COMMA), BRACES[1]]);
  }

  /** The blueprint's bytes with these entities in place of its own, and other texts for the values of some of its other
      members. */
  withAll(texts, values = new Map()) {
    const [first, last] = [
      this.entities[0]?.start ?? this.end, this.entities[this.entities.length - 1]?.end ?? this.end
    ];
    const changes = [[first, last, glued(between(texts, COMMA_LINE))]];
    for (const [name, it] of values) changes.push(
      [this.others.get(name).valueStart, this.others.get(name).end, asBytes(it)]
    );
    const found = [];
    let at = 0;
    for (const [start, end, bytes] of changes.sort((a, b) => a[0] - b[0])) {
      found.push(this.bytes.subarray(at, start), bytes);
      at = end;
    }
    return glued([...found, this.bytes.subarray(at)]);
  }

  /** The blueprint's bytes with these entities behind its own. */
  withMore(texts) {
    const at = this.entities[this.entities.length - 1]?.end ?? this.end;
    const more = texts.flatMap((it, number) => (this.entities.length || number ? [COMMA_LINE, it] : [it]));
    return glued([this.bytes.subarray(0, at), ...more, this.bytes.subarray(at)]);
  }
}

const asBytes = (written) => new TextEncoder().encode(written);
const [COMMA, COMMA_LINE] = [asBytes(","), asBytes(",\n")];
const BRACES = [asBytes("{"), asBytes("}")];

const between = (parts, sign) => parts.flatMap((it, at) => (at ? [sign, it] : [it]));
