// How a design is read and judged: what is told of one design and of a whole book rests on it. Nothing is drawn here.

/** How many bare halves a sentence names at most. */
const MOST_REMARKED = 8;

/** What there is to say of how the design was read, in sentences without their ends; these bare halves are left in
    it. */
const remarksOf = (reading, bare, notes) => {
  const { opened, unopened, belts, isMarked } = reading;
  const remarks = [];
  if (opened.length) remarks.push(
    isMarked ? filledIn(WORDS.ends.marked, spelled(opened, MOST_REMARKED))
    : `opened by ${count(belts, "belt")}: ${spelled(opened, MOST_REMARKED)}`
  );
  const shut = bare.filter(
    (it) => !opened.some((other) => other.kind === it.kind && keyOf(other.cell) === keyOf(it.cell))
  );
  if (shut.length) remarks.push(
    filledIn(shut.length === 1 ? WORDS.ends.shut_one : WORDS.ends.shut, shut.length, spelled(shut, MOST_REMARKED))
  );
  const reasons = unopened.slice(0, MOST_REMARKED).map((it) => `${spelled([it.place])}, since ${it.why}`);
  const more = unopened.length > MOST_REMARKED ? `, and ${unopened.length - MOST_REMARKED} more` : "";
  if (reasons.length) remarks.push(`not opened: ${reasons.join("; ")}${more}`);
  return [...remarks, ...notes];
};

/** The one tier of a design's parts, or null. */
const tierOf = (design) => {
  const tiers = new Set(design?.parts.map((it) => it.tier));
  return tiers.size === 1 ? [...tiers][0] : null;
};

/** A run that told nothing of the design, with how it ended. */
class NoAnswer extends Error {
  constructor(ended) {
    super(faultOf(ended) ?? "");
    this.ended = ended;
  }
}

/** What is known of a design in this way of reading it, as long as the page is open. */
class Judged {
  constructor(found, mode = "label") {
    Object.assign(
      this, { found, mode, bytes: found.bytes, isRead: false, notes: [], bystanders: [], ways: 0, choices: [] }
    );
    /** Each property's answer. */
    this.answers = new Map();
  }

  /** What the program says of a text: its network, or its refusal. */
  static async recover(bytes, run) {
    const ended = await run(["recover"], bytes, "Reading the design");
    if (faultOf(ended)) throw new NoAnswer(ended);
    return ended.status === 0 ? decoder.decode(ended.written) : firstLine(ended.written);
  }

  /** Leaves out what stands by, opens bare halves as is asked, and has the program recover the network. */
  async read(run) {
    if (this.isRead) return;
    const { bytes, name } = this.found;
    const recover = (it) => Judged.recover(it, run);
    const unopened = { ...UNTOLD, belts: 0, opened: [], unopened: [] };
    let reading = null;
    if (!isJson(bytes)) reading = { ...unopened, bytes, answer: await recover(bytes) };
    else {
      const clean = cleaned(bytes);
      Object.assign(this, { notes: clean.notes, bystanders: clean.notes.length ? bystandersOf(bytes) : [] });
      try {
        const opening = await Opening.of(clean.bytes, bystandersOf(bytes), recover);
        this.ways = opening.ways.length;
        reading = await openedBy(opening, this.mode, name);
      } catch (fault) {
        if (!(fault instanceof Refused)) throw fault;
        reading = { ...unopened, bytes: clean.bytes, answer: fault.message };
      }
    }
    this.take(reading);
  }

  /** Takes a reading as its own: each of several choices of bare halves is judged by itself. */
  take(reading) {
    this.reading = reading;
    this.bytes = reading.bytes;
    this.choices = reading.choices.map((it) => {
      const judged = new Judged(this.found, this.mode);
      Object.assign(judged, { notes: this.notes, bystanders: this.bystanders, ways: this.ways });
      judged.take(it);
      return judged;
    });
    this.network = reading.answer.startsWith("net ") ? reading.answer : null;
    this.net = this.choices[0]?.net ?? (this.network ? readNet(this.network) : null);
    this.refusal = this.network || this.choices.length || this.isOpen ? null : toldRefusal(reading.answer, this.bytes);
    this.isRead = true;
  }

  /** What the program is asked of: the design, or where ends are marked there alone, its network. */
  get asked() {
    return this.reading.isMarked ? encoder.encode(this.network) : this.bytes;
  }

  /** Whether nothing is decided, since it isn't clear which bare halves are ends. */
  get isOpen() {
    return UNJUDGED.includes(this.reading?.ends);
  }

  /** Whether properties are decided of it, or of its choices. */
  get isJudged() {
    return this.choices.length > 0 || Boolean(this.network && !this.isOpen);
  }

  /** What there is to say of its ends where nothing is decided, or where several choices are left; or null. */
  get ofEnds() {
    if (!this.isRead || !(this.isOpen || this.choices.length)) return null;
    const { ends, before, would } = this.reading;
    if (ends === "gap") return `${this.ofGaps}; ${WORDS.ends.unjudged}`;
    const pairs = spelledPairs(pairsIn(this.found.name));
    if (this.choices.length) return filledIn(WORDS.ends.several, pairs, this.choices.length);
    const could = isAmong(would, [before]) ? "" : filledIn(WORDS.ends.could, spelledPairs([would]));
    return `${filledIn(WORDS.ends.counts, pairs, spelledPairs([before]))}${could}: ${WORDS.ends[ends]}`;
  }

  /** At which tiles a belt may be missing, in words; null where there is none. */
  get ofGaps() {
    const tiles = this.reading.gaps.map(tile);
    return tiles.length ? filledIn(
      tiles.length === 1 ? WORDS.ends.gap : WORDS.ends.gaps, together(tiles.slice(0, MOST_REMARKED))
    ) : null;
  }

  /** The places with a red frame: where a belt may be missing, and what is refused. */
  get places() {
    const gaps = this.reading.gaps.map((it) => ({ cells: [it], words: filledIn(WORDS.ends.gap, tile(it)) }));
    return gaps.length || this.choices.length ? gaps : this.refusal?.places ?? [];
  }

  /** The design's parts, or null where there are none to draw. */
  get design() {
    if (this.kept === undefined) {
      try {
        this.kept = isJson(this.bytes) ? readDesign(this.bytes) : null;
      } catch (fault) {
        if (!(fault instanceof Unreadable)) throw fault;
        this.kept = null;
      }
    }
    return this.kept;
  }

  /** How many tiles wide and high it is, or null. */
  get size() {
    return this.design && sizeOf(this.design);
  }

  /** Whether a property is decided. */
  isSettled(property) {
    if (this.choices.length) return this.choices.every((it) => it.isSettled(property));
    return [0, 1].includes(this.answers.get(property)?.status);
  }

  /** Decides a property, of each choice of bare halves where there are several, and where it is asked for, has the
      answer checked. Where all is known already, nothing is run. */
  async decide(property, run, { steps = USUAL_STEPS, isChecked = false } = {}) {
    if (this.choices.length) {
      let last = null;
      for (const it of this.choices) {
        last = await it.decide(property, run, { steps, isChecked });
        if (last.trouble === "stopped") return last;
      }
      this.answers.set(property, this.joined(property) ?? last);
      return this.answers.get(property);
    }
    let answer = this.answers.get(property);
    if (!this.isSettled(property)) {
      const words = ["decide", property, ...(steps === USUAL_STEPS ? [] : ["--learnt", String(steps)])];
      const ended = await run(words, this.asked, `Deciding whether it is ${FIELD[property].name}`);
      answer = await keptAnswer({ words, ...ended });
      this.answers.set(property, answer);
    }
    if (isChecked && this.isSettled(property) && !answer.check) {
      const check = await this.check(property, await unpackedOf(answer.kept), run);
      // A check that was stopped is made again.
      if (check.trouble === "stopped") return { ...answer, trouble: "stopped" };
      answer.check = check;
    }
    return answer;
  }

  /** What several choices of bare halves tell of a property: what became of them, and how long it took; null where not
      all are asked yet. */
  joined(property) {
    const answers = this.choices.map((it) => it.answers.get(property));
    if (!answers.every(Boolean)) return null;
    const kinds = this.choices.map((it) => it.verdict(property).kind);
    const settled = ["yes", "no"].filter((it) => kinds.includes(it));
    const open = answers.find((_, at) => !["yes", "no"].includes(kinds[at]));
    const whole = { seconds: total(answers.map((it) => it.seconds)), kept: null, check: null };
    if (settled.length === 2) return {
      ...answers[0],
      ...whole,
      halves: settled.map((it) => `${it} for ${kinds.filter((kind) => kind === it).length} of ${kinds.length}`).join(
        ", "
      ),
    };
    return open ? { ...open, ...whole } : {
      ...answers[0], ...whole, steps: Math.max(...answers.map((it) => it.steps)), of: answers.length
    };
  }

  /** Checks a certificate or a state. */
  async check(property, saved, run) {
    const words = ["check", property];
    const ended = await run(words, lined(this.asked, saved), `Checking what was decided of ${property}`);
    return {
      words,
      status: ended.status,
      trouble: ended.trouble,
      why: ended.why,
      seconds: ended.seconds,
      line: ended.written ? firstLine(ended.written) : "",
    };
  }

  /** What is said of a property: of what `check` didn't accept, that; and where it isn't clear which bare halves are
      ends, only what holds whichever they are. */
  verdict(property, parts = {}) {
    if (this.isOpen) return { kind: "open", badge: WORDS.verdicts.halves, says: `${capital(WORDS.ends.undecided)}.` };
    const answer = this.answers.get(property);
    if (!answer) return null;
    const told = { promise: FIELD[property].promise, name: FIELD[property].name, ...parts };
    if (answer.halves) return sentenceOf(
      "differ", answer, { differ: capital(filledIn(WORDS.ends.differ, answer.halves)) }
    );
    if (answer.of) return sentenceOf("agreed", answer, { ...told, count: answer.of });
    const isBad = answer.check && answer.check.status !== answer.status;
    return isBad ? sentenceOf("check", answer.check) : sentenceOf("decide", answer, told);
  }

  /** Whether the design is universal, as the verdicts tell that this takes, with which of them fail; null where they
      don't. */
  get universal() {
    const kindOf = (it) => this.verdict(it)?.kind;
    const failing = UNIVERSAL.filter((it) => kindOf(it) === "no");
    if (!failing.length && !UNIVERSAL.every((it) => kindOf(it) === "yes")) return null;
    return sentenceOf("universal", this.answers.get(failing[0] ?? UNIVERSAL[0]), { name: together(failing) });
  }

  /** What is amiss with the number of ends, in words, where the label tells of others; or null. */
  get warning() {
    const said = this.ofEnds ?? this.ofGaps;
    if (said) return said;
    const pairs = isJson(this.bytes) && this.net ? pairsIn(this.found.name) : [];
    const own = this.net && [this.net.inputs, this.net.outputs];
    if (!pairs.length || isAmong(own, pairs)) return null;
    const { would } = this.reading;
    const could = would && !isAmong(would, [own]) ? filledIn(WORDS.ends.could, spelledPairs([would])) : "";
    return filledIn(WORDS.ends.counts, spelledPairs(pairs), own.join(" to ")) + could;
  }

  /** What the label claims and a verdict contradicts, and what the program can't tell. */
  get claims() {
    const { properties, lanes } = claimsIn(this.found.name);
    const failed = new Map();
    for (const [property, claim] of Object.entries(properties)) if (this.verdict(property)?.kind === "no") failed.set(
      claim, [...(failed.get(claim) ?? []), property]
    );
    const told = [...failed].map(([claim, them]) => sentenceOf(
      "claim", this.answers.get(them[0]), { claim, name: together(them.map((it) => FIELD[it].known)) }
    ).says);
    return [...told, ...(lanes ? [WORDS.claiming.lanes] : [])];
  }

  /** What is amiss with its ends, and with what its label claims. */
  get warnings() {
    return [...(this.warning ? [this.warning] : []), ...this.claims];
  }

  /** The bare halves that are left. */
  get bare() {
    return this.design ? bareEnds(this.design.parts).map((it) => placeOf(this.design.parts, it)) : [];
  }
}

/** How many tiles wide and high a design is. */
const sizeOf = (design) => {
  const [leastX, leastY, mostX, mostY] = boxOfDesign(design);
  return [mostX - leastX + 1, mostY - leastY + 1];
};

/** An answer as it is kept: what the program wrote is packed. */
const keptAnswer = async ({ written, ...ended }) => {
  if (!written) return ended;
  const isSettled = ended.status === 0 || ended.status === 1;
  let lines = 0;
  for (const byte of written) lines += byte === 10;
  return {
    ...ended, line: firstLine(written), steps: Math.max(0, lines - 2), kept: isSettled ? await packedOf(written) : null
  };
};
