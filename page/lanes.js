// The designs of a book without their looks: what is searched in them, and all of them decided, as many at a time as
// there are processors.

/** Under which words each property is searched besides its own. */
const ALIASES = Object.fromEntries(WORDS.properties.flatMap((it) => (it.also ?? []).map((word) => [word, it.name])));

/** Numbers of inputs and outputs, however they are written: "4 to 4", 4-4, 4 → 4. */
const ENDS = /(\d{1,3})\s*(?:to|-+>?|=+>|[→⇒➔➜:x×‐–—])\s*(\d{1,3})/g;
const endsWritten = (text) => [...text.matchAll(ENDS)].map((it) => `${it[1]}-${it[2]}`);

/** How many signs of what is searched in are looked at. */
const LONGEST_SEARCHED = 1000;

/** What a search asks for: verdicts, as in tu:yes, numbers of ends, and words. */
const askedFor = (text) => {
  const [verdicts, rest] = [[], []];
  for (const word of text.toLowerCase().slice(0, LONGEST_SEARCHED).split(/\s+/).filter(Boolean)) {
    const [name, wanted] = word.split(":");
    const property = ALIASES[name] ?? ([...PROPERTIES, WORDS.universal.name].includes(name) ? name : null);
    if (property && wanted !== undefined) verdicts.push([property, wanted]);
    else rest.push(word);
  }
  const left = rest.join(" ");
  return { verdicts, ends: endsWritten(left), words: left.replace(ENDS, " ").split(/\s+/).filter(Boolean) };
};

/** A design of a book. */
class Entry {
  constructor(found, number) {
    Object.assign(this, { found, number, judged: null, trouble: null, late: 0 });
    found.row = this;
    this.words = `${inWords(found.books.join(" / "))} ${inWords(found.name)}`.toLowerCase().slice(0, LONGEST_SEARCHED);
  }

  get net() {
    return this.judged?.net ?? null;
  }

  get tiers() {
    return tiersOf(this.judged?.design);
  }

  get seconds() {
    return [...(this.judged?.answers.values() ?? [])].reduce((sum, it) => sum + it.seconds, 0);
  }

  /** Why there is no network, in words, or nothing. */
  reason() {
    const { judged } = this;
    return this.found.trouble ?? this.trouble ?? judged?.refusal?.words ?? (
      judged?.isOpen && !judged.network ? judged.ofEnds : null
    ) ?? (this.late ? "the time was up while it was read" : "");
  }

  /** The designs with the same network, itself too, the least in tiles first; none where it is alone. */
  get kin() {
    if (!this.group || this.group.length < 2) return [];
    const key = (it) => [Number(cellsOfRow(it) === null), cellsOfRow(it) ?? 0, it.number];
    return [...this.group].sort((a, b) => key(a).map((it, at) => it - key(b)[at]).find(Boolean) ?? 0);
  }

  remarks() {
    const { judged } = this;
    return [
      ...judged.warnings.filter((it) => it !== this.reason()),
      ...remarksOf(judged.reading, judged.network && !judged.choices.length ? judged.bare : [], judged.notes)
    ];
  }

  /** Whether nothing is left to do within so many seconds for each of these properties. */
  isDone(seconds, properties = PROPERTIES) {
    const { judged } = this;
    if (!this.found.bytes || this.trouble || this.late >= seconds || (judged?.isRead && !judged.isJudged)) return true;
    return properties.every((it) => isTold(this.judged?.answers.get(it), seconds));
  }

  /** Whether it is what is searched for. */
  fits({ verdicts, ends, words }, chosen) {
    const { judged, net } = this;
    const own = net ? [`${net.inputs}-${net.outputs}`] : [];
    const hasVerdict = ([property, wanted]) => (
      property === WORDS.universal.name ? judged?.universal?.kind.startsWith(wanted) ?? false
      : judged?.answers.has(property) && verdictWord(judged, property).startsWith(wanted)
    );
    const more = judged?.isRead ? [
      ...this.tiers,
      judged.warnings.length ? "warning" : "",
      judged.reading.opened.length ? "opened" : "",
      judged.refusal ? "refused" : "",
    ].join(" ") : "";
    const said = [...own, ...endsWritten(this.words)];
    const isChosen = (!chosen.ends || own.includes(chosen.ends)) && (
      !chosen.tier || this.tiers.includes(chosen.tier)
    ) && (!chosen.verdict || hasVerdict(chosen.verdict.split(":")));
    return isChosen && verdicts.every(hasVerdict) && ends.every((it) => said.includes(it)) && words.every(
      (it) => this.words.includes(it) || more.includes(it)
    );
  }
}

/** Whether a property's answer is told, and needn't be asked for again within so many seconds. */
const isTold = (answer, seconds) => Boolean(answer) && answer.trouble !== "stopped" && !(
  answer.trouble === "late" && answer.seconds < seconds - 1
);

/** How many runs go on side by side: one for each processor that the browser tells of. */
const LANES = Math.max(1, Math.min(64, globalThis.navigator?.hardwareConcurrency ?? 2));

/** The rows of all designs, decided in lanes. It draws nothing, so that it can be tested. */
class Lanes {
  constructor(program, rows, { seconds = Infinity, properties = PROPERTIES, told = () => {}, lanes = LANES } = {}) {
    Object.assign(this, { program, rows, seconds, properties, told, lanes, runs: new Set(), isStopped: false });
    this.left = rows.filter((it) => !it.isDone(seconds, properties));
  }

  /** One run of a lane, which ends when its time is up. */
  async run(words, input, what) {
    if (this.isStopped) return { words, trouble: "stopped", seconds: 0 };
    const run = this.program.run(words, input, what, { isQuiet: true });
    this.runs.add(run);
    const clock = this.seconds < Infinity ? setTimeout(() => run.stop("late"), this.seconds * 1000) : null;
    const ended = await run.told;
    clearTimeout(clock);
    this.runs.delete(run);
    return ended;
  }

  async judge(row) {
    const run = (...all) => this.run(...all);
    row.judged ??= new Judged(row.found);
    row.late = 0;
    try {
      await row.judged.read(run);
      if (!row.judged.isJudged) return;
      for (const property of this.properties) {
        const before = row.judged.answers.get(property);
        if (isTold(before, this.seconds) && !row.judged.isSettled(property)) continue;
        await row.judged.decide(property, run, { isChecked: true });
        this.told(row);
      }
    } catch (fault) {
      if (!(fault instanceof NoAnswer)) row.trouble = `the page can't deal with it: ${fault.message}`;
      else if (fault.ended.trouble === "late") row.late = this.seconds;
      else if (fault.ended.trouble !== "stopped") row.trouble = sentenceOf("recover", fault.ended).says;
    }
  }

  /** Goes through all rows that are left; ends once all are done, or all lanes have stopped. */
  async go() {
    const lane = async () => {
      while (!this.isStopped && this.left.length) {
        const row = this.left.shift();
        await this.judge(row);
        this.told(row);
      }
    };
    await Promise.all(Array.from({ length: Math.min(this.lanes, this.left.length) }, lane));
  }

  stop() {
    this.isStopped = true;
    for (const it of [...this.runs]) it.stop();
  }
}

