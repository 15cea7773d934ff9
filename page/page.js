// The page: what is given, the list of designs, and what is told of the chosen one. All that is said of a design was
// said by the program; only pictures are drawn here.

const USAGE = 2;
const LONGEST_SHOWN = 20000;
const MOST_SHOWN = 5000;
const LONGEST_LINK = 2000000;

/** How many characters of what was given the field shows: with more of them it takes seconds to lay out. */
const LONGEST_WRITTEN = 100000;

/** So many cells wide a picture is at most that stands beside the verdicts. */
const WIDEST_BESIDE = 22;

let program = null;
let given = [];
let view = null;
let book = null;

/** What the field shows of what was given, and all of it. */
let written = { shown: "", whole: "" };

/** Puts a text into the field: of a long one its beginning. */
const write = (whole) => {
  const shown = whole.length > LONGEST_WRITTEN ? `${whole.slice(0, LONGEST_WRITTEN / 100)}…` : whole;
  written = { shown, whole };
  $("text").value = shown;
};

/** What the field holds, all of it. */
const fieldText = () => ($("text").value === written.shown ? written.whole : $("text").value);

/** What is drawn of a design: its parts and its network where that is the one that the program told, and what is
    lacking. Behind all other parts so many belts were added, and besides what stands by is drawn, and ends without
    belts are marked. */
const drawingOf = (
  bytes, network, refused, label, { belts = 0, bystanders = [], isRuled = false, halves = [], before = [0, 0] } = {}
) => {
  if (!isJson(bytes)) return network ? {
    lack: null, canDraw: true, drawing: new GraphDrawing(readNet(network), label)
  } : { lack: "There is no picture." };
  let design = null;
  try {
    design = readDesign(bytes);
  } catch (fault) {
    if (!(fault instanceof Unreadable)) throw fault;
    return { lack: `There is no picture: ${fault.message}.` };
  }
  const [leastX, leastY, mostX, mostY] = boxOfDesign(design);
  const isNear = ([x, y]) => x >= leastX - 1 && x <= mostX + 1 && y >= leastY - 1 && y <= mostY + 1;
  const seen = { ...design, strangers: [...design.strangers, ...bystanders.filter((it) => it.cells.some(isNear))] };
  const first = design.parts.length - belts;
  const marks = {
    bare: bareEnds(design.parts),
    added: new Set(design.parts.map((_, at) => at).filter((at) => at >= first)),
    refused,
    halves,
    before,
  };
  const plainly = (lack) => ({ design, lack, canDraw: false, drawing: new Drawing(seen, null, marks, label, isRuled) });
  if (!network) return plainly(null);
  try {
    const traced = new Layout(design.parts).network();
    if (!isSameNetwork(traced, network)) return plainly(
      "Ends and states aren't drawn: traced for the picture, the network is another one."
    );
    return { design, lack: null, traced, canDraw: true, drawing: new Drawing(seen, traced, marks, label, isRuled) };
  } catch (fault) {
    if (!(fault instanceof Untraced)) throw fault;
    return plainly(`Ends and states aren't drawn: as traced for the picture, ${fault.message}.`);
  }
};

/** The ends that are marked in the network alone, and how many inputs and outputs stand before them. */
const markedOf = ({ isMarked, opened, before }) => (isMarked ? { halves: opened, before } : {});

/** A verdict's card: what is promised, and what became of it. */
class Verdict {
  constructor(view, property) {
    this.view = view;
    this.property = property;
    this.steps = USUAL_STEPS;
    const { title, promise } = FIELD[property];
    this.badge = make("span", { class: "verdict" }, "not yet");
    this.words = make("p", {}, `${promise[0].toUpperCase()}${promise.slice(1)}.`);
    this.row = make("div", { class: "row" });
    this.element = make(
      "li",
      { class: "card", "data-property": property },
      make("h3", {}, `${title} `, make("code", {}, property)),
      this.badge,
      this.words,
      this.row,
    );
  }

  tell({ kind, badge, says }, ...buttons) {
    this.badge.className = kind ? classOf({ kind }) : "verdict";
    this.badge.textContent = badge;
    if (says) this.words.replaceChildren(says);
    this.row.replaceChildren(...buttons);
  }

  /** Offers to decide. */
  offer() {
    this.tell({ badge: "not decided" }, this.button("Decide it", () => this.decide()));
  }

  /** Decides it, or tells what is known already. */
  async decide() {
    const { view, property, steps } = this;
    if (!view.judged.isSettled(property)) this.tell({ badge: "deciding…" });
    const answer = await view.judged.decide(property, (...all) => view.run(...all), { steps });
    this.answer = answer;
    const state = answer.status === 1 && !answer.trouble && answer.kept ? readState(
      decoder.decode(await unpackedOf(answer.kept))
    ) : null;
    const told = state ? shown(property, view.net, state, tiersOf(view.design)) : "";
    const verdict = view.judged.verdict(property, { state: told }) ?? sentenceOf("decide", answer);
    this.tell(verdict, ...this.buttons(verdict, state));
    return answer.trouble !== "stopped";
  }

  /** What can be done with an answer. */
  buttons({ kind }, state) {
    // Of several choices each has certificates of its own.
    if (this.view.judged.choices.length && (this.answer.of || this.answer.halves)) return [];
    if (kind === "yes") return [this.saving("yes"), this.checking()];
    if (kind === "no") {
      const at = this.view.addState({ property: this.property, state });
      const see = this.view.canDraw ? [this.button("See it", () => this.view.showState(at, true))] : [];
      return [...see, this.saving("no"), this.checking()];
    }
    if (answerOf(this.answer) !== "decide 4" || this.steps >= MOST_STEPS) return [
      this.button("Decide again", () => this.decide())
    ];
    const more = Math.min(MOST_STEPS, this.steps * 10);
    const longer = () => {
      this.steps = more;
      this.decide();
    };
    return [this.button(`Allow ${more.toLocaleString("en")} steps`, longer)];
  }

  button(label, act) {
    return make("button", { type: "button", class: "quiet", onclick: act }, label);
  }

  saving(kind) {
    const name = `${slug(inWords(this.view.found.name))}.${kind === "yes" ? "yes" : "not"}-${this.property}`;
    const { kept } = this.answer;
    return this.button(
      `Save the ${kind === "yes" ? "certificate" : "state"} (${size(kept.length)})`,
      async () => save(await unpackedOf(kept), name),
    );
  }

  checking() {
    const button = this.button("Check it", async () => {
      button.disabled = true;
      const saved = await unpackedOf(this.answer.kept);
      const check = await this.view.judged.check(this.property, saved, (...all) => this.view.run(...all));
      button.replaceWith(make("span", { class: "note" }, told(sentenceOf("check", check).says)));
    });
    return button;
  }
}

/** What is told of one design. */
class View {
  constructor(found, mode = "label", judged = null) {
    this.found = found;
    this.mode = mode;
    this.runs = new Set();
    this.isLeft = false;
    this.element = $("design");
    // What a book's table knows of it is told at once.
    const row = mode === "label" && !judged ? found.row : null;
    this.judged = judged ?? row?.judged ?? new Judged(found, mode);
    if (row) row.judged = this.judged;
  }

  /** What the program is asked of. */
  get bytes() {
    return this.judged.asked;
  }

  get network() {
    return this.judged.network;
  }

  get net() {
    return this.judged.net;
  }

  /** A run of the program for this design; a view that was left stops its runs. */
  async run(words, input, what) {
    if (this.isLeft) return { words, trouble: "stopped", seconds: 0 };
    const run = program.run(words, input, what);
    this.runs.add(run);
    const ended = await run.told;
    this.runs.delete(run);
    return ended;
  }

  stop(trouble) {
    for (const run of [...this.runs]) run.stop(trouble);
  }

  leave() {
    this.isLeft = true;
    this.stop();
  }

  heading() {
    const { name, books, place } = this.found;
    const crumbs = [...books, place && `design ${place}`].filter(Boolean).join(" / ");
    const about = this.judged.isRead ? descriptionOf(this.judged.bytes) : "";
    this.facts = make("ul", { class: "facts" });
    this.remarks = make("ul", { class: "remarks" });
    return make(
      "div",
      { class: "title" },
      crumbs ? make("p", { class: "crumbs" }, told(inWords(crumbs))) : null,
      make("h2", { tabindex: -1, id: "name" }, told(inWords(name))),
      about ? make("p", { class: "described" }, told(inWords(about))) : null,
      this.facts,
      this.remarks,
    );
  }

  fail(words) {
    this.element.append(make("p", { class: "trouble" }, told(words)));
  }

  async open() {
    this.element.hidden = false;
    this.element.replaceChildren(this.heading());
    if (this.found.isPassed) {
      this.element.append(make("p", { class: "note" }, `${capital(this.found.trouble)}.`));
      return;
    }
    if (this.found.trouble) return this.fail(`It isn't a design: ${this.found.trouble}.`);
    try {
      await this.judged.read((...all) => this.run(...all));
    } catch (fault) {
      if (!(fault instanceof NoAnswer)) throw fault;
      if (!this.isLeft) this.fail(sentenceOf("recover", fault.ended).says);
      return;
    }
    if (!this.isLeft) await this.tell();
  }

  /** Tells what was read, draws it, and decides. */
  async tell() {
    const { judged } = this;
    const { reading, refusal, bystanders, places } = judged;
    Object.assign(this, { states: [], at: 0, drawing: null, design: null, traced: null, canDraw: false });
    const name = plain(inWords(this.found.name));
    const network = judged.choices.length || reading.isMarked ? null : this.network;
    Object.assign(
      this,
      drawingOf(
        judged.bytes,
        network,
        places,
        `${name}, drawn from its parts`,
        { belts: reading.belts, bystanders, isRuled: true, ...markedOf(reading) },
      ),
    );
    if (reading.isMarked) this.lack = "Ends and states aren't drawn: not all of them have room for a belt.";
    this.element.replaceChildren(this.heading());
    this.tellRemarks();
    if (refusal) this.fail(
      sentenceOf("recover", { words: ["recover"], status: 3, seconds: 0 }, { refusal: refusal.words }).says
    );
    const drawn = this.drawing ? this.stage() : make("p", { class: "note" }, this.lack);
    if (!judged.isJudged && !judged.isOpen) {
      this.element.append(drawn);
      this.showPlace();
      return;
    }
    this.verdicts = PROPERTIES.map((it) => new Verdict(this, it));
    const list = make("ol", { class: "verdicts", "aria-label": "Verdicts" }, ...this.verdicts.map((it) => it.element));
    const isWide = this.drawing ? this.drawing.box[2] > WIDEST_BESIDE : true;
    this.element.append(make("div", { class: `both${isWide ? " wide" : ""}` }, drawn, list));
    if (judged.isOpen) {
      for (const it of this.verdicts) it.tell({ ...judged.verdict(it.property), says: null });
      this.showPlace();
      return;
    }
    if (judged.choices.length) this.element.append(this.choices());
    else this.element.append(new More(this).element);
    await this.decideAll();
  }

  /** Brings the first framed place of the picture into sight. */
  showPlace() {
    const frame = this.drawing?.svg.querySelector(".frame");
    if (!frame) return;
    const { plane } = this.drawing;
    const [place, seen] = [frame.getBoundingClientRect(), plane.getBoundingClientRect()];
    plane.scrollTop += place.top - seen.top - seen.height / 2;
    plane.scrollLeft += place.left - seen.left - seen.width / 2;
  }

  /** The choices of bare halves side by side, the likely one first: each is opened by a click. */
  choices() {
    const cards = this.judged.choices.map((it, at) => {
      const { reading } = it;
      const more = { belts: reading.belts, bystanders: it.bystanders, ...markedOf(reading) };
      const { drawing } = drawingOf(it.bytes, reading.isMarked ? null : it.network, [], `choice ${at + 1}`, more);
      const label = `Choice ${at + 1}${at ? "" : `, ${WORDS.ends.likely}`}`;
      const open = make("button", { type: "button", onclick: () => openChoice(this.found, it, this) }, label);
      return make(
        "li",
        { class: "card" },
        open,
        drawing?.plane ?? null,
        make("p", { class: "note" }, spelled(reading.opened, MOST_REMARKED)),
        reading.lacking ? make("p", { class: "note" }, filledIn(WORDS.ends.room, tile(reading.lacking))) : null,
      );
    });
    return make("section", {}, make("h3", {}, "Which halves are meant?"), make("ol", { class: "choices" }, ...cards));
  }

  /** Decides one property after the other; what is left where one was stopped can be asked for. Where one alone fails,
      its state is shown. */
  async decideAll() {
    const left = [...this.verdicts];
    while (left.length && !this.isLeft && (await left.shift().decide())) if (this.found.row) book?.note(this.found.row);
    for (const it of left) it.offer();
    if (!this.isLeft) this.tellRemarks();
    if (!this.isLeft && !left.length && this.states.length === 1 && this.canDraw && !this.at) this.showState(1, false);
  }

  /** What there is to say of how the design was read: warnings first. */
  tellRemarks() {
    const { judged } = this;
    if (this.net && judged.isJudged) this.tellFacts();
    const sentence = (it) => `${capital(it)}.`;
    const warnings = judged.warnings.map((it) => make("li", { class: "held" }, told(sentence(it))));
    const remarks = remarksOf(
      judged.reading, this.network && !judged.choices.length ? judged.bare : [], judged.notes
    ).map((it) => make("li", {}, told(sentence(it))));
    if (isJson(judged.bytes) && judged.net && !hasVersion(judged.bytes)) remarks.push(
      make("li", {}, "It tells no version of the game: directions are read as before 2.0.")
    );
    this.remarks.replaceChildren(...warnings, ...remarks);
  }

  tellFacts() {
    const { inputs, outputs, splitters, edges } = this.net;
    const strong = (text) => make("strong", {}, text);
    const some = (number, word) => make("li", {}, strong(number), ` ${word}${number === 1 ? "" : "s"}`);
    const facts = [
      make("li", {}, strong(`${inputs} → ${outputs}`)),
      some(splitters, "splitter"),
      make("li", {}, strong(edges.length), ` belt${edges.length === 1 ? "" : "s"} between`),
    ];
    if (this.design) {
      const within = sizeWithin(this.design, this.traced);
      facts.push(
        make("li", {}, strong(sizeOf(this.design).join(" × ")), ` tiles${toldWithin(within, sizeOf(this.design))}`)
      );
      for (const tier of tiersOf(this.design)) facts.push(make("li", { class: `tier ${tier}` }, tier));
    }
    const { universal } = this.judged;
    if (universal) facts.push(make("li", {}, make("span", { class: classOf(universal) }, universal.says)));
    this.facts.replaceChildren(...facts);
  }

  /** The picture with its tools. */
  stage() {
    const quiet = (label, act) => make("button", { type: "button", class: "quiet", onclick: act }, label);
    const fitted = make("button", { type: "button", class: "quiet", "aria-pressed": "true" }, "One to one");
    fitted.addEventListener("click", () => {
      const isFitted = !this.drawing.plane.classList.contains("fit");
      this.drawing.fit(isFitted);
      fitted.textContent = isFitted ? "One to one" : "Fit the width";
      fitted.setAttribute("aria-pressed", String(isFitted));
    });
    const name = slug(inWords(this.found.name));
    const savings = [
      quiet("SVG", () => save(encoder.encode(pictureText(this.drawing)), `${name}.svg`)),
      quiet("PNG", async () => saveBlob(await pictureImage(this.drawing), `${name}.png`)),
    ];
    this.tools = make(
      "div",
      { class: "tools" },
      fitted,
      make("span", {}, make("span", { class: "note" }, "Save as"), ...savings),
      ...this.opening()
    );
    if (this.lack) this.tools.append(make("span", { class: "note" }, this.lack));
    this.slider = make("div", { class: "states", hidden: true });
    this.figure = make("figure", { class: "card stage" }, this.drawing.plane, this.slider, this.tools);
    return this.figure;
  }

  /** The choice of which bare halves are ends, where there are any. */
  opening() {
    const { ways, isOpen } = this.judged;
    if (!ways && !isOpen) return [];
    const options = [
      ["label", "ends by its label"],
      ["never", "ends as it is drawn"],
      ["always", ways === 1 ? "its bare half open" : `all ${ways} bare halves open`],
    ].filter(([value]) => ways || value !== "always");
    const field = make(
      "select",
      { "aria-label": "Which bare halves are ends" },
      ...options.map(([value, words]) => make("option", { value, selected: value === this.mode }, words))
    );
    field.addEventListener("change", () => {
      this.leave();
      view = new View(this.found, field.value);
      view.open();
    });
    return [make("label", { class: "select" }, field)];
  }

  /** Adds a breaking state; gives its place on the slider, which begins with none. */
  addState(told) {
    this.states = [...this.states.filter((it) => it.property !== told.property), told];
    if (this.canDraw) this.drawSlider();
    return this.states.length;
  }

  drawSlider() {
    const at = this.at ?? 0;
    this.range = make(
      "input",
      {
        type: "range",
        id: "state",
        min: 0,
        max: this.states.length,
        step: 1,
        value: at,
        oninput: () => this.showState(Number(this.range.value), false),
      },
    );
    this.says = make("p", { role: "status" });
    const row = make(
      "div", { class: "row" }, make("label", { for: "state" }, count(this.states.length, "breaking state")), this.range
    );
    this.slider.replaceChildren(row, this.says, legend(tiersOf(this.design).length > 1));
    this.slider.hidden = false;
    this.showState(at, false);
  }

  /** Draws the breaking state at this place of the slider, or none. */
  showState(at, isAsked) {
    this.at = at;
    const told = at ? this.states[at - 1] : null;
    const apart = told ? apartOf(told.property, this.net, told.state) : {};
    this.drawing.show(told?.state ?? null, apart);
    this.range.value = at;
    this.range.setAttribute("aria-valuetext", told ? `not ${FIELD[told.property].name}` : "none");
    const says = ["Move the slider to see how items stand where a promise fails."];
    if (told) {
      says[0] = make("strong", {}, `Not ${FIELD[told.property].name}. `);
      says.push(shown(told.property, this.net, told.state, tiersOf(this.design)));
    }
    this.says.replaceChildren(...says);
    this.slider.querySelector(".legend").replaceWith(legend(tiersOf(this.design).length > 1, apart));
    this.slider.querySelector(".legend").hidden = !told;
    if (isAsked) this.figure.scrollIntoView({ block: "nearest" });
  }
}

/** Opens one of several choices of bare halves, with a way back to all. */
const openChoice = async (found, judged, before) => {
  before.leave();
  view = new View(found, before.mode, judged);
  const own = view;
  const opened = view.open();
  const back = make("button", { type: "button", class: "quiet", onclick: () => {
    own.leave();
    view = new View(found, before.mode, before.judged);
    view.open();
  } }, "← All choices");
  await null;
  $("design").scrollIntoView();
  own.element.querySelector(".title")?.prepend(back);
  return opened;
};

/** Opens the design at this place of the list. */
const choose = (at, isFocused = true) => {
  view?.leave();
  view = new View(given[at]);
  $("designs").querySelector("[aria-current]")?.removeAttribute("aria-current");
  given[at].row?.button.setAttribute("aria-current", "true");
  $("about").hidden = true;
  document.title = `${plain(inWords(given[at].name))} – beltproof`;
  const opened = view.open();
  if (isFocused) {
    $("name")?.focus({ preventScroll: true });
    if ($("design").getBoundingClientRect().top > innerHeight / 2 || matchMedia("(max-width: 62rem)").matches) $(
      "design"
    ).scrollIntoView();
  }
  return opened;
};

const listDesigns = () => {
  const isList = given.length > 1;
  $("list").hidden = !isList;
  $("main").classList.toggle("has-list", isList);
  book?.leave();
  const before = new Map(given.map((it) => [it, it.row?.judged]));
  book = isList ? new Book(given) : null;
  if (!book) return;
  // What was known of a design stays known where more are added.
  for (const it of given) if (before.get(it)) {
    it.row.judged = before.get(it);
    it.row.update(book.columns);
  }
  book.tell();
};

/** Adds designs to the list, and opens the first of them. */
const addDesigns = (found) => {
  given = [...given, ...found];
  listDesigns();
  return choose(given.length - found.length);
};

/** How often something was given. */
let opening = 0;

/** Opens what was given: its designs take the place of those before. */
const openBytes = async (bytes, name) => {
  if (bytes.length > MOST_READ) {
    $("given").textContent = `It is longer than ${MOST_READ / 2 ** 20} MB.`;
    return;
  }
  $("given").textContent = "Reading it…";
  opening += 1;
  const own = opening;
  let found = null;
  try {
    found = await readAside(unpackedReader, bytes, name);
  } catch (fault) {
    if (own === opening) $("given").textContent = `The browser couldn't read it (${fault.message}).`;
    return;
  }
  // Where something else was given meanwhile, that is shown.
  if (own !== opening) return;
  $("given").textContent = found.length ? "" : "There is nothing to open.";
  if (!found.length) return;
  given = found;
  $("filter").value = "";
  listDesigns();
  $("given").textContent = found.length > 1 ? `${found.length} designs were found.` : "";
  await choose(0, false);
};

const openText = (text, name = "Pasted design") => openBytes(encoder.encode(text), name);

const openFile = async (file) => {
  if (file.size > MOST_READ) {
    $("given").textContent = `It is longer than ${MOST_READ / 2 ** 20} MB.`;
    return;
  }
  await openBytes(new Uint8Array(await file.arrayBuffer()), plain(file.name.replace(/\.\w+$/, "")));
};

/** Opens what the address has behind its #. */
const openFragment = () => {
  const fragment = location.hash.slice(1);
  if (!fragment || fragment.length > LONGEST_LINK) return;
  let text = fragment;
  try {
    text = decodeURIComponent(fragment);
  } catch {
    // It is taken as it stands.
  }
  write(text);
  openText(text, "Linked design");
};

/** Shows which runs are under way, and since when. */
const watch = () => {
  const tick = () => {
    const run = [...program.running].find((it) => !it.isQuiet);
    if (run) $("clock").textContent = `${((performance.now() - run.since) / 1000).toFixed(1)} s`;
  };
  let timer = null;
  program.changed = () => {
    const runs = [...program.running].filter((it) => !it.isQuiet);
    $("work").hidden = runs.length === 0;
    $("what").textContent = runs.length ? runs[0].what : "";
    clearInterval(timer);
    timer = runs.length ? setInterval(tick, 100) : null;
    tick();
  };
  $("stop").addEventListener("click", () => program.stopAll());
};

/** Opens what is pasted: into the field, where it is put at the cursor unless it is long, or anywhere but in another
    field. */
const paste = (event) => {
  const field = event.target.closest?.("textarea, input");
  if (field && field !== $("text")) return;
  const text = event.clipboardData?.getData("text/plain") ?? "";
  if (field && text.length <= LONGEST_WRITTEN) {
    setTimeout(() => openText(fieldText()));
    return;
  }
  event.preventDefault();
  write(text);
  openText(text);
};

const listen = () => {
  $("open").addEventListener("click", () => openText(fieldText()));
  $("text").addEventListener("keydown", (event) => {
    if (event.key === "Enter" && (event.ctrlKey || event.metaKey)) openText(fieldText());
  });
  document.addEventListener("paste", paste);
  $("choose").addEventListener("click", () => $("file").click());
  $("file").addEventListener("change", () => $("file").files[0] && openFile($("file").files[0]));
  $("filter").addEventListener("input", () => book?.search());
  $("all").addEventListener("click", () => book?.decideAll());
  for (const id of ["limit", "which"]) $(id).addEventListener("change", () => book?.tell());
  $("wide").addEventListener("click", () => {
    const isWide = $("main").classList.toggle("wide-list");
    $("wide").textContent = isWide ? "As a list" : "As a table";
  });
  for (const [id, act] of [
    ["save-table", "saveTable"], ["save-certificates", "saveCertificates"], ["save-pictures", "savePictures"]
  ])
    $(id).addEventListener("click", async () => {
      $(id).disabled = true;
      await book?.[act]();
      $(id).disabled = false;
    });
  $("designs").addEventListener("keydown", (event) => {
    const step = { ArrowDown: 1, ArrowUp: -1 }[event.key];
    if (!step) return;
    const shownOnes = [...$("designs").children].filter((it) => !it.hidden);
    shownOnes[shownOnes.indexOf(event.target.closest("tr")) + step]?.querySelector("button").focus();
    event.preventDefault();
  });
  addEventListener("dragover", (event) => {
    event.preventDefault();
    $("drop").hidden = false;
  });
  addEventListener("dragleave", (event) => event.relatedTarget || ($("drop").hidden = true));
  addEventListener("drop", (event) => {
    event.preventDefault();
    $("drop").hidden = true;
    const file = event.dataTransfer.files[0];
    const text = event.dataTransfer.getData("text/plain");
    if (file) openFile(file);
    else if (text) openText(text);
  });
  addEventListener("hashchange", openFragment);
};

/** The examples: of a design in JSON the string is put into the field, as if it had been pasted. */
const offerExamples = (samples) => {
  $("examples").append(...samples.map((it, at) => make("option", { value: at }, it.name)));
  $("examples").addEventListener("change", async () => {
    const sample = samples[$("examples").value];
    if (!sample) return;
    const bytes = encoder.encode(sample.text);
    write(isJson(bytes) ? await deflate(bytes) : sample.text.trim());
    openText(sample.text, sample.name);
  });
};

const start = () => {
  $("given").textContent = "";
  for (const it of PROPERTIES) {
    const name = make("dt", {}, `${FIELD[it].title} `, make("code", {}, it));
    $("promises").append(make("div", {}, name, make("dd", {}, FIELD[it].promise)));
  }
  offerExamples(unpackedSamples);
  program = new Program(unpackedProgram, $("worker").textContent);
  watch();
  listen();
  offerWishes(
    (words, what = "Asking for what is known") => program.run(words, new Uint8Array(), what).told,
    (it) => addDesigns([it]),
  );
  openFragment();
};

if (typeof document !== "undefined") start();
