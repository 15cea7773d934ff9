// What can be asked besides of a design: a smaller layout, a saved certificate, another design, and its texts.

/** Whether the program takes these words. */
const takesWords = async (...words) => (
  await program.run(words, new Uint8Array(), "Asking for what is known").told
).status !== USAGE;

/** The lines that ask for inputs at one side and outputs at the other, each side by side. */
const FACING = ["side inputs south", "side outputs north"];
const ROWS = ["row inputs", "row outputs"];

/** The largest grid, where the program knows large ones, and where it doesn't. */
const [WIDE_GRID, USUAL_GRID] = [160, 16];

/** What the program can be asked for in layouts; it is asked once. */
const knownOfLayouts = () => {
  knownOfLayouts.told ??= (async () => {
    const one = encoder.encode(`net 1 1 0\nedge i0 o0\n${ROWS[0]}\nend\n`);
    const rows = await program.run(["smallest", "--found", "--most", "1x1"], one, "Asking for what is known").told;
    const [sides, isWide] = [
      await takesWords("smallest", "--found", "--sides"),
      await takesWords("smallest", "--found", "--most", `${WIDE_GRID}x${WIDE_GRID}`),
    ];
    return { sides, rows: rows.status === 0 || rows.status === 4, most: isWide ? WIDE_GRID : USUAL_GRID };
  })();
  return knownOfLayouts.told;
};

/** A network's text with more lines before its end. */
const requestOf = (network, lines) => network.replace(/end\n?$/, `${lines.join("\n")}\nend\n`);

/** Steps of the first search, how many times as many the next has, and the most. */
const [FIRST_STEPS, TIMES_STEPS, MOST_STEPS] = [500, 4, 1000000000];

/** So many times as long a search with more steps takes at least that went on where the one before it ended. */
const LONGER = 1.5;

/** The blueprint that is handed back: as it was laid out, with the label, the icons and the description of the
    design. */
const namedAs = (blueprint, bytes) => {
  const made = JSON.parse(decoder.decode(blueprint));
  let own = {};
  try {
    own = isJson(bytes) ? blueprintOf(bytes) : {};
  } catch (fault) {
    if (!(fault instanceof Unreadable)) throw fault;
  }
  const kept = Object.fromEntries(["icons", "description"].filter((it) => it in own).map((it) => [it, own[it]]));
  const label = typeof own.label === "string" && own.label.trim() ? {
    label: `${own.label}${WORDS.searches.label}`
  } : {};
  return encoder.encode(JSON.stringify({ ...made, blueprint: { ...made.blueprint, ...label, ...kept } }));
};

/** How many tiles wide and high a design is without the belts between an end and the first splitter or underground end,
    or null where it isn't traced or that is all of it. */
const sizeWithin = ({ parts }, traced) => {
  if (!traced) return null;
  const gone = new Set();
  for (const { source, target, run } of traced.edges) {
    const way = run.map((it) => it.half.part);
    for (const [end, them] of [[source, way], [target, [...way].reverse()]]) {
      const count = them.findIndex((it) => parts[it].kind !== "belt");
      if (end[0] !== "s") for (const it of count < 0 ? them : them.slice(0, count)) gone.add(it);
    }
  }
  const cells = parts.filter((_, at) => !gone.has(at)).flatMap((it) => it.cells);
  if (!cells.length) return null;
  const [leastX, leastY, mostX, mostY] = spanOf(cells);
  return [mostX - leastX + 1, mostY - leastY + 1];
};

const tilesOf = ([width, height]) => count(width * height, "tile");

/** The size without the belts of its ends in words, where that is another one. */
const toldWithin = (size, whole) => (
  size && size.join() !== whole.join() ? `, without its end belts ${size.join(" × ")}` : ""
);

/** What can be asked besides. */
class More {
  constructor(view) {
    this.view = view;
    this.element = make("div", { class: "more" }, this.smaller(), this.compare(), this.check(), this.texts());
  }

  part(title, ...content) {
    return make("details", { class: "card" }, make("summary", {}, title), make("div", {}, ...content));
  }

  /** A verdict of the list of sentences, as a paragraph. */
  said({ kind, badge, says }) {
    return make(
      "p",
      { class: badge ? null : kind === "refused" ? "trouble" : "held" },
      badge ? make("span", { class: classOf({ kind }) }, badge) : null,
      badge ? " " : null,
      told(says),
    );
  }

  smaller() {
    const option = (value, words, isChosen = false) => make("option", { value, selected: isChosen }, words);
    const ends = make("select", {}, option("any", "at any side"));
    const width = make("input", { type: "number", min: 1, max: USUAL_GRID, placeholder: "any", class: "short" });
    const time = make(
      "select",
      {},
      ...[[10, "10 s"], [60, "1 min"], [300, "5 min"], [1800, "30 min"]].map(
        ([value, words]) => option(value, words, value === 60)
      )
    );
    const out = make("div", { class: "found" });
    const look = make("button", { type: "button", class: "main" }, "Look for one");
    look.addEventListener("click", async () => {
      look.disabled = true;
      out.replaceChildren();
      await this.lookForSmaller(
        { ends: ends.value, width: Math.floor(Number(width.value)) || null, seconds: Number(time.value) }, out
      );
      look.disabled = false;
    });
    const words = "The program looks for a layout of the same network. Each that it writes shows this very network.";
    const select = (label, field) => make("label", { class: "select" }, label, field);
    const row = make(
      "div", { class: "row" }, look, select("ends", ends), select("width at most", width), select("for", time)
    );
    const part = this.part("A smaller layout", make("p", { class: "note" }, words), row, out);
    const offer = async () => {
      const known = await knownOfLayouts();
      if (known.sides && isJson(this.view.bytes)) ends.append(option("sides", "each at its own side", true));
      ends.append(option("facing", "side by side: in at the south, out at the north"));
      width.max = known.most;
    };
    part.addEventListener("toggle", offer, { once: true });
    return part;
  }

  /** The words and the text with which a layout is looked for, by what is chosen. */
  async requestFor({ ends, width }) {
    const { view } = this;
    const known = await knownOfLayouts();
    const isFacing = ends === "facing";
    const lines = [...FACING, ...(known.rows ? ROWS : [])];
    const input = isFacing ? encoder.encode(requestOf(view.network, lines)) : view.bytes;
    const isText = isFacing || !isJson(view.bytes);
    const lines_ = Math.max(view.net.inputs, view.net.outputs);
    const most = isText && !width ? Math.min(known.most, Math.max(USUAL_GRID, 2 * lines_)) : known.most;
    const tier = tierOf(view.design) ?? "basic";
    const words = [
      "smallest",
      "--found",
      ...(ends === "sides" ? ["--sides"] : []),
      "--most",
      `${Math.min(width ?? most, most)}x${most}`,
      ...(tier === "basic" ? [] : ["--tier", tier])
    ];
    const asked = isFacing ? "facing" : ends === "sides" ? "sides" : isText ? "text" : "";
    return { words, input, asked, tier, rows: known.rows ? ", each side by side" : "" };
  }

  /** Looks for a layout; with ends side by side in the width of the lines first, for half of the time, and then in
      any. */
  async lookForSmaller(chosen, out) {
    const { inputs, outputs } = this.view.net;
    const widths = chosen.ends === "facing" && !chosen.width ? [Math.max(inputs, outputs), null] : [chosen.width];
    const began = performance.now();
    for (const [at, width] of widths.entries()) {
      out.replaceChildren();
      const until = began + (chosen.seconds * 1000 * (at + 1)) / widths.length;
      if (await this.lookInTime({ ...chosen, width }, { began, until }, out)) return;
    }
  }

  /** Looks with more and more steps until the time is up; the least so far is shown, and stays where it is stopped.
      Gives whether nothing is left to be looked for: one was found, or it was stopped. */
  async lookInTime(chosen, { began, until }, out) {
    const { view } = this;
    const { words, input, asked, tier, rows } = await this.requestFor(chosen);
    const progress = make("p", { class: "note", role: "status" });
    const best = make("div");
    out.append(progress, best);
    const isUp = () => performance.now() >= until;
    let [least, last, before] = [null, null, 0];
    const clock = setInterval(() => {
      const told = least ? `The least so far: ${least.told}.` : "None so far.";
      progress.textContent = `${told} ${seconds((performance.now() - began) / 1000)}`;
    }, 200);
    for (let steps = FIRST_STEPS; steps <= MOST_STEPS; steps *= TIMES_STEPS) {
      const limit = setTimeout(() => view.stop("late"), Math.max(1, until - performance.now()));
      last = {
        asked, ...(await view.run([...words, "--learnt", String(steps)], input, "Looking for a smaller layout"))
      };
      clearTimeout(limit);
      const isSame = least && last.status === 0 && !last.trouble && areSame(least.written, last.written);
      // A search with more steps that writes the same and takes no longer had gone on to its end.
      const isOver = isSame && last.seconds < before * LONGER;
      if (!last.trouble && last.status === 0 && !isSame) {
        const [width, height] = firstLine(last.written).replace("grid ", "").split("x").map(Number);
        least = {
          ...last,
          told: `${width} × ${height}, ${tilesOf([width, height])}`,
          seconds: (performance.now() - began) / 1000,
        };
        best.replaceChildren();
        await this.showSmaller(least, best);
      }
      before = Math.max(last.seconds, 0.05);
      if (
        isOver || isUp() || last.trouble || ![0, 4, 12].includes(last.status) || answerOf(last).endsWith("fewer")
      ) break;
    }
    clearInterval(clock);
    progress.remove();
    const refusal = last.status === 3 ? toldOfLayouts(firstLine(last.written), input) : "";
    const most = `${optionOf(words, "--most", "").replace("x", " × ")} tiles`;
    if (!least) out.append(this.said(sentenceOf("smaller", last, { refusal, tier, most, rows })));
    else if (last.trouble === "stopped") out.append(
      make("p", { class: "note" }, "It was stopped: this is the least that was found before.")
    );
    return Boolean(least) || last.trouble === "stopped" || last.status === 3;
  }

  async showSmaller(ended, out) {
    const { view } = this;
    const end = ended.written.indexOf(10);
    const [width, height] = firstLine(ended.written).replace("grid ", "").split("x").map(Number);
    const blueprint = namedAs(ended.written.slice(end + 1), view.found.bytes);
    const recovered = await view.run(["recover"], blueprint, "Reading the layout");
    const network = recovered.status === 0 ? decoder.decode(recovered.written) : null;
    const { drawing, design, traced } = drawingOf(
      blueprint, network, [], `${plain(view.found.name)}, laid out smaller`
    );
    const string = await deflate(blueprint);
    const size = view.design ? sizeOf(view.design) : null;
    const within = size ? toldWithin(sizeWithin(view.design, view.traced), size) : "";
    const own = size ? `; the design has ${size.join(" × ")}, ${tilesOf(size)}${within}` : "";
    const without = design ? toldWithin(sizeWithin(design, traced), [width, height]) : "";
    const name = `${slug(view.found.name)}-${width}x${height}`;
    const copying = make("button", { type: "button", onclick: () => copy(string, copying) }, "Copy its string");
    const row = make(
      "div",
      { class: "row" },
      copying,
      make("button", { type: "button", onclick: () => save(blueprint, `${name}.json`) }, "Save its JSON"),
      make(
        "button",
        {
          type: "button",
          onclick: () => addDesigns(
            [{ name: `${view.found.name} (smaller), ${width} × ${height}`, books: [], place: "", bytes: blueprint }]
          ),
        },
        "Open it",
      ),
    );
    const { says } = sentenceOf("smaller", ended, { width, height, tiles: tilesOf([width, height]), without, own });
    out.append(make("p", {}, says), row);
    if (drawing) out.append(make("p", {}), drawing.plane);
  }

  compare() {
    const area = make(
      "textarea",
      {
        rows: 2,
        spellcheck: "false",
        "aria-label": "The other design",
        placeholder: "The other design: a blueprint string, JSON or a network text",
      },
    );
    const others = given.filter((it) => it.bytes && it !== this.view.found);
    const chosen = make(
      "select", { "aria-label": "Another design of the list" }, make("option", { value: "" }, "or one of the list…")
    );
    const out = make("div");
    const go = make("button", { type: "button", class: "main" }, "Compare");
    const file = make("input", { type: "file", class: "hidden", tabindex: -1, "aria-hidden": "true" });
    const ask = async (show) => {
      out.replaceChildren();
      const asked = area.value.trim() ? (await designsIn(encoder.encode(area.value), "the other design"))[0] : others[
        chosen.value
      ];
      if (!asked) out.append(make("p", { class: "held" }, "Paste the other design first."));
      else if (!asked.bytes) out.append(
        make("p", { class: "trouble" }, told(`The other isn't a design: ${asked.trouble}.`))
      );
      else {
        go.disabled = true;
        await show({ ...asked, bytes: isJson(asked.bytes) ? cleaned(asked.bytes).bytes : asked.bytes });
        go.disabled = false;
      }
    };
    go.addEventListener("click", () => ask((other) => this.showSame(other, out)));
    file.addEventListener("change", async () => {
      const [saved] = file.files;
      if (saved) await ask(async (other) => this.showSaved(other, new Uint8Array(await saved.arrayBuffer()), out));
      file.value = "";
    });
    const checking = make("button", { type: "button", onclick: () => file.click() }, "Check a saved comparison…");
    const words = "Do two designs behave the same: does each output carry the same in both, whatever comes in and " +
      "whatever is taken? Both are counted in basic belts, so fast belts are not the same as basic ones.";
    const part = this.part(
      "Compare with another design",
      make("p", { class: "note" }, words),
      area,
      make("div", { class: "row" }, go, others.length ? chosen : null, checking, file),
      out,
    );
    // A book may have thousands.
    const list = () => chosen.append(
      ...others.slice(0, MOST_SHOWN).map((it, at) => make("option", { value: at }, plain(inWords(it.name))))
    );
    part.addEventListener("toggle", list, { once: true });
    return part;
  }

  /** What a saved certificate or a saved pair of states shows of both designs. */
  async showSaved(other, saved, out) {
    const { view } = this;
    const ended = await view.run(
      ["check-same"], lined(lined(view.bytes, other.bytes), saved), "Checking a saved comparison"
    );
    out.append(this.said(sentenceOf("saved-same", ended)));
  }

  async showSame(other, out) {
    const { view } = this;
    const both = lined(view.bytes, other.bytes);
    const ended = await view.run(["same"], both, "Comparing two designs");
    const refusal = ended.status === 3 ? toldOfPairs(firstLine(ended.written), both) : "";
    const verdict = sentenceOf("same", ended, { refusal });
    out.append(this.said(verdict));
    if (verdict.kind !== "yes" && verdict.kind !== "no") return;
    const isSame = verdict.kind === "yes";
    const checked = make("button", { type: "button" }, "Check it");
    checked.addEventListener("click", async () => {
      checked.disabled = true;
      const ended_ = await view.run(["check-same"], lined(both, ended.written), "Checking the comparison");
      checked.replaceWith(make("span", { class: "note" }, sentenceOf("check-same", ended_).says));
    });
    out.append(make(
      "div",
      { class: "row" },
      make(
        "button",
        {
          type: "button", onclick: () => save(ended.written, `${slug(view.found.name)}.${isSame ? "yes" : "not"}-same`)
        },
        `Save ${isSame ? "the certificate" : "the states"} (${size(ended.written.length)})`,
      ),
      checked,
    ));
    if (!isSame) await this.showDifference(other, decoder.decode(ended.written), out);
  }

  /** The two states that show a difference, each on its design. */
  async showDifference(other, text, out) {
    const { view } = this;
    const recovered = await view.run(["recover"], other.bytes, "Reading the other design");
    const pair = make("div", { class: "pair" });
    const network = recovered.status === 0 ? decoder.decode(recovered.written) : null;
    for (const [which, name, bytes, net] of [
      [0, view.found.name, view.bytes, view.network], [1, other.name, other.bytes, network]
    ]) {
      const state = readState(text, which);
      const found = drawingOf(bytes, net, [], `${plain(name)}: its state`);
      const carried = net ? listed(atEnds(readNet(net), state)[1]) : "";
      if (found.canDraw && found.traced && found.design) found.drawing.showOf(
        new Layout(found.design.parts).network(true), state
      );
      else if (found.canDraw) found.drawing.show(state);
      pair.append(make(
        "div",
        {},
        make("h3", {}, told(inWords(name))),
        make("p", { class: "note" }, `The outputs carry ${carried}, in basic belts.`),
        found.drawing?.plane ?? make("p", { class: "note" }, found.lack),
      ));
    }
    out.append(pair, legend(true));
  }

  check() {
    const area = make(
      "textarea",
      {
        rows: 2,
        spellcheck: "false",
        "aria-label": "A saved certificate or state",
        placeholder: "A saved certificate or state: its first line is yes or no and a property",
      },
    );
    const file = make("input", { type: "file", class: "hidden", tabindex: -1, "aria-hidden": "true" });
    const out = make("div");
    const go = async (bytes) => {
      out.replaceChildren();
      const [verdict, property] = firstLine(bytes).split(" ");
      if (!["yes", "no"].includes(verdict) || !PROPERTIES.includes(property)) {
        out.append(
          make("p", { class: "trouble" }, `Its first line has to be yes or no and one of ${PROPERTIES.join(", ")}.`)
        );
        return;
      }
      const ended = await this.view.run(["check", property], lined(this.view.bytes, bytes), `Checking: ${property}`);
      out.append(this.said(sentenceOf("saved", ended, { property, name: FIELD[property].name })));
    };
    file.addEventListener("change", async () => file.files[0] && go(new Uint8Array(await file.files[0].arrayBuffer())));
    const row = make(
      "div",
      { class: "row" },
      make("button", { type: "button", class: "main", onclick: () => go(encoder.encode(area.value)) }, "Check"),
      make("button", { type: "button", onclick: () => file.click() }, "Choose a file…"),
      file,
    );
    return this.part(
      "Check a saved certificate or state",
      make(
        "p",
        { class: "note" },
        "The checker trusts nothing of how it came about: it goes through each step, or tests the state by each law.",
      ),
      area,
      row,
      out,
    );
  }

  texts() {
    const { view } = this;
    const row = make("div", { class: "row" });
    const linking = make("button", { type: "button" }, "Copy a link to it");
    linking.addEventListener(
      "click", async () => copy(`${location.href.split("#")[0]}#${await this.fragment()}`, linking)
    );
    row.append(linking);
    if (isJson(view.bytes)) {
      const copying = make("button", { type: "button" }, "Copy its string");
      copying.addEventListener("click", async () => copy(await deflate(view.bytes), copying));
      row.append(copying);
    }
    const shownText = view.network.length > LONGEST_SHOWN ? `${view.network.slice(0, LONGEST_SHOWN)}\n…` : view.network;
    row.append(make(
      "button",
      { type: "button", onclick: () => save(encoder.encode(view.network), `${slug(view.found.name)}.net`) },
      "Save its network",
    ));
    return this.part(
      "Its network, string and link",
      make(
        "p",
        { class: "note" },
        "The network, as the program recovers it: inputs, outputs and splitters are numbered from 0.",
      ),
      make("pre", { tabindex: 0 }, shownText),
      row,
    );
  }

  /** What a link to the design ends in. */
  async fragment() {
    const { bytes } = this.view.found;
    return isJson(bytes) ? deflate(bytes) : encodeURIComponent(decoder.decode(bytes));
  }
}
