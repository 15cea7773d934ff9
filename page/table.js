// A book: its designs in a list, or in a table, and all of them decided, as many at a time as there are processors.

/** So long the decisions on a design take at least where the table tells their time. */
const LEAST_SECONDS = 0.05;

/** The columns of the table: of each its title, what is shown of a row, and by what it is sorted. */
const columnsOf = () => [
  {
    title: "ends",
    show: (row) => row.net && `${row.net.inputs} → ${row.net.outputs}`,
    sort: (row) => (row.net ? row.net.inputs * 10000 + row.net.outputs : -1),
  },
  {
    title: "bare",
    show: (row) => (row.judged?.isRead && row.judged.bare.length) || null,
    sort: (row) => row.judged?.bare.length ?? 0,
  },
  { title: "splitters", show: (row) => row.net && String(row.net.splitters), sort: (row) => row.net?.splitters ?? -1 },
  {
    title: "tiles",
    show: (row) => row.judged?.size?.join(" × "),
    sort: (row) => (row.judged?.size ? row.judged.size[0] * row.judged.size[1] : -1),
  },
  {
    title: "tiers",
    show: (row) => row.tiers.map((it) => make("span", { class: `tier ${it}` }, it)),
    sort: (row) => row.tiers.join(" "),
  },
  ...PROPERTIES.map((property) => ({
    title: property,
    property,
    show: (row) => row.badge(row.judged?.verdict(property), property),
    sort: (row) => verdictWord(row.judged, property),
  })),
  {
    title: WORDS.universal.name,
    property: WORDS.universal.name,
    show: (row) => row.badge(row.judged?.universal, row.judged?.universal?.says),
    sort: (row) => row.judged?.universal?.kind ?? "",
  },
  {
    title: "same network",
    show: (row) => row.same(),
    sort: (row) => row.kin.length ? cellsOfRow(row) - cellsOfRow(row.kin[0]) : -1,
  },
  {
    title: "seconds",
    show: (row) => (row.seconds >= LEAST_SECONDS ? row.seconds.toFixed(1) : null),
    sort: (row) => row.seconds,
  },
];

/** How wide and how high the small picture of a design is at most. */
const THUMB = 44;

/** The small picture of a design, or nothing where it has none. */
const thumbOf = (bytes) => {
  try {
    const design = isJson(bytes) ? readDesign(bytes) : null;
    if (!design) return [];
    const svg = document.createElementNS(SVG, "svg");
    const view = viewOf(boxOf(design, []));
    const [width, height] = view.split(" ").slice(2).map(Number);
    svg.setAttribute("viewBox", view);
    svg.setAttribute("width", Math.round((width * THUMB) / Math.max(width, height)));
    svg.setAttribute("height", Math.round((height * THUMB) / Math.max(width, height)));
    svg.append(...svgOf(drawn(design)));
    return [svg];
  } catch (fault) {
    if (!(fault instanceof Unreadable)) throw fault;
    return [];
  }
};

/** A design's row of the list. */
class Row extends Entry {
  constructor(found, number) {
    super(found, number);
    this.button = make(
      "button",
      { type: "button", onclick: () => choose(given.indexOf(found)) },
      told(inWords(found.name)),
      found.books.length ? make("small", {}, told(inWords(found.books.join(" / ")))) : null,
    );
    this.thumb = make("span", { class: "thumb", "aria-hidden": "true" });
    this.head = make("th", { scope: "row" }, make("div", { class: "who" }, this.thumb, this.button));
    this.element = make("tr", {}, this.head);
    if (found.trouble) this.element.append(make("td", { class: "why mark" }, told(found.trouble)));
  }

  /** The sign of a verdict; behind the pointer stands what it is of. */
  badge(verdict, name) {
    if (!verdict) return null;
    const [sign, ...rest] = verdict.badge.split(" ");
    const isSigned = verdict.kind === "yes" || verdict.kind === "no";
    const title = `${name}: ${verdict.badge}`;
    return make(
      "span",
      { class: classOf(verdict), title },
      isSigned ? sign : "–",
      make("span", { class: "word" }, ` ${isSigned ? rest.join(" ") : verdict.badge}`),
    );
  }

  /** What is told of the designs with the same network: which is the least, and how many tiles more it has. */
  same() {
    const [least, ...others] = this.kin;
    if (!others.length) return null;
    if (least === this) return `least of ${others.length + 1}`;
    const more = cellsOfRow(this) === null ? null : cellsOfRow(this) - cellsOfRow(least);
    const told_ = more === null ? "no layout" : more ? `${count(more, "tile")} more` : "as many tiles";
    return [told_, make("span", { class: "note" }, more ? "than " : "as ", told(inWords(least.found.name)))];
  }

  /** Draws its small picture, where it has one. */
  drawThumb() {
    if (this.drawn || !this.found.bytes) return;
    this.drawn = true;
    this.thumb.replaceChildren(...thumbOf(this.judged?.bytes ?? this.found.bytes));
  }

  /** Writes what is known now. */
  update(columns) {
    const reason = this.reason();
    if (reason) {
      this.element.replaceChildren(this.head, make("td", { class: "why mark", colspan: columns.length }, told(reason)));
      return;
    }
    const cells = columns.map(
      (it) => make("td", { class: it.property ? "mark" : null, "data-label": it.title }, it.show(this) ?? null)
    );
    this.element.replaceChildren(this.head, ...cells);
  }
}

/** How often progress is told, in milliseconds. */
const TELLS = 200;

/** The list of what was given, and what can be done with all of it. */
class Book {
  constructor(designs) {
    this.columns = columnsOf();
    this.rows = designs.map((it, at) => new Row(it, at + 1));
    this.lanes = null;
    this.clock = 0;
    this.changed = new Set();
    this.networks = new Networks();
    // Small pictures are drawn once they are seen, which in the list they never are.
    const rowsOf = new Map(this.rows.map((it) => [it.thumb, it]));
    this.seen = new IntersectionObserver(
      (them) => them.filter((it) => it.isIntersecting).forEach((it) => rowsOf.get(it.target).drawThumb()),
      { rootMargin: "300px" },
    );
    for (const it of this.rows) this.seen.observe(it.thumb);
    $("designs").replaceChildren(...this.rows.map((it) => it.element));
    $("heads").replaceChildren(
      ...[{ title: "design", sort: (row) => row.words }, ...this.columns].map((it) => this.headOf(it))
    );
    this.tell();
    this.offerFilters();
    this.search();
  }

  headOf(column) {
    const head = make(
      "th", { scope: "col" }, make("button", { type: "button", onclick: () => this.sort(head, column) }, column.title)
    );
    return head;
  }

  sort(head, column) {
    const isDown = head.getAttribute("aria-sort") === "ascending";
    for (const it of $("heads").children) it.removeAttribute("aria-sort");
    head.setAttribute("aria-sort", isDown ? "descending" : "ascending");
    const ordered = new Intl.Collator(undefined, { numeric: true });
    const keys = new Map(this.rows.map((it) => [it, column.sort(it)]));
    const compare = (a, b) => (typeof a === "number" ? a - b : ordered.compare(a, b));
    const sorted = [...this.rows].sort(
      (a, b) => (isDown ? -1 : 1) * compare(keys.get(a), keys.get(b)) || a.number - b.number
    );
    $("designs").replaceChildren(...sorted.map((it) => it.element));
  }

  search() {
    const asked = askedFor($("filter").value);
    const chosen = Object.fromEntries([...$("filters").children].map((it) => [it.name, it.value]));
    let left = 0;
    for (const it of this.rows) {
      it.element.hidden = !it.fits(asked, chosen);
      left += !it.element.hidden;
    }
    $("count").textContent = left < this.rows.length ? `${left} of ${this.rows.length}` : String(this.rows.length);
  }

  /** The choices of ends, tiers and verdicts that there are. */
  offerFilters() {
    const found = { ends: new Set(), tier: new Set(), verdict: new Set() };
    for (const row of this.rows) {
      if (row.net) found.ends.add(`${row.net.inputs}-${row.net.outputs}`);
      for (const it of row.tiers) found.tier.add(it);
      for (const it of row.judged?.answers.keys() ?? []) found.verdict.add(`${it}:${verdictWord(row.judged, it)}`);
      if (row.judged?.universal) found.verdict.add(`${WORDS.universal.name}:${row.judged.universal.kind}`);
    }
    const ordered = new Intl.Collator(undefined, { numeric: true });
    const before = Object.fromEntries([...$("filters").children].map((it) => [it.name, it.value]));
    const selects = Object.entries(found).filter(([, them]) => them.size > 1);
    $("filters").replaceChildren(
      ...selects.map(([name, them]) => {
        const options = [...them].sort(ordered.compare).map((it) => make(
          "option",
          { value: it, selected: it === before[name] },
          it.replace(/^(\d+)-(\d+)$/, "$1 → $2").replace(":", ": "),
        ));
        return make(
          "select",
          { name, "aria-label": name, onchange: () => this.search() },
          make("option", { value: "" }, `any ${name}`),
          ...options
        );
      }),
    );
  }

  /** A row of which more is known. */
  note(row) {
    this.changed.add(row);
    for (const it of this.networks.tell([row])) this.changed.add(it);
    this.timer ??= setTimeout(() => this.tell(), TELLS);
  }

  /** Writes what is new, and how far all is. */
  tell() {
    clearTimeout(this.timer);
    this.timer = null;
    for (const it of this.changed) it.update(this.columns);
    this.changed.clear();
    const done = this.rows.filter((it) => it.isDone(this.seconds, this.properties)).length;
    const isBegun = this.rows.some((it) => it.judged || it.trouble);
    const all = this.rows.length;
    $("all").textContent = this.lanes ? "Stop" : done === all ? "All is decided" : isBegun
      ? `Go on with ${all - done}` : `Decide all ${all}`;
    $("all").disabled = !this.lanes && done === all;
    $("limit").disabled = $("which").disabled = Boolean(this.lanes);
    $("bar").max = all;
    $("bar").value = done;
    $("progress").hidden = !this.clock && !this.lanes;
    const clock = this.clock + (this.lanes ? (performance.now() - this.since) / 1000 : 0);
    $(
      "done"
    ).textContent = `${done} of ${all}, ${Math.floor(clock / 60)}:${String(Math.floor(clock % 60)).padStart(2, "0")}`;
    $("saving").hidden = !isBegun;
    this.tally();
  }

  /** How many have each property, of those that are decided. */
  tally() {
    const told = PROPERTIES.map((property) => {
      const words = this.rows.map((it) => verdictWord(it.judged, property)).filter((it) => it !== "open");
      return words.length ? make(
        "li", {}, make("strong", {}, words.filter((it) => it === "yes").length), ` of ${words.length} ${property}`
      ) : null;
    });
    $("tally").replaceChildren(...told.filter(Boolean));
    $("tally").hidden = !told.some(Boolean);
  }

  get seconds() {
    return Number($("limit").value) || Infinity;
  }

  /** The properties that are decided. */
  get properties() {
    const left = $("which").value.split(" ");
    return PROPERTIES.filter((it) => !left.includes(it));
  }

  async decideAll() {
    if (this.lanes) {
      this.lanes.stop();
      return;
    }
    this.since = performance.now();
    this.lanes = new Lanes(
      program, this.rows, { seconds: this.seconds, properties: this.properties, told: (row) => this.note(row) }
    );
    const timer = setInterval(() => this.tell(), 1000);
    this.tell();
    await this.lanes.go();
    clearInterval(timer);
    this.clock += (performance.now() - this.since) / 1000;
    this.lanes = null;
    for (const it of this.rows) if (it.judged || it.trouble) this.changed.add(it);
    this.tell();
    this.offerFilters();
    this.search();
  }

  /** Leaves the list: what is under way ends. */
  leave() {
    this.seen.disconnect();
    this.lanes?.stop();
  }

  async saveTable() {
    save(encoder.encode(await tableOf(this.rows, await program.digest())), "results.tsv");
  }

  async saveCertificates() {
    save(zipOf(await certificatesOf(this.rows, await program.digest())), "beltproof.zip");
  }

  async savePictures() {
    const files = [];
    for (const row of this.rows) {
      if (!row.judged?.isRead) continue;
      const { drawing } = drawingOf(
        row.judged.bytes,
        row.judged.reading.isMarked || row.judged.choices.length ? null : row.judged.network,
        row.judged.places,
        plain(row.found.name),
        { belts: row.judged.reading.belts, bystanders: row.judged.bystanders },
      );
      if (drawing) files.push(
        [`${folderOf(row).replace("designs/", "pictures/")}.svg`, await packedOf(encoder.encode(pictureText(drawing)))]
      );
    }
    save(zipOf(files), "pictures.zip");
  }
}
