// A picture on the page: a design as large as its place, or one to one, and a state on it.

/** How wide a cell is one to one, and at most where the whole picture is fitted to its place. */
const PIXELS = 34;
const MOST_PIXELS = 46;

let pictures = 0;

/** What both kinds of pictures have: their plane, and how wide they are in it. */
class Picture {
  constructor(label, viewBox) {
    this.svg = document.createElementNS(SVG, "svg");
    this.svg.setAttribute("viewBox", viewBox);
    this.svg.setAttribute("role", "img");
    this.svg.setAttribute("aria-label", label);
    this.plane = make("div", { class: "plane fit", tabindex: 0, role: "group", "aria-label": label }, this.svg);
  }

  /** As wide as its place, or one to one. */
  fit(isFitted) {
    this.plane.classList.toggle("fit", isFitted);
    this.svg.style.maxWidth = isFitted ? `${Math.round(this.cellsWide * MOST_PIXELS)}px` : "none";
    this.svg.style.width = isFitted ? "100%" : `${Math.round(this.cellsWide * PIXELS)}px`;
  }
}

class Drawing extends Picture {
  /** The picture of a design, of its network where that is traced, with marks, and with columns and rows numbered if
      ruled. */
  constructor(design, network, marks, label, isRuled) {
    const cells = network ? badgeCells(design.parts, network) : [];
    const box = boxOf(design, cells);
    super(label, viewOf(box, isRuled));
    pictures += 1;
    this.ways = `ways-${pictures}`;
    Object.assign(this, { design, network, cells, box, isRuled });
    this.parts = document.createElementNS(SVG, "g");
    this.parts.append(...svgOf(drawn(design, marks, this.ways)));
    this.over = document.createElementNS(SVG, "g");
    this.svg.append(
      ...(isRuled ? svgOf(rulesOf(this.box)) : []),
      this.parts,
      this.over,
      ...svgOf(halfBadges(design.parts, marks.halves ?? [], marks.before))
    );
    this.fit(true);
    this.show(null);
  }

  /** How many cells wide the picture is, with its margin. */
  get cellsWide() {
    return this.box[2] + (this.isRuled ? 28 : 8) / CELL;
  }

  /** Draws a state, or none, with which of two ends has less and which more. */
  show(state, apart = {}) {
    this.showOf(this.network, state, apart);
  }

  /** The same of a network with other caps. */
  showOf(network, state, apart = {}) {
    this.parts.setAttribute("class", state ? "below" : "");
    const flows = state ? flowing(this.design.parts, network, this.cells, state, this.ways) : [];
    this.over.replaceChildren(...svgOf([...flows, ...badges(this.cells, state && toldAtEnds(state), apart)]));
  }
}

/** The drawing of a network text. */
class GraphDrawing extends Picture {
  constructor(net, label) {
    const { box } = graphOf(net);
    super(label, box.join(" "));
    Object.assign(this, { net, box: box.map((it) => it / CELL) });
    this.fit(true);
    this.show(null);
  }

  get cellsWide() {
    return this.box[2];
  }

  show(state, apart = {}) {
    this.svg.replaceChildren(...svgOf(graphOf(this.net, state, apart).elements));
  }
}

/** What tells the colours of a state. */
const legend = (isMixed, apart = {}) =>
  make(
    "p",
    { class: "legend" },
    make("span", {}, make("span", { class: "key" }), "free: all moves on"),
    make("span", {}, make("span", { class: "key backed" }), "backed: items queue up and wait"),
    make("span", {}, `numbers: parts of a full ${isMixed ? "basic " : ""}belt`),
    Object.keys(apart).length ? make("span", {}, WORDS.universal.apart) : null,
  );
