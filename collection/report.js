"use strict";
// Sorting, search and filters, and the pages of the designs, which are kept compressed until they are shown.
(() => {
  const table = document.getElementById("designs"), body = table.tBodies[0], base = document.title;
  const rows = [...document.querySelectorAll("tr[data-words]")], order = [...table.tBodies].flatMap(
    (it) => [...it.rows]
  );
  // The rows that aren't laid out at first; each is, once the page is there and nothing else is to be done.
  const later = table.querySelector(".later"), MORE = 60;
  const more = () => {
    if (!later?.rows.length) return;
    body.append(...[...later.rows].slice(0, MORE));
    idle(more);
  };
  const idle = window.requestIdleCallback ?? ((call) => setTimeout(call, 50));
  addEventListener("load", () => idle(more));
  const left = document.getElementById("left"), words = document.getElementById("words");

  const unpacked = async (text) => {
    const bytes = Uint8Array.from(atob(text), (it) => it.charCodeAt(0));
    return new Response(new Blob([bytes]).stream().pipeThrough(new DecompressionStream("deflate"))).text();
  };
  // Puts what an element keeps into it, once.
  const draw = async (element) => {
    const text = element?.dataset.kept;
    if (!text) return;
    delete element.dataset.kept;
    element.insertAdjacentHTML("beforeend", await unpacked(text));
  };
  const shapesOf = (page) => document.getElementById(page.id.replace(/^d-/, "k-"));
  const drawPage = (page) => Promise.all([draw(shapesOf(page)), draw(page)]);

  const value = (row, at) => {
    const text = row.cells[at].dataset.sort ?? "";
    return text === "" || isNaN(text) ? text : Number(text);
  };
  const ordered = new Intl.Collator(undefined, { numeric: true });
  const compare = (a, b) => typeof a === "number" && typeof b === "number" ? a - b : ordered.compare(a, b);
  [...table.tHead.rows[0].cells].forEach((head, at) => {
    const button = document.createElement("button");
    button.type = "button";
    button.append(...head.childNodes);
    head.append(button);
    button.addEventListener("click", () => {
      const down = head.getAttribute("aria-sort") === "ascending";
      for (const other of table.tHead.rows[0].cells) other.removeAttribute("aria-sort");
      head.setAttribute("aria-sort", down ? "descending" : "ascending");
      const keys = new Map(order.map((row, place) => [row, [value(row, at), place]]));
      const by = (a, b) => (down ? compare(b[0], a[0]) : compare(a[0], b[0])) || a[1] - b[1];
      order.sort((a, b) => by(keys.get(a), keys.get(b)));
      search();
    });
  });

  // Numbers of inputs and outputs, however they are written: "4 to 4", 4-4, 4 → 4.
  const ENDS = /(\d{1,3})\s*(?:to|-+>?|=+>|[→⇒➔➜:x×‐–—])\s*(\d{1,3})/g;
  const endsIn = (text) => [...text.matchAll(ENDS)].map((it) => `${it[1]}-${it[2]}`);
  // How well a row has what is asked for: 3 by its ends or its own words, 1 by the books around it alone, 0 not at all.
  const fit = (row, asked) => {
    const { words, around, ends } = row.dataset;
    const ofEnds = (it) => it === ends ? 3 : endsIn(words).includes(it) ? 2 : endsIn(around).includes(it) ? 1 : 0;
    const ofWord = (it) => words.includes(it) ? 3 : around.includes(it) ? 1 : 0;
    return Math.min(3, ...asked.ends.map(ofEnds), ...asked.words.map(ofWord));
  };
  const filters = [["ends", "ends"], ["tiers", "tier"], ["verdicts", "verdict"]].map(([name, label]) => {
    const select = document.createElement("select"), found = new Set(
      order.flatMap((row) => (row.dataset[name] ?? "").split(" "))
    );
    select.append(new Option(`any ${label}`, ""));
    for (const it of [...found].filter(Boolean).sort((a, b) => compare(a, b))) {
      select.append(new Option(it.replace(/^(\d+)-(\d+)$/, "$1 → $2").replace(":", ": "), it));
    }
    select.setAttribute("aria-label", label);
    select.name = name;
    select.addEventListener("change", () => search());
    document.getElementById("filters").append(select);
    return select;
  });
  const search = () => {
    const text = words.value.toLowerCase();
    const asked = { ends: endsIn(text), words: text.replace(ENDS, " ").split(/\s+/).filter(Boolean) };
    const fits = new Map(rows.map((row) => [row, fit(row, asked)]));
    let count = 0;
    for (const row of rows) {
      const has = (it) => !it.value || (row.dataset[it.name] ?? "").split(" ").includes(it.value);
      row.hidden = !fits.get(row) || !filters.every(has);
      count += !row.hidden;
    }
    body.append(...[...order].sort((a, b) => fits.get(b) - fits.get(a)));
    left.textContent = count < rows.length ? `${count} of ${rows.length}` : "";
  };
  words.addEventListener("input", search);
  words.closest("p").hidden = false;

  const show = async () => {
    const page = document.getElementById(decodeURIComponent(location.hash.slice(1)));
    if (!page?.classList.contains("page")) {
      document.title = base;
      return;
    }
    await drawPage(page);
    document.title = `${page.querySelector("h2").textContent} – ${base}`;
    const shown = [...document.querySelectorAll("tr[data-page]")].filter((it) => !it.hidden);
    const all = [...new Set(shown.map((it) => it.dataset.page))], at = all.indexOf(page.id);
    const steps = [["previous", all[at - 1]], ["next", at < 0 ? undefined : all[at + 1]]].filter((it) => it[1]);
    page.querySelector("nav span").replaceChildren(...steps.map(([word, id]) => {
      const link = document.createElement("a");
      link.href = `#${id}`;
      link.textContent = word;
      return link;
    }));
    scrollTo(0, 0);
  };
  addEventListener("hashchange", show);
  const seen = new IntersectionObserver((them) => {
    for (const it of them) if (it.isIntersecting) draw(document.getElementById(it.target.dataset.of));
  }, { rootMargin: "300px" });
  for (const it of document.querySelectorAll(".thumb[data-of]")) seen.observe(it);

  const all = document.getElementById("every");
  all.hidden = false;
  all.addEventListener("click", async () => {
    await Promise.all([...document.querySelectorAll(".page")].map(drawPage));
    document.body.classList.add("every");
    print();
    document.body.classList.remove("every");
  });
  show();
})();
