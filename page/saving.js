// What is saved of many designs: a table, and archives of certificates and of pictures.

const CRC_TABLE = Uint32Array.from({ length: 256 }, (_, number) => {
  let rest = number;
  for (let bit = 0; bit < 8; bit += 1) rest = rest & 1 ? 0xedb88320 ^ (rest >>> 1) : rest >>> 1;
  return rest;
});

/** The checksum of an archive. */
const crcOf = (bytes) => {
  let rest = 0xffffffff;
  for (const byte of bytes) rest = CRC_TABLE[(rest ^ byte) & 0xff] ^ (rest >>> 8);
  return (rest ^ 0xffffffff) >>> 0;
};

/** Bytes as an archive keeps them: deflated, with their checksum and their length. */
const packedOf = async (bytes) => {
  const packed = await through(bytes, new CompressionStream("deflate-raw"), () => {});
  return { crc: crcOf(bytes), length: bytes.length, packed };
};

/** The bytes that were packed so. */
const unpackedOf = ({ packed }) => through(packed, new DecompressionStream("deflate-raw"), () => {});

/** A number in so many bytes, the least first. */
const little = (number, count) => Uint8Array.from({ length: count }, (_, at) => Math.floor(number / 256 ** at) % 256);

/** The first day that an archive can tell: what is saved twice is the same. */
const FIRST_DAY = [0, 0, 0x21, 0];

/** Names are in UTF-8, and what stands under them is deflated. */
const [UTF8, DEFLATED, VERSION] = [0x800, 8, 20];
const MOST_FILES = 65535;
const MOST_ARCHIVED = 2 ** 32 - 1;

/** An archive of these files, each with its name and what is packed of it, in parts. */
const zipOf = (files) => {
  if (files.length > MOST_FILES) throw new RangeError(`an archive has at most ${MOST_FILES} files`);
  const [parts, entries] = [[], []];
  let at = 0;
  for (const [name, { crc, length, packed }] of files) {
    const bytes = encoder.encode(name);
    const told = [
      little(VERSION, 2),
      little(UTF8, 2),
      little(DEFLATED, 2),
      FIRST_DAY,
      little(crc, 4),
      little(packed.length, 4),
      little(length, 4),
      little(bytes.length, 2),
      little(0, 2),
    ];
    const head = glued([[0x50, 0x4b, 3, 4], ...told, bytes]);
    entries.push(glued([[0x50, 0x4b, 1, 2], little(VERSION, 2), ...told, new Uint8Array(10), little(at, 4), bytes]));
    parts.push(head, packed);
    at += head.length + packed.length;
  }
  const list = glued(entries);
  if (at + list.length > MOST_ARCHIVED) throw new RangeError("an archive has at most 4 GB");
  const end = [
    [0x50, 0x4b, 5, 6],
    new Uint8Array(4),
    little(files.length, 2),
    little(files.length, 2),
    little(list.length, 4),
    little(at, 4),
    new Uint8Array(2),
  ];
  return [...parts, list, glued(end)];
};

/** How a text begins that a spreadsheet takes for a formula, as its widest form too, what may stand before that, and so
    many signs are looked at for where it begins. */
const [FORMULAS, QUOTES, MOST_BEFORE] = [new Set("=+-@"), new Set("\"'` \u00a0\u3000"), 40];

/** A cell of a table in text: what a spreadsheet would take for a formula has a mark in front that makes it none. */
const cellText = (word) => {
  const text = plain(String(word ?? ""));
  const front = [...[...text.slice(0, 2 * MOST_BEFORE)].slice(0, MOST_BEFORE).join("").normalize("NFKC")];
  const begin = front.find((it) => !QUOTES.has(it));
  return (FORMULAS.has(begin) && text !== "-") || text[0] === '"' ? `'${text}` : text;
};

const tableText = (lines) => lines.map((line) => `${line.map(cellText).join("\t")}\n`).join("");

/** A digest as the report writes it, or nothing where the browser makes none. */
const digestOf = async (bytes) => {
  if (!globalThis.crypto?.subtle) return "";
  return [...new Uint8Array(await crypto.subtle.digest("SHA-256", bytes))].map(
    (it) => it.toString(16).padStart(2, "0")
  ).join("");
};

/** A picture as a file: its colours and rules stand in it, and behind it the ground on which it was drawn; in the
    colours of a theme, or of that of who looks at it. It is put together as a text, since the page's policy lets no
    style in but its own. */
const pictureText = (drawing, theme = null) => {
  const svg = drawing.svg.cloneNode(true);
  const [x, y, width, height] = svg.getAttribute("viewBox").split(" ").map(Number);
  for (const name of ["style", "role", "aria-label"]) svg.removeAttribute(name);
  svg.setAttribute("width", width * 2);
  svg.setAttribute("height", height * 2);
  const rules = $("drawn").textContent;
  const [light, dark] = [...rules.matchAll(/:root\{[^}]*\}/g)].map((it) => it[0]);
  const colours = theme === "light" ? light : theme === "dark" ? light + dark
    : `${light}@media (prefers-color-scheme:dark){${dark}}`;
  const rest = rules.slice(rules.indexOf(".body{"));
  const text = new XMLSerializer().serializeToString(svg);
  const at = text.indexOf(">") + 1;
  const style = `<style>${colours}${rest}.ground{fill:var(--card)}</style>`;
  const ground = `<rect class="ground" x="${x}" y="${y}" width="${width}" height="${height}"/>`;
  return text.slice(0, at) + style + ground + text.slice(at);
};

/** How many pixels a side of a saved picture has at most. */
const MOST_SIDE = 8192;

/** The same as PNG, in the colours that the page has now. */
const pictureImage = (drawing) =>
  new Promise((resolve) => {
    const text = pictureText(drawing, matchMedia("(prefers-color-scheme: dark)").matches ? "dark" : "light");
    const image = new Image();
    image.addEventListener("load", () => {
      const scale = Math.min(1, MOST_SIDE / Math.max(image.width, image.height));
      const canvas = make(
        "canvas", { width: Math.round(image.width * scale), height: Math.round(image.height * scale) }
      );
      canvas.getContext("2d").drawImage(image, 0, 0, canvas.width, canvas.height);
      canvas.toBlob(resolve, "image/png");
    });
    image.addEventListener("error", () => resolve(null));
    image.src = `data:image/svg+xml;base64,${toBase64(encoder.encode(text))}`;
  });

/** Of each property the word by which the field knows it, and by which it is searched. */
const COLUMNS = [
  "design place source property verdict why steps processor_seconds clock_seconds accepted file design_digest",
  "program_digest known_as ends bare opened remarks same_network_as universal",
].join(" ").split(" ");

/** The names of a design's files in an archive: its folder, by its number and its name. */
const folderOf = (row) => `designs/${String(row.number).padStart(4, "0")}-${slug(row.found.name)}`;

/** How an answer is called in the table. */
const WORDS_OF = {
  "decide 0": "yes",
  "decide 1": "no",
  "decide 4": "spent",
  "decide 5": "wide",
  "decide 10": "pivots",
  "decide late": "late",
  "decide stopped": "open",
  "decide fault": "failed",
  "decide 3": "refused",
};

const verdictWord = (judged, property) => {
  if (judged?.isOpen) return "halves";
  const answer = judged?.answers.get(property);
  if (!answer) return "open";
  if (answer.halves) return "halves";
  if (answer.check && answer.check.status !== answer.status) return "unaccepted";
  return WORDS_OF[answerOf(answer)] ?? "failed";
};

/** The file of an answer in a design's folder, or nothing. */
const fileOf = (judged, property) => {
  if (!judged?.answers.get(property)?.kept) return "";
  const word = verdictWord(judged, property);
  return word === "yes" ? `yes-${property}.txt` : word === "no" ? `not-${property}.txt` : "";
};

/** A design's name in the table: with those of the books around it. */
const wholeName = ({ found }) => [...found.books, found.name].join("/");

/** A design's lines of the table. */
const linesOfRow = (row, program, digest) => {
  const { judged, found } = row;
  const start = [wholeName(row), found.place, "page"];
  const net = judged?.net;
  const of = judged?.reading ? [
    net ? `${net.inputs} to ${net.outputs}` : "",
    spelled(judged.network ? judged.bare : []),
    spelled(judged.reading.opened),
    row.remarks().join("; "),
    row.kin.length ? wholeName(row.kin[0]) : "",
    judged.universal?.kind ?? "",
  ] : ["", "", "", "", "", ""];
  if (!net) {
    const verdict = found.trouble || row.trouble ? "failed" : judged?.isRead ? "refused" : "unread";
    return [[...start, "-", verdict, row.reason() || "not read yet", 0, 0, 0, "", "", digest, program, "", ...of]];
  }
  return PROPERTIES.map((property) => {
    const answer = judged.answers.get(property);
    const [word, file] = [verdictWord(judged, property), fileOf(judged, property)];
    const why = file || !answer ? "" : judged.verdict(property).says;
    const isAccepted = file ? (answer.check ? "yes" : "") : "";
    const took = answer ? answer.seconds.toFixed(3) : 0;
    return [
      ...start,
      property,
      word,
      why,
      word === "yes" ? answer.steps : 0,
      0,
      took,
      isAccepted,
      file ? `${folderOf(row)}/${file}` : "",
      digest,
      program,
      FIELD[property].known,
      ...of
    ];
  });
};

/** The whole table. */
const tableOf = async (rows, program) => {
  const lines = [];
  new Networks().tell(rows.filter((it) => !it.group));
  for (const row of rows) lines.push(
    ...linesOfRow(row, program, row.found.bytes ? await digestOf(row.judged?.bytes ?? row.found.bytes) : "")
  );
  return tableText([COLUMNS, ...lines]);
};

/** The files of one way of reading a design. */
const filesOf = async (judged, folder) => {
  const files = [[`${folder}/${isJson(judged.bytes) ? "design.json" : "design.net"}`, await packedOf(judged.bytes)]];
  if (judged.network) files.push([`${folder}/network.net`, await packedOf(encoder.encode(judged.network))]);
  for (const property of PROPERTIES) {
    const file = fileOf(judged, property);
    if (file) files.push([`${folder}/${file}`, judged.answers.get(property).kept]);
  }
  for (const [at, it] of judged.choices.entries()) files.push(...(await filesOf(it, `${folder}/choice-${at + 1}`)));
  return files;
};

/** The files of an archive of what was shown: the table, and of each design its text, its network, and each
    certificate. */
const certificatesOf = async (rows, program) => {
  const files = [["results.tsv", await packedOf(encoder.encode(await tableOf(rows, program)))]];
  for (const row of rows) if (row.judged?.isRead) files.push(...(await filesOf(row.judged, folderOf(row))));
  return files;
};
