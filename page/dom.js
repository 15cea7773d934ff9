// Elements of the page. Text is put in as text alone, so that what a design is called can't be markup.

const $ = (id) => document.getElementById(id);

/** An element with these members, and with texts and elements in it. */
const make = (name, members = {}, ...content) => {
  const element = document.createElement(name);
  for (const [key, value] of Object.entries(members)) {
    if (value === null || value === undefined || value === false) continue;
    if (key.startsWith("on")) element.addEventListener(key.slice(2), value);
    else if (key === "class") element.className = value;
    else element.setAttribute(key, value === true ? "" : value);
  }
  element.append(...content.flat().filter((it) => it !== null && it !== undefined && it !== ""));
  return element;
};

/** The name of the space of SVG's elements. */
const SVG = (() => {
  const holder = document.createElement("template");
  holder.innerHTML = "<svg></svg>";
  return holder.content.firstChild.namespaceURI;
})();

/** The elements of a picture as those of SVG. */
const svgOf = (elements) =>
  elements.map(([name, members, content]) => {
    const element = document.createElementNS(SVG, name);
    for (const [key, value] of Object.entries(members)) element.setAttribute(key, value);
    element.append(...(typeof content === "string" ? [content] : svgOf(content)));
    return element;
  });

/** A text that others wrote. */
const told = (text) => make("bdi", {}, plain(text));

/** Saves bytes, or parts of them in a list, under a name. */
const save = (bytes, name) => saveBlob(
  new Blob(Array.isArray(bytes) ? bytes : [bytes], { type: "application/octet-stream" }), name
);

const saveBlob = (blob, name) => {
  if (!blob) return;
  const address = URL.createObjectURL(blob);
  const link = make("a", { href: address, download: name });
  document.body.append(link);
  link.click();
  link.remove();
  setTimeout(() => URL.revokeObjectURL(address), 60000);
};

/** Puts a text on the clipboard, and says so on the button that asked for it. */
const copy = async (text, button) => {
  const before = button.textContent;
  try {
    await navigator.clipboard.writeText(text);
    button.textContent = "Copied";
  } catch {
    const area = make("textarea", { class: "hidden" });
    area.value = text;
    document.body.append(area);
    area.select();
    button.textContent = document.execCommand("copy") ? "Copied" : "Copying isn't allowed here";
    area.remove();
    button.focus();
  }
  setTimeout(() => (button.textContent = before), 1500);
};
