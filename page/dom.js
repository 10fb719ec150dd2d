/** Elements of the page. Whatever comes from the room is put in as text, never as markup. */
import { FOLDER } from "./lists.js";
import { partsOf } from "./names.js";

export const part = id => document.getElementById(id);

/** An element, `tag.class`, with properties or attributes and children, also in lists; null is nothing. */
export function make(name, ...rest) {
  const [tag, ...classes] = name.split(".");
  const how = rest[0]?.constructor === Object ? rest.shift() : {};
  const it = document.createElement(tag);
  if (classes.length) it.className = classes.join(" ");
  for (const [key, value] of Object.entries(how).filter(([, its]) => its !== undefined && its !== null)) {
    if (key in it && key !== "list") it[key] = value;
    else it.setAttribute(key, value);
  }
  it.append(...rest.flat(Infinity).filter(child => ![null, undefined, false].includes(child)));
  return it;
}

export const button = (words, onclick, how = {}) =>
  make("button", { type: "button", onclick, ...typeof how === "string" ? { className: how } : how }, words);

export const link = (href, words, how = {}) => make("a", { href, ...how }, words);

export const wholeLink = address => new URL(address, location.href.split("#")[0]).href;
export const letterLink = (words, about, text, address) => link(`mailto:?subject=${encodeURIComponent(about)}&body=${
  encodeURIComponent([text, wholeLink(address)].filter(Boolean).join("\n\n"))}`, words);

export const faultLine = (...words) => make("p.fault", ...words);
export const listOf = all => make("ul", all.map(it => make("li", it)));
export const onSubmit = task => event => {
  event.preventDefault();
  task(event);
};

/** A name, apart from the direction of the text around it, with marks for what could not be seen. */
export function nameText(name) {
  const it = make("bdi", partsOf(name).map(({ text, isMark }) => (isMark ? make("span.mark", text) : text)));
  it.normalize();
  return it;
}

let ids = 0;

export function labelled(words, field) {
  field.id ||= `field-${ids += 1}`;
  return make("p.field", make("label", { htmlFor: field.id }, words), field);
}

export function checkbox(words, checked, changed) {
  const box = make("input", { type: "checkbox", checked, onchange: () => changed?.(box.checked) });
  return make("label.choice", box, ` ${words}`);
}

export function select(choices, now, changed, how = {}) {
  const it = make("select", how, choices.map(([value, word]) => make("option", { value }, word)));
  it.value = now;
  it.onchange = () => changed(it.value);
  return it;
}

/** A field for files of the user's disk: `chosen` gets them, each `{names, file}`. */
export function pickFiles(words, { isFolder = false, isOne = false }, chosen) {
  const field = make("input", { type: "file", multiple: !isOne, hidden: true, ariaLabel: words });
  field.webkitdirectory = isFolder;
  field.onclick = event => event.stopPropagation();
  field.onchange = () => {
    const files = [...field.files].map(file => ({ names: (file.webkitRelativePath || file.name).split("/"), file }));
    field.value = ""; // (so that the same file can be chosen again)
    chosen(files);
  };
  return field;
}

const seen = new Map(); // how far each place was scrolled when it was left
const wordsOf = it => it.title || it.ariaLabel || it.textContent;
const within = () => [...part("main").querySelectorAll("a, button, input, select, summary")]
  .filter(it => it.checkVisibility());

function focused() {
  const it = document.activeElement;
  if (!part("main").contains(it)) return null;
  const words = wordsOf(it);
  const count = within().filter(other => wordsOf(other) === words).indexOf(it);
  return { words, count, row: it.closest("tr")?.rowIndex, within: it.closest("th") ? "th a" : "td button" };
}

export const heading = () => part("main").querySelector("h1 button, h1[tabindex]");

/** Gives what leads back to here, or to the row of `path`, once the page is drawn anew. */
export function standing(path = null) {
  const [from, top] = [focused(), scrollY];
  return () => {
    const rows = [...part("main").querySelector("table")?.rows ?? []];
    const its = path && rows.find(it => it.row?.path === path)?.row.link;
    const same = its || from && within().filter(it => wordsOf(it) === from.words)[from.count];
    const row = from?.row === undefined ? null : rows[Math.min(from.row, rows.length - 1)];
    (same ?? row?.querySelector(from.within) ?? heading())?.focus({ preventScroll: true });
    scrollTo({ top, behavior: "instant" });
    if (its) its.scrollIntoView({ block: "nearest" });
  };
}

export const leave = address => seen.set(address, scrollY);

function showFocus({ currentTarget: it }) {
  it.blur();
  it.focus({ preventScroll: true, focusVisible: true });
}

export function arrive(address) {
  const isLoaded = seen.size === 0; // (then nobody has used the keys yet)
  const first = !isLoaded && part("main").querySelector("[role=combobox]") || heading();
  first?.focus({ preventScroll: true, focusVisible: isLoaded ? false : undefined });
  if (isLoaded) first?.addEventListener("keydown", showFocus, { once: true });
  scrollTo({ top: seen.get(address) ?? 0, behavior: "instant" });
}

const SHEET = "M6 3h8l4 4v14H6zM14 3v4h4";
const SHAPES = {
  folder: "M3 6h6l2 2h10v11H3z",
  locked: "M6 11h12v9H6zM8 11V8a4 4 0 0 1 8 0v3",
  text: `${SHEET}M9 12h6M9 16h6`,
  writing: `${SHEET}M9 12h6M9 16h6`,
  picture: "M3 5h18v14H3zM3 16l5-5 4 4 3-3 6 6M16 9h.01",
  pdf: `${SHEET}M9 18v-6h2a1.7 1.7 0 0 1 0 3.4H9`,
  table: "M3 5h18v14H3zM3 10h18M3 15h18M9 5v14",
  slides: "M3 4h18v12H3zM12 16v4M8 20h8",
  archive: "M5 3h14v18H5zM12 3v2M12 7v2M12 11v2M10 15h4v3h-4z",
  media: "M6 4l13 8-13 8z",
  file: SHEET,
  room: "M4 11l8-7 8 7v9H4zM10 20v-6h4v6",
  trash: "M4 7h16M9 7V4h6v3M6 7l1 13h10l1-13M10 11v5M14 11v5",
  shared: "M9 11a4 4 0 1 0 0-8 4 4 0 0 0 0 8zM2 20a7 7 0 0 1 14 0M16 8h6M19 5v6",
  recent: "M12 21a9 9 0 1 0 0-18 9 9 0 0 0 0 18zM12 7v5l3 2",
};

const ENDINGS = {
  text: "txt md log json xml html css js ics", picture: "png jpg jpeg gif webp svg bmp heic", pdf: "pdf",
  table: "xls xlsx ods csv", writing: "doc docx odt rtf pages", slides: "ppt pptx odp key",
  archive: "zip gz tar 7z rar", media: "mp3 mp4 mov wav ogg avi m4a webm mkv",
};

const KINDS = new Map(Object.entries(ENDINGS).flatMap(([kind, all]) => all.split(" ").map(it => [it, kind])));

export function kindByName(name, kind) {
  if (kind === FOLDER) return "folder";
  const at = name.lastIndexOf(".");
  return at < 0 ? "text" : KINDS.get(name.slice(at + 1).toLowerCase()) ?? "file";
}

/** Whether no browser shows what has that name: a click gives it to the user's disk. */
export const isForDisk = name => ["writing", "slides", "archive", "media", "table"].includes(kindByName(name)) &&
  !/\.csv$/i.test(name);

function drawn(tag, how) {
  const it = document.createElementNS("http://www.w3.org/2000/svg", tag);
  for (const [name, value] of Object.entries(how)) it.setAttribute(name, value);
  return it;
}

export function icon(kind) {
  const it = drawn("svg", { viewBox: "0 0 24 24", class: `icon ${kind}`, "aria-hidden": "true" });
  it.append(drawn("path", { d: SHAPES[kind] }));
  return it;
}
