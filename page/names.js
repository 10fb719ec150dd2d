/** Names as they are shown and sent; users' names; paths of the room, and addresses of the page. */
import { fromText } from "./bytes.js";
import { toldAt } from "./wire.js";
import { language, t } from "./words.js";

/** A pictograph with what belongs to it; what nobody would see, or turns the text around it; the rest. */
const PARTS = new RegExp(
  "(\\p{Extended_Pictographic}(?:\\ufe0f|\\p{Emoji_Modifier})?" +
  "(?:\\u200d\\p{Extended_Pictographic}(?:\\ufe0f|\\p{Emoji_Modifier})?)*)" +
  "|([\\p{C}\\p{Zl}\\p{Zp}\\p{Default_Ignorable_Code_Point}\\u2800]|(?! )\\p{Zs}|^ | (?= *$)|(?<= ) )|[^]", "gu");

const markOf = letter =>
  letter === " " ? `⟨${t.blank}⟩` : `⟨U+${letter.codePointAt(0).toString(16).toUpperCase().padStart(4, "0")}⟩`;

export function partsOf(name) {
  const parts = [...name.matchAll(PARTS)].map(([text, , hidden]) =>
    hidden ? { text: markOf(hidden), isMark: true } : { text, isMark: false });
  return name === name.normalize("NFC") ? parts : [...parts, { text: `⟨${t.notComposed}⟩`, isMark: true }];
}

export const shown = name => partsOf(name).map(it => it.text).join("");

/** What is in no name of some system: letters, an empty one, . and .., a . at the end, devices of Windows. */
const NO_NAME = /[\\:*?"<>|]|^\.{0,2}$|\.$|(?<=^(?:con|prn|aux|nul|com[0-9]|lpt[0-9]))(?=\.|$)/gi;

export const forDisk = name => partsOf(name).map(it => (it.isMark ? "_" : it.text)).join("").replace(NO_NAME, "_");

/** As it is sent: one way to write each letter, and no blanks at the ends. */
export const clean = name => name.normalize("NFC").trim();
const { compare } = new Intl.Collator(language, { numeric: true });
export const inOrder = (one, other) => compare(one, other) || (one < other ? -1 : 1);
export const byName = ([one], [other]) => inOrder(one, other);
let people = {}; // their names as people write them, by login

export const learnNames = async () => { people = await toldAt("/names.json", {}); };
export const displayName = user => (Object.hasOwn(people, user) ? people[user] : "");

export function usersBy(text, users) {
  if (users.includes(text)) return [text];
  const isIt = one => one.toLowerCase() === text.toLowerCase();
  return users.filter(it => [it, displayName(it), personText(it)].some(isIt));
}

export const personText = user => (displayName(user) ? `${displayName(user)} (${user})` : user);

export const ownedWords = stat => (stat?.owner ? t.owned(personText(stat.owner), stat.group) : "");

const MAX_NAME_BYTES = 64;
export const MAX_NAMES = 16;
export const MOST_THINGS = 256; // in a folder
export const ROOT = "/";
export const namesOf = path => path.split("/").filter(Boolean);
export const pathOf = names => `/${names.join("/")}`;
export const inFolder = (folder, ...names) => pathOf([...namesOf(folder), ...names]);
export const folderOf = path => pathOf(namesOf(path).slice(0, -1));
export const lastName = path => namesOf(path).at(-1) ?? ROOT;

export const calledIn = (room, path) => (path === ROOT ? room ?? path : path);
export const nameIn = (room, path) => (path === ROOT ? room : lastName(path));
export const isWithin = (path, folder) => path === folder || path.startsWith(inFolder(folder, ""));

export function foldersAbove(path) {
  const names = namesOf(path);
  return names.map((_, count) => pathOf(names.slice(0, count)));
}

export const isTooLong = name => fromText(name).length > MAX_NAME_BYTES;

export function nameFault(name) {
  if (name === "" || name === "." || name === "..") return t.nameWanted;
  if (/[/\u0000-\u001f\u007f]/.test(name)) return t.nameLetters;
  return isTooLong(name) ? t.tooLong(fromText(name).length, MAX_NAME_BYTES) : "";
}

export function pathFault(path) {
  const names = path.split("/").slice(1);
  return names.length > MAX_NAMES ? t.pathLong(MAX_NAMES) : names.map(nameFault).find(Boolean) ?? "";
}

/** `word` is what a search looks for, `isHere` in this folder alone. */
export const addressOf = ({ view = "open", room, path, word, isHere }) =>
  `#${[view, room, ...namesOf(path)].map(encodeURIComponent).join("/")}` +
  (view === "find" && (word || isHere) ? `?${isHere ? "in" : "all"}=${encodeURIComponent(word ?? "")}` : "");

export function placeOf(address) {
  try {
    const [way, asked = ""] = address.replace(/^#/, "").split("?");
    const [view, room, ...names] = way.split("/").map(decodeURIComponent);
    const [how, word] = asked.split("=").map(decodeURIComponent);
    const isPath = !names.length || pathFault(pathOf(names)) === "";
    const search = view === "find" ? { word: word ?? "", isHere: how === "in" } : {};
    return room && isPath ? { view, room, path: pathOf(names), ...search } : null;
  } catch {
    return null;
  }
}

/** As much of it as a name may have: a mark in front of its ending, more behind. */
export function shortened(name, mark = "", more = "") {
  const dot = name.lastIndexOf(".");
  const [stem, ending] = dot > 0 && name.length - dot < 12 ? [name.slice(0, dot), name.slice(dot)] : [name, ""];
  const letters = [...stem];
  const whole = () => `${letters.join("").trim()}${mark}${ending}${more}`;
  while (letters.length > 1 && isTooLong(whole())) letters.pop();
  return whole();
}

export const besideIt = (path, words) => inFolder(folderOf(path), shortened(lastName(path), ` (${words})`));

export function numbered(path, fits) {
  for (let count = 2; ; count += 1) if (fits(besideIt(path, count))) return besideIt(path, count);
}
