/** The form of large files: the manifest, and the names in their folder (docs/FILES.md). */
import { fromText, hexOf, randomHex, t, toText } from "./common.js";

export const MANIFEST = ".room-file"; // the name of one
export const [WRITING, PIECES, GONE] = [".room-writing-", ".room-pieces-", ".room-gone-"];
const NEW = ".room-new-";
export const PIECE = 65_536; // bytes of each piece but the last
const MOST = 2 ** 24; // bytes of a file
const MOST_PIECES = 256;
export const DEEPEST = 14; // names of the path of a large file

export const sizeFault = bytes =>
  (bytes > MOST ? t.tooLarge(Math.ceil(bytes / 2 ** 20 * 10) / 10, MOST / 2 ** 20) : "");

export const sumOf = async bytes => hexOf(new Uint8Array(await crypto.subtle.digest("SHA-256", bytes)));
export const otherName = kind => kind + randomHex(8);

export const isLeft = name => name.startsWith(WRITING);

export const FIRST = "000"; // of a version's pieces
export const isOurPiece = ([name, kind]) => kind !== "folder" && /^[0-9]{3}$/.test(name); // as they are made here
export const isSpare = ([name, kind]) => kind === "folder" && /^\.room-gone-[0-9a-f]{16}$/.test(name);

export const isPart = name => /^\.room-(file|(writing|pieces|gone|new)-[0-9a-f]{16})$/.test(name);

export async function manifestOf(bytes) {
  const count = Math.max(Math.ceil(bytes.length / PIECE), 1);
  const pieces = Array.from({ length: count }, (_, at) => String(at).padStart(3, "0"));
  return { folder: otherName(PIECES), form: 1, pieces, sha256: await sumOf(bytes), size: bytes.length };
}

export const bytesOf = ({ folder, form, pieces, sha256, size }) =>
  fromText(JSON.stringify({ folder, form, pieces, sha256, size }));

const MOST_TEXT = 20_000; // bytes of a manifest; the longest has some 17,000
const isText = (it, form) => typeof it === "string" && form.test(it);
const PIECE_NAME = /^(?!\.{1,2}$)[A-Za-z0-9._-]{1,64}$/;
const MEMBERS = {
  folder: it => isText(it, /^\.room-pieces-[0-9a-f]{16}$/),
  form: it => it === 1,
  pieces: it => Array.isArray(it) && it.length <= MOST_PIECES && it.every(name => isText(name, PIECE_NAME)) &&
    new Set(it).size === it.length,
  sha256: it => isText(it, /^[0-9a-f]{64}$/),
  size: (it, { length }) => Number.isInteger(it) && it >= PIECE * (length - 1) && it <= PIECE * length,
};

export function readManifest(bytes) {
  if (bytes.length > MOST_TEXT) return null;
  try {
    const text = toText(bytes);
    const found = JSON.parse(text);
    const isWhole = Object.keys(found).sort().join() === Object.keys(MEMBERS).join() &&
      Object.entries(MEMBERS).every(([name, fits]) => fits(found[name], found.pieces));
    // (a member that stands twice, or a number or a letter in another way, makes it longer)
    return isWhole && text.replace(/[ \t\r\n]/g, "").length === JSON.stringify(found).length ? found : null;
  } catch {
    return null;
  }
}

const PART_NAME = /^\.room-(writing|pieces|gone)-[0-9a-f]{16}$/;
const areParts = names => names.every(([name, kind]) => kind === "folder" && PART_NAME.test(name));

export const isUnfinished = names => names.length > 0 && areParts(names);

/** (A manifest that somebody puts into another folder hides nothing there.) */
export const isLarge = names => names.some(([name, kind]) => name === MANIFEST && kind !== "folder") &&
  areParts(names.filter(([name]) => name !== MANIFEST));

export async function beside(name) {
  const mark = (await sumOf(fromText(name))).slice(0, 16);
  return { gone: GONE + mark, its: NEW + mark };
}
