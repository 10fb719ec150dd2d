/** Files are read, a large one as a folder with pieces (docs/FILES.md); and whole folders. */
import { ACCESS, FILE, FOLDER, ISDIR, LARGE, NOENT, NOTDIR, UNFINISHED, Refusal, forEach, fromBase64, inFolder,
  isRefused, orElse, orFault, ownList, shown, t, toBase64 } from "./common.js";
import * as form from "./manifest.js";

const TRIES = 5; // of a reader that meets one new version after another

export const NOBODY = { add() {}, check() {}, note() {}, fail() {}, tell() {}, overtaken: () => null,
  behind: () => ({ ...NOBODY }) };

export const whileSo = isSo => ({ ...NOBODY, check: () => {
  if (!isSo()) throw new Error(t.stopped);
} });

export const bytesAt = async (room, path, more) => fromBase64((await room.aside("READ", path, more)).data);
export const manifestBytes = (room, path) =>
  orElse(bytesAt(room, inFolder(path, form.MANIFEST)), null, NOENT, ISDIR, NOTDIR);

export async function manifestAt(room, path) {
  const bytes = await manifestBytes(room, path);
  return bytes && form.readManifest(bytes);
}

/** Whether it has no list of its own, and the file's owner and group, as far as one may look. (One that is gone was
 * moved or removed meanwhile.) */
export async function manifestFollows(room, path) {
  const look = (cmd, at) => room.session.askAside({ cmd, path: at });
  const [whole, list, its, itsList] = await Promise.all([path, inFolder(path, form.MANIFEST)].flatMap(at =>
    ["STAT", "GETLIST"].map(cmd => look(cmd, at))));
  if ([NOENT, NOTDIR].includes(its.code)) return true;
  const isOwners = whole.code || !its.code && its.owner === whole.owner && its.group === whole.group;
  return Boolean(isOwners && (list.code || !itsList.code && !ownList(itsList)));
}

export const isSame = (one, other) =>
  (one === null || other === null ? one === other : toBase64(one) === toBase64(other));

export async function readFile(room, path, transfer = NOBODY) {
  const small = await orElse(bytesAt(room, path, { keep: false }), null, ISDIR);
  if (small) transfer.add(small.length);
  return small ?? readLarge(room, path, transfer);
}

async function readLarge(room, path, transfer) {
  let text = await manifestBytes(room, path);
  for (let times = 0; times < TRIES && text; times += 1) {
    const bytes = await wholeOf(room, path, form.readManifest(text), transfer);
    if (bytes) {
      const isHeard = transfer.fail !== NOBODY.fail;
      if (isHeard && !await manifestFollows(room, path)) transfer.fail(t.prepared(shown(path)));
      return bytes;
    }
    const before = text;
    text = await manifestBytes(room, path);
    if (isSame(before, text)) throw new Error(t.damaged(shown(path)));
  }
  throw new Error(t.notWhole(shown(path)));
}

async function wholeOf(room, path, its, transfer) {
  if (!its) return null;
  const [bytes, ends] = [new Uint8Array(its.size), []];
  try {
    await forEach([...its.pieces.keys()], async at => {
      transfer.check();
      const piece = await bytesAt(room, inFolder(path, its.folder, its.pieces[at]), { keep: false });
      bytes.set(piece, at * form.PIECE); // (throws where it does not fit)
      ends[at] = piece.length;
      transfer.add(piece.length);
    }, room.width);
  } catch (fault) {
    if (isRefused(fault, NOENT, ISDIR, NOTDIR) || fault instanceof RangeError) return null;
    throw fault;
  }
  return ends.reduce((sum, it) => sum + it, 0) === its.size && await form.sumOf(bytes) === its.sha256 ? bytes : null;
}

export async function isWhole(room, path, its, transfer) {
  let count = 0;
  const add = more => {
    count += more;
    transfer.add(more);
  };
  const found = await orFault(wholeOf(room, path, its, { add, check: () => transfer.check() }));
  const isThere = found !== null && !(found instanceof Refusal);
  if (!isThere) transfer.add(-count);
  return isThere;
}

export const kindBy = names => (form.isLarge(names) ? LARGE : form.isUnfinished(names) ? UNFINISHED : FOLDER);

/** Its kind to people; its names, or null where one may not see them; a large file's manifest. */
export async function lookInto(room, path) {
  const names = await room.names(path);
  const kind = names ? kindBy(names) : FOLDER;
  if (kind !== LARGE) return { kind, names };
  const its = await orElse(manifestAt(room, path), undefined, ACCESS);
  return { kind: its === null ? FOLDER : LARGE, names, its };
}

export async function standingAt(room, path) {
  const its = await room.standing(path);
  const isLarge = its.kind === FOLDER && (await lookInto(room, path)).kind === LARGE;
  return isLarge ? { ...its, kind: LARGE } : its;
}

/** Calls `met` with each thing below a folder, a large file as a file; one may not look into what `isShut`. It goes not
 * into what `met` gives false for. `walked` is told how many of the known folders it has seen. */
export async function walk(room, path, met, transfer) {
  let [level, done, before] = [[path], 0, 0];
  while (level.length) {
    const next = [];
    await forEach(level, async folder => {
      transfer.check();
      const { kind: found, names } = await lookInto(room, folder);
      transfer.walked?.(done += 1, before + level.length + next.length);
      const [kind, isShut] = [found === LARGE ? FILE : found, !names];
      const isMet = folder !== path || kind !== FOLDER || isShut;
      const goesOn = !isMet || await met({ path: folder, kind, isShut });
      if (kind !== FOLDER || isShut || goesOn === false) return;
      for (const [name, its] of names) {
        if (its !== FOLDER) await met({ path: inFolder(folder, name), kind: FILE });
        else if (!form.isPart(name)) next.push(inFolder(folder, name));
      }
    });
    before += level.length;
    level = next;
  }
}

export async function whole(room, path, transfer) {
  if ((await room.standing(path)).kind === FILE) return [{ path, kind: FILE }];
  const found = [];
  await walk(room, path, it => found.push(it), transfer);
  return found[0]?.path === path ? found : [{ path, kind: FOLDER }, ...found];
}
