/** The parts of a large file (docs/FILES.md). Only what uploads made is removed. What is left for later goes on behind
 * an answer, until the file is saved or removed. */
import { EXIST, FOLDER, ISDIR, NOENT, NOTDIR, GaveUp, Refusal, folderOf, forEach, fromBase64, fromText, inFolder,
  isRefused, isWithin, lastName, once, orElse, orFault, ownList, part, passersRead, shown, t } from "./common.js";
import * as form from "./manifest.js";
import { manifestFollows } from "./reading.js";

const MOST = 2; // of a room at once: each holds the bytes of its file, and one of four slots
const MOST_KEPT = 50; // bytes of a name that a mark follows
const all = new WeakMap(); // by the session, what goes on, by its path
const goingOn = room => once(all, room.session, () => new Map());
let count = 0;

class Ended extends Error {}

const tally = more => {
  count += more;
  part("main").dataset.behind = count; // (for tests)
};

/** `transfer` tells faults as the task ends; its `check` throws where somebody took over. */
export function goOnBehind(room, path, transfer, task) {
  const it = { isOver: false };
  const check = () => {
    if (it.isOver) throw new Ended();
  };
  tally(1);
  Object.assign(transfer, { check });
  it.done = task().catch(fault => {
    if (!(fault instanceof Ended || fault instanceof GaveUp)) transfer.fail(fault.message);
  }).then(() => {
    goingOn(room).delete(path);
    tally(-1);
    transfer.tell();
  });
  goingOn(room).set(path, it);
}

export async function takeOver(room, path) {
  const its = [...goingOn(room)].filter(([at]) => isWithin(at, path)).map(([, it]) => it);
  for (const it of its) it.isOver = true;
  await Promise.all(its.map(it => it.done));
}

export async function takeTurn(room) {
  while (goingOn(room).size >= MOST) await Promise.race([...goingOn(room).values()].map(it => it.done));
}

const isFolder = async (room, path) => (await room.aside("STAT", path)).kind === FOLDER;

// Each gives what is at a path, in the order in which it can go, or null if that is of another form.

const documentAt = async (room, path) => (await isFolder(room, path) ? null : [[path]]);

const namesIn = async (room, path) => (await isFolder(room, path) ? room.list(path) : null);

async function piecesIn(room, path) {
  const names = await namesIn(room, path);
  return names?.every(form.isOurPiece) ? [names.map(([name]) => inFolder(path, name)), [path]] : null;
}

export async function fileAt(room, path) {
  const names = await namesIn(room, path);
  if (!names || names.length && !form.isLarge(names) && !form.isUnfinished(names)) return null;
  const paths = isManifest => names.filter(([name]) => (name === form.MANIFEST) === isManifest)
    .map(([name]) => inFolder(path, name));
  const parts = await Promise.all(paths(false).map(it => piecesIn(room, it)));
  return parts.includes(null) ? null : [paths(true), parts.flatMap(([pieces]) => pieces), paths(false), [path]];
}

async function unfinishedAt(room, path) {
  const found = await fileAt(room, path);
  return found?.[0].length ? null : found;
}

const removed = (room, path) => orElse(room.step("REMOVE", path), null, NOENT);

/** Takes what an upload made away in one request, and then removes it. What is no such thing is told and left; what
 * `isNeeded` then has its name again. */
export async function clear(room, at, name, transfer, looks = piecesIn, isNeeded = async () => false) {
  const path = inFolder(at, name);
  const gone = name.startsWith(form.GONE) ? path : inFolder(at, form.otherName(form.GONE));
  try {
    const found = await looks(room, path);
    if (!found) return void transfer.fail(t.noPart(shown(path)));
    if (gone !== path) await room.rename(path, gone);
    if (await isNeeded(name) && await orElse(room.rename(gone, path), null, EXIST)) return;
    for (const level of found) {
      await forEach(level, it => removed(room, gone + it.slice(path.length)), room.width);
    }
  } catch (fault) {
    if (!isRefused(fault, NOENT)) transfer.fail(t.about(t.isLeft(shown(at)), fault.message));
  }
}

// (a letter that is cut is left out)
const startOf = name => new TextDecoder("utf-8", { ignoreBOM: true }).decode(fromText(name).slice(0, MOST_KEPT),
  { stream: true });

/** What a stopped replacement left beside a document goes; a whole file there gets another name. */
export async function clearBeside(room, path, transfer) {
  const [above, { gone, its }] = [folderOf(path), await form.beside(lastName(path))];
  const names = (await room.names(above))?.map(([name]) => name) ?? [];
  if (names.includes(gone)) await clear(room, above, gone, transfer, documentAt);
  if (!names.includes(its)) return;
  const found = await orElse(room.aside("READ", inFolder(above, its, form.MANIFEST)), null, NOENT, ISDIR, NOTDIR);
  const isWhole = found && form.readManifest(fromBase64(found.data));
  if (!isWhole) return clear(room, above, its, transfer, unfinishedAt);
  const left = `${startOf(lastName(path))} (${form.otherName("").slice(0, 4)})`;
  await room.rename(inFolder(above, its), inFolder(above, left));
  transfer.fail(t.wholeLeft(shown(left)));
}

export async function removeAll(room, path) {
  await takeOver(room, path);
  const names = await orElse(room.list(path), [], NOTDIR);
  if (names.some(([name]) => name === form.MANIFEST)) await removed(room, inFolder(path, form.MANIFEST));
  const documents = names.filter(([name, kind]) => kind !== FOLDER && name !== form.MANIFEST);
  await forEach(documents, ([name]) => removed(room, inFolder(path, name)));
  for (const [name, kind] of names) if (kind === FOLDER) await removeAll(room, inFolder(path, name));
  await removed(room, path);
}

export const piecesAt = (at, { folder, pieces }) =>
  [pieces.map(it => inFolder(at, folder, it)), [inFolder(at, folder)]];

/** (Level by level: who gave a folder may pass through it no more.) */
export async function give(room, levels, whose) {
  for (const paths of levels) await forEach(paths, it => room.step("CHOWN", it, whose), room.width);
}

/** The new one has, and gives, what the old one had at last; else that has its name again, or one of these bytes. */
async function takePlace(room, made, old, path, before) {
  let data = before;
  try {
    data = (await room.aside("READ", old)).data;
    if (data !== before) await room.step("WRITE", made, { data });
    await room.rename(made, path);
    return data;
  } catch (fault) {
    const back = () => orElse(room.rename(old, path), null, EXIST);
    await back().catch(its => (isRefused(its, NOENT) ? room.step("CREATE", path, { data }) : Promise.reject(its)));
    throw fault;
  }
}

/** The new one is the file's owner's before the old one goes. (Between two renames the file has none. No writer who
 * began before clears a folder of this name.) Gives what it has. */
async function makeAnew(room, path, transfer) {
  const [its, folder] = [inFolder(path, form.MANIFEST), form.otherName(form.PIECES)];
  const [made, old] = ["000", "001"].map(it => inFolder(path, folder, it));
  const [{ data }, { owner, group }] = [await room.aside("READ", its), await room.aside("STAT", path)];
  await room.step("MKDIR", inFolder(path, folder));
  try {
    await room.step("CREATE", made, { data });
    if (owner !== room.user) await room.step("CHOWN", made, { owner, group });
    await room.rename(its, old);
    return await takePlace(room, made, old, its, data);
  } finally {
    const isThere = (await room.list(path)).some(([name]) => name === form.MANIFEST);
    if (isThere) await clear(room, path, folder, transfer); // (else it has all that there is of one)
  }
}

/** Whether the manifest follows its file, maybe made anew. `data` is what it had when it was seen last. */
export async function keepManifest(room, path, transfer, data) {
  if (await manifestFollows(room, path)) return true;
  const [now, name] = [await orFault(makeAnew(room, path, transfer)), shown(path)];
  const isMade = !(now instanceof Refusal);
  transfer.fail(!isMade ? `${t.prepared(name)} ${now.message}` : now === data ? t.madeAnew(name) :
    `${t.madeAnew(name)} ${t.otherStands(name)}`);
  return isMade;
}

const MOST_TRIED = 2; // spares of a file
const isDone = async task => !(await orFault(task) instanceof Refusal);
const asNew = (room, { owner, group }, its, list) => its && list && !ownList(list) &&
  [owner, room.user].includes(its.owner) && its.group === group;

async function looked(room, at, stat) {
  const [inside, list, its] = await Promise.all(["LIST", "GETLIST", "STAT"].map(it => room.look(it, at)));
  const fits = inside?.names.every(form.isOurPiece) && asNew(room, stat, its, list) && passersRead(list);
  return fits ? { names: new Set(inside.names.map(([name]) => name)), owner: its.owner } : null;
}

/** Takes one of a file's: `{folder, names, owner}` by its new name, or null. `stat` is the file's. */
export async function takeSpare(room, path, stat, names) {
  for (const [name] of names.filter(form.isSpare).slice(0, MOST_TRIED)) {
    const [before, folder] = [inFolder(path, name), form.otherName(form.WRITING)];
    const now = inFolder(path, folder);
    if (!await isDone(room.rename(before, now))) continue;
    const spare = await looked(room, now, stat);
    if (spare) return { folder, ...spare };
    await isDone(room.rename(now, before));
  }
  return null;
}

/** Whether these documents are as new ones would be. (They may be moved meanwhile: they are looked at again if their
 * version `stands`.) */
export const areAsNew = async (room, paths, stat, transfer, stands) =>
  await lookedAt(room, paths, stat, transfer) || await stands() && lookedAt(room, paths, stat, transfer);

async function lookedAt(room, paths, stat, transfer) {
  let areAll = true;
  await forEach(paths, async it => {
    transfer.check();
    const its = areAll && await room.look("STAT", it);
    const list = its && await room.look("GETLIST", it);
    areAll &&= Boolean(asNew(room, stat, its, list));
  }, room.width);
  return areAll;
}

/** Documents that took no piece are emptied, or removed where they are more than `most`. */
export async function clearOver(room, paths, most, transfer) {
  await forEach(paths, async it => {
    transfer.check();
    const isEmptied = paths.length <= most && await isDone(room.step("WRITE", it, { data: "" }));
    if (!isEmptied) await removed(room, it);
  }, room.width);
}

export async function leaveSpare(room, path, folder, transfer) {
  const before = inFolder(path, folder);
  const rename = name => room.rename(before, inFolder(path, name)).then(() => name);
  const found = await piecesIn(room, before);
  if (!found) return void transfer.fail(t.noPart(shown(before)));
  const name = await orElse(rename(form.GONE + folder.slice(form.PIECES.length)), null, EXIST) ??
    await rename(form.otherName(form.GONE));
  return { name, documents: found[0].map(it => inFolder(path, name, lastName(it))) };
}

/** (The first document last: where that is empty the others are too.) */
export async function emptySpare(room, path, { name, documents }, transfer) {
  const [first, ...others] = [...documents].sort();
  const empty = it => {
    transfer.check();
    return room.step("WRITE", it, { data: "" });
  };
  const fault = await orFault(forEach(others, empty, room.width).then(() => first && empty(first)));
  if (fault instanceof Refusal && fault.code !== NOENT) await clear(room, path, name, transfer);
}

/** The first that is one stays, emptied if a stop left bytes in it. Gives its name, or null. */
export async function keepSpare(room, path, names, transfer) {
  for (const [name] of names.filter(form.isSpare)) {
    const found = await orElse(piecesIn(room, inFolder(path, name)), null, NOENT);
    if (!found) continue;
    const first = await room.look("STAT", inFolder(path, name, form.FIRST));
    if (first?.size !== 0) await emptySpare(room, path, { name, documents: found[0] }, transfer);
    return name;
  }
  return null;
}
