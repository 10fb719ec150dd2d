/** Files and folders are moved, copied, removed to the trash or for good, and put back. */
import { ACCESS, ADD_FILE, ADD_FOLDER, EXIST, FILE, FOLDER, MAX_NAMES, NOBODY, NOENT, NOTDIR, ROOT, TOO_DEEP, GaveUp,
  Refusal, Seers, ask, calledAt, clean, faultLine, folderOf, follow, forEach, freePath, freePaths, inFolder, isInTrash,
  isRefused, isWithin, lastName, nameAt, nameInput, namesOf, note, noteGone, offered, orFault, readFile, removeAll,
  shown, t, tellFaults, toTrash, toldBy, transferring, trashOf, wasAt, whole, withoutPool,
  writeFile } from "./shared.js";
import { FolderTree } from "./tree.js";

async function copy(room, from, to, transfer) {
  const found = await whole(room, from, transfer);
  const at = path => inFolder(to, ...namesOf(path).slice(namesOf(from).length));
  if (found.some(({ path }) => namesOf(at(path)).length > MAX_NAMES)) throw new Error(t.refusals[TOO_DEEP]);
  for (const { path } of found.filter(it => it.kind === FOLDER)) await room.step("MKDIR", at(path));
  const [files, quiet] = [found.filter(it => it.kind === FILE), transfer.quiet()];
  transfer.total = transfer.bar.max = files.length;
  await forEach(files, async ({ path }) => {
    await writeFile(room, at(path), await readFile(room, path, quiet), quiet, true);
    transfer.add(1);
  }, 3);
  for (const { path } of found.filter(it => it.isShut)) transfer.fail(t.isShut(shown(path)));
}

export const named = (paths, call = calledAt) => (paths.length === 1 ? call(paths[0]) : t.allThings(paths.length));
const shortNamed = paths => named(paths, it => shown(nameAt(it)));

async function withEach(does, paths, task) {
  const [done, faults] = [[], []];
  await forEach(paths, async path => {
    try {
      await task(path);
      done.push(path);
    } catch (fault) {
      if (fault instanceof GaveUp || paths.length === 1) throw fault;
      faults.push({ about: `${does} ${path}`, words: t.about(shown(lastName(path)), fault.message) });
    }
  }, 3);
  tellFaults(t.about(does, t.failedOf(faults.length, paths.length)), faults);
  return done;
}

/** Asks for a folder, and the name there of a single thing; gives the paths there. `task` gets them. */
async function askWhere(app, paths, { words, does, start = folderOf(paths[0]), called = nameAt(paths[0]) }, task) {
  const [tree, name] = [new FolderTree(app, paths, start), nameInput(called)];
  const isOne = paths.length === 1;
  const goals = () => paths.map(it => inFolder(tree.value, isOne ? clean(name.value) : lastName(it)));
  const faultOf = () => (goals().includes(paths[0]) ? t.isHere : "");
  const isDone = await ask({ title: t.doTo(does, shortNamed(paths)), does, words: [words, tree.element],
    fields: isOne ? [[t.heads.name, name]] : [], faultOf, task: () => task(goals()) });
  if (isDone) note(app, tree.value, true);
  return isDone && goals();
}

export function wayBack(app, places, room = app.room) {
  follow({ ...app, room }, places);
  return async () => {
    const paths = await withEach(t.undo, [...places.keys()], it => room.aside("RENAME", places.get(it), { to: it }));
    follow({ ...app, room }, new Map(paths.map(it => [places.get(it), it])));
    await app.done(paths.length && t.isBack(named(paths), paths.length),
      only(paths, { from: places.get(paths[0]), to: paths[0] }));
  };
}

const only = (paths, its) => (paths.length === 1 ? its : null);

async function moveTo(app, paths, goals) {
  const [{ room }, to] = [app, new Map(paths.map((it, at) => [it, goals[at]]))];
  const done = await withEach(t.move, paths, it => room.aside("RENAME", it, { to: to.get(it) }));
  if (!done.length) return () => app.done("");
  const where = only(done, to.get(done[0])) ?? folderOf(goals[0]);
  const undo = wayBack(app, new Map(done.map(it => [it, to.get(it)])), room);
  const seers = new Seers({ ...app, room });
  const seen = await Promise.all(done.map(it => seers.of({ path: to.get(it) })));
  const who = new Set(seen.map(it => (it ? ` ${t.about(t.heads.who, it.words)}.` : "")));
  return () => app.done(t.isNow(named(done), shown(where), done.length) + [...who].join(""),
    only(done, { from: done[0], to: where }), undo);
}

export async function move(app, paths) {
  let tell = null;
  await askWhere(app, paths, { words: t.moveWords, does: t.move },
    async to => { tell = await moveTo(app, paths, to); });
  await tell?.();
}

export async function moveInto(app, paths, folder) {
  const goals = paths.map(it => inFolder(folder, nameAt(it)));
  const tell = await app.attempt(t.doTo(t.move, named(paths)), () => moveTo(app, paths, goals));
  await tell?.();
}

async function needPlaces(room, paths, goals) {
  for (const [at, path] of paths.entries()) {
    if (isWithin(goals[at], path)) throw new Error(t.intoItself);
    const [bit, above] = [(await room.standing(path)).kind === FILE ? ADD_FILE : ADD_FOLDER, folderOf(goals[at])];
    const { allowed } = await room.aside("ACCESS", above, { mask: bit });
    if (!allowed) throw await room.refusal({ code: ACCESS, bit, path: above });
    const isThere = await room.aside("STAT", goals[at]).then(() => true, fault => !isRefused(fault, NOENT));
    if (isThere) throw new Error(t.refusals[EXIST]);
  }
}

export async function copyTo(app, paths) {
  const goals = await askWhere(app, paths, { words: `${t.yoursThen} ${t.copyWords}`, does: t.copy },
    to => needPlaces(app.room, paths, to));
  if (goals) await copyAll(app, paths, goals);
}

export async function copyInto(app, paths, folder) {
  const { room } = app;
  const goals = await app.attempt(t.doTo(t.copy, named(paths)), async () => {
    const free = await freePaths(room, paths.map(it => inFolder(folder, nameAt(it))));
    await needPlaces(room, paths, free);
    return free;
  });
  if (goals) await copyAll(app, paths, goals, room);
}

async function copyAll(app, paths, goals, room = app.room) {
  const about = `copy ${room.name} ${paths[0]}`;
  await transferring(app, t.doTo(t.copy, shortNamed(paths)), { total: 1, unit: String, about }, async transfer => {
    for (const [at, it] of paths.entries()) await copy(room, it, goals[at], transfer);
    return t.isCopied(named(paths), shown(only(paths, goals[0]) ?? folderOf(goals[0])), paths.length);
  });
}

async function contentsWords(room, paths) {
  const all = await Promise.all(paths.map(it => whole(room, it, NOBODY)));
  const found = all.flat().filter(it => !paths.includes(it.path));
  if (!found.length) return [];
  const folders = found.filter(it => it.kind === FOLDER).length;
  const [files, shut] = [found.length - folders, found.filter(it => it.isShut).length];
  const counts = offered([[files, t.documents(files)], [folders, t.folders(folders)]]);
  return faultLine(t.goesWith(counts, found.length), shut > 0 && t.shutIn(t.folders(shut)));
}

export async function remove(app, paths, does = t.doTo(t.remove, shortNamed(paths)), inside = paths) {
  const [{ room }, places] = [app, new Map()]; // in the trash
  const asked = await app.attempt(does, async () => {
    const { path: trash, fault } = isInTrash(paths[0]) ? { fault: "" } : await trashOf(app);
    if (trash) {
      const gone = await withEach(t.remove, paths, async it => places.set(it, await toTrash(room, it, trash)));
      noteGone({ ...app, room }, [...places].map(it => it.toReversed()));
      return { gone };
    }
    const why = fault === "" ? "" : ` ${t.askTrash(fault ?? t.noTrash)}`;
    return { words: [t.forGood + why, await contentsWords(room, inside)] };
  });
  if (!asked) return;
  let { words, gone } = asked;
  const task = async () => { gone = await withEach(t.remove, paths, it => removeAll(room, it)); };
  if (words && !await ask({ title: does, does: inside === paths ? t.remove : does, isFinal: true, words,
    task })) return;
  await app.done(gone.length ? (words ? t.isRemoved : t.isInTrash)(named(gone), gone.length) : "",
    only(paths, { from: paths[0], to: folderOf(paths[0]) }), words ? null : wayBack(app, places, room));
}

export async function emptyTrash(app, path) {
  const names = await app.attempt(t.emptyTrash, () => app.room.list(path));
  const paths = withoutPool(path, names ?? []).map(([name]) => inFolder(path, name));
  if (paths.length) await remove(app, paths, t.emptyTrash, [path]);
}

async function whyNotBack(room, path, place) {
  if (!place) return t.noPlace;
  const fault = await orFault(room.run("RENAME", path, { to: place }),
    it => isRefused(it, ACCESS, EXIST, NOENT, NOTDIR));
  if (!(fault instanceof Refusal)) return "";
  if (fault.code === ACCESS) return fault.message;
  return fault.code === EXIST ? t.placeTaken(shown(place)) : t.placeGone(shown(folderOf(place)));
}

export async function putBack(app, path) {
  const place = toldBy(path).place ?? wasAt(app, path);
  const why = await app.attempt(t.doTo(t.putBack, calledAt(path)), () => whyNotBack(app.room, path, place));
  if (why === null) return;
  let to = place;
  if (why) {
    const above = folderOf(place ?? ROOT);
    const start = await app.room.names(above) ? above : ROOT;
    const called = lastName(await freePath(app.room, inFolder(start, nameAt(path))));
    [to] = await askWhere(app, [path], { words: faultLine(why), does: t.putBack, start, called },
      ([it]) => app.room.run("RENAME", path, { to: it })) || [];
  }
  if (to) await app.done(t.isBack(shown(to)), { from: path, to });
}

export async function putAllBack(app, paths, its = { ...app }) {
  if (paths.length === 1) return putBack(app, paths[0]);
  const done = await app.attempt(t.putBack, () => withEach(t.putBack, paths, async path => {
    const why = await whyNotBack(its.room, path, toldBy(path)?.place ?? wasAt(its, path));
    if (why) throw new Error(why);
  }));
  if (done?.length) await app.done(t.isBack(named(done), done.length));
}
