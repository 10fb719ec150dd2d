/** Files and folders of the user's disk go into the room; what a folder has no room for, into another beside it. */
import { EXIST, FOLDER, FOLDER_FULL, MAX_NAMES, MOST_BYTES, MOST_THINGS, ROOT, TOO_DEEP, ask, besideIt, button,
  calledIn, clean, folderOf, foldersAbove, forEach, inFolder, isAlike, isTooLong, isWithin, lastName, listOf, make,
  nameFault, namesOf, numbered, offered, once, orElse, ownList, pathOf, pickFiles, settle, shortened, shown, t,
  tellFault } from "./common.js";
import { writeCopy, writeFile } from "./files.js";
import { DEEPEST, sizeFault } from "./manifest.js";
import { readFile } from "./reading.js";
import { sizeWords, transferring } from "./transfers.js";
import { placedInTrash, trashOf } from "./trash.js";

const MOST_TOLD = 10; // of many names or faults
const AT_ONCE = 3; // files; the pieces of each go beside each other too

export function filesButton(words, how, chosen) {
  const field = pickFiles(words, how, chosen);
  return make("span", button(words, () => field.click()), field);
}

async function within(entry, above = []) {
  const names = [...above, entry.name];
  if (entry.isFile) return [{ names, file: await new Promise((tell, fail) => entry.file(tell, fail)) }];
  const [reader, found] = [entry.createReader(), [{ names, file: null }]];
  for (;;) {
    const some = await new Promise((tell, fail) => reader.readEntries(tell, fail));
    if (!some.length) return found;
    for (const it of some) found.push(...await within(it, names));
  }
}

export async function dropped(data) {
  const items = [...data.items].filter(it => it.kind === "file");
  const entries = items.map(it => it.webkitGetAsEntry() ?? it.getAsFile());
  return (await Promise.all(entries.map(it =>
    (it instanceof File ? [{ names: [it.name], file: it }] : within(it))))).flat();
}

function faultOf({ names, file }, folder) {
  const [depth, name] = [namesOf(folder).length + names.length, calledBy({ names })];
  const fault = names.map(clean).map(nameFault).find(Boolean) || (depth > MAX_NAMES ? t.pathLong(MAX_NAMES) :
    file?.size > MOST_BYTES && depth > DEEPEST ? t.tooDeep : "");
  const its = sizeFault(file?.size ?? 0);
  return fault ? t.about(name, fault) : its && `${name} ${its}.`;
}

function withShorter(chosen) {
  const taken = new Map(); // by the path that something had
  const isFree = path => ![...taken.values()].includes(path);
  const shorter = (above, name) => {
    if (!isTooLong(clean(name))) return name;
    const [key, its] = [pathOf([...above, name]), pathOf([...above, shortened(clean(name))])];
    return lastName(once(taken, key, () => (isFree(its) ? its : numbered(pathOf([...above, clean(name)]), isFree))));
  };
  return chosen.map(({ names, file }) => ({ names: names.map((it, at) => shorter(names.slice(0, at), it)), file }));
}

const aboutOf = (room, ...paths) => `upload ${room.name} ${paths.join(" ")}`;
const goalOf = (folder, names) => inFolder(folder, ...names.map(clean));
const calledBy = ({ names }) => shown(names.join("/"));

async function fitting(app, folder, chosen) {
  const faults = chosen.map(it => faultOf(it, folder));
  const fit = chosen.filter((_, at) => faults[at] === "");
  if (fit.length === chosen.length) return fit;
  const shorter = withShorter(chosen);
  const isLong = chosen.map((it, at) => calledBy(it) !== calledBy(shorter[at]));
  const told = faults.map((it, at) => (isLong[at] ? t.couldBe(it, calledBy(shorter[at])) : it)).filter(Boolean);
  const count = isLong.filter(Boolean).length;
  if (chosen.length === 1 && !count) {
    tellFault(t.nothingSent(told[0]), aboutOf(app.room, goalOf(folder, chosen[0].names)));
    return [];
  }
  const [first, ...others] = offered([[count, { words: t.uploadShorter(count), value: "shorter" }],
    [fit.length, { words: t.uploadOthers(fit.length), value: "fit" }]]);
  const answer = await ask({ title: t.cannotUpload(told.length, chosen.length), words: listed(told), others,
    does: first?.words, stays: first ? t.cancel : t.close });
  if (!answer || !first) return [];
  return (answer === true ? first.value : answer) === "fit" ? fit : fitting(app, folder, shorter);
}

const listed = words => [listOf(words.slice(0, MOST_TOLD)),
  words.length > MOST_TOLD && t.others(words.length - MOST_TOLD)];

const lister = (room, asked = new Map()) => folder =>
  once(asked, folder, async () => new Set((await room.names(folder))?.map(([name]) => name)));

async function freeOf(path, namesIn, taken) {
  const names = await namesIn(folderOf(path));
  const isFree = it => !names.has(lastName(it)) && !taken.has(it);
  const its = isFree(path) ? path : numbered(path, isFree);
  taken.add(its);
  return its;
}

const ownAt = (room, path) => room.look("GETLIST", path).then(it => it && ownList(it));

export async function makeLike(room, path, like) {
  await orElse(room.step("MKDIR", path), null, EXIST);
  const own = await ownAt(room, like);
  if (own && !isAlike(own, await ownAt(room, path))) await room.step("SETLIST", path, own);
}

export async function placeIn(room, path) {
  if (namesOf(path).length === MAX_NAMES) throw new Error(t.refusals[TOO_DEEP]);
  const namesIn = async it => await room.names(it) ?? [];
  if ((await namesIn(path)).length < MOST_THINGS) return path;
  if (path === ROOT) throw new Error(t.refusals[FOLDER_FULL]);
  const [there, own] = [new Map(await namesIn(folderOf(path))), await ownAt(room, path)];
  for (let count = 2; ; count += 1) {
    const goal = besideIt(path, count);
    const kind = there.get(lastName(goal));
    if (!kind || kind === FOLDER && (await namesIn(goal)).length < MOST_THINGS &&
      isAlike(own, await ownAt(room, goal))) return goal;
  }
}

/** What of too full folders goes elsewhere, `{like, goal, rest}`; `rest` are names. */
async function restsOf(over, namesIn) {
  const found = [];
  for (const [path, names] of over) {
    if (path === ROOT) return [];
    const there = await namesIn(path);
    const rest = [...names].filter(it => !there.has(it)).slice(MOST_THINGS - names.size);
    const beside = await namesIn(folderOf(path));
    for (let at = 0; at < rest.length; at += MOST_THINGS) {
      const goal = numbered(path, it => !beside.has(lastName(it)));
      beside.add(lastName(goal));
      found.push({ like: path, goal, rest: new Set(rest.slice(at, at + MOST_THINGS)) });
    }
  }
  return found;
}

function spread(wanted, { like, goal, rest }) {
  const depth = namesOf(like).length;
  for (const it of wanted) {
    const names = namesOf(it.path);
    if (isWithin(it.path, like) && rest.has(names[depth])) it.path = inFolder(goal, ...names.slice(depth));
  }
}

async function mayOverflow(over, wanted, namesIn) {
  const rests = await restsOf(over, namesIn);
  const words = listOf(over.map(([path, names]) => t.wouldHave(shown(path), names.size, MOST_THINGS)));
  const task = () => {
    for (const it of rests.toReversed()) spread(wanted, it); // (a folder below another one first)
    wanted.beside = rests;
  };
  const goals = rests.map(({ goal }) => shown(lastName(goal))).join(", ");
  const how = rests.length ? { does: t.restInto(goals), task, others: [{ words: t.uploadFits, value: "fit" }] } :
    { does: t.uploadFits };
  return await ask({ title: t.tooMany, words, ...how }) !== null;
}

export async function freePaths(room, paths) {
  const [namesIn, taken, found] = [lister(room), new Set(), []];
  for (const it of paths) found.push(await freeOf(it, namesIn, taken));
  return found;
}

export const freePath = async (room, path) => (await freePaths(room, [path]))[0];

function foldersOf(wanted, folder) {
  const all = wanted.flatMap(({ path, file }) => [...foldersAbove(path), ...file ? [] : [path]]);
  return [...new Set(all)].filter(it => !isWithin(folder, it)).sort();
}

async function overfull(wanted, folder, namesIn) {
  const all = [...foldersOf(wanted, folder), ...wanted.map(it => it.path)];
  const inside = await Promise.all([...Map.groupBy(all, folderOf)].map(async ([above, paths]) =>
    [above, new Set([...await namesIn(above), ...paths.map(lastName)])]));
  return inside.filter(([, names]) => names.size > MOST_THINGS);
}

const beforeWords = ([one, ...others]) =>
  (one?.kept ? t.keptUnder(others.length + 1, one.trash ? t.trash : shown(lastName(one.kept))) : "");

async function sendAll(app, room, transfer, wanted, folder) {
  for (const path of foldersOf(wanted, folder)) await orElse(room.step("MKDIR", path), null, EXIST);
  for (const { goal, like } of wanted.beside ?? []) await makeLike(room, goal, like);
  const [files, isOne, replaced] = [wanted.filter(it => it.file), wanted.length === 1, []];
  let [count, size] = [0, 0];
  await forEach(files, async it => {
    const { path, file, isNew } = it;
    transfer.check();
    try {
      if (it.trash) it.kept = await keepInTrash(room, path, it.trash);
      const at = await writeFile(room, path, new Uint8Array(await file.arrayBuffer()), transfer, isNew);
      settle(aboutOf(room, path));
      [count, size] = [count + 1, size + file.size];
      if (it.replaces && at === path) replaced.push(it); // (else it lies beside a newer one)
    } catch (fault) {
      transfer.check();
      transfer.fail(isOne ? fault.message : t.about(shown(path), fault.message), aboutOf(room, path));
    }
  }, AT_ONCE);
  const failed = files.length - count;
  if (failed && !isOne) transfer.title = t.failedOf(failed, files.length);
  if (failed && count === 0) return "";
  const where = app.place.path === folder ? "" : t.areIn(shown(calledIn(room.name, folder)));
  return t.uploaded(count, sizeWords(size), transfer.seconds) + where + beforeWords(replaced);
}

/** True to keep both; else the `trash` that keeps the old ones, "skip", or null. */
async function askOfClashes(app, clashes) {
  const { path: trash } = await trashOf(app);
  return ask({ title: t.thereAlready(clashes.length), words: listed(clashes.map(({ path }) => shown(path))),
    does: t.keepBoth, others: offered([[trash, { words: t.replaceAndKeep, value: { trash } }],
      [true, { words: t.replace, value: { trash: null } }], [true, { words: t.leaveOut, value: "skip" }]]) });
}

async function wantedOf(app, folder, chosen) {
  const fit = await fitting(app, folder, chosen);
  const namesIn = lister(app.room);
  let wanted = fit.map(({ names, file }) => ({ path: goalOf(folder, names), file, isNew: true }));
  const isThere = await Promise.all(wanted.map(async ({ path, file }) =>
    file && (await namesIn(folderOf(path))).has(lastName(path))));
  const clashes = wanted.filter((_, at) => isThere[at]);
  const answer = clashes.length ? await askOfClashes(app, clashes) : true;
  if (answer === null) return [];
  if (answer === "skip") wanted = wanted.filter(it => !clashes.includes(it));
  const taken = new Set(wanted.map(it => it.path));
  for (const it of clashes) {
    if (answer === true) it.path = await freeOf(it.path, namesIn, taken);
    else Object.assign(it, { isNew: false, replaces: true, trash: answer.trash });
  }
  const over = await overfull(wanted, folder, namesIn);
  return !over.length || await mayOverflow(over, wanted, namesIn) ? wanted : [];
}

export async function upload(app, folder, chosen) {
  const { room, user } = app; // (another may be shown by then)
  try {
    const wanted = await wantedOf({ room, user }, folder, await chosen);
    if (wanted.length) await start(app, wanted, folder, room);
  } catch (fault) {
    tellFault(t.about(t.uploadTo(shown(calledIn(room.name, folder))), fault.message));
  }
}

export const keepInTrash = (room, path, trash) => placedInTrash(path, trash, async to =>
  writeCopy(room, path, to, await readFile(room, path)));

export const keepBeside = async (room, path, words, bytes) =>
  writeCopy(room, path, await freePath(room, besideIt(path, words)), bytes ?? await readFile(room, path));

/** `replaces` is null where nothing whole is there yet. */
export async function newVersion(app, path, [it], replaces) {
  const [{ room }, { file }, name, folder] = [app, it, lastName(path), folderOf(path)];
  const fault = faultOf({ names: [name], file }, folder);
  if (fault) return tellFault(t.nothingSent(fault), aboutOf(room, path));
  const wanted = { path, file, isNew: false, replaces: replaces !== null };
  const keep = async () => {
    wanted.kept = await keepBeside(room, path, t.before(new Date().toISOString().slice(0, 10)));
  };
  const { path: trash } = replaces?.mayRead ? await trashOf(app).catch(() => ({})) : {};
  const mayGo = !replaces || await ask({ title: t.doTo(t.replace, shown(name)),
    does: trash ? t.replaceAndKeep : t.replace, task: () => { wanted.trash = trash; },
    words: t.takesPlace(shown(file.name), sizeWords(file.size)) + (trash ? "" : ` ${t.forGood}`),
    others: offered([[trash, { words: t.replace, value: true }],
      [replaces.mayRead && replaces.mayAdd, { words: t.keepBoth, value: true, task: keep }]]) });
  if (mayGo) await start(app, [wanted], folder, room);
}

function start(app, wanted, folder, room) {
  const total = wanted.reduce((sum, { file }) => sum + (file?.size ?? 0), 0);
  const title = t.doTo(t.upload, wanted.length === 1 ? shown(lastName(wanted[0].path)) : t.allThings(wanted.length));
  const about = aboutOf(room, ...wanted.map(it => it.path));
  return transferring(app, title, { total, about }, it => sendAll(app, room, it, wanted, folder));
}
