/** What users may do with objects, as the room says; who can see them; a way for others. */
import { ACCESS, FOLDER, LARGE, PASS_THROUGH, READ, WRITE_LIST, addressOf, ask, askedOf, byWhom, calledIn,
  displayName, foldersAbove, forEach, givenHere, inFolder, inOrder, isAlike, isDeny, joined, letterLink, listOf, make,
  nameIn, ofLarge, once, ownOf, personText, rightsIn, settle, shown, t, tellFault, whomOf, whomText, withWhom } from
  "./common.js";
import { MANIFEST } from "./manifest.js";
import { lookInto } from "./reading.js";

const MOST_NAMED = 5;
const MOST_SEEN = 3; // names of who can see a thing
const MOST = 40; // users of one group that are asked about

export class Questions {
  constructor(app) { Object.assign(this, { app, asked: new Map() }); }

  once = (key, task) => once(this.asked, key, task);
  stat = path => this.once(`stat ${path}`, () => this.app.room.look("STAT", path));

  /** Kind, owner, group and list, or null where the caller may not see them. */
  object(path) {
    return this.once(path, async () => {
      const stat = await this.stat(path);
      const list = stat && await this.app.room.look("GETLIST", path);
      if (!list) return null;
      const { owner, group } = stat;
      const names = new Set([owner, group, ...list.entries.map(it => it.who)]);
      const answers = this.once(JSON.stringify([owner, group, list.entries]), () => new Map());
      return { ...stat, ...list, names, answers };
    });
  }

  async isOther() {
    const all = its => Promise.all([...this.asked.keys()].filter(it => it[0] === "/").map(it => its.object(it)));
    return !isAlike(await all(this), await all(new Questions(this.app)));
  }

  async kindOf({ path, kind }) {
    if (kind !== FOLDER) return kind;
    const its = await this.once(`into ${path}`, () => lookInto(this.app.room, path));
    return its.kind === LARGE ? LARGE : FOLDER;
  }

  async mayDo({ path, kind }, user, groups) {
    const own = await this.allowed(path, user, groups);
    if (kind !== LARGE || own === null) return own;
    const inside = await this.allowed(inFolder(path, MANIFEST), user, groups);
    return inside === null ? null : ofLarge(own, inside);
  }

  async allowed(path, user, groups) {
    const it = await this.object(path);
    const own = async () => await this.app.room.rights(path) ?? null;
    if (user === this.app.user && !(it && groups)) return this.once(`own ${path}`, own);
    if (!it) return null;
    // (those whom a list tells apart by nothing are asked about once)
    const key = [it.names.has(user) ? user : "", ...(groups ?? []).filter(one => it.names.has(one))].join("\n");
    return once(it.answers, key, () => this.app.room.allowed(it, user, groups ?? []));
  }

  /** The folders above that do not let the user pass; `isKnown` where each of them told. */
  async barriers(path, user, groups) {
    const above = foldersAbove(path);
    const allowed = await Promise.all(above.map(it => this.allowed(it, user, groups)));
    const folders = above.filter((_, at) => allowed[at] !== null && !(allowed[at] & PASS_THROUGH));
    return { folders, isKnown: !allowed.includes(null) };
  }
}

export class Seers {
  constructor(app) { Object.assign(this, { app, questions: new Questions(app), known: new Map() }); }

  /** Owners and lists are asked for anew. (Where they are as before, it is known what the room says.) */
  renew() {
    const { asked } = this.questions;
    for (const key of asked.keys()) if (/^((own|stat) )?[/]/.test(key)) asked.delete(key);
    this.known.clear();
  }

  /** `{words, told}`, in which they are named, or null where it is not known. */
  async of(object) {
    const { path, kind } = object;
    const [its, roster] = [await this.questions.object(path), await this.app.room.users()];
    if (!its || !roster) return null;
    const { owner, group, entries } = its;
    const key = kind === LARGE ? path : JSON.stringify([foldersAbove(path), owner, group, entries]);
    return once(this.known, key, async () => {
      const users = await this.able(object, READ);
      const told = users && joined(named(users.map(user => ({ user }))));
      return users && { told, words: this.#words(users, its, roster) };
    });
  }

  async able({ path, kind }, right) {
    const all = Object.entries(await this.app.room.users() ?? {});
    const allowed = await Promise.all(all.map(([user, groups]) => this.questions.mayDo({ path, kind }, user, groups)));
    if (allowed.includes(null)) return null;
    const having = all.filter((_, at) => allowed[at] & right);
    const barriers = await Promise.all(having.map(([user, groups]) => this.questions.barriers(path, user, groups)));
    const left = having.filter((_, at) => !barriers[at].folders.length);
    const isKnown = having.every(([user], at) =>
      user === this.app.user || barriers[at].folders.length || barriers[at].isKnown);
    return isKnown ? left.map(([user]) => user) : null;
  }

  #words(users, { group, entries }, roster) {
    const { user: me } = this.app;
    if (users.length === 1 && users[0] === me) return t.onlyYou;
    if (users.length === Object.keys(roster).length) return t.everyoneHere;
    const listed = new Set(entries.map(whomOf).map(({ id, name }) => ({ group: name, "GROUP@": group }[id])));
    const members = one => Object.keys(roster).filter(user => roster[user].includes(one));
    const isIn = one => members(one).length > 0 && members(one).every(it => users.includes(it));
    const groups = [...listed].filter(one => one && isIn(one)).sort(inOrder);
    const others = users.filter(user => !roster[user].some(it => groups.includes(it)));
    const names = [...others.includes(me) ? [t.yourself] : [], ...groups,
      ...others.filter(it => it !== me).map(it => displayName(it) || it).sort(inOrder)];
    return !names.length ? t.nobody : names.length > MOST_SEEN ? t.people(users.length) : names.join(", ");
  }
}

const usersOf = ({ id, name }, roster) => Object.entries(roster ?? {}).filter(([user, groups]) =>
  ({ "EVERYONE@": true, user: user === name, group: groups.includes(name) }[id]));

/** Who of those whom the entries name is shut out, `{whom, user, folders, lacks}`. */
export async function shutOut(app, { path, kind }, entries, questions = new Questions(app)) {
  const [roster, found] = [await app.room.users(), []];
  for (const [whom, its] of byWhom(entries)) {
    const wanted = askedOf(givenHere(its), kind);
    await forEach(usersOf(whom, roster).slice(0, MOST), async ([user, groups]) => {
      const { folders } = await questions.barriers(path, user, groups);
      const allowed = await questions.mayDo({ path, kind }, user, groups);
      const lacks = allowed === null ? 0 : wanted & ~allowed;
      if (folders.length || lacks) found.push({ whom, user, folders, lacks });
    });
  }
  return found;
}

export function named(all) {
  const users = [...new Set(all.map(({ user }) => personText(user)))].sort();
  const more = users.length - MOST_NAMED;
  return more > 1 ? [...users.slice(0, MOST_NAMED), t.others(more)] : users;
}

export async function setList(room, path, before, { aclflag, entries }) {
  await room.run("SETLIST", path, { aclflag, entries });
  const after = await room.look("GETLIST", path);
  return { path, before, after: JSON.stringify(after) };
}

export async function setBack(room, changes) {
  for (const { path, before, after } of changes.toReversed()) {
    const now = await room.run("GETLIST", path);
    if (JSON.stringify(now) !== after) throw new Error(t.about(shown(calledIn(room.name, path)), t.changed));
    await room.run("SETLIST", path, { aclflag: before.aclflag, entries: ownOf(before) });
  }
}

/** Lets them pass through a folder, and no more: behind what is denied there. */
async function letPass(room, folder, all) {
  const list = await room.run("GETLIST", folder);
  const own = ownOf(list);
  const entries = all.map(({ whom }) => withWhom({ type: 0, flag: 0, mask: PASS_THROUGH, who: "" }, whom));
  const news = byWhom(entries).map(([, [it]]) => it);
  const at = own.findIndex(it => !isDeny(it));
  own.splice(at < 0 ? own.length : at, 0, ...news);
  return setList(room, folder, list, { aclflag: list.aclflag, entries: own });
}

const byFolder = found => Map.groupBy(found.flatMap(it => it.folders.map(folder => ({ ...it, folder }))),
  it => it.folder);

export async function letAll(app, object, entries, found, changes) {
  for (const [folder, those] of byFolder(found)) changes.push(await letPass(app.room, folder, those));
  const left = await shutOut(app, object, entries);
  if (left.length) throw new Error(t.stillShut(named(left)));
  settle(t.cannot(named(found)));
}

/** From which folder each entry that is handed down comes, as far as the user may see. */
export async function origins(room, path, handed) {
  const [found, left] = [[], new Set(handed)];
  const textOf = it => JSON.stringify([it.type, it.mask, whomOf(it)]);
  for (const folder of foldersAbove(path).toReversed()) {
    const list = left.size ? await room.look("GETLIST", folder) : null;
    if (!list) break;
    const its = new Set(ownOf(list).map(textOf));
    for (const it of [...left].filter(one => its.has(textOf(one)))) {
      found.push([it, folder]);
      left.delete(it);
    }
  }
  return found;
}

/** Whom to ask, of folders whose lists the caller may not change. */
const refusedAt = async (room, folders) => (await Promise.all(folders.map(async path =>
  (await room.rights(path) & WRITE_LIST ? [] : (await room.refusal({ code: ACCESS, bit: WRITE_LIST, path })).message))))
  .flat();

export async function helpThem(app, object, entries, found, changes) {
  const allCan = t.allCan(byWhom(entries).map(([whom]) => whomText(whom)));
  if (!found.length) return entries.length ? allCan : "";
  const folders = byFolder(found);
  const lacking = found.filter(it => it.lacks);
  const told = [...[...folders].map(([it, those]) => t.shutOutAt(named(those), shown(calledIn(app.room.name, it)))),
    ...lacking.map(it => t.lacksStill(personText(it.user), rightsIn(it.lacks, object.kind)))];
  const task = () => letAll(app, object, entries, found, changes);
  const refusals = await refusedAt(app.room, [...folders.keys()]);
  const mayLet = folders.size > 0 && !refusals.length;
  const isDone = await ask({ title: t.notAll, does: mayLet && t.letPass, task, stays: t.close,
    words: [t.listSet, listOf([...told, ...refusals]), mayLet && make("p.about", t.passWords)] });
  if (mayLet && isDone) return allCan;
  tellFault(t.cannot(named(found)));
  return "";
}

export function letterOf(place) {
  const name = shown(nameIn(place.room, place.path));
  return letterLink(t.tellThem, t.isShared(name), "", addressOf({ ...place, view: "open" }));
}
