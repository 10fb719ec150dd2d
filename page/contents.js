/** The views of a folder, of a document, of what was found, and of what was changed of late. */
import { asButton, makeDocument, makeFolder, offersFor, rightsAt, textOffers } from "./actions.js";
import { head } from "./heads.js";
import { emptyTrash } from "./moving.js";
import { ACCESS, ADD_FILE, ADD_FOLDER, FILE, FOLDER, LARGE, MANIFEST, NOBODY, PASS_THROUGH, READ, READ_LIST, ROOT,
  TRASH, UNFINISHED, Refusal, Seers, addressOf, beforeWords, beside, button, byName, canShow, changesIn, checkbox,
  clean, closedLine, faultLine, filesButton, folderOf, foldersAbove, fromBase64, givenHere, hasDav, icon, inFolder,
  inOrder, isAlike, isFor, isInTrash, isNamed, isOwnTrash, isPart, isPdf, isPicture, isTrash, kindBy, lastName, latest,
  link, make, manifestAt, menuButton, nameAt, note, nothing, offered, once, orFault, ownOf, ownTrash, ownedWords, part,
  pointOf, preview, readFile, shown, sizeWords, stars, t, toText, upload, walk, whomOf,
  withoutPool } from "./shared.js";
import { Things } from "./things.js";

const PREVIEWED = 2 ** 22; // bytes of a large file that are read unasked

const orShut = (task, path) => orFault(task, it => it.code === ACCESS && it.path === path);

function about(place, stat, size) {
  return make("p.about", [size, ownedWords(stat), beforeWords(place.path)].filter(Boolean).join(", "));
}

function newsFor(app, path, own) {
  const put = chosen => upload(app, path, chosen);
  return offered([
    [own & ADD_FOLDER, { words: t.newFolder, does: () => makeFolder(app, path) }],
    [own & ADD_FILE, { words: t.newDocument, does: () => makeDocument(app, path) }],
    [own & ADD_FILE && own & ADD_FOLDER, { words: t.uploadFolder, files: { isFolder: true }, chosen: put }],
  ]);
}

async function leftWords(names) {
  const left = new Set(names.map(([name]) => name).filter(isPart));
  if (left.size === 0) return null;
  if (left.has(MANIFEST)) return faultLine(t.isMixed);
  const marks = await Promise.all(names.map(async ([name]) => ({ name, ...await beside(name) })));
  const called = marks.filter(({ its, gone }) => left.has(its) || left.has(gone)).map(({ name }) => shown(name));
  return faultLine(t.leftHere(called.length ? called : t.someDocument));
}

async function folder(app, place, stat, rights, found) {
  const { path } = place;
  const isOwn = isOwnTrash(app, path);
  const trash = (isOwn || path === ROOT) && (await ownTrash(app)).path;
  const news = isOwn ? [] : newsFor(app, path, rights.own);
  const mayPut = (rights.own & ADD_FILE) !== 0 && !isOwn;
  const listed = found.names ? withoutPool(path, found.names) : [];
  const mayEmpty = isOwn && listed.length > 0 && trash === path;
  const top = head(place, { app, menu: () => offersFor(app, path, FOLDER, rights),
    ...isTrash(path) && { title: t.trashOf(lastName(path)) } });
  const share = (rights.own & READ_LIST) !== 0 && !isOwn && link(addressOf({ ...place, view: "access" }), t.share);
  const adder = news.length > 0 && menuButton(`+ ${t.new}`, { className: "main" }, () => news, t.new);
  const bar = make("p.tools.makers", adder,
    mayPut && filesButton(t.upload, {}, chosen => upload(app, path, chosen)), share,
    mayEmpty && button(t.emptyTrash, () => emptyTrash(app, path)));
  if (found instanceof Refusal) return [...top, bar, about(place, stat),
    closedLine(found, place, rights.own & PASS_THROUGH ?
      [t.byLink, " ", link(addressOf({ ...place, view: "shared" }), t.sharedWithYou)] : "")];
  note(app, path, true);
  const names = listed.filter(([it]) => !isPart(it) && !(trash && inFolder(path, it) === TRASH)).sort(byName);
  const changes = names.length > 0 && hasDav(app) && !isInTrash(path) ? changesIn(app, [path]) : null;
  const things = names.length ? new Things(app, place, names, rights, changes) : null;
  const words = isOwn ? t.inTrash : mayPut && t.dropHere;
  await things?.inOrder;
  const more = words && make(isOwn ? "p.about" : "p.about.by-mouse", words);
  const area = make("div.drops", await leftWords(listed),
    things?.element ?? make(mayPut ? "div.empty.inviting" : "div.empty", icon(isOwn ? "trash" : "folder"),
      make("p", t.nothingThere), more),
    about(place, stat, t.allThings(names.length)), things && more);
  area.oncontextmenu = event => {
    if (!adder || ![area, things?.element].includes(event.target)) return;
    event.preventDefault();
    adder.show(pointOf(event));
  };
  const seers = things?.seers ?? new Seers(app);
  const list = share && seers.questions.object(path).catch(() => null);
  const tell = async () => {
    const its = share && await seers.of({ path, kind: FOLDER }).catch(() => null);
    if (share) share.replaceChildren(t.share, its ? make("span.about", its.words) : "");
  };
  const renew = () => {
    (things ?? seers).renew();
    tell();
  };
  tell();
  area.watched = { path, names: found.names, list, put: mayPut, renew };
  return [...top, bar, ...things ? [things.bar.element] : [], area];
}

async function object(app, place, { stat, rights, kind, size, words, first = [], bytes = null }, body) {
  const offers = [...first, ...offersFor(app, place.path, kind, { ...rights, size }).filter(it => !it.isView)];
  const printer = bytes && canShow(bytes) && !isPdf(bytes) && button(t.print, () => print());
  const bar = make("p.tools", offers.map(asButton), printer, await neighbours(app, place));
  // (what is offered follows the rights)
  bar.isOther = () => rightsAt(app.room, place.path).then(its => !isAlike(its, rights), () => false);
  return [...head(place), bar, about(place, stat, words), body];
}

async function document_(app, place, stat, rights) {
  const { path } = place;
  const found = await orShut(app.room.run("READ", path), path);
  const isShut = found instanceof Refusal;
  if (!isShut) note(app, path, false);
  const bytes = isShut ? null : fromBase64(found.data);
  const first = textOffers(app, path, rights.own, bytes, bytes && toText(bytes));
  const words = isShut ? t.kinds.writing : t.bytes(bytes.length);
  return object(app, place, { stat, rights, kind: FILE, size: bytes?.length, words, first, bytes },
    isShut ? closedLine(found, place) : preview(bytes, lastName(path)));
}

async function large(app, place, stat, rights) {
  const { path } = place;
  const its = await manifestAt(app.room, path);
  if (!its) return null;
  note(app, path, false);
  const area = make("div");
  const show = async () => {
    const told = [];
    const bytes = await readFile(app.room, path, { ...NOBODY, fail: it => told.push(faultLine(it)) });
    area.replaceChildren(...told, preview(bytes, lastName(path)));
  };
  const start = await app.room.look("READ", inFolder(path, its.folder, its.pieces[0]), { keep: false });
  const bytes = start && fromBase64(start.data);
  const isAsked = its.size <= PREVIEWED || bytes && isPdf(bytes);
  if (bytes && !canShow(bytes)) area.append(nothing());
  else if (rights.own & READ && isAsked) await show().catch(fault => area.append(fault.message));
  else area.append(button(t.show, () => app.attempt(shown(path), show)));
  const more = { kind: LARGE, size: its.size, words: sizeWords(its.size), bytes: isAsked ? bytes : null };
  return object(app, place, { stat, rights, ...more }, area);
}

async function neighbours(app, { path, room }) {
  if (!isPicture(lastName(path))) return [];
  const all = await app.room.names(folderOf(path)) ?? [];
  const names = all.map(([name]) => name).filter(isPicture).sort(inOrder);
  const at = names.indexOf(lastName(path));
  const to = (name, words, className) => name &&
    link(addressOf({ room, path: inFolder(folderOf(path), name) }), words, { title: shown(name), className });
  return [to(names[at - 1], t.previous, "ArrowLeft"), to(names[at + 1], t.next, "ArrowRight")];
}

export async function showContents(app, place) {
  const { room } = app;
  const [stat, rights] = await Promise.all([room.standing(place.path), rightsAt(room, place.path)]);
  if (stat.kind !== FOLDER) return document_(app, place, stat, rights);
  const found = await orShut(room.run("LIST", place.path), place.path);
  const kind = found.names ? kindBy(withoutPool(place.path, found.names)) : FOLDER;
  if (kind === UNFINISHED) {
    const words = t.wasStopped(shown(lastName(place.path)));
    return object(app, place, { stat, rights, kind, words: t.unfinished }, faultLine(words));
  }
  return kind === LARGE && await large(app, place, stat, rights) || folder(app, place, stat, rights, found);
}

const MOST = 500; // things
const [MOST_CHANGES, MOST_FOLDERS] = [100, 20]; // that are shown, and asked about
const kept = new Map(); // by address, until something is changed, or the page looks again elsewhere
const small = name => clean(name).toLowerCase();
export const forgetFound = but => kept.forEach((_, it) => it === but || kept.delete(it));
const entryOf = (path, kind) => [lastName(path), kind, folderOf(path)];

class Search {
  constructor(app, place) {
    Object.assign(this, { app, room: app.room, place, looked: 0, found: 0, shut: 0, done: 0, known: 1 });
    this.told = make("span", { role: "status" });
    this.end = button(t.cancel, () => { this.isStopped = true; }, "small");
    this.area = make("div");
    const here = place.path !== ROOT &&
      checkbox(t.onlyIn(shown(lastName(place.path))), place.isHere, isHere => goTo(app, { ...place, isHere }));
    this.element = make("div", here, make("p", this.told, " ", this.end), this.area);
    this.run();
  }

  async run() {
    const { room, place } = this;
    try {
      await this.begin?.();
      await walk(room, place.isHere ? place.path : ROOT, it => this.meet(it), this);
      this.tell();
    } catch (fault) {
      Object.assign(this.told, { ariaBusy: "false", textContent: fault.message });
    }
    this.end.remove();
  }

  check() {
    if (this.isStopped) throw new Error(t.stopped);
  }

  walked(done, known) { Object.assign(this, { done, known }); }

  fits(path) { return small(nameAt(path)).includes(small(this.place.word)); }

  meet({ path, kind, isShut }) {
    this.looked += 1;
    if (isShut && !isInTrash(path)) this.shut += 1;
    if (this.fits(path)) this.find(path, kind);
    this.tell(t.looking(this.done, this.known));
  }

  find(path, kind) {
    if ((this.found += 1) <= MOST) this.show(path, kind);
  }

  show(path, kind) {
    const entry = entryOf(path, kind);
    if (this.things) return this.things.add(entry);
    this.things = new Things(this.app, this.place, [entry], null);
    this.area.append(this.things.bar.element, this.things.element);
  }

  tell(end = "") {
    const { looked, found, shut } = this;
    const more = found > MOST ? ` ${t.firstShown(MOST)}` : "";
    this.told.ariaBusy = `${end !== ""}`; // (read out at the end alone)
    const isShut = shut ? `${t.shutIn(t.folders(shut))} ${t.byLink}` : "";
    this.told.textContent = `${t.found(found, looked)}${isShut}${more} ${end}`.trim();
  }
}

/** What others share by name with the caller or a group of theirs; of folders that tell no names, where the caller has
 * been. */
class Shared extends Search {
  async begin() {
    const { app, room } = this;
    const been = [...stars(app), ...latest(app)];
    this.met = new Map();
    this.groups = (await room.users())?.[app.user] ?? [];
    for (const [path, isFolder] of been) {
      for (const it of [...foldersAbove(path).slice(1), path]) {
        if (!await this.meet({ path: it, kind: it !== path || isFolder ? FOLDER : FILE })) break;
      }
    }
  }

  meet({ path, kind, isShut }) {
    this.check();
    if (isInTrash(path)) return false;
    if (isShut) this.shut += 1;
    return once(this.met, path, async () => {
      this.looked += 1;
      const isIt = await this.fits(path);
      if (isIt) this.find(path, kind);
      this.tell(t.looking(this.done, this.known));
      return !isIt;
    });
  }

  async fits(path) {
    const { groups, room, app: { user } } = this;
    const its = ownOf(await room.look("GETLIST", path) ?? { entries: [] })
      .filter(it => isNamed(whomOf(it).id) && isFor(it, {}, user, groups));
    return (givenHere(its) & READ) !== 0 && (await room.rights(path) & READ) !== 0 &&
      (await room.look("STAT", path))?.owner !== user;
  }
}

function goTo(app, place) {
  const address = addressOf({ ...place, view: "find" });
  kept.delete(address);
  if (address === location.hash) app.show();
  else location.hash = address;
}

export const searchFor = (app, word) => goTo(app, { ...app.place, word, isHere: false });

export async function showFind(app, place) {
  part("search").querySelector("input").value = place.word;
  const title = place.word ? t.resultsFor(place.word) : t.search;
  return [...head(place, { title }), once(kept, addressOf(place), () => new Search(app, place)).element];
}

export const showShared = (app, place) => [...head(place, { title: t.sharedWithYou }),
  once(kept, addressOf(place), () => new Shared(app, place)).element];

export async function showRecent(app, place) {
  const own = [...stars(app), ...latest(app)].map(([path, isFolder]) => (isFolder ? path : folderOf(path)));
  const folders = new Set([ROOT, ...own.filter(it => !isInTrash(it))]);
  const found = await changesIn(app, [...folders].slice(0, MOST_FOLDERS));
  const newest = [...found].sort(([, one], [, other]) => other.when - one.when).slice(0, MOST_CHANGES);
  const entries = newest.map(([path, { kind }]) => entryOf(path, kind));
  const things = entries.length > 0 && new Things(app, place, entries, null, Promise.resolve(found));
  const its = things ? [things.bar.element, things.element] : make("p.empty", t.noChanges);
  return [...head(place, { title: t.recentChanges }), make("p.about", t.aboutChanges), its].flat();
}
