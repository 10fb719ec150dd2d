/** A row. Its size is asked for once it is seen, its rights as its menu opens. Until then a folder of the room stands
 * among folders or documents by what it was before, or by its name: no row moves below a click. */
import { edit, offersFor, rightsOn, star } from "./actions.js";
import { download } from "./downloads.js";
import { dragRow, takeFiles, takeRows } from "./drag.js";
import { putBack } from "./moving.js";
import { FILE, FOLDER, LARGE, READ, UNFINISHED, WRITE, addressOf, beforeWords, button, calledIn, canShow, displayName,
  icon, inFolder, isForDisk, isInTrash, isOwnTrash, isPdf, isPicture, isStarred, kindByName, link, lookInto, make,
  menuButton, nameAt, nameText, ownedWords, personText, preview, readFile, shown, sizeWords, t, tellFault, tellIt,
  toldBy, whenWords, whileSo } from "./shared.js";

const PAUSE_ON = 200; // milliseconds on a row before its details are shown
const MOST_BYTES_OF = 2 ** 22; // of a picture among them
const LIKE_FILE = /\.(?=\d*[a-z])\w{1,5}$/i; // (no date)
const seenAs = new Map(); // kinds of the room's folders to people, by room and path

/** `{kind, words, size}`; a folder's size is the count of what is in it. */
async function lookAt({ app: { room }, seers }, path, kind) {
  const sized = (its, size) => ({ kind: its, words: size === undefined ? "" : sizeWords(size), size });
  const stat = kind === FOLDER ? null : await seers.questions.stat(path);
  if (kind !== FOLDER && stat?.kind !== FOLDER) return sized(FILE, stat?.size); // (a search has a large file as one)
  const { kind: found, names, its } = await lookInto(room, path);
  if (!names || found === UNFINISHED) return { kind: found, words: "", isShut: !names };
  return found === LARGE ? sized(LARGE, its?.size) :
    { kind: FOLDER, words: t.allThings(names.length), size: names.length };
}

export class Row {
  constructor(things, [name, kind, folder = things.place.path]) {
    const { app, place, pictures } = things;
    const path = inFolder(folder, name);
    const [called, key] = [nameAt(path), `${place.room}${path}`];
    const [words, above, tabIndex] = [shown(called), calledIn(place.room, folder), -1];
    Object.assign(this, { things, app, name, kind, folder, pictures, path, called, key });
    this.isFolder = kind === FOLDER && (seenAs.get(key) ?? (LIKE_FILE.test(called) ? LARGE : FOLDER)) === FOLDER;
    this.picture = pictures.placeOf(called);
    this.tick = make("input", { type: "checkbox", tabIndex, ariaLabel: t.choose(words) });
    this.link = link(addressOf({ room: place.room, path }), nameText(called),
      { tabIndex, draggable: false, className: "name" });
    this.back = toldBy(path) && isOwnTrash(app, place.path) && button(t.putBack, () => putBack(app, path),
      { tabIndex, ariaLabel: `${t.putBack} ${words}` });
    this.more = menuButton("⋯", { tabIndex, ariaLabel: t.moreFor(words), className: "small" },
      () => this.menu(), words);
    this.pen = button("", () => edit(app, path), { tabIndex, hidden: true, className: "pen",
      title: t.doTo(t.edit, words) });
    this.star = button("", () => star(app, path, this.isFolder), { tabIndex, hidden: isInTrash(path) });
    this.where = things.isFound && link(addressOf({ room: place.room, path: folder }), nameText(above), { tabIndex });
    this.cells = { where: make("td.where", this.where),
      ...Object.fromEntries(["who", "when", "kind", "size"].map(it => [it, make(`td.${it}`)])) };
    const below = [beforeWords(path), things.isFound && make("span.place", nameText(above))].filter(Boolean);
    this.element = make("tr", { ariaSelected: "false" }, make("td.tick", this.tick),
      make("th", { scope: "row", ariaLabel: words }, make("div", this.picture,
        below.length ? make("div", this.link, make("div.about", below)) : this.link,
        make("span.quick", this.pen, this.star))),
      things.columns.slice(1).map(it => this.cells[it]), make("td.own", this.back, this.more));
    this.element.row = this;
    this.showKind();
    this.showStar();
    dragRow(this);
    for (const take of [takeRows, takeFiles]) take(this.element, app, path, () => this.its?.kind === FOLDER);
  }

  get stops() {
    return [this.tick, this.link, this.pen, this.star, this.where, this.cells.who.firstChild, this.back, this.more]
      .filter(Boolean);
  }

  get access() { return addressOf({ view: "access", room: this.things.place.room, path: this.path }); }

  showKind() {
    const { kind, isShut } = this.its ?? this; // (of what is shut it is not told whether it is a folder)
    this.kindName = kindByName(this.called, this.isFolder ? FOLDER : FILE);
    this.cells.kind.textContent = isShut ? t.levels.none[0] : kind === UNFINISHED ? t.unfinished :
      t.kinds[this.kindName];
    if (!this.picture.querySelector("canvas")) this.picture.replaceChildren(icon(isShut ? "locked" : this.kindName));
    const isDocument = kind !== FOLDER;
    this.link.onclick = isDocument && isForDisk(this.called) ? event => this.give(event) : null;
  }

  showStar() {
    const [isOn, { name }] = [isStarred(this.app, this.path), this];
    Object.assign(this.star, { className: isOn ? "star on" : "star", title: t.about(t.star(isOn), shown(name)) });
  }

  give(event) {
    if (event.ctrlKey || event.metaKey || event.shiftKey || event.defaultPrevented) return;
    event.preventDefault();
    this.look().then(its => download(this.app, this.path, its.size), tellIt);
  }

  look() {
    this.looked ??= this.#look().catch(fault => {
      this.looked = null;
      throw fault;
    });
    return this.looked;
  }

  async #look() {
    this.its = await lookAt(this.things, this.path, this.kind);
    this.cells.size.textContent = this.its.words;
    this.isFolder = this.its.kind === FOLDER;
    if (this.kind === FOLDER) seenAs.set(this.key, this.its.kind);
    this.showKind();
    this.pictures.show(this.picture, this.path, this.its.size);
    return this.its;
  }

  async tellWho() {
    const { kind, isShut } = await this.look();
    const { seers, isShared } = this.things;
    const owner = isShared && (await seers.questions.stat(this.path))?.owner;
    const found = isShared ? { words: displayName(owner) || owner, told: personText(owner) } :
      isShut ? null : await seers.of({ path: this.path, kind });
    const [{ who }, { words = "", told = "" }] = [this.cells, found ?? {}];
    const before = who.firstChild?.title ?? told;
    if (found && !who.firstChild) who.append(link(this.access, "", { tabIndex: -1 }));
    // (whoever stands in it stays there)
    Object.assign(who.firstChild ?? {}, { textContent: words, title: told, hidden: !words });
    const { user, room } = this.app;
    const own = found && kind === FILE && this.kindName === "text" &&
      await seers.questions.allowed(this.path, user, (await room.users())[user]);
    this.pen.hidden = !(own & READ && own & WRITE);
    if (told !== before) await this.things.details.draw(this);
  }

  tellWhen(change) {
    this.change = change;
    if (change) this.cells.when.replaceChildren(whenWords(change));
  }

  choose(isChosen) {
    this.tick.checked = isChosen;
    this.element.ariaSelected = isChosen;
  }

  async offers() {
    const [its, own] = await Promise.all([this.look(), rightsOn(this.app.room, this.path)]);
    const above = this.things.rights?.own ?? await rightsOn(this.app.room, this.folder);
    return offersFor(this.app, this.path, its.kind, { own, above, size: its.size });
  }

  async menu() {
    const offers = await this.offers();
    return offers.length ? offers : [{ words: t.onlyLook, does() {} }];
  }

  async press(key) {
    const offer = (await this.offers()).find(it => it.key === key);
    return offer ? offer.does() : tellFault(t.notOffered(shown(this.called)));
  }
}

/** Beside the list, in a wide window: what the row is on which somebody stands. */
export class Details {
  constructor({ app, seers }) {
    Object.assign(this, { seers, room: app.room.behind(), row: null });
    this.element = make("section.details", { ariaLabel: t.inShort }, make("p.about", t.noRow));
  }

  show(row) {
    clearTimeout(this.timer);
    this.timer = setTimeout(() => {
      if (row !== this.row && this.element.checkVisibility()) this.draw(this.row = row).catch(() => {});
    }, PAUSE_ON);
  }

  async draw(row) {
    const { path, called, cells } = row;
    const its = await row.look();
    const [stat, seen] = await Promise.all([this.seers.questions.stat(path),
      its.isShut ? null : this.seers.of({ path, kind: its.kind })]);
    if (row !== this.row) return;
    this.element.replaceChildren(make("h2", icon(its.isShut ? "locked" : row.kindName), nameText(called)),
      make("p.about", [cells.kind.textContent, its.words].filter(Boolean).join(", ")),
      make("p.about", ownedWords(stat)),
      ...seen ? [make("p", `${t.heads.who}: `, link(row.access, seen.words)), make("p.about", seen.told)] : []);
    this.element.append(await this.#preview(row, its) ?? "");
  }

  async #preview(row, { kind, size }) {
    if (kind !== FILE && !(kind === LARGE && isPicture(row.called) && size <= MOST_BYTES_OF)) return null;
    const transfer = whileSo(() => row === this.row && this.element.isConnected);
    const bytes = await readFile(this.room, row.path, transfer);
    transfer.check();
    return bytes.length && canShow(bytes) && !isPdf(bytes) ? preview(bytes, row.called) : null;
  }
}
