/** The view of an access list. */
import { rightsOn } from "./actions.js";
import { head } from "./heads.js";
import { SharePanel } from "./share.js";
import { FOLDER, LARGE, MANIFEST, MOST_ENTRIES, NOBODY, REACH, RIGHTS, ROOT, SETS, WRITE_LIST, Questions,
  Refusal, Seers, addressOf, asOwn, ask, bothWords, button, calledIn, carried, checkbox, deciding, entriesOf,
  faultLine, folderOf, follows, helpThem, inFolder, input, isAlike, isDeny, isInherited, isNamed, isPrivate,
  isTrash, letAll, letterOf, link, make, nameText, named, newEntry, orFault, origins, ownOf, ownedWords, rightsIn,
  secure, select, sentence, setBack, setList, setOf, shown, shutOut, standing, standingAt, t, tellFault, whomFault,
  whomOf, whomText, withFollows, withWhom } from "./shared.js";

const knownNames = roster => make("datalist", { id: "known-names" },
  [...new Set(Object.entries(roster ?? {}).flat(2))].sort().map(value => make("option", { value })));

let isDetailed = false; // whether the editor is open, from one list to the next
const sentences = (entries, standing, how = {}) =>
  make("ol.entries", how, entries.map(it => make("li", sentence(it, standing.kind, standing))));
const CHOSEN = "chosen";

class Entry {
  constructor(entry, { standing, roster, changed }) {
    Object.assign(this, { entry, standing, kind: standing.kind, roster, changed });
    this.fault = make("p.fault", { role: "status" });
    this.summary = make("summary");
    this.tell();
  }

  tell() {
    this.fault.textContent = whomFault(this.entry, this.roster);
    this.summary.textContent = sentence(this.entry, this.kind, this.standing);
  }

  set(entry) {
    this.entry = this.kind === LARGE ? carried(entry) : entry;
    this.tell();
    this.changed(this.entry);
  }

  whom() {
    const now = whomOf(this.entry);
    const oninput = () => {
      name.hidden = !isNamed(whom.value);
      this.set(withWhom(this.entry, { id: whom.value, name: name.value.trim() }));
    };
    const how = { ariaLabel: t.heads.name, list: "known-names", hidden: now.name === "", oninput };
    const [name, ids] = [input(now.name, how), Object.keys(t.whom).filter(id => id !== "" || now.id === "")];
    const whom = select(ids.map(id => [id, t.whom[id]]), now.id, oninput, { ariaLabel: t.whomLabel });
    return [whom, name];
  }

  rights() {
    const words = it => `${this.kind === FOLDER ? bothWords(it) : it[this.kind]} (${it.words.join(", ")})`;
    this.boxes = RIGHTS.map(it => checkbox(words(it), (this.entry.mask & it.bit) !== 0,
      () => this.setMask(this.entry.mask ^ it.bit)));
    const choices = [...SETS.map(({ mask, does }) => [String(mask), does]), [CHOSEN, t.chosenBelow]];
    this.sets = select(choices, this.setNow(), it => {
      if (it !== CHOSEN) this.setMask(Number(it));
    }, { ariaLabel: t.rightsLabel });
    const some = isAsked => this.boxes.filter((_, at) => RIGHTS[at].isAsked === isAsked);
    return make("fieldset", make("legend", t.rightsLabel), some(true),
      make("details", make("summary", t.unaskedRights), some(false)));
  }

  setNow = () => String(setOf(this.entry.mask, this.kind)?.mask ?? CHOSEN);

  setMask(mask) {
    this.set({ ...this.entry, mask });
    for (const [at, { bit }] of RIGHTS.entries()) this.boxes[at].firstChild.checked = (this.entry.mask & bit) !== 0;
    this.sets.value = this.setNow();
  }

  reach() {
    return make("fieldset", make("legend", t.countsFor), REACH.map(({ flag, word, isTurned }) =>
      checkbox(word, ((this.entry.flag & flag) !== 0) !== isTurned,
        () => this.set({ ...this.entry, flag: this.entry.flag ^ flag }))));
  }

  element(isOpen, buttons) {
    const rights = this.rights();
    const verb = select([["0", t.allow], ["1", t.deny]], isDeny(this.entry) ? "1" : "0",
      it => this.set({ ...this.entry, type: Number(it) }), { ariaLabel: `${t.allow} / ${t.deny}` });
    return make("li", make(`details.${isDeny(this.entry) ? "deny" : "allow"}`, { open: isOpen }, this.summary,
      make("p.row", verb, this.whom(), t.to, this.sets), this.fault, rights,
      this.kind === FOLDER && this.reach(), make("p.tools", buttons)));
  }
}

class ListView {
  constructor(app, place, standing, list, roster, mayChange) {
    const { room, user } = app;
    Object.assign(this, { app, room, user, place, standing, list, roster, mayChange, aclflag: list.aclflag,
      own: ownOf(list), opened: null, object: { path: place.path, kind: standing.kind } });
    this.copied = []; // of what was handed down
    this.changes = []; // of lists, which can be set back
    this.element = make("div.typed");
    this.element.isUnsaved = () => this.text !== this.start;
    this.start = this.text;
  }

  get text() { return JSON.stringify([this.aclflag, this.own]); }
  get called() { return t.listOf(shown(calledIn(this.place.room, this.place.path))); }
  linkTo = path => link(addressOf({ ...this.place, path }), nameText(calledIn(this.place.room, path)));
  get inherited() { return follows(this.aclflag) ? this.list.entries.filter(isInherited) : []; }

  draw() {
    const [{ own, inherited: rest, mayChange }, above] = [this, folderOf(this.place.path)];
    const entries = mayChange ? make("ol.entries", own.map((it, at) => this.entry(it, at))) :
      sentences(own, this.standing);
    this.element.replaceChildren(make("div", mayChange && this.taking(), make("h2", t.ownEntries),
      own.length ? entries : make("p", t.isEmpty),
      mayChange && make("p.tools", button(t.addEntry, () => this.add())),
      make("section.handed", { hidden: !rest.length }, make("h2", t.handedTitle),
        make("p", t.handedBehind, this.linkTo(above)), sentences(rest, this.standing, { start: own.length + 1 })),
      mayChange && make("p.actions", button(t.saveList, () => this.save(), "main"),
        button(t.discard, () => this.again()))));
  }

  again = () => this.app.show(standing());

  taking() {
    if (this.place.path === ROOT) return null;
    const its = follows(this.aclflag);
    return make("div", checkbox(t.takesOver, its, it => this.take(it)),
      make("p.about", its ? t.without : t.alone));
  }

  get keepsControl() {
    const [{ user, roster, standing: its, own }, right] = [this, { rights: WRITE_LIST, allowed: WRITE_LIST }];
    const entries = [...own, ...this.inherited];
    return !roster?.[user] || deciding({ ...its, entries }, user, roster[user], right) !== null;
  }

  /** Without what is handed down, copies of it become its own; with it again, unchanged ones go. */
  take(isWanted) {
    this.own = this.own.filter(it => !this.copied.includes(it));
    this.copied = isWanted ? [] : this.inherited.map(asOwn);
    this.own.push(...this.copied);
    this.aclflag = withFollows(this.aclflag, isWanted);
    this.draw();
  }

  entry(it, at) {
    const changed = now => { this.own[at] = now; };
    return new Entry(it, { standing: this.standing, roster: this.roster, changed }).element(this.opened === at, [
      button(t.up, () => this.move(at, at - 1)), button(t.down, () => this.move(at, at + 1)),
      button(t.remove, () => this.drop(at))]);
  }

  open(at) {
    this.opened = at;
    this.draw();
    this.element.querySelectorAll(".entries > li > details > summary")[at]?.focus();
  }

  add() {
    this.own.unshift(newEntry(this.standing.kind));
    this.open(0);
  }

  drop(at) {
    this.own.splice(at, 1);
    this.open(null);
  }

  move(from, to) {
    if (to < 0 || to >= this.own.length) return;
    this.own.splice(to, 0, ...this.own.splice(from, 1));
    this.open(to);
  }

  /** (A press in Share goes over no list that it did not show.) */
  async save(news = this.news(), isPress = false) {
    const [about, count] = [this.called, this.own.length];
    const fault = this.own.some(it => it.who === "") ? t.noWhom :
      count > MOST_ENTRIES ? t.listFull(count, MOST_ENTRIES) : "";
    if (fault) return tellFault(t.about(about, fault));
    const unknown = this.own.map(it => whomFault(it, this.roster)).filter(Boolean);
    const why = { title: `${t.saveList}?`, words: t.noControl, does: t.saveList };
    if (unknown.length && !await ask({ title: `${t.setAllTheSame}?`, does: t.setAllTheSame,
      words: unknown.map(it => t.countsForNobody(it)) }) || !this.keepsControl && !await ask(why)) return false;
    const now = await this.app.attempt(about, async () => {
      const its = await this.room.run("GETLIST", this.place.path);
      if (isAlike(its, this.list)) await this.set();
      else if (isPress) throw new Error(`${t.changed}. ${t.lookAgain}`);
      return its;
    });
    if (isPress && !now) await this.again();
    const isSet = now && (isAlike(now, this.list) || await this.settle(now));
    if (isSet) await this.end(news);
    return isSet;
  }

  async end(news) {
    const { app, object } = this;
    const found = await app.attempt(this.called, () => shutOut(this, object, news));
    const changes = this.changes.splice(0);
    const told = found ? await helpThem(this, object, news, found, changes) : "";
    const words = `${t.listSet} ${told}`.trim();
    const undo = this.keepsControl && this.undo(changes);
    await app.done(news.length ? [words, " ", letterOf(this.place)] : words, null, undo);
  }

  news() {
    const before = ownOf(this.list);
    return this.own.filter(it => !isDeny(it) && !before.some(other => isAlike(it, other)));
  }

  setTo = async (own, news, isFollowing = follows(this.aclflag)) => {
    const [had, isPress] = [[this.own, this.aclflag], !this.element.isUnsaved()];
    Object.assign(this, { own, aclflag: withFollows(this.aclflag, isFollowing) });
    if (!await this.save(news, isPress)) [this.own, this.aclflag] = had;
  };

  async tellMore(panel, questions) {
    const { room, object, list } = this;
    const handed = await origins(room, object.path, this.inherited.filter(it => !isDeny(it)));
    for (const [it, folder] of handed) panel.tellFrom(whomOf(it), this.linkTo(folder));
    const found = await shutOut(this, object, list.entries.filter(it => !isDeny(it)), questions);
    for (const its of Map.groupBy(found, ({ whom }) => JSON.stringify(whom)).values()) {
      const [isBarred, who] = [its.some(it => it.folders.length), named(its)];
      const words = isBarred ? t.cannotReach(who) : t.lacksStill(who, rightsIn(its[0].lacks, object.kind));
      panel.tellShut(its[0].whom, words, isBarred && this.mayChange && (() => this.allow(its)));
    }
  }

  async allow(found) {
    const [changes, { whom }] = [[], found[0]];
    const entries = this.list.entries.filter(it => !isDeny(it) && isAlike(whomOf(it), whom));
    const isDone = await this.app.attempt(t.letPass, () => letAll(this, this.object, entries, found, changes));
    if (isDone) await this.app.done(t.allCan([whomText(whom)]), null, this.undo(changes));
  }

  undo = changes => () => setBack(this.room, changes)
    .then(() => this.app.done(t.listBack), fault => this.again().then(() => Promise.reject(fault)));

  async set(before = this.list) {
    const { room, object: { path, kind } } = this;
    const manifest = kind === LARGE && await room.look("READ", inFolder(path, MANIFEST));
    this.changes.push(await setList(room, path, before, { aclflag: this.aclflag, entries: this.own }));
    this.start = this.text;
    if (kind === LARGE) await secure(room, path, manifest?.data, { ...NOBODY, fail: tellFault });
  }

  async settle(now) {
    const parts = [[t.theirs, now.aclflag, ownOf(now)], [t.yours, this.aclflag, this.own]].map(([title, its, own]) =>
      [make("h3", title), this.place.path === ROOT ? [] : follows(its) ? `${t.takesOver}.` : t.alone,
        sentences(own, this.standing)]);
    const chosen = await ask({ title: t.changed, task: () => this.set(now), words: parts, isFinal: true,
      does: t.setAllTheSame, others: [{ words: t.takeTheirs, value: "theirs" }] });
    if (chosen === "theirs") await this.again();
    return chosen === true;
  }
}

async function changers(app, path, kind) {
  const users = await new Seers(app).able({ path, kind }, WRITE_LIST);
  return `${t.onlySeen} ${users?.length ? t.canChange(named(users.map(user => ({ user })))) : t.askAnyOwner}`;
}

export async function showAccess(app, place) {
  const questions = new Questions({ ...app });
  await questions.object(place.path); // (no newer than what is shown)
  const its = await standingAt(app.room, place.path);
  const list = await orFault(app.room.run("GETLIST", place.path));
  if (list instanceof Refusal) return [...head(place), faultLine(list.message)];
  const [roster, rights] = await Promise.all([app.room.users(), rightsOn(app.room, place.path)]);
  const mayChange = (rights & WRITE_LIST) !== 0;
  const view = new ListView(app, place, its, list, roster, mayChange);
  view.draw();
  const detail = () => {
    more.open = true;
    more.querySelector("summary").focus();
  };
  const panel = new SharePanel(its, { own: view.own, handed: view.inherited }, roster, { detail, user: app.user,
    set: mayChange && view.setTo,
    changers: mayChange || await changers(app, place.path, its.kind),
    way: !isPrivate(list, its.owner) ? its.owner === app.user && [t.makePrivate, () =>
      view.setTo(entriesOf("all", { id: "user", name: its.owner }, its.kind), [], false)] :
      mayChange && place.path !== ROOT && !isTrash(place.path) && [t.asAbove, () =>
        view.setTo(view.own, [], true)] });
  view.tellMore(panel, questions).catch(() => {});
  const more = make("details.exceptions", { open: isDetailed }, make("summary", t.details),
    make("p.about", ownedWords(its)), make("p", t.aboutList), view.element);
  more.ontoggle = () => { isDetailed = more.open; };
  return [...head(place), panel.element, more, Object.assign(knownNames(roster), { questions })];
}
