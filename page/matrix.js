/** The view of who may do what: users and objects, and what the room says of each pair. */
import { head } from "./heads.js";
import { ALL, FOLDER, LEGEND, NOT_KNOWN, ROOT, SEVERAL, SHUT_OUT, Questions, askedOf, button, byName, calledIn,
  deciding, displayName, faultLine, forEach, inFolder, inOrder, kindBy, labelled, levelOf, make, nameIn, nameText,
  personText, rightsIn, ruling, shown, standing, t, whomOf } from "./shared.js";

const MOST_USERS = 20; // columns of users, or of one group's members
const MOST_GROUPS = 60; // columns of groups
const MOST_TOLD = 10; // members of a group
const MOST_OBJECTS = 40; // rows, and more each time

class Cells {
  constructor(questions) {
    Object.assign(this, { questions, room: questions.app.room.name });
    this.detail = make("p.detail", { role: "status" }, t.chooseCell);
  }

  async levelAt({ path, kind }, user, groups) {
    const [allowed, { folders: [barrier], isKnown }] = await Promise.all([
      this.questions.mayDo({ path, kind }, user, groups), this.questions.barriers(path, user, groups)]);
    const level = barrier ? SHUT_OUT : allowed === null ? NOT_KNOWN : levelOf(allowed, kind);
    return { allowed, barrier, isPassKnown: isKnown || Boolean(barrier), level };
  }

  async why({ path, kind }, user, groups) {
    const object = await this.questions.object(path);
    const how = { rights: askedOf(ALL, kind), allowed: await this.questions.allowed(path, user, groups) };
    const places = object && groups && deciding(object, user, groups, how);
    if (!places) return "";
    const entries = places.map(at => `${at + 1}. ${ruling(object.entries[at], kind, object)}`).join(" ");
    const why = entries ? t.whyEntries(entries) : t.noEntry(personText(user));
    return why + (user === object.owner ? t.ownersAlways : "");
  }

  async told(object, user, groups, { allowed, barrier, isPassKnown }) {
    const [name, above] = [object.path, barrier ?? ""].map(it => shown(calledIn(this.room, it)));
    const who = personText(user);
    if (allowed === null && !barrier) return t.mayUnknown(who, name, NOT_KNOWN.tells);
    const rights = rightsIn(askedOf(allowed, object.kind), object.kind);
    const may = allowed === null ? "" :
      t.mayDo(name, who, rights.length ? rights : t.doNothing, await this.why(object, user, groups));
    if (barrier) return t.barred(who, above, name, may);
    return isPassKnown ? may : t.barUnknown(may, who);
  }

  cell(level, word, title, words = title) {
    return make(`td.${level.name}`, button(word, () => { this.detail.textContent = words; }, { title }));
  }

  async ofUser(object, [user, groups]) {
    const its = await this.levelAt(object, user, groups);
    const mark = its.isPassKnown || its.level === NOT_KNOWN ? "" : "?";
    return this.cell(its.level, its.level.word + mark, await this.told(object, user, groups, its));
  }

  async ofGroup(object, users) {
    const all = await Promise.all(users.map(async ([user, groups]) =>
      ({ user, level: (await this.levelAt(object, user, groups)).level })));
    const found = [...Map.groupBy(all, ({ level }) => level.word).values()].sort((a, b) => b.length - a.length);
    const both = found.slice(0, 2).map(([it]) => it.level.word).join(" / ") + (found.length > 2 ? " …" : "");
    const some = its =>
      [...its.slice(0, MOST_TOLD).map(({ user }) => personText(user)), ...its.length > MOST_TOLD ? ["…"] : []];
    const words = found.map(its => t.about(its[0].level.word, `${its.length} (${some(its).join(", ")}).`)).join(" ");
    const level = found.length === 1 ? found[0][0].level : SEVERAL;
    return this.cell(level, both, words, t.about(shown(object.path), words));
  }

  async row({ path, kind }, columns) {
    const object = { path, kind: await this.questions.kindOf({ path, kind }) };
    const cells = await Promise.all(columns.map(({ isGroup, users }) =>
      (isGroup ? this.ofGroup(object, users) : this.ofUser(object, users[0]))));
    const end = object.kind === FOLDER && path !== ROOT && "/";
    return make("tr", make("th", { scope: "row" }, nameText(nameIn(this.room, path)), end), cells);
  }

  async table(objects, columns, open) {
    const named = Map.groupBy(columns, it => it.isGroup || displayName(it.title));
    const called = user => (named.get(displayName(user)).length > 1 ? personText(user) : displayName(user) || user);
    const titles = columns.map(it => make("th", { scope: "col", title: it.isGroup ? "" : personText(it.title) },
      it.isGroup ? button([nameText(it.title), ` (${it.users.length})`], () => open(it),
        { ariaExpanded: String(it.isOpen) }) : nameText(called(it.title))));
    const rows = [];
    await forEach([...objects.entries()], async ([at, it]) => { rows[at] = await this.row(it, columns); });
    return make("div.wide", { tabIndex: 0, role: "region", ariaLabel: t.whoMay }, make("table.matrix",
      make("thead", make("tr", make("th", { scope: "col" }, t.heads.name), titles)), make("tbody", rows)));
  }
}

async function usersOf(app, questions, objects) {
  const roster = await app.room.users();
  if (roster) return Object.entries(roster);
  const seen = new Set([app.user]);
  for (const { path } of objects) {
    const { entries, owner } = await questions.object(path) ?? { entries: [], owner: app.user };
    for (const it of entries) if (whomOf(it).id === "user") seen.add(it.who);
    seen.add(owner);
  }
  return [...seen].map(user => [user, null]);
}

async function objectsOf({ room }, path) {
  const { kind } = await room.standing(path);
  const inside = kind === FOLDER && await room.names(path) || [];
  const names = kindBy(inside) === FOLDER ? inside : []; // (a large file has one row)
  return [{ path, kind }, ...names.toSorted(byName).map(([name, its]) => ({ path: inFolder(path, name), kind: its }))];
}

function groupsOf(users) {
  const all = users.flatMap(it => (it[1]?.length ? it[1] : [""]).map(group => ({ group, it })));
  return [...Map.groupBy(all, ({ group }) => group)].map(([group, its]) =>
    ({ title: group || t.noGroup, isGroup: true, isLast: group === "", users: its.map(({ it }) => it) }))
    .sort((a, b) => a.isLast - b.isLast || inOrder(a.title, b.title));
}

class MatrixView {
  constructor(app, questions, objects, users) {
    Object.assign(this, { app, objects, users, count: MOST_OBJECTS, word: "", opened: new Set() });
    this.groups = users.length > MOST_USERS ? groupsOf(users) : [];
    this.cells = new Cells(questions);
    this.element = make("div");
  }

  columns() {
    const has = name => name.toLowerCase().includes(this.word.toLowerCase());
    const members = users => users.slice(0, MOST_USERS).map(it => ({ title: it[0], users: [it] }));
    if (!this.groups.length) return members(this.users);
    const users = this.word ? this.users.filter(([user]) => has(personText(user))) : [];
    const groups = this.groups.filter(({ title }) => has(title)).slice(0, MOST_GROUPS);
    this.told = this.word ? t.narrow(t.shownOf(Math.min(users.length, MOST_USERS)), users.length, groups.length) :
      t.narrow("", this.users.length, this.groups.length);
    return [...groups.flatMap(it => {
      const isOpen = this.opened.has(it.title);
      return [{ ...it, isOpen }, ...isOpen ? members(it.users) : []];
    }), ...members(users)];
  }

  async draw() {
    const open = ({ title }) => this.change(() => this.opened.delete(title) || this.opened.add(title));
    const its = await this.cells.table(this.objects.slice(0, this.count), this.columns(), open);
    const field = make("input", { type: "search", value: this.word });
    field.onchange = () => this.change(() => { this.word = field.value.trim(); });
    const left = this.objects.length - this.count;
    const more = button(t.showMore(left), () => this.change(() => { this.count += MOST_OBJECTS; }));
    const top = this.groups.length > 0 && labelled(this.told, field);
    this.element.replaceChildren(make("div", top, its, left > 0 && more));
  }

  change(task) {
    const back = standing();
    return this.app.attempt(t.whoMay, async () => {
      task();
      await this.draw();
    }).then(back);
  }
}

export async function showMatrix(app, place) {
  const questions = new Questions(app);
  const objects = await objectsOf(app, place.path);
  const users = await usersOf(app, questions, objects.slice(0, MOST_OBJECTS));
  const view = new MatrixView(app, questions, objects, users);
  await view.draw();
  const note = users.every(([, groups]) => groups) ? "" : faultLine(t.withoutRoster);
  const legend = LEGEND.map(({ name, word, tells }) => make("div", make(`dt.${name}`, word), make("dd", tells)));
  return [...head(place), note, view.element, view.cells.detail,
    Object.assign(make("dl.legend", legend), { questions })];
}
