/** The table of what is in a folder, or was found: heads sort, keys walk, several rows are chosen. */
import { rightsOn } from "./actions.js";
import { downloadAll } from "./downloads.js";
import { copyTo, move, putAllBack, remove } from "./moving.js";
import { Details, Row } from "./rows.js";
import { DELETE, DELETE_CHILD, Seers, SmallPictures, button, forEach, inOrder, isOwnTrash, make, offered, pointOf, t,
  tellIt } from "./shared.js";

const SORT = "fileroom/sort";
const WIDTH_WHO = 2; // rows of which it is asked at once who can see them
const PAUSE = 700; // milliseconds after which letters begin anew

const BY = {
  name: () => 0,
  kind: (one, other) => one.kindName === other.kindName ? 0 : inOrder(t.kinds[one.kindName], t.kinds[other.kindName]),
  size: (one, other) => (one.its?.size ?? -1) - (other.its?.size ?? -1),
  where: (one, other) => inOrder(one.folder, other.folder),
  when: (one, other) => (one.change?.when ?? 0) - (other.change?.when ?? 0),
};
const HEADS = ["name", "where", "who", "when", "kind", "size"];
const rowOf = event => (event.target.closest("[popover]") ? null : event.target.closest("tr")?.row);

class ChosenBar {
  constructor(things) {
    const { app, place } = things;
    Object.assign(this, { things, turn: 0 });
    this.words = make("span", { role: "status" });
    this.buttons = offered([[isOwnTrash(app, place.path), [t.putBack, putAllBack]], [true, [t.move, move]],
      [true, [t.copy, copyTo]], [true, [t.download, (_, paths) => downloadAll(app, place.path, paths)]],
      [true, [t.remove, remove]]]).map(([words, does]) =>
      button(words, () => does(app, things.chosen.map(it => it.path))));
    const remover = this.buttons.at(-1);
    this.remove = () => remover.hidden || remover.click();
    this.element = make("div.tools.chosen", { role: "group", ariaLabel: t.chosenLabel, hidden: true },
      this.words, this.buttons, button(t.chooseNone, () => {
        things.choose([]);
        things.keys.at.focus({ preventScroll: true });
      }));
  }

  async show(rows) {
    const turn = this.turn += 1;
    this.words.textContent = rows.length ? t.chosen(rows.length) : "";
    this.element.hidden = !rows.length;
    document.querySelector("#main .tools.makers")?.toggleAttribute("hidden", rows.length > 0);
    const mayRemove = this.things.rights?.own & DELETE_CHILD ||
      (await Promise.all(rows.map(it => rightsOn(it.app.room, it.path)))).every(it => it & DELETE);
    if (turn !== this.turn) return;
    for (const it of this.buttons) it.hidden = !mayRemove && ![t.copy, t.download].includes(it.textContent);
  }
}

const nearest = (all, at) => all[Math.max(Math.min(at, all.length - 1), 0)];

class GridKeys {
  constructor(things) {
    Object.assign(this, { things, letters: "", typedAt: 0, at: null });
    things.table.onkeydown = event => event.target.closest("[popover]") || this.key(event);
    this.stand(things.shown[0].link);
  }

  stand(element) {
    if (![this.things, ...this.things.shown].some(it => it.stops.includes(element))) return;
    if (this.at) this.at.tabIndex = -1;
    this.at = element;
    element.tabIndex = 0;
  }

  key(event) {
    const lines = [this.things, ...this.things.shown].map(it => it.stops.filter(one => one.checkVisibility()));
    const line = lines.findIndex(it => it.includes(event.target));
    if (line < 0) return;
    const column = lines[line].indexOf(event.target);
    const [row, isMany] = [this.things.shown[line - 1], event.ctrlKey || event.metaKey];
    const goals = { ArrowDown: [line + 1, column], ArrowUp: [line - 1, column], ArrowLeft: [line, column - 1],
      ArrowRight: [line, column + 1], Home: [1, column], End: [lines.length - 1, column] };
    const goal = !event.altKey && goals[event.key];
    if (goal) {
      if (event.shiftKey && row) this.things.last ??= row;
      nearest(nearest(lines, goal[0]), goal[1])?.focus();
      const now = this.things.shown[goal[0] - 1];
      if (event.shiftKey && now) this.things.chooseTo(now);
    } else if (!this.does(event, row, isMany) && !this.search(event, line - 1, isMany)) return;
    event.preventDefault();
  }

  does(event, row, isMany) {
    const [{ things }, { key }] = [this, event];
    if (isMany && key === "a") things.choose(things.rows);
    else if (key === "Escape" && things.chosen.length) things.choose([]);
    else if (key === " " && event.target === row?.link) things.toggle(row);
    else if (key === "Delete" && things.chosen.length) things.bar.remove();
    else if (["F2", "Delete"].includes(key) && row) row.press(key === "F2" ? "rename" : "remove");
    else return false;
    return true;
  }

  search(event, line, isMany) {
    if (event.key.length !== 1 || " /".includes(event.key) || isMany || event.altKey) return false;
    const isNew = event.timeStamp - this.typedAt > PAUSE;
    this.letters = (isNew ? "" : this.letters) + event.key.toLowerCase();
    this.typedAt = event.timeStamp;
    const rows = this.things.shown;
    const start = this.letters.length > 1 ? Math.max(line, 0) : line + 1;
    const order = [...rows.slice(start), ...rows.slice(0, start)];
    order.find(it => it.called.toLowerCase().startsWith(this.letters))?.link.focus();
    return true;
  }
}

/** `names` are `[NAME, KIND]`, or with `rights` null what was found, `[NAME, KIND, FOLDER]`. */
export class Things {
  constructor(app, place, names, rights, changes = null) {
    const [isFound, isThrown] = [rights === null, isOwnTrash(app, place.path)];
    Object.assign(this, { app, place, rights, last: null, isFound, inSight: new Set(),
      isShared: place.view === "shared" });
    const without = [...isFound ? [] : ["where"], ...changes ? isFound ? ["who", "kind"] : [] : ["when"],
      ...isThrown ? ["who"] : []];
    this.columns = HEADS.filter(it => !without.includes(it));
    const [by, isDown] = isFound && changes ? ["when", "down"] : (localStorage.getItem(SORT) ?? "name").split(" ");
    this.sort = { by: this.columns.includes(by) ? by : "name", isDown: Boolean(isDown) };
    [this.pictures, this.seers] = [new SmallPictures(app.room), new Seers(app)];
    this.rows = names.map(it => new Row(this, it));
    this.bodies = [make("tbody"), make("tbody")]; // folders, and documents behind them
    this.bar = new ChosenBar(this);
    this.table = make(isThrown ? "table.things.thrown" : "table.things", { role: "grid", ariaLabel: t.contents,
      ariaMultiSelectable: "true", onclick: event => this.click(event), ondblclick: event => this.open(event),
      oncontextmenu: event => this.menu(event) }, this.head(), this.bodies);
    this.details = new Details(this);
    this.table.addEventListener("focusin", event => {
      this.keys.stand(event.target);
      if (rowOf(event)) this.details.show(rowOf(event));
    });
    this.element = make("div.listed", this.table, this.details.element);
    this.draw();
    this.keys = new GridKeys(this);
    this.watch();
    const dated = changes?.then(found => this.tellWhen(found)).catch(() => {});
    this.inOrder = { size: () => this.lookAtAll(), when: () => dated }[this.sort.by]?.() ?? null;
  }

  head() {
    const onchange = () => this.choose(this.all.checked ? this.rows : []);
    this.all = make("input", { type: "checkbox", tabIndex: -1, ariaLabel: t.chooseAll, onchange });
    this.heads = this.columns.map(by => {
      const its = by in BY && button(t.heads[by], () => this.sortBy(by), { tabIndex: -1 });
      const words = its || t.heads[by === "who" && this.isShared ? "owner" : by];
      return { by, button: its, cell: make(`th.${by}`, { scope: "col" }, words) };
    });
    return make("thead", make("tr", make("td.tick", this.all), this.heads.map(it => it.cell), make("td.own")));
  }

  get stops() { return [this.all, ...this.heads.map(it => it.button).filter(Boolean)]; }
  get shown() { return this.bodies.flatMap(it => [...it.rows].map(({ row }) => row)); }
  get chosen() { return this.shown.filter(it => it.tick.checked); }

  draw() {
    const { by, isDown } = this.sort;
    const [sorted, turn] = isDown ? ["descending", -1] : ["ascending", 1];
    for (const it of this.heads.filter(one => one.button)) it.cell.ariaSort = it.by === by ? sorted : "none";
    const rows = [...this.rows].sort((one, other) => BY[by](one, other) * turn ||
      inOrder(one.name, other.name) * (by === "name" ? turn : 1));
    const isMixed = this.isFound && by === "when";
    this.bodies.forEach((it, at) => it.replaceChildren(
      ...rows.filter(row => (isMixed || row.isFolder) === !at).map(({ element }) => element)));
  }

  async sortBy(by) {
    this.sort = { by, isDown: this.sort.by === by ? !this.sort.isDown : by === "when" };
    localStorage.setItem(SORT, `${by}${this.sort.isDown ? " down" : ""}`);
    this.draw();
    if (by === "size") await this.lookAtAll();
  }

  lookAtAll = () => forEach(this.rows, it => it.look()).catch(tellIt).then(() => this.draw());

  tellWhen(found) {
    for (const it of this.rows) it.tellWhen(found.get(it.path));
    if (this.sort.by === "when") this.draw();
  }

  watch() {
    this.seen = new IntersectionObserver(entries => {
      for (const { target: { row }, isIntersecting } of entries) {
        this.inSight[isIntersecting ? "add" : "delete"](row);
        if (isIntersecting) row.look().catch(tellIt);
      }
      this.tellWho();
    });
    for (const it of this.rows) this.seen.observe(it.element);
  }

  renew() {
    this.seers.renew();
    for (const it of this.rows) {
      if (!it.picture.className) it.looked = null;
      this.seen.observe(it.element);
    }
  }

  async tellWho() {
    if (this.isTelling || !this.columns.includes("who")) return;
    this.isTelling = true;
    while (this.inSight.size) {
      await forEach(this.inSight, row => {
        this.inSight.delete(row);
        this.seen.unobserve(row.element);
        return row.tellWho().catch(() => {});
      }, WIDTH_WHO);
    }
    this.isTelling = false;
  }

  add(entry) {
    const row = new Row(this, entry);
    this.rows.push(row);
    this.bodies[1].append(row.element); // (all others stay where they are)
    this.seen.observe(row.element);
  }

  choose(rows) {
    const chosen = new Set(rows);
    for (const it of this.rows) it.choose(chosen.has(it));
    this.all.checked = chosen.size === this.rows.length;
    this.all.indeterminate = chosen.size > 0 && !this.all.checked;
    this.bar.show(this.chosen);
  }

  toggle(row) {
    const others = this.chosen.filter(it => it !== row);
    this.last = row;
    this.choose(row.element.ariaSelected === "true" ? others : [...others, row]);
  }

  chooseTo(row) {
    const [rows, start] = [this.shown, this.last ?? this.shown[0]];
    const ends = [rows.indexOf(start), rows.indexOf(row)].sort((a, b) => a - b);
    this.choose(rows.slice(ends[0], ends[1] + 1));
    this.last = start;
  }

  click(event) {
    const [row, isMany, { target, shiftKey }] = [rowOf(event), event.ctrlKey || event.metaKey, event];
    if (row && event.detail > 1) return event.preventDefault(); // (one click opens)
    if (!row || target.closest("button")) return;
    if (target === row.tick && !shiftKey) return this.toggle(row);
    if (target.closest("a") && !isMany && !shiftKey) return;
    if (target !== row.tick) event.preventDefault();
    if (shiftKey) this.chooseTo(row);
    else if (isMany) this.toggle(row);
    else this.choose([this.last = row]);
    row.link.focus({ preventScroll: true });
  }

  open(event) {
    if (!event.target.closest("a, button, input")) rowOf(event)?.link.click();
  }

  menu(event) {
    const row = rowOf(event);
    if (!row) return;
    event.preventDefault();
    row.more.show(event.button === 2 ? pointOf(event) : null); // (by key below its button)
  }
}
