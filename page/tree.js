/** A field that holds a folder: a tree that opens as it is walked, and folders that were chosen before. */
import { FOLDER, LARGE, NOTDIR, ROOT, GaveUp, ask, button, byName, calledIn, clean, foldersAbove, icon, inFolder,
  isInTrash, isPart, isWithin, kindBy, latest, lookInto, make, nameIn, nameInput, nameText, shown, t,
  tellIt } from "./shared.js";

const MOST_RECENT = 4;
const LIKE_FILE = /\.[^.]{1,5}$/; // of such folders it is asked whether they are large files

async function foldersIn(room, path) {
  const names = await room.list(path);
  if (kindBy(names) !== FOLDER) throw new Error(t.refusals[NOTDIR]);
  const found = names.filter(([name, kind]) => kind === FOLDER && !isPart(name)).sort(byName);
  const isFile = await Promise.all(found.map(([name]) =>
    LIKE_FILE.test(name) && lookInto(room, inFolder(path, name)).then(it => it.kind === LARGE)));
  return found.filter((_, at) => !isFile[at]).map(([name]) => inFolder(path, name));
}

export class FolderTree {
  /** `barred` are paths of what is to go there. */
  constructor(app, barred, value) {
    Object.assign(this, { app, barred, value, items: new Map() });
    this.told = make("p", { role: "status" });
    this.legend = make("legend");
    this.list = make("ul.tree", { role: "tree", ariaLabel: t.toFolder, onkeydown: event => this.key(event),
      onclick: event => this.click(event) });
    const folders = latest(app).filter(([it, isFolder]) => isFolder && it !== value && !this.isBarred(it));
    const recent = folders.slice(0, MOST_RECENT).map(([it]) =>
      button(nameText(this.nameOf(it)), () => this.goTo(it), { className: "small", title: shown(it) }));
    this.element = make("fieldset.chooser", this.legend, recent.length > 0 && make("p", t.latest, " ", recent),
      this.list, this.told, make("p", button(t.newFolder, () => this.makeHere(), "small")));
    this.list.append(this.item(ROOT));
    this.tell();
    this.goTo(value);
  }

  nameOf = path => nameIn(this.app.room.name, path);
  isBarred = path => isInTrash(path) || this.barred.some(it => isWithin(path, it));

  tell() {
    this.legend.replaceChildren(t.toFolder, make("b", nameText(calledIn(this.app.room.name, this.value))));
  }

  item(path) {
    const it = make("li", { role: "treeitem", tabIndex: -1, ariaExpanded: "false", ariaSelected: "false" },
      make("span", icon("folder"), nameText(this.nameOf(path))));
    it.path = path;
    this.items.set(path, it);
    return it;
  }

  choose(it) {
    this.value = it.path;
    for (const other of this.items.values()) {
      other.ariaSelected = other === it;
      other.tabIndex = other === it ? 0 : -1;
    }
    this.tell();
  }

  async goTo(path) {
    this.value = path;
    for (const folder of foldersAbove(path)) await this.open(this.items.get(folder));
    const it = this.items.get(path) ?? this.items.get(ROOT);
    if (this.value !== path) return;
    this.choose(it);
    await this.open(it);
    it.scrollIntoView({ block: "nearest" });
  }

  open(it) {
    if (it?.ariaExpanded === "false") it.opening = this.#open(it);
    return it?.opening;
  }

  async #open(it) {
    Object.assign(it, { ariaExpanded: "true", ariaBusy: "true" });
    this.told.textContent = "";
    try {
      const folders = (await foldersIn(this.app.room, it.path)).filter(path => !this.isBarred(path));
      if (!folders.length) it.ariaExpanded = null;
      else it.append(make("ul", { role: "group" }, folders.map(path => this.item(path))));
    } catch (fault) {
      it.ariaExpanded = "false";
      this.told.textContent = fault.message;
      if (fault instanceof GaveUp) tellIt(fault);
    }
    it.ariaBusy = null;
  }

  close(it) {
    for (const inside of it.querySelectorAll("li")) this.items.delete(inside.path);
    it.querySelector("ul")?.remove();
    it.ariaExpanded = "false";
  }

  click(event) {
    const it = event.target.closest("li");
    if (!it) return;
    this.choose(it);
    it.focus();
    return this.open(it);
  }

  async key(event) {
    const [it, all] = [event.target.closest("li"), [...this.list.querySelectorAll("li")]];
    const [at, isOpen] = [all.indexOf(it), it.ariaExpanded === "true"];
    const goals = { ArrowDown: all[at + 1], ArrowUp: all[at - 1], Home: all[0], End: all.at(-1),
      ArrowLeft: isOpen ? null : it.parentNode.closest("li"), ArrowRight: isOpen ? it.querySelector("li") : null };
    if (!(event.key in goals)) return;
    event.preventDefault();
    const goal = goals[event.key];
    if (goal) {
      this.choose(goal);
      goal.focus();
    } else if (event.key === "ArrowRight") await this.open(it);
    else if (event.key === "ArrowLeft" && isOpen) this.close(it);
  }

  async makeHere() {
    const [name, above] = [nameInput(), this.value];
    const path = () => inFolder(above, clean(name.value));
    const isDone = await ask({ title: t.newFolder, does: t.make, fields: [[t.heads.name, name]],
      task: () => this.app.room.run("MKDIR", path()) });
    if (!isDone) return;
    const it = this.items.get(above);
    if (it) this.close(it);
    await this.goTo(path());
    this.items.get(path())?.focus();
  }
}
