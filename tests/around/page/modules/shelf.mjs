/** What stands in for a room and its session, at once and without rights: things by their paths, and what was asked. */
import { page } from "./browser.mjs";

const { Room } = await page("room");
const { folderOf, isWithin, lastName } = await page("names");
const OPEN = { aclflag: 1, entries: [{ type: 0, flag: 0x83, mask: 0x1f07ff, who: "EVERYONE@" }] };
const [NOENT, ISDIR, EXIST, NOTEMPTY] = [1, 3, 4, 6];

export class Shelf {
  constructor(user = "ann") {
    Object.assign(this, { user, things: new Map([["/", this.thing("folder")]]), asked: [], refuses: () => 0 });
  }

  thing(kind, data = "") {
    return { kind, data, owner: this.user, group: "eng", list: OPEN };
  }

  /** A document of these bytes, or with none a folder. */
  put(path, text, more = {}) {
    this.things.set(path, { ...this.thing(text === undefined ? "folder" : "file", text && btoa(text)), ...more });
  }

  async ask(command) {
    this.asked.push(command);
    const code = this.refuses(command) || this.#fault(command);
    return code ? { code, path: command.path, bit: 1 } : { code: 0, ...this[command.cmd](command) };
  }

  askAside(command) {
    return this.ask(command);
  }

  #fault({ cmd, path, to }) {
    const it = this.things.get(path);
    if (["CREATE", "MKDIR"].includes(cmd)) return it ? EXIST : this.things.has(folderOf(path)) ? 0 : NOENT;
    if (!it) return NOENT;
    if (cmd === "RENAME") return this.things.has(to) ? EXIST : this.things.has(folderOf(to)) ? 0 : NOENT;
    if (cmd === "REMOVE" && this.below(path).length > 1) return NOTEMPTY;
    if (cmd === "LIST" && it.kind === "file") return 2;
    return ["READ", "WRITE", "APPEND"].includes(cmd) && it.kind === "folder" ? ISDIR : 0;
  }

  below(path) {
    return [...this.things.keys()].filter((it) => path === "/" || isWithin(it, path));
  }

  names(path) {
    return [...this.things.keys()].filter((it) => it !== "/" && folderOf(it) === path).map(lastName).sort();
  }

  text(path) {
    return atob(this.things.get(path).data);
  }

  CREATE({ path, data }) { this.things.set(path, this.thing("file", data)); }
  MKDIR({ path }) { this.things.set(path, this.thing("folder")); }
  WRITE({ path, data }) { this.things.get(path).data = data; }
  READ({ path }) { return { data: this.things.get(path).data }; }
  APPEND({ path, data }) { this.things.get(path).data = btoa(this.text(path) + atob(data)); }
  REMOVE({ path }) { this.things.delete(path); }
  SETLIST({ path, aclflag, entries }) { this.things.get(path).list = { aclflag, entries }; }
  GETLIST({ path }) { return this.things.get(path).list; }
  CHOWN({ path, owner, group }) { Object.assign(this.things.get(path), { owner, group }); }
  ACCESS({ mask }) { return { allowed: mask }; }
  LIST({ path }) { return { names: this.names(path).map((it) => [it, this.things.get(path === "/" ? `/${it}` :
    `${path}/${it}`).kind]) }; }

  STAT({ path }) {
    const { kind, owner, group, data } = this.things.get(path);
    return { kind, owner, group, ...kind === "file" && { size: atob(data).length } };
  }

  RENAME({ path, to }) {
    for (const it of this.below(path)) {
      this.things.set(to + it.slice(path.length), this.things.get(it));
      this.things.delete(it);
    }
  }

  changes() {
    return this.asked.filter(({ cmd }) => !["STAT", "LIST", "READ", "GETLIST", "ACCESS"].includes(cmd));
  }
}

/** What of the page its actions ask for; `told` and `undo` are those of the newest. */
export function appOver(shelf) {
  const { user } = shelf;
  const app = { user, room: new Room("club", "/rooms/club", shelf, null, user), watched: null, told: "", undo: null,
    attempt: async (_, task) => await task() ?? true, show: async () => {}, ended: async () => {},
    done: async (words, moved, undo) => Object.assign(app, { told: words, undo }) };
  return app;
}
