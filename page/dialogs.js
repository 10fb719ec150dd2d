/** Dialogs stay until what they ask for is done, and ask before what is typed is lost. Menus, on a phone from below. */
import { standIn } from "./busy.js";
import { button, labelled, link, make, onSubmit, pickFiles } from "./dom.js";
import { clean, isTooLong, nameFault, shortened, shown } from "./names.js";
import { tellIt } from "./notices.js";
import { language, t } from "./words.js";

const SLOW = 500; // milliseconds after which it is told
const open = new Set();
const typed = new Set(); // each tells whether something typed is not done
const running = new Set(); // what ends with the page
let isEnding = false;

function added(set, it) {
  set.add(it);
  return () => set.delete(it);
}

export const watch = look => added(typed, look);
export const watchEnd = what => added(running, what);
export const isUnsaved = () => !isEnding && [...typed].some(it => it());

export const end = () => { isEnding = true; };
export const mayEnd = () => isEnding || !isUnsaved() && running.size === 0;

addEventListener("beforeunload", event => mayEnd() || event.preventDefault());

export const closeAll = () => open.forEach(it => it.end(null));

export async function untilClosed() {
  while (open.size > 0) await Promise.race([...open].map(it => it.closed));
}

class Dialog {
  constructor({ title, words, fields = [], does, faultOf = () => "", task = () => {}, others = [], wayOn,
    stays = t.cancel, isFinal = false }) {
    Object.assign(this, { faultOf, task, wayOn, first: isFinal && stays, fields: fields.map(([, field]) => field) });
    this.isText = this.fields.some(it => it.tagName === "TEXTAREA"); // (nobody misses a name)
    this.fault = make("p.fault", { role: "alert" });
    this.leaving = make("p.fault", { role: "alert", hidden: true }, t.unsaved, " ", button(t.typeOn, () => this.stay()),
      " ", button(t.discard, () => this.end(null)));
    this.atWork = make("p", { role: "status" });
    const leave = button(stays, () => this.leave());
    const texts = [words].flat(Infinity).map(it => (typeof it === "string" ? make("p", it) : it));
    const head = make("h2", does ? {} : { tabIndex: -1, autofocus: true }, title);
    this.form = make("form", { method: "dialog", onsubmit: onSubmit(() => this.submit()) }, head, texts,
      fields.map(([label, field]) => (label ? labelled(label, field) : field)), this.fault, this.isText && this.leaving,
      this.atWork, make("p.actions", isFinal && leave, does && make(isFinal ? "button" : "button.main", does),
        others.map(it => button(it.words, () => this.run(it.task ?? (() => {}), it.value))), !isFinal && leave));
    const told = texts.filter(it => it?.matches?.("p, ul")).map(it => it.textContent);
    this.element = make("dialog", { ariaLabel: title, ariaDescription: does ? told.join(" ") : null, closedby: "none",
      onkeydown: event => this.key(event),
      oncancel: event => event.target === this.element && event.preventDefault() }, this.form);
    this.start = this.now;
  }

  get now() { return JSON.stringify(this.fields.map(it => it.value)); }

  key(event) {
    const isSave = (event.ctrlKey || event.metaKey) && ["s", "Enter"].includes(event.key);
    if (event.key !== "Escape" && !isSave) return;
    event.preventDefault();
    event.stopPropagation();
    if (isSave) this.form.requestSubmit();
    else this.leave();
  }

  submit() {
    this.fault.textContent = this.fields.map(it => it.faultOf?.()).find(Boolean) ?? this.faultOf();
    if (!this.fault.textContent) this.run(this.task, true);
  }

  async run(task, value) {
    if (this.form.inert) return;
    const focused = document.activeElement;
    this.form.inert = true; // (which takes the focus away, and with it the keys)
    this.fault.textContent = "";
    const back = standIn(this.element);
    const slow = setTimeout(() => { this.atWork.textContent = t.working; }, SLOW);
    try {
      await task();
      this.end(value);
    } catch (fault) {
      this.fault.replaceChildren(fault.message, ...this.wayOn ? [" ", this.wayOn] : []);
    } finally {
      clearTimeout(slow);
      this.atWork.textContent = "";
      back();
      this.form.inert = false;
      if (open.has(this)) focused.focus();
    }
  }

  leave() {
    if (this.form.inert) return;
    if (this.now === this.start || !this.isText) return this.end(null);
    if (this.leaving.hidden) this.typedIn = this.fields.find(it => it === document.activeElement) ?? this.fields[0];
    this.leaving.hidden = false;
    this.leaving.querySelector("button").focus();
  }

  stay() {
    this.leaving.hidden = true;
    this.typedIn.focus();
  }

  end(value) {
    if (!open.delete(this)) return;
    this.unwatch();
    this.element.close();
    this.element.remove();
    this.tell(value);
  }

  show() {
    open.add(this);
    this.unwatch = watch(() => this.now !== this.start);
    document.body.append(this.element);
    this.element.showModal();
    if (this.first) [...this.form.querySelectorAll("button")].find(it => it.textContent === this.first).focus();
    this.closed = new Promise(tell => { this.tell = tell; });
    return this.closed;
  }
}

/** Asks for `fields`, `[LABEL, ELEMENT]`. `faultOf` tells why these will not do; `others` are buttons, `{words, value,
 * task}`; `stays` is the word of the one that closes, which has the focus where the task `isFinal`; `wayOn` stands by
 * its fault. Gives true, or the value of another button, once the task is done; null where it was closed. */
export const ask = how => new Dialog(how).show();

export const input = (value = "", how = {}) => make("input", { value, autocomplete: "off", spellcheck: false, ...how });

export function nameInput(value = "", how = {}) {
  const [field, hint] = [input(value, how), make("p.about", { role: "status" })];
  field.faultOf = () => nameFault(clean(field.value));
  const dot = value.lastIndexOf(".");
  field.addEventListener("focus", () => field.setSelectionRange(0, dot > 0 ? dot : value.length), { once: true });
  field.oninput = () => {
    const name = clean(field.value);
    const take = () => {
      field.value = shortened(name);
      hint.replaceChildren();
      field.focus();
    };
    hint.replaceChildren(...isTooLong(name) ?
      [nameFault(name), " ", button(t.shorten(shown(shortened(name))), take, "small")] : []);
    field.parentNode.after(hint);
  };
  return field;
}

export const area = (value = "", rows = 16) => make("textarea", { value, rows });

const inline = text => text.split("**").map((it, at) => (at % 2 ? make("b", it) : it));

/** (Each line begins a paragraph.) */
export async function showHelp() {
  const { help } = await import(`./help.${language}.js`);
  await ask({ title: t.help, words: help.trim().split(/\n(?! )/).map(it => make("p", inline(it))), stays: t.close });
}

const EDGE = 8; // pixels that stay free beside it
let shownNow = null;
export const isMenuOpen = () => Boolean(shownNow?.element.isConnected);

function itemElements(it, close) {
  const how = { role: it.isNow === undefined ? "menuitem" : "menuitemradio", ariaChecked: it.isNow, tabIndex: -1,
    className: it.isApart ? "apart" : "", lang: it.lang, title: it.about };
  if (it.href) return [link(it.href, it.words, { onclick: close, ...how })];
  const files = it.chosen && pickFiles(it.words, it.files, chosen => {
    close();
    it.chosen(chosen);
  });
  const press = () => {
    close();
    if (files) files.click();
    else it.does();
  };
  return [make("button", { type: "button", onclick: press, ...how }, it.words), ...files ? [files] : []];
}

class Menu {
  constructor(anchor, items, label, at) {
    Object.assign(this, { anchor, at });
    const elements = items.flatMap(it => itemElements(it, () => this.close()));
    this.items = elements.filter(it => it.role?.startsWith("menuitem"));
    this.element = make("div.menu", { role: "menu", popover: "auto", ariaLabel: label,
      onkeydown: event => this.key(event), ontoggle: event => event.newState === "closed" && this.closed() },
    make("p.menu-title", { "aria-hidden": "true" }, label), elements);
  }

  show() {
    shownNow?.close();
    shownNow = this;
    this.anchor.after(this.element);
    this.anchor.ariaExpanded = "true";
    this.element.showPopover();
    this.place();
    (this.element.querySelector("[aria-checked=true]") ?? this.items[0])?.focus();
  }

  place() {
    const [box, its] = [this.anchor.getBoundingClientRect(), this.element.getBoundingClientRect()];
    const { x, y } = this.at ?? { x: box.left, y: box.bottom };
    const above = this.at ? y : box.top;
    const top = y + its.height + EDGE > innerHeight ? Math.max(above - its.height, EDGE) : y;
    const left = Math.max(Math.min(x, document.documentElement.clientWidth - its.width - EDGE), EDGE);
    Object.assign(this.element.style, { left: `${left}px`, top: `${top}px` });
  }

  close() {
    const isIn = this.element.contains(document.activeElement);
    this.element.hidePopover();
    this.closed(isIn);
  }

  closed(isIn = document.activeElement === document.body) {
    if (shownNow !== this) return;
    shownNow = null;
    this.element.remove();
    this.anchor.ariaExpanded = "false";
    if (isIn) this.anchor.focus({ preventScroll: true });
  }

  key(event) {
    const at = this.items.indexOf(document.activeElement);
    const last = this.items.length - 1;
    const goals = { ArrowDown: at === last ? 0 : at + 1, ArrowUp: at <= 0 ? last : at - 1, Home: 0, End: last };
    const letter = event.key.length === 1 && event.key !== " " && event.key.toLowerCase();
    const goal = goals[event.key] ?? [...this.items.keys()].sort((a, b) => (a <= at) - (b <= at) || a - b)
      .find(it => letter && this.items[it].textContent.toLowerCase().startsWith(letter));
    if (["Tab", "Escape"].includes(event.key)) this.close();
    if (event.key === "Escape" || goal !== undefined) event.preventDefault();
    if (goal === undefined) return;
    event.stopPropagation();
    this.items[goal].focus();
  }
}

/** `items` are `{words, does}`, `{words, href}` or `{words, files, chosen}`. */
export const openMenu = (anchor, items, label, at) => new Menu(anchor, items, label, at).show();
export const offered = items => items.filter(([isOffered]) => isOffered).map(([, it]) => it);
export const pointOf = event => ({ x: event.clientX, y: event.clientY });

export function menuButton(words, how, itemsOf, label) {
  const its = make("button", { type: "button", ariaHasPopup: "menu", ariaExpanded: "false", ...how }, words);
  const open_ = async at => openMenu(its, await itemsOf(), label, at);
  let opening = null;
  its.show = at => { opening ??= open_(at).catch(tellIt).finally(() => { opening = null; }); };
  its.onclick = () => its.show();
  return its;
}
