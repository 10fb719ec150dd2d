/** What of a browser the page's modules ask for: a store, locks, and elements that hold texts and are pressed. Nothing
 * is drawn. A module is taken by `page`, once this one is there. */
import { webcrypto } from "node:crypto";

const held = new Map();
const items = {
  getItem: (key) => held.get(key) ?? null,
  setItem: (key, text) => { held.set(key, String(text)); },
  removeItem: (key) => { held.delete(key); },
};
const store = new Proxy(items, {
  ownKeys: () => [...held.keys()],
  getOwnPropertyDescriptor: (_, key) => ({ value: held.get(key), enumerable: true, configurable: true }),
});
export const kept = { clear: () => held.clear(), does: items };

const locks = new Map(); // from a name to those who wait for it, while somebody has it

export const tabs = {
  /** All tabs end, and with them their locks: whoever waits for one has it. */
  end() {
    const all = [...locks.values()].flat();
    locks.clear();
    for (const it of all) it();
  },
};

function request(name, options, does = options) {
  if (!locks.has(name)) {
    const waiting = [];
    locks.set(name, waiting);
    const done = Promise.resolve(does({ name }));
    const free = () => {
      if (locks.get(name) !== waiting) return; // (its tab has ended)
      locks.delete(name);
      for (const it of waiting) it();
    };
    done.then(free, free);
    return done;
  }
  if (options.ifAvailable) return Promise.resolve(does(null));
  return new Promise((goOn) => locks.get(name).push(() => goOn(request(name, options, does))));
}

const PART = /^([a-z][a-z0-9]*)?((?:\.[\w-]+)*)(?:\[([\w-]+)(?:='([^']*)')?\])?$/;

export class Element {
  onclick = null;
  onsubmit = null;
  onkeydown = null;
  oncancel = null;
  ontoggle = null;
  onchange = null;
  parentNode = null;
  hidden = false;
  checked = false;
  inert = false;
  className = "";
  value = "";
  role = "";
  id = "";

  constructor(tag) {
    Object.assign(this, { tagName: tag.toUpperCase(), childNodes: [], attributes: new Map(), style: {} });
    this.dataset = new Proxy({}, { get: (_, key) => this.attributes.get(`data-${key}`),
      set: (_, key, value) => Boolean(this.attributes.set(`data-${key}`, String(value))) });
  }

  setAttribute(key, value) { this.attributes.set(key, String(value)); }
  getAttribute(key) { return this.attributes.get(key) ?? null; }
  removeAttribute(key) { this.attributes.delete(key); }
  addEventListener() {}
  normalize() {}
  setSelectionRange() {}
  showModal() {}
  scrollIntoView() {}
  showPopover() {}
  hidePopover() {}
  getBoundingClientRect() { return { left: 0, top: 0, bottom: 0, width: 0, height: 0 }; }
  close() {}
  focus() { document.activeElement = this; }
  click() { return this.onclick?.({ target: this, preventDefault() {} }); }

  #taken(all) {
    for (const it of all.filter((one) => one instanceof Element)) {
      it.remove();
      it.parentNode = this;
    }
    return all.map((it) => (it instanceof Element ? it : String(it)));
  }

  append(...all) {
    const taken = this.#taken(all); // (first: what was in here already leaves its old place)
    this.childNodes.push(...taken);
  }

  prepend(...all) {
    const taken = this.#taken(all);
    this.childNodes.unshift(...taken);
  }

  replaceChildren(...all) { this.childNodes = this.#taken(all); }
  insertBefore(it) { this.append(it); }
  after(it) { this.parentNode.append(it); }

  remove() {
    if (this.parentNode) this.parentNode.childNodes = this.parentNode.childNodes.filter((it) => it !== this);
    this.parentNode = null;
  }

  get firstChild() { return this.childNodes[0] ?? null; }

  get textContent() {
    return this.childNodes.map((it) => (it instanceof Element ? it.textContent : it)).join("");
  }

  set textContent(text) { this.replaceChildren(text); }

  matches(selector) {
    return selector.split(", ").some((it) => {
      const [, tag, classes, key, value] = PART.exec(it) ?? [];
      return classes !== undefined && (!tag || tag.toUpperCase() === this.tagName) &&
        classes.split(".").filter(Boolean).every((one) => this.className.split(" ").includes(one)) &&
        (!key || this.attributes.has(key) && (value === undefined || this.attributes.get(key) === value));
    });
  }

  closest(selector) { return this.matches(selector) ? this : this.parentNode?.closest(selector) ?? null; }

  querySelectorAll(selector) {
    const below = this.childNodes.filter((it) => it instanceof Element);
    return below.flatMap((it) => [...it.matches(selector) ? [it] : [], ...it.querySelectorAll(selector)]);
  }

  querySelector(selector) { return this.querySelectorAll(selector)[0] ?? null; }
  contains(it) { return it === this || Boolean(it?.parentNode) && this.contains(it.parentNode); }
}

for (const name of ["AutoComplete", "Checked", "Current", "Expanded", "HasPopup", "Label", "MultiSelectable",
  "Selected"]) {
  const key = `aria-${name.toLowerCase()}`;
  Object.defineProperty(Element.prototype, `aria${name}`,
    { get() { return this.getAttribute(key); }, set(it) { this.setAttribute(key, it); } });
}

const listeners = new Map();
const parts = new Map();
const partOf = (id) => parts.get(id) ?? parts.set(id, put(new Element("section"), body)).get(id);

function put(it, into) {
  into.append(it);
  return it;
}

const body = new Element("body");
const document = { body, activeElement: body, documentElement: new Element("html"), getElementById: partOf,
  createElement: (tag) => new Element(tag), createElementNS: (_, tag) => new Element(tag),
  querySelector: (it) => body.querySelector(it), querySelectorAll: (it) => body.querySelectorAll(it) };

/** Does what the page does as something happens to its window. */
export const happens = (kind, event) => listeners.get(kind)?.forEach((it) => it(event));

/** The elements that are there of a selector, and the button of these words. */
export const shown = (selector) => body.querySelectorAll(selector);
export const buttonOf = (words) => shown("button").find((it) => it.textContent === words);

Object.assign(globalThis, { document, localStorage: store, Element, innerHeight: 0, scrollY: 0, scrollTo() {},
  addEventListener: (kind, does) => listeners.set(kind, [...listeners.get(kind) ?? [], does]),
  ResizeObserver: class { observe() {} }, getSelection: () => ({ isCollapsed: true }),
  location: { origin: process.env.ROOM, hash: "", reload() {
    throw new Error("reloaded");
  } } });
globalThis.crypto ??= webcrypto;
Object.defineProperty(globalThis, "navigator",
  { value: { languages: ["en"], locks: { request } }, configurable: true, writable: true });
// (which the node of Debian 12 lacks)
Array.prototype.toReversed ??= function () { return [...this].reverse(); };
Map.groupBy ??= (all, keyOf) => [...all].reduce((map, it) =>
  map.set(keyOf(it), [...map.get(keyOf(it)) ?? [], it]), new Map());

/** A module of the page; behind `?` another one of the same text. */
export const page = (name) => import(`${process.env.PAGE}/${name}.js`);
