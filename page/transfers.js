/** What goes on beside the page: how far it is, and an end to it. */
import { ask, besideIt, button, language, lastName, make, part, say, settle, shown, t, tellFaults,
  watchEnd } from "./common.js";
import { NOBODY } from "./reading.js";

class Cancelled extends Error {}
const { format: inTenths } = new Intl.NumberFormat(language, { minimumFractionDigits: 1, maximumFractionDigits: 1 });

export function sizeWords(bytes) {
  if (bytes < 1_024) return t.bytes(bytes);
  const [count, unit] = bytes < 2 ** 20 ? [bytes / 1_024, "KiB"] : [bytes / 2 ** 20, "MiB"];
  return `${count < 10 ? inTenths(count) : Math.round(count)} ${unit}`;
}

class Transfer {
  constructor(app, title, { total, unit = sizeWords, about }) {
    Object.assign(this, { app, title, total, unit, about, notes: [], faults: [], done: 0, isCancelled: false });
    this.start = performance.now();
    this.bar = make("progress", { max: Math.max(total, 1), value: 0, ariaLabel: title });
    this.words = make("span");
    this.element = make("p.transfer", make("span", title), this.bar, this.words,
      button(t.cancel, () => this.cancel(), "small"));
    this.add(0);
  }

  get seconds() { return inTenths((performance.now() - this.start) / 1_000); }

  quiet = () => ({ ...NOBODY, check: () => this.check(), fail: words => this.fail(words) });

  /** Behind the answer faults alone are told, once it has ended. */
  behind() {
    const [title, faults] = [this.title, []];
    return { ...NOBODY, fail: words => faults.push({ words, about: this.about }),
      tell: () => tellFaults(title, faults) };
  }

  cancel() {
    this.isCancelled = true;
    this.words.textContent = t.ends;
  }

  check() {
    if (this.isCancelled) throw new Cancelled();
  }

  add(count) {
    this.done += count;
    this.bar.value = this.done;
    if (!this.isCancelled) this.words.textContent = t.ofAll(this.unit(this.done), this.unit(this.total));
  }

  note = words => this.notes.push(words);
  fail = (words, about = this.about) => this.faults.push({ words, about });

  /** Somebody else wrote a version meanwhile: true to replace it, the path of a copy, or null. */
  async overtaken(path, owner) {
    const chosen = await ask({ title: t.about(shown(lastName(path)), t.changed), does: t.replace,
      words: owner ? t.newerOf(owner) : [], others: [{ words: t.keepCopy, value: "copy" }] });
    return chosen === "copy" ? besideIt(path, t.copyOf(this.app.user)) : chosen;
  }
}

export async function transferring(app, title, how, task) {
  const it = new Transfer(app, title, how);
  const unwatch = watchEnd(it);
  part("transfers").append(it.element);
  let words = "";
  try {
    words = await task(it);
    settle(it.about);
  } catch (fault) {
    if (fault instanceof Cancelled) words = t.about(title, t.stopped);
    else it.fail(fault.message);
  }
  unwatch();
  it.element.remove();
  const plain = [words, ...it.notes].filter(Boolean);
  if (plain.length) say(plain.join(" "));
  tellFaults(it.title, it.faults);
  await app.ended();
}
