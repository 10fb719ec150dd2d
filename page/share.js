/** The panel by which an object is shared: who has access, by what, and whether they get there. */
import { FOLDER, MOST_ENTRIES, PASS_THROUGH, button, byWhom, checkbox, entriesOf, givenHere, inOrder, input, isAlike,
  isDeny, levelOf, make, menuButton, onSubmit, personText, presetsOf, sharesOf, t, usersBy, whomOf,
  whomWords } from "./common.js";

const MOST_FITS = 8; // names that are shown at once

function whomField(names) {
  let [at, options] = [-1, []];
  const list = make("ul.fits", { id: "fits", role: "listbox", ariaLabel: t.who, hidden: true });
  const field = input("", { role: "combobox", placeholder: t.who, ariaLabel: t.who, ariaAutoComplete: "list",
    "aria-controls": "fits", ariaExpanded: "false" });
  const stand = now => {
    at = now;
    for (const [its, it] of options.entries()) it.ariaSelected = its === at;
    if (at < 0) field.removeAttribute("aria-activedescendant");
    else field.setAttribute("aria-activedescendant", `fits-${at}`);
    options[at]?.scrollIntoView({ block: "nearest" });
  };
  const open = isOpen => {
    stand(-1);
    list.hidden = !isOpen;
    field.ariaExpanded = isOpen;
  };
  const take = (words, event) => {
    event.preventDefault();
    field.value = words;
    open(false);
  };
  const show = () => {
    const wanted = field.value.trim().toLowerCase();
    const fits = names.filter(it => it.toLowerCase().includes(wanted)).slice(0, MOST_FITS);
    options = fits.map((it, its) => make("li", { id: `fits-${its}`, role: "option", ariaSelected: "false",
      onmousedown: event => take(it, event) }, it));
    list.replaceChildren(...options);
    open(fits.length > 0);
  };
  const key = event => {
    const step = { ArrowDown: 1, ArrowUp: -1 }[event.key];
    if (step) event.preventDefault();
    if (step && list.hidden) show();
    else if (step) stand((Math.max(at + step, -1) + options.length) % options.length);
    else if (event.key === "Enter" && at >= 0) take(options[at].textContent, event);
    else if (event.key === "Escape" && !list.hidden) {
      event.stopPropagation();
      open(false);
    }
  };
  Object.assign(field, { oninput: show, onclick: show, onblur: () => open(false), onkeydown: key });
  return { element: make("span.whom", field, list), field };
}

function whomBy(text, roster) {
  const groups = new Set(Object.values(roster ?? {}).flat());
  const isGroup = text.startsWith(t.groupMark);
  const name = isGroup ? text.slice(t.groupMark.length).trim() : text;
  const users = isGroup ? [] : usersBy(name, Object.keys(roster ?? {}));
  if (!name) return { fault: t.noWhom };
  if (text.toLowerCase() === t.whom["EVERYONE@"]) return { whom: { id: "EVERYONE@", name: "" } };
  if (!roster) return { whom: { id: isGroup ? "group" : "user", name } };
  if (users.length > 1) return { fault: t.severalAre(name, users.map(personText)) };
  if (users.length) return { whom: { id: "user", name: users[0] } };
  return groups.has(name) ? { whom: { id: "group", name } } : { fault: t.noSuch(text) };
}

const keyOf = whom => JSON.stringify(whom);
const levelOfPreset = name => t.levels[name] ?? t.levels.change;

export class SharePanel {
  /** `set` gets the own entries and those that are new: who may not has none, and is told of the `changers`. `detail`
   * shows the exact entries; `way` is a button. */
  constructor({ kind, owner, group }, { own, handed }, roster, does) {
    const { shares, others } = sharesOf(own, kind);
    Object.assign(this, { kind, owner, group, own, roster: roster ?? {}, isWhole: roster !== null, shares, ...does });
    this.presets = Object.keys(presetsOf(kind)).map(it => [it, ...levelOfPreset(it)]);
    [this.told, this.from] = [new Map(), new Map()]; // elements by whom, which tell who is shut out, and what is above
    const isOwner = ({ id, name }) => owner && (id === "OWNER@" || id === "user" && name === owner);
    const above = byWhom(handed.filter(it => !isDeny(it))).filter(([whom]) => !isOwner(whom));
    const denied = byWhom([...own, ...handed].filter(isDeny));
    const ofOthers = shares.filter(it => !this.isOwners(it));
    const isAlone = !ofOthers.length && !others.length && !above.length;
    this.isAll = ofOthers.length < shares.length;
    const named = { ariaLabel: t.sharedWith };
    this.element = make("section.share", { ariaLabel: t.share }, make("h2", t.sharedWith),
      make("ul.given", named,
        owner && make("li", make("span", personText(owner)), this.isAll ? t.isOwnerOfAll : t.isOwner)),
      ofOthers.length > 0 && make("ul.shares", named, ofOthers.map(it => this.row(it))),
      make("ul.given", named, others.filter(({ entries }) => !entries.every(isDeny)).map(it => this.custom(it)),
        above.map(([whom, its]) => this.above(whom, its)), denied.map(([whom]) =>
          make("li.denied", make("span", this.wordsOf(whom)), button(t.denied, this.detail)))),
      isAlone && make("p", owner ? t.ownerAlone : t.whom[""]), this.set ? this.form() : make("p", this.changers),
      this.way && make("p.tools", button(...this.way)), this.set && this.ofOwner());
  }

  isOwners = ({ whom, name }) => whom.id === "user" && whom.name === this.owner && name === "all";

  wordsOf = whom => (whom.id === "user" ? personText(whom.name) : whomWords(whom, this));

  line(whom, ...parts) {
    this.told.set(keyOf(whom), make("div.about"));
    return make("li", make("span", this.wordsOf(whom)), parts, this.told.get(keyOf(whom)));
  }

  takeButton = whom => this.set && button("×", () => this.give(whom, null),
    { className: "small", ariaLabel: t.takeFrom(this.wordsOf(whom)) });

  row({ whom, name }) {
    const items = this.presets.map(([it, words, about]) => ({ words, about, isNow: it === name,
      does: () => this.give(whom, it) }));
    const [level, title] = [levelOfPreset(name)[0], t.mayWhat(this.wordsOf(whom))];
    return this.line(whom, this.set ? menuButton(level, { title }, () => items, title) : make("span.about", level),
      this.takeButton(whom));
  }

  custom = ({ whom, entries }) => this.line(whom,
    button(entries.every(it => it.mask === PASS_THROUGH && !isDeny(it)) ? t.passes : t.custom, this.detail,
      { title: t.mayWhat(this.wordsOf(whom)) }), this.takeButton(whom));

  above(whom, entries) {
    this.from.set(keyOf(whom), make("span.from"));
    return this.line(whom,
      make("span.about", levelOf(givenHere(entries), this.kind).word, " ", this.from.get(keyOf(whom))));
  }

  tellFrom(whom, folder) {
    const its = this.from.get(keyOf(whom));
    if (!its || [...its.children].some(it => it.href === folder.href)) return;
    its.append(its.firstChild ? ", " : t.fromAbove, folder);
  }

  tellShut(whom, words, allow) {
    this.told.get(keyOf(whom))?.replaceChildren(words, ...allow ? [" ", button(t.letPass, allow, "small")] : []);
  }

  form() {
    const people = Object.keys(this.roster).map(personText).sort(inOrder);
    const groups = [...new Set(Object.values(this.roster).flat())].sort(inOrder).map(it => t.groupMark + it);
    const { element, field: whom } = whomField([...people, ...groups, t.whom["EVERYONE@"]]);
    this.fault = make("p.fault", { role: "alert" });
    const keeps = this.kind === FOLDER && this.owner && !this.shares.length &&
      checkbox(t.keepFull(personText(this.owner)), true);
    const onsubmit = onSubmit(({ submitter }) => {
      const found = whomBy(whom.value.trim(), this.isWhole ? this.roster : null);
      this.fault.textContent = found.fault ?? "";
      const all = keeps && keeps.firstChild.checked ? entriesOf("all", { id: "user", name: this.owner }, FOLDER) : [];
      if (found.whom) this.give(found.whom, submitter.value, all);
      else whom.focus();
    });
    // (a press of a level shares at once; Enter in the field is the first one's)
    const levels = this.presets.map(([value, words, title], at) =>
      make(at ? "button" : "button.main", { value, title }, words));
    const row = make("p.row", { role: "group", ariaLabel: t.share }, t.about(t.share, ""), levels);
    return make("div", make("form", { onsubmit }, element, row), keeps, this.fault);
  }

  give(whom, name, more = []) {
    const had = this.own.filter(it => !isDeny(it) && isAlike(whomOf(it), whom));
    const news = name ? entriesOf(name, whom, this.kind) : [];
    const own = [...had.length ? this.own.flatMap(it => (it === had[0] ? news : had.includes(it) ? [] : [it])) :
      [...this.own, ...news], ...isAlike(whom, whomOf(more[0] ?? { who: "" })) ? [] : more];
    if (own.length <= MOST_ENTRIES) return this.set(own, news);
    this.fault.textContent = `${t.listFull(own.length, MOST_ENTRIES)} ${t.nameGroup}`;
  }

  ofOwner() {
    if (this.kind !== FOLDER || !this.owner || this.isAll) return null;
    const [whom, its] = [{ id: "user", name: this.owner }, personText(this.owner)];
    return make("p.about", t.othersMake(its), " ", button(t.giveOwner(its), () => this.give(whom, "all"), "small"));
  }
}
