/** Shows the place that the address names, looks again at a shown folder, and has keys for all of it. */
import { showAccess } from "./access.js";
import { star } from "./actions.js";
import * as busy from "./busy.js";
import { forgetFound, searchFor, showContents, showFind, showRecent, showShared } from "./contents.js";
import { takeDrops, useClipboard } from "./drag.js";
import { head } from "./heads.js";
import { logOut } from "./login.js";
import { showMatrix } from "./matrix.js";
import { sessionOfTab, stayAs, userNow } from "./session.js";
import { LANGUAGES, NOENT, ROOT, Refusal, Room, addressOf, arrive, ask, button, calledIn, choose, closeAll, closedLine,
  drawRail, end, faultLine, fileOfFront, forget, forgetOthers, heading, isMenuOpen, isPart, isRefused, isStarred,
  isUnsaved, isWithin, language, learnDav, learnNames, leave, make, mayEnd, namesOf, onSubmit, once, openMenu, part,
  pass, pathOf, placeOf, say, settle, showHelp, shown, standing, t, tellFault, untilClosed, warn,
  watch } from "./shared.js";

const VIEWS = { __proto__: null, open: showContents, access: showAccess, who: showMatrix, find: showFind,
  recent: showRecent, shared: showShared };

class App {
  constructor(user, rooms) {
    Object.assign(this, { user, rooms, opened: new Map(), turn: 0, tries: 0, room: null, here: "" });
  }

  openRoom(name) {
    const base = `/rooms/${name}`;
    return once(this.opened, name, () => sessionOfTab(base, name, busy, this.user, tellLeft)
      .then(it => new Room(name, base, it, busy, this.user)));
  }

  /** Gives what the task gives, true for nothing, or null where its fault was told. Nothing can be pressed then. */
  async attempt(what, task) {
    const [about, main, turn] = [`${this.room?.name} ${what}`, part("main"), this.tries += 1];
    if (!main.inert) this.from = document.activeElement;
    main.inert = true;
    main.ariaBusy = "true";
    try {
      const given = await task() ?? true;
      settle(about);
      return given;
    } catch (fault) {
      tellFault(t.about(what, fault.message), about);
      return null;
    } finally {
      if (turn === this.tries) {
        main.inert = false;
        main.ariaBusy = null;
        if (document.activeElement === document.body) this.from.focus({ preventScroll: true });
      }
    }
  }

  /** Tells what was done, and shows what is there: where it `moved`. What was found stays if it `isFound` still. */
  async done(words, moved = null, undo = null, isFound = false) {
    const here = placeOf(location.hash);
    if (!isFound) forgetFound();
    else if (here?.view !== "open") this.things?.renew();
    // (a key repeats)
    this.saying = [words, undo && (() => this.back ??= this.attempt(t.undo, undo).finally(() => delete this.back))];
    if (here && moved?.from && isWithin(here.path, moved.from)) { // (the next place tells it)
      return location.replace(addressOf({ room: here.room, path: moved.to }));
    }
    const back = standing(moved?.to);
    this.sayIt();
    return this.show(back);
  }

  sayIt() {
    if (this.saying) say(...this.saying);
    this.saying = null;
  }

  async ended() {
    await untilClosed();
    while (isMenuOpen()) await new Promise(goOn => setTimeout(goOn, 100));
    await this.shown;
    if (this.place.view === "open") await this.show(standing());
  }

  async come() {
    if (!part("main")) return;
    if (isUnsaved() && location.hash !== this.here && !this.isLosing) return this.askToLeave();
    this.isLosing = false;
    closeAll();
    part("rail").hidePopover(); // (also by Back)
    pass();
    this.sayIt();
    leave(this.here);
    if (this.place.view !== "find") part("search").reset();
    await this.show(() => arrive(location.hash));
  }

  async askToLeave() {
    const wanted = location.hash;
    history.pushState(null, "", this.here || "#");
    this.isLosing = Boolean(await mayLose());
    if (this.isLosing) location.hash = wanted;
  }

  async nodesOf(place) {
    try {
      if (!this.rooms.includes(place.room)) throw new Error(t.noRoom(shown(place.room)));
      this.room = await this.openRoom(place.room);
      return await (VIEWS[place.view] ?? showContents)(this, place);
    } catch (fault) {
      if (isRefused(fault, NOENT)) forget(this, place.path);
      const unstar = () => (star(this, place.path), this.show());
      return [...head(place, { hasViews: false }), closedLine(fault, place,
        this.room && isStarred(this, place.path) && button(t.star(true), unstar, "small"))];
    }
  }

  get things() { return document.querySelector(".things tbody tr")?.row.things; }
  get watched() { return document.querySelector(".drops")?.watched; }
  get place() { return placeOf(location.hash) ?? { view: "open", room: this.rooms[0], path: ROOT }; }

  show(then = () => arrive(location.hash)) {
    return this.shown = this.#show(then);
  }

  async #show(then) {
    const [place, main, turn] = [this.place, part("main"), this.turn += 1];
    this.here = location.hash;
    await this.attempt(shown(calledIn(place.room, place.path)), async () => {
      const nodes = await this.nodesOf(place);
      if (turn !== this.turn) return;
      main.replaceChildren(...nodes);
      main.dataset.place = addressOf(place); // (for tests: what is shown, once it is)
      document.title = [...new Set([main.querySelector("h1").textContent, place.room])].join(" – ");
      warn(this.user, place.room);
      drawRail(this, place);
    });
    if (turn === this.turn) then();
  }
}

function leftAt(path) {
  const names = namesOf(path);
  const part = names.findIndex(isPart);
  return t.leftAt(shown(pathOf(part < 0 ? names : names.slice(0, part))));
}

function tellLeft(command, reply, fault) {
  const { cmd, path } = command;
  if (!reply && !fault) return tellFault(leftAt(path));
  if (["STAT", "LIST", "READ", "GETLIST", "ACCESS"].includes(cmd)) return;
  const isDone = reply?.code === 0;
  const how = isDone ? t.doneOnce : (fault ?? new Refusal(reply, command)).message;
  (isDone ? say : tellFault)(t.sentBefore(cmd, shown(path), how));
}

const mayLose = () => ask({ title: t.leave, words: t.unsaved, does: t.discard, stays: t.typeOn, isFinal: true });

const fail = words => part("main").replaceChildren(faultLine(words));

const tabs = new BroadcastChannel("out"); // others of this browser

async function leaveAll() {
  if (isUnsaved() && !await mayLose()) return;
  end();
  const isOut = await logOut();
  if (isOut) tabs.postMessage("");
  document.title = "fileroom"; // (the next one may be somebody else)
  history.replaceState(null, "", "/");
  const [title, words] = isOut ? [t.loggedOut, t.forgotten] : [t.notLoggedOut, t.notForgotten];
  document.body.replaceChildren(make("main", make("h1", title), make("p", words),
    make("p", button(t.logIn, () => location.assign("/sign-in")))));
}

function userMenu(user) {
  const [its, label] = [part("user"), t.you(user)];
  const others = Object.entries(LANGUAGES).filter(([it]) => it !== language)
    .map(([lang, words]) => ({ words, lang, does: () => (choose(lang), location.reload()) }));
  const onclick = () => openMenu(its, [{ words: t.help, does: showHelp }, ...others,
    { words: t.refreshing(looksAgain()), does: turnLooking },
    { words: t.logOut, does: leaveAll, isApart: true }], label);
  Object.assign(its, { textContent: user, ariaLabel: label, onclick });
}

const MINUTE = 60_000; // milliseconds
const FIELDS = "input, textarea, select, table, dialog, [popover], [role=tree]";
const STILL = "fileroom/still";
const looksAgain = () => !localStorage.getItem(STILL);
const turnLooking = () => localStorage.setItem(STILL, looksAgain() ? "still" : "");

const isAtWork = () => document.hidden || isMenuOpen() || isUnsaved() ||
  document.querySelector(`dialog[open], main[aria-busy], .chosen:not([hidden]),
    .share input:not(:placeholder-shown, :checked)`);

const textOf = (names, list) => JSON.stringify([names, list?.entries]);

async function look(app) {
  const its = app.watched;
  if (!looksAgain() || isAtWork()) return;
  if (app.room) app.room.roster = null;
  forgetFound(addressOf(app.place));
  if (!its) {
    const [fault, tools] = ["fault", "tools"].map(it => document.querySelector(`main > .${it}`));
    const isOther = fault ? (await app.nodesOf(app.place)).every(it => it.textContent !== fault.textContent) :
      await (tools ?? part("main").lastChild?.questions)?.isOther?.();
    return isOther && !isAtWork() ? app.show(standing()) : app.things?.renew();
  }
  const [had, found, list] = await Promise.all([its.list, app.room.look("LIST", its.path, { keep: false }),
    its.list && app.room.look("GETLIST", its.path)]).catch(() => [null, its]);
  const isOther = textOf(its.names, had) !== textOf(found?.names, had && list);
  if (app.watched !== its || isAtWork()) return;
  if (isOther) await app.show(standing());
  else its.renew();
}

function go(event) {
  const isMany = event.ctrlKey || event.metaKey;
  const ofPicture = !event.altKey && !event.ctrlKey && !event.target.closest(FIELDS) && `.tools a.${event.key}`;
  const keys = { ArrowLeft: ofPicture, ArrowRight: ofPicture,
    "/": (isMany || event.target.closest(".things")) && "#search input",
    ArrowUp: event.altKey && ".way li:last-child a",
    z: isMany && "#notices .undo", a: isMany && ".things thead input:not(:checked)",
    Escape: ".chosen:not([hidden]) > button:last-child" };
  if (event.defaultPrevented || event.target.closest("input, textarea, select, dialog")) return;
  const its = keys[event.key] && document.querySelector(keys[event.key]);
  if (!its) return;
  event.preventDefault();
  if (event.key === "/") its.focus();
  else its.click();
}

async function start() {
  part("skip").onclick = () => (part("main").querySelector(".things [tabindex='0'], .things a") ?? heading())?.focus();
  if (!navigator.locks) return fail(t.insecure);
  const user = await userNow();
  const rooms = JSON.parse(await fileOfFront("/rooms.json") ?? "[]");
  if (!user || !rooms.length) return fail(t.noRooms);
  forgetOthers(user);
  await Promise.all([learnNames(), learnDav()]);
  const app = new App(user, rooms);
  userMenu(user);
  part("search").onsubmit = onSubmit(() => {
    const { value } = part("search").querySelector("input");
    if (value.trim()) searchFor(app, value.trim());
  });
  watch(() => part("main").querySelector(".typed")?.isUnsaved());
  addEventListener("hashchange", () => app.come());
  tabs.onmessage = () => (mayEnd() ? location.replace("/sign-in") : tellFault(t.loginGone));
  addEventListener("pageshow", ({ persisted }) => persisted && stayAs(user, busy));
  addEventListener("focus", () => look(app));
  setInterval(() => look(app), MINUTE);
  addEventListener("keydown", go);
  useClipboard(app);
  takeDrops(app);
  return app.show();
}

start().catch(fault => fail(t.reload(fault.message)));
