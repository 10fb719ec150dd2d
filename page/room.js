/** A room: its commands, each a request of this tab's session, its questions, and what it refuses: its codes, each in
 * words with the remedy (docs/CODES.md). */
import { faultLine, letterLink } from "./dom.js";
import { ALL, FILE, FOLDER, PASS_THROUGH, READ, rightsIn } from "./lists.js";
import { addressOf, calledIn, displayName, foldersAbove, isWithin, personText, shown } from "./names.js";
import { toldAt, untilAnswered } from "./wire.js";
import { t } from "./words.js";

export const [NOENT, NOTDIR, ISDIR, EXIST, ACCESS, NOTEMPTY, TOO_DEEP, FOLDER_FULL] = [1, 2, 3, 4, 5, 6, 10, 11];

const whomToAsk = ({ user, owner, above }) => [owner || above].find(it => it && it !== user) ?? null;

function askWords(whose) {
  const whom = whomToAsk(whose);
  if (!whom) return whose.owner ? t.isYours : t.askAnyOwner;
  return (whose.owner ? t.askOwner : t.askAbove)(personText(whom));
}

function lackedRight({ bit, path }, command, whose) {
  const kind = ["READ", "WRITE", "APPEND"].includes(command.cmd) ? FILE : FOLDER; // (above, only passing can lack)
  const called = it => shown(calledIn(whose.room, it));
  const asked = isWithin(command.path ?? path, path) ? command.path ?? path : path; // (it may be where it was to go)
  const words = [READ, PASS_THROUGH].includes(bit) ? t.noAccess(called(asked)) :
    t.lacksRight(called(path), rightsIn(bit, kind));
  return `${words} ${askWords(whose)}`;
}

export class Refusal extends Error {
  constructor(reply, command = {}, whose = {}) {
    const { code, path, error } = reply;
    super(code === ACCESS ? lackedRight(reply, command, whose) : t.refusals[code] ?? t.refused(code, error));
    const isAsked = code === ACCESS && whose.owner !== whose.user;
    Object.assign(this, { code, path, whom: isAsked ? whomToAsk(whose) ?? "" : null });
  }
}

/** With a letter, which names nobody where the room tells no owner. */
export function closedLine({ message, whom = null }, place, more = "") {
  const about = t.accessTo(shown(calledIn(place.room, place.path)));
  const words = whom ? t.askFor(displayName(whom) || whom) : t.askForIt;
  return faultLine(message, whom !== null && [" ", letterLink(words, about, t.pleaseLet, addressOf(place))], " ", more);
}

export const isRefused = (fault, ...codes) => fault instanceof Refusal && codes.includes(fault.code);

export const orFault = (task, fits = () => true) => task.catch(fault => {
  if (fault instanceof Refusal && fits(fault)) return fault;
  throw fault;
});

/** Gives `instead` where it is refused with one of these codes. */
export async function orElse(task, instead, ...codes) {
  const found = await orFault(task, it => codes.includes(it.code));
  return found instanceof Refusal ? instead : found;
}

const [WIDTH, WIDTH_BEHIND] = [4, 1]; // requests beside each other
export const BEHIND = "behind"; // of a step that goes on behind an answer

/** What the map has there, which the task makes first. */
export function once(map, key, task) {
  if (!map.has(key)) {
    map.set(key, task());
    map.get(key)?.catch?.(() => map.delete(key));
  }
  return map.get(key);
}

/** Does the task for each, some beside each other. The first fault ends it. */
export async function forEach(items, task, width = WIDTH) {
  const left = items.values();
  let fault = null;
  async function go() {
    for (const it of left) {
      if (fault) return;
      await task(it).catch(its => { fault ??= its; });
    }
  }
  await Promise.all(Array.from({ length: width }, go));
  if (fault) throw fault;
}

export class Room {
  constructor(name, base, session, patience, user) {
    Object.assign(this, { name, base, session, patience, user, stepKind: true, width: WIDTH });
  }

  behind = () => Object.assign(new Room(this.name, this.base, this.session, this.patience, this.user),
    { stepKind: BEHIND, width: WIDTH_BEHIND });

  async #need(reply, command) {
    if (reply.code !== 0) throw await this.refusal(reply, command);
    return reply;
  }

  /** Tells whom to ask for a right, as far as the user may see. */
  async refusal(reply, command) {
    if (reply.code !== ACCESS) return new Refusal(reply, command);
    const ask = async it => (await this.look("STAT", it).catch(() => null))?.owner;
    const [{ path }, owner] = [reply, await ask(reply.path)];
    let above = null;
    for (const it of owner ? [] : foldersAbove(path).toReversed()) above ??= await ask(it);
    return new Refusal(reply, command, { room: this.name, user: this.user, owner, above });
  }

  async run(cmd, path, more) {
    const command = { cmd, path, ...more };
    return this.#need(await this.session.ask(command), command);
  }

  /** As `run`, beside other commands; a step of something longer is not done once the page has ended. */
  async aside(cmd, path, more, isStep = false) {
    const command = { cmd, path, ...more };
    return this.#need(await this.session.askAside(command, isStep), command);
  }

  step = (cmd, path, more) => this.aside(cmd, path, more, this.stepKind);
  rename = (path, to) => this.step("RENAME", path, { to });

  async look(cmd, path, more) {
    const reply = await this.session.askAside({ cmd, path, ...more });
    return reply.code === 0 ? reply : null;
  }

  rights = async path => (await this.look("ACCESS", path, { mask: ALL }))?.allowed;

  /** `[NAME, KIND]` each, or null where that may not be seen. */
  names = async path => (await this.look("LIST", path))?.names ?? null;
  list = async path => (await this.aside("LIST", path)).names;

  /** What STAT tells, with the kind alone where the caller may not ask. */
  async standing(path) {
    const stat = await this.look("STAT", path);
    return stat ?? { kind: (await this.session.ask({ cmd: "LIST", path })).code === NOTDIR ? FILE : FOLDER };
  }

  async allowed({ entries, owner, group }, user, groups) {
    const question = { entries, group, groups, mask: ALL, owner, user };
    const reply = await untilAnswered(`${this.base}/v1/check`, JSON.stringify(question), this.patience);
    return (await this.#need(reply)).allowed;
  }

  /** The roster, `{"ann":["eng"]}`, or null where the front does not tell it. */
  async users() {
    this.roster ??= await toldAt(`${this.base}.users.json`, null);
    return this.roster;
  }
}
