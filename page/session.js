/** A session of sixteen slots (docs/SLOTS.md). Each request is kept in localStorage before it is sent, and acts once.
 *
 * Each tab has one in each room, under 'fileroom/USER/ROOM/COUNT', and holds a lock of that name. A new tab takes the
 * first one that nobody holds, so that of a closed tab is used again. */
import { BEHIND, end, fileOfFront, isUnsaved, randomHex, t, untilAnswered } from "./common.js";

const NUMBERS = 2 ** 32;
const SLOTS = 16;
const ASIDE = 6; // as many as a browser has connections to one place
const FALSE_RETRY = 23;
const NOT_KEPT = 25;
const isOwn = ({ code }) => code >= 20 && code <= 25; // of the session, slot or number, and not of the request
const fresh = () => ({ name: randomHex(16), isOpen: false });
const read = key => JSON.parse(localStorage.getItem(key));
const write = (key, it) => localStorage.setItem(key, JSON.stringify(it));

/** Members stand as in the command's text: the room knows a repeat by its bytes. */
const bodyOf = command =>
  JSON.stringify(Object.fromEntries(Object.entries(command).sort(([a], [b]) => (a < b ? -1 : 1))));

/** Gives up a command, whose number it takes. (The same each time: a false retry tells that the command ran.) */
const GIVES_UP = { cmd: "STAT", path: "/" };

/** It changes nothing, and hardly ever is the same again. */
const harmless = () => ({ cmd: "ACCESS", mask: crypto.getRandomValues(new Uint32Array(1))[0] & 0x1f07ff, path: "/" });

class Lane {
  constructor(session, slot) {
    Object.assign(this, { session, slot, key: `${session.key}/slot/${slot}`, isNewest: false });
    this.bodyKey = `${this.key}/body`;
    this.kept = read(this.key) ?? { name: "", number: 0, pending: null };
    if (!this.kept.pending) localStorage.removeItem(this.bodyKey); // (kept, and never sent)
    this.turn = Promise.resolve();
  }

  #keep(change) {
    this.kept = { ...this.kept, ...change };
    write(this.key, this.kept);
    if (!this.kept.pending) localStorage.removeItem(this.bodyKey);
  }

  /** (The body first: what is pending has one. The browser's store may be full for a time.) */
  async #keepPending(pending, body) {
    for (let times = 0; ; times += 1) {
      try {
        localStorage.setItem(this.bodyKey, body);
        this.kept = { ...this.kept, pending }; // (kept as it is sent)
        return;
      } catch (fault) {
        localStorage.removeItem(this.bodyKey);
        if (times === 100) throw new Error(t.noSpace(fault.name));
        await new Promise(goOn => setTimeout(goOn, 100));
      }
    }
  }

  get pending() { return this.kept.pending && read(this.bodyKey); }

  ask(command, isStep = false) {
    return this.#inTurn(async () => {
      // (a browser that crashed may have lost what was newest: a number that was used is refused)
      if (!this.isNewest) await this.#new(bodyOf(harmless()), false);
      this.isNewest = true;
      return this.#new(bodyOf(command), isStep);
    });
  }

  /** The reply to the request that was under way as the page ended, or null where it was a step. */
  finish() {
    const body = localStorage.getItem(this.bodyKey);
    return this.#inTurn(() => (this.kept.pending.isStep ? this.#drop() : this.#settle(body)));
  }

  #inTurn(task) {
    const done = this.turn.then(task);
    this.turn = done.catch(() => {});
    return done;
  }

  async #new(body, isStep) {
    const refused = await this.session.open();
    if (refused) return refused;
    const { name } = this.session.kept;
    if (this.kept.name !== name) this.#keep({ name, number: 0, pending: null });
    await this.#keepPending({ number: (this.kept.number + 1) % NUMBERS, sent: 0, isStep }, body);
    return this.#settle(body);
  }

  async #settle(body) {
    const { number } = this.kept.pending;
    const reply = await this.#send(number, body);
    if (reply.code === NOT_KEPT) {
      this.#keep({ pending: null, number }); // (what asked that its reply be not kept only reads)
      return this.#new(body, false);
    }
    if (isOwn(reply)) {
      await this.session.stillUser().catch(it => (this.#keep({ pending: null }), Promise.reject(it)));
      return this.#anew(body);
    }
    this.#keep({ pending: null, number: reply.code < 20 ? number : this.kept.number }); // (20 on: it was not run)
    return reply;
  }

  /** A step that was stopped is not done late: another request takes its number. A false retry: it was done. */
  async #drop() {
    const { number } = this.kept.pending;
    const reply = await this.#send(number, bodyOf(GIVES_UP));
    const isUsed = reply.code < 20 || reply.code === FALSE_RETRY;
    if (!isUsed) this.session.renew(this.kept.name);
    this.#keep({ pending: null, number: isUsed ? number : this.kept.number });
    return null;
  }

  async #send(number, body) {
    const before = () => this.#keep({ pending: { ...this.kept.pending, sent: this.kept.pending.sent + 1 } });
    try {
      const url = `${this.session.base}/v1/sessions/${this.kept.name}/slots/${this.slot}/${number}`;
      return await untilAnswered(url, body, this.session.patience, before);
    } catch (givenUp) {
      this.session.renew(this.kept.name);
      this.#keep({ pending: null });
      throw givenUp;
    }
  }

  #anew(body) {
    const { sent, isStep } = this.kept.pending;
    this.session.renew(this.kept.name);
    this.#keep({ pending: null });
    if (sent > 1) throw new Error(t.unknown(t.sessionGone));
    return this.#new(body, isStep);
  }
}

class Session {
  /** `patience` waits (busy.js), `stillUser` ends a page that is another user's by now. */
  constructor(base, key, patience, stillUser) {
    Object.assign(this, { base, key, patience, stillUser });
    this.kept = read(key) ?? fresh();
    this.lanes = Array.from({ length: SLOTS }, (_, slot) => new Lane(this, slot));
    this.free = this.lanes.slice(1, 1 + ASIDE);
    this.queue = [];
  }

  #keep(change) {
    this.kept = { ...this.kept, ...change };
    write(this.key, this.kept);
  }

  get pending() { return this.lanes.filter(it => it.pending); }

  ask = command => this.lanes[0].ask(command);

  async askAside(command, isStep = false) {
    const lane = this.free.pop() ?? await new Promise(goOn => this.queue.push(goOn));
    try {
      return await lane.ask(command, isStep);
    } finally {
      const next = this.queue.shift();
      if (next) next(lane);
      else this.free.push(lane);
    }
  }

  renew(name) {
    if (this.kept.name === name) this.#keep(fresh());
  }

  open() {
    this.opening ??= this.#open().finally(() => { this.opening = null; });
    return this.opening;
  }

  async #open() {
    while (!this.kept.isOpen) {
      this.#keep({});
      const { name } = this.kept;
      const reply = await untilAnswered(`${this.base}/v1/sessions/${name}`, `{"slots":${SLOTS}}`, this.patience);
      await this.stillUser();
      if (isOwn(reply)) this.renew(name);
      else if (reply.code === 0) this.#keep({ isOpen: true });
      else return reply;
    }
    return null;
  }
}

export const userNow = async () => JSON.parse(await fileOfFront("/whoami") ?? "null");

const anew = () => (end(), location.reload(), new Promise(() => {}));

/** The page begins anew where somebody else is logged in by now: the requests would be theirs. What is typed waits. */
export async function stayAs(user, patience) {
  while (await userNow() !== user) {
    const waiting = patience.begin();
    if (isUnsaved()) await waiting.wait(t.loginGone, 1, true).finally(() => waiting.over());
    else await anew();
  }
}

/** Holds the lock until this tab ends. False where another tab has it. */
const hold = key => new Promise((tell, fail) => {
  navigator.locks.request(key, { ifAvailable: true }, lock => {
    tell(lock !== null);
    return lock && new Promise(() => {});
  }).catch(fail);
});

const finish = (session, tell) => Promise.all(session.pending.map(lane => {
  const command = lane.pending;
  const tells = lane.kept.pending.isStep === BEHIND ? () => {} : tell; // (nothing is lost with it)
  return lane.finish().then(reply => tells(command, reply), fault => tells(command, null, fault));
}));

export async function sessionOfTab(base, room, patience, user, tell) {
  const prefix = `fileroom/${user}/${room}/`;
  const sessionAt = key => new Session(base, key, patience, () => stayAs(user, patience));
  let count = 0;
  while (!await hold(`${prefix}${count}`)) count += 1;
  const mine = `${prefix}${count}`;
  const others = new Set(Object.keys(localStorage).filter(it => it.startsWith(prefix))
    .map(it => prefix + it.slice(prefix.length).split("/")[0]));
  others.delete(mine);
  const session = sessionAt(mine);
  await finish(session, tell);
  for (const key of others) navigator.locks.request(key, () => finish(sessionAt(key), tell));
  return session;
}
