/** A served room, as the page's session asks it, whose answers may be lost; each user of it by a tab of their own. */
import { page, tabs } from "./browser.mjs";

/** `faults` says what becomes of the next requests to the room: pass, lose (the answer), drop (the request), hang
 * (until it is given up), held (by the front, till tomorrow), a status in place of the room's, or a reply in place of
 * it. `asked` is what went out, with the room's answer (more than `most` has no end), `how` the rules of the newest;
 * `user` who is logged in. */
export const front = { faults: [], asked: [], most: 300, how: null, user: "ann" };
const plain = globalThis.fetch;
const ROSTER = { ann: ["eng"], bob: ["eng"], eve: [] };
const MOST = 50; // waits of a test: more have no end

async function answered(user, target, how) {
  const headers = { ...how.headers, "room-user": user, connection: "close" };
  return plain(new URL(target, location.origin), { ...how, cache: undefined, headers });
}

function reached(url, how) {
  const { pathname } = new URL(url);
  const [, user, target] = /^\/as\/([^/]+)(\/.*)$/.exec(pathname) ?? [];
  if (!user) return new Response(JSON.stringify(pathname.endsWith(".users.json") ? ROSTER : front.user));
  const its = { target, body: how.body };
  if (front.asked.push(its) > front.most) throw new Error("it asks without end");
  front.how = how;
  const fault = front.faults.shift() ?? "pass";
  if (fault === "drop") throw new TypeError("no connection");
  if (fault === "hang") return new Promise((_, fail) => { how.signal.onabort = () => fail(how.signal.reason); });
  if (fault === "held") return new Response("held: ..", { status: 429, headers: { "room-held": "1" } });
  if (Number.isInteger(fault)) return new Response("<html>busy</html>", { status: fault });
  if (typeof fault === "object") return new Response(JSON.stringify(fault));
  return answered(user, target, how).then(async (it) => {
    Object.defineProperty(its, "reply", { value: await it.clone().json() });
    if (fault === "lose") throw new TypeError("the answer is lost");
    return it;
  });
}

globalThis.fetch = async (url, how) => reached(url, how);

/** Waits of the page, which end at once, but for those of a tab that `isDead`. */
const givenUp = new Promise(() => {}); // (never)
export const patience = { waits: [], isDead: false, begin: () => ({ givenUp, over() {}, async wait(why, times, isShut) {
  patience.waits.push({ why, times, isShut });
  if (patience.waits.length > MOST) throw new Error(`it waits without end: ${why}`);
  if (patience.isDead) await new Promise(() => {});
} }) };

const { sessionOfTab } = await page("session");
const { Room } = await page("room");

/** A new tab of a user; `told` is what it tells of requests from before. */
export async function tab(user = "ann") {
  front.user = user;
  const told = [];
  const session = await sessionOfTab(`/as/${user}`, "club", patience, user, (...it) => told.push(it));
  return Object.assign(new Room("club", `/as/${user}`, session, patience, user), { told });
}

/** A tab does this, and ends while it waits for the answer. */
export async function endsIn(task, ...faults) {
  front.faults.push(...faults);
  Object.assign(patience, { waits: [], isDead: true });
  task();
  while (!patience.waits.length) await new Promise((goOn) => setTimeout(goOn, 1));
  tabs.end();
  patience.isDead = false;
}

const ofSlots = () => front.asked.filter((it) => it.target.includes("/slots/"));
export const bodies = () => ofSlots().map((it) => JSON.parse(it.body));
export const numbers = () => ofSlots().map((it) => Number(it.target.split("/").at(-1)));
export const endSession = (name, user = "ann") => answered(user, `/v1/sessions/${name}`, { method: "DELETE" });
