/** A session of a tab: what goes out and in which number, and what becomes of it as answers are lost, a tab ends, the
 * room ends the session, or another user is at the browser. */
import assert from "node:assert/strict";
import { beforeEach, test } from "node:test";

import { kept, page, tabs } from "./browser.mjs";
import { bodies, endSession, endsIn, front, numbers, patience, tab } from "./room.mjs";

const { t } = await page("words");
const { untilAnswered } = await page("wire");
const LOG = `/log-${process.pid}`;
const STAT = { cmd: "STAT", path: "/" };
const append = (data) => ({ cmd: "APPEND", data: btoa(data), path: LOG });
const soon = () => new Promise((goOn) => setTimeout(goOn, 1));
const holding = () => Object.keys(localStorage).filter((key) => key.endsWith("/body"));
const logged = async (its) => atob((await its.session.ask({ cmd: "READ", keep: false, path: LOG })).data);

beforeEach(() => {
  tabs.end();
  kept.clear();
  Object.assign(front, { faults: [], asked: [], user: "ann" });
  Object.assign(patience, { waits: [], isDead: false });
});

/** What the first tab left is that of another one. */
function leftAs(count) {
  for (const key of Object.keys(localStorage)) {
    const text = localStorage.getItem(key);
    localStorage.removeItem(key);
    localStorage.setItem(key.replace("/club/0", `/club/${count}`), text);
  }
}

async function hears(its) {
  for (let times = 0; times < 1_000 && !its.told.length; times += 1) await soon();
}

/** A tab that has asked, so its session is open, in each lane; and an empty log. */
async function begun() {
  const its = await tab();
  await its.session.ask({ cmd: "CREATE", data: "", path: LOG });
  await its.session.ask({ cmd: "WRITE", data: "", path: LOG });
  await its.session.askAside(STAT);
  front.asked.length = 0;
  return its;
}

test("the first request of a tab is one that changes nothing, and no other tab's", async () => {
  for (const it of [await tab(), await tab(), await tab()]) await it.session.ask(STAT);
  const first = bodies().filter((it) => it.cmd === "ACCESS");
  assert.deepEqual(bodies().map((it) => it.cmd), ["ACCESS", "STAT", "ACCESS", "STAT", "ACCESS", "STAT"]);
  assert.ok(new Set(first.map((it) => it.mask)).size > 1);
  assert.equal(new Set(front.asked.map((it) => it.target.split("/")[3])).size, 3);
});

test("members stand in one order, however they were given", async () => {
  const its = await begun();
  await its.session.ask({ path: LOG, data: "", cmd: "WRITE" });
  assert.equal(front.asked.at(-1).body, `{"cmd":"WRITE","data":"","path":"${LOG}"}`);
});

test("a request whose answer is lost is sent again as it was, and acts once", async () => {
  const its = await begun();
  front.faults.push("lose", "drop", 503, 429, {}, { code: 30 });
  assert.equal((await its.session.ask(append("x"))).code, 0);
  assert.equal(front.asked.length, 7);
  assert.equal(new Set(front.asked.map((it) => JSON.stringify(it))).size, 1);
  assert.deepEqual(patience.waits.map((it) => it.why),
    [t.unreachable, t.unreachable, t.restarting, t.tooMuch, t.status(200), t.restarting]);
  assert.equal(await logged(its), "x");
});

test("a room that is silent is asked again", async () => {
  const [its, plain, limits] = [await begun(), AbortSignal.timeout, []];
  AbortSignal.timeout = (limit) => { // (the first one ends soon)
    limits.push(limit);
    const its = new AbortController();
    setTimeout(() => its.abort(), limits.length === 1 ? 1 : limit);
    return its.signal;
  };
  front.faults.push("hang");
  assert.equal((await its.session.ask(STAT)).code, 0);
  AbortSignal.timeout = plain;
  assert.deepEqual(limits, [30_000, 30_000]);
});

test("a login that is refused is told as one, since each try counts as a guess", async () => {
  const its = await begun();
  front.faults.push(401, 503);
  await its.session.ask(STAT);
  assert.deepEqual(patience.waits.map((it) => it.isShut), [true, false]);
  assert.deepEqual([front.how.redirect, front.how.credentials, front.how.cache], ["error", "same-origin", "no-store"]);
});

test("a login that the front holds is told so, and asks no more by itself", async () => {
  const its = await begun();
  front.faults.push("held", 429);
  assert.equal((await its.session.ask(append("x"))).code, 0);
  assert.deepEqual(patience.waits.map((it) => [it.why, it.isShut]), [[t.held, true], [t.tooMuch, false]]);
  assert.equal(await logged(its), "x");
});

test("what is under way is kept before it goes out, and no longer than that", async () => {
  const [its, before] = [await begun(), globalThis.fetch];
  let held = null;
  globalThis.fetch = (url, how) => {
    const key = holding()[0];
    const { pending } = JSON.parse(localStorage.getItem(key.slice(0, -"/body".length)));
    held = { body: JSON.parse(localStorage.getItem(key)), ...pending };
    return before(url, how);
  };
  await its.session.ask(append("x"));
  globalThis.fetch = before;
  assert.deepEqual(held, { body: append("x"), number: numbers()[0], sent: 1, isStep: false });
  assert.deepEqual(holding(), []);
});

for (const count of [0, 7]) { // (where several ended the next one goes on as the first, and does what the others left)
  test(`what was under way as tab ${count} ended is sent by the next one, once, and told`, async () => {
    const its = await begun();
    await endsIn(() => its.session.ask(append("x")), "lose");
    leftAs(count);
    const next = await tab();
    await hears(next);
    assert.deepEqual(next.told.map(([command, reply]) => [command, reply.code]), [[append("x"), 0]]);
    assert.equal(new Set(numbers()).size, 1);
    assert.equal(await logged(next), "x");
  });
}

test("a session that another tab left is nobody else's until what was under way in it is done", async () => {
  const its = await begun();
  await endsIn(() => its.session.ask(append("x")), "lose");
  leftAs(1);
  const [first, second] = [await tab(), await tab()];
  await hears(first);
  assert.deepEqual([first, second].map(({ session, told }) => [session.key.split("/").at(-1), told.length]),
    [["0", 1], ["2", 0]]);
  const third = await tab(); // (by now it is free)
  assert.equal(third.session.kept.name, its.session.kept.name);
  assert.equal((await third.session.ask(append("y"))).code, 0);
  assert.equal(await logged(third), "xy");
});

for (const [fault, text] of [["drop", ""], ["lose", "x"]]) {
  test(`a step is not done late (${fault}), and the next request has a number of its own`, async () => {
    const its = await begun();
    await endsIn(() => its.session.askAside(append("x"), true), fault);
    const next = await tab();
    assert.deepEqual(next.told.map(([command, reply]) => [command, reply]), [[append("x"), null]]);
    assert.equal((await next.session.askAside(append("y"))).code, 0);
    assert.equal(await logged(next), `${text}y`);
    assert.equal(next.session.kept.name, its.session.kept.name);
    assert.deepEqual(next.session.lanes.map((it) => it.pending).filter(Boolean), []);
  });
}

test("a request that the room did not take uses no number", async () => {
  const its = await begun();
  assert.equal((await its.session.ask({ cmd: "STAT", path: "no path" })).code, 43);
  assert.equal((await its.session.ask({ cmd: "STAT", path: "/none" })).code, 1);
  await its.session.ask(STAT);
  const [first, second, third] = numbers();
  assert.deepEqual([second, third], [first, first + 1]);
});

test("a read that was not kept is asked again in the next number", async () => {
  const its = await begun();
  front.faults.push("lose");
  assert.equal(await logged(its), "");
  const [first] = numbers();
  assert.deepEqual(numbers(), [first, first, first + 1]);
});

test("in a new session goes what cannot have acted, and nothing else", async () => {
  const its = await begun();
  await endSession(its.session.kept.name);
  assert.equal((await its.session.ask(append("x"))).code, 0);
  await endSession(its.session.kept.name);
  front.faults.push("drop");
  await assert.rejects(its.session.ask(append("y")), { message: t.unknown(t.sessionGone) });
  assert.equal(await logged(its), "x");
});

test("where another user is logged in by now nothing is sent in a new session", async () => {
  const its = await begun();
  await endSession(its.session.kept.name);
  front.user = "bob";
  await assert.rejects(its.session.ask(append("x")), { message: "reloaded" });
  assert.equal(front.asked.length, 1);
});

test("requests that come at once open one session", async () => {
  const its = await tab();
  await Promise.all(Array.from({ length: 4 }, () => its.session.askAside(STAT)));
  assert.deepEqual(front.asked.filter((it) => !it.target.includes("/slots/")).map((it) => it.body), ['{"slots":16}']);
});

test("what was given up lets others go on", async () => {
  const [its, plain] = [await begun(), patience.begin];
  patience.begin = () => ({ ...plain(), wait: async () => {
    throw new Error("given up");
  } });
  front.faults.push(...Array(6).fill("drop"));
  const all = await Promise.allSettled(Array.from({ length: 6 }, () => its.session.askAside(STAT)));
  patience.begin = plain;
  assert.deepEqual(all.map(({ reason }) => reason?.message), Array(6).fill("given up"));
  assert.equal((await its.session.askAside(STAT)).code, 0);
});

test("a user of no roster is told so by what is asked", async () => {
  const its = await tab("nobody");
  assert.equal((await its.session.ask(STAT)).code, 42);
});

test("a store that is full for a time loses nothing", async () => {
  const [its, plain] = [await begun(), kept.does.setItem];
  let times = 0;
  kept.does.setItem = (key, text) => {
    if (key.endsWith("/body") && (times += 1) < 3) throw new DOMException("full", "QuotaExceededError");
    plain(key, text);
  };
  assert.equal((await its.session.ask(append("x"))).code, 0);
  kept.does.setItem = plain;
  assert.equal(await logged(its), "x");
});

test("no more goes out at once than the front takes", async () => {
  const [pauses, plain, now] = [[], globalThis.setTimeout, performance.now];
  performance.now = () => 1e9;
  globalThis.setTimeout = (does, pause) => {
    pauses.push(pause);
    return plain(does, 0);
  };
  front.faults.push(...Array.from({ length: 250 }, () => ({ code: 0 })));
  for (let count = 0; count < 250; count += 1) await untilAnswered("/as/ann/v1/check", "{}", patience);
  Object.assign(globalThis, { setTimeout: plain });
  performance.now = now;
  assert.ok(pauses.length > 50 && pauses.at(-1) > 200, `${pauses.length} pauses, the last of ${pauses.at(-1)}`);
});
