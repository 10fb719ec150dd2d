/** What the owner of a room is warned of: in words, by the room, and until it is closed for the day. */
import assert from "node:assert/strict";
import { readFileSync } from "node:fs";
import { beforeEach, test } from "node:test";

import { buttonOf, kept, page, shown } from "./browser.mjs";

const { t } = await page("words");
const front = { asked: [], answer: null };
let loads = 0;

globalThis.fetch = async (url) => {
  front.asked.push(new URL(url).pathname);
  if (front.answer instanceof Error) throw front.answer;
  return new Response(front.answer ?? "none", { status: front.answer === null ? 404 : 200 });
};

/** Of a page that is loaded anew. */
async function warnings() {
  const { warn } = await import(`${process.env.PAGE}/notices.js?${loads += 1}`);
  return async (user, room) => {
    await warn(user, room);
    return shown("p.fault").map((it) => it.childNodes[0]);
  };
}

beforeEach(() => {
  kept.clear();
  Object.assign(front, { asked: [], answer: null });
});

test("it is told of the room that is shown, as the days are", async () => {
  for (const [days, words] of [[9, t.someDays(9)], [1, t.someDays(1)], [0, t.lessThanADay]]) {
    front.answer = JSON.stringify({ club: { numbers_days: days } });
    const warned = await warnings();
    assert.deepEqual([await warned("ann", "club"), await warned("ann", "office")], [[t.numbersEnd(words)], []]);
  }
  assert.match(t.numbersEnd(t.someDays(9)), /for about 9 more days\. Ask your administrator to renew it\.$/);
  assert.match(t.numbersEnd(t.someDays(1)), /for about 1 more day\./);
});

test("all that the service writes is told, each till it is closed", async () => {
  front.answer = readFileSync(process.env.WARNINGS, "utf8");
  const warned = await warnings();
  const all = [t.numbersEnd(t.someDays(7)), t.memoryEnds(t.someDays(3)), t.diskEnds(t.lessThanADay),
    t.areHeld(["bob", "eve"])];
  assert.deepEqual(await warned("ann", "club"), all);
  buttonOf(t.untilTomorrow).click(); // (the first of them)
  assert.deepEqual(await warned("ann", "club"), all.slice(1));
});

test("who tries the quick build is told that nothing is proved in it", async () => {
  for (const [unproved, told] of [[true, [t.isUnproved]], [false, []], ["true", []]]) {
    front.answer = JSON.stringify({ club: { unproved } });
    assert.deepEqual(await (await warnings())("bob", "club"), told);
  }
});

test("who is told nothing by the front, or by something else, sees none", async () => {
  const odd = ["", "[", "null", '{"club":null}', '{"club":{"numbers_days":"<b>","held":"bob"}}',
    '{"club":{"held":[]}}', new TypeError("no connection")];
  for (const answer of [null, "{}", ...odd]) {
    front.answer = answer;
    assert.deepEqual(await (await warnings())("ann", "club"), [], answer);
  }
});

test("it is asked once a day, however often a folder is shown", async () => {
  const [warned, now] = [await warnings(), Date];
  for (let times = 0; times < 3; times += 1) await warned("ann", "club");
  assert.deepEqual(front.asked, ["/warnings.json"]);
  globalThis.Date = class extends now { constructor() { super(now.now() + 86_400_000); } };
  await warned("ann", "club");
  globalThis.Date = now;
  assert.equal(front.asked.length, 2);
});

test("it can be closed for the day: of this room, by this user", async () => {
  front.answer = JSON.stringify({ club: { numbers_days: 5 }, office: { numbers_days: 5 } });
  const [warned, now] = [await warnings(), Date];
  assert.equal((await warned("ann", "club")).length, 1);
  buttonOf(t.untilTomorrow).click();
  assert.equal(shown("p.fault").length, 0);
  const anew = await warnings();
  const seen = async () => [await anew("ann", "club"), await anew("ann", "office"), await anew("bob", "club")];
  assert.deepEqual((await seen()).map((it) => it.length), [0, 1, 1]);
  globalThis.Date = class extends now { constructor() { super(now.now() + 86_400_000); } };
  assert.deepEqual((await seen()).map((it) => it.length), [1, 1, 1]);
  globalThis.Date = now;
});
