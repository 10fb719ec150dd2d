/** What a browser is asked as somebody logs in and out, and who hears of it. */
import assert from "node:assert/strict";
import { beforeEach, test } from "node:test";

import { happens, kept, page } from "./browser.mjs";

const { logIn, logOut, onLogin, tellLogin } = await page("login");
const asked = [];
let statuses = [];

globalThis.XMLHttpRequest = class {
  open(method, url, isAsync, ...login) { asked.push([method, url.pathname, isAsync, ...login]); }

  send() {
    this.status = statuses.shift();
    this.onloadend();
  }
};

beforeEach(() => {
  asked.length = 0;
  kept.clear();
});

test("a browser has forgotten a login where another was let in, and there alone", async () => {
  for (const [status, isOut] of [[204, true], [200, false], [401, false], [404, false], [0, false]]) {
    statuses = [status];
    assert.equal(await logOut(), isOut);
  }
  assert.deepEqual(asked.map(([method, path, isAsync, user]) => [method, path, isAsync, user]),
    Array(5).fill(["GET", "/log-out", true, "logged-out"]));
  assert.equal(new Set(asked.map((it) => it[4])).size, 5);
});

test("who logs in is nobody before, and has the password as it was typed", async () => {
  statuses = [204, 401];
  assert.equal(await logIn("ann", "a%41 \u20ac"), 401);
  assert.deepEqual([asked[0][1], asked[1]], ["/log-out", ["GET", "/log-in", true, "ann", "a%2541%20%E2%82%AC"]]);
});

test("other tabs hear of a login, also where the store is full", () => {
  let heard = 0;
  onLogin(() => { heard += 1; });
  tellLogin();
  for (const key of ["fileroom/language", null, ...Object.keys(localStorage)]) happens("storage", { key });
  assert.equal(heard, 1);
  const plain = kept.does.setItem;
  kept.does.setItem = () => { throw new Error("full"); };
  tellLogin();
  kept.does.setItem = plain;
});
