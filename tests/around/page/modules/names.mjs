/** Names and paths: how they are shown, what is none, and where an address leads. */
import assert from "node:assert/strict";
import { test } from "node:test";

import { page } from "./browser.mjs";

const { addressOf, clean, forDisk, inOrder, isTooLong, learnNames, nameFault, numbered, pathFault, placeOf, shortened,
  shown, usersBy } = await page("names");
const { t } = await page("words");

test("what nobody would see, or turns the text, is shown as a mark", () => {
  assert.equal(shown("a\u202egpj.exe"), "a⟨U+202E⟩gpj.exe");
  assert.equal(shown("a\u200bb\u00a0c"), "a⟨U+200B⟩b⟨U+00A0⟩c");
  assert.equal(shown(" a  b "), "⟨blank⟩a ⟨blank⟩b⟨blank⟩");
  assert.equal(shown("👩‍🚀 é"), "👩‍🚀 é");
  assert.equal(shown("e\u0301"), "e\u0301⟨not composed⟩");
});

test("a name for the disk has none of it, and is none of a system's own", () => {
  assert.equal(forDisk("a\u202eb"), "a_b");
  const odd = ["con", "LPT1.txt", "nul.tar.gz", "a:b", ".", "..", "a.", "c\\d"];
  for (const it of odd) assert.match(forDisk(it), /_/, it);
  for (const it of ["console.txt", "..b"]) assert.equal(forDisk(it), it);
});

test("a name is sent in one way of writing", () => {
  assert.equal(clean(" e\u0301 "), "\u00e9");
});

test("2 stands before 10, and capitals not before others", () => {
  assert.deepEqual(["b", "a10", "A2", "a1"].sort(inOrder), ["a1", "A2", "a10", "b"]);
});

test("a name has 64 bytes at most, whatever its letters", () => {
  assert.deepEqual(["a".repeat(64), "a".repeat(65), "é".repeat(32), "é".repeat(33)].map(isTooLong),
    [false, true, false, true]);
  assert.equal(shortened(`${"é".repeat(40)}.jpg`), `${"é".repeat(30)}.jpg`);
  assert.equal(numbered("/a/b.txt", (it) => it !== "/a/b (2).txt"), "/a/b (3).txt");
});

test("a person is meant by login, by name, or by both", async () => {
  const plain = globalThis.fetch;
  const names = { ann: "Ann Lee", bob: "Ann Lee", cleo: "ann" };
  globalThis.fetch = async () => new Response(JSON.stringify(names));
  await learnNames();
  globalThis.fetch = plain;
  const users = ["ann", "bob", "cleo", "dan"];
  assert.deepEqual(usersBy("ann lee", users), ["ann", "bob"]);
  assert.deepEqual(usersBy("Ann Lee (bob)", users), ["bob"]);
  assert.deepEqual(usersBy("ann", users), ["ann"]); // (a login counts before a name)
  assert.deepEqual(usersBy("DAN", users), ["dan"]);
  assert.deepEqual(usersBy("ann l", users), []);
});

test("what is no name, and no path", () => {
  for (const it of ["", ".", ".."]) assert.equal(nameFault(it), t.nameWanted);
  for (const it of ["a/b", "a\nb", "\u007f"]) assert.equal(nameFault(it), t.nameLetters);
  assert.equal(nameFault("a b"), "");
  assert.equal(pathFault(`/${Array(16).fill("a").join("/")}`), "");
  assert.equal(pathFault(`/${Array(17).fill("a").join("/")}`), t.pathLong(16));
});

test("an address leads to a place, or nowhere", () => {
  const place = { view: "who", room: "club", path: "/a b/ü%2f#" };
  assert.deepEqual(placeOf(addressOf(place)), place);
  for (const isHere of [false, true]) {
    const found = { view: "find", room: "club", path: "/a?b", word: "50 % = 1/2?", isHere };
    assert.deepEqual(placeOf(addressOf(found)), found);
  }
  for (const it of ["#open/club/..", "#open/club/a%0ab", "#open", "#open/club/%ff"]) {
    assert.equal(placeOf(it), null, it);
  }
});
