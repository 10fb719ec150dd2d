/** Versions of large files: how often a save asks, how many numbers it takes, what it leaves, and which spares take no
 * byte. */
import assert from "node:assert/strict";
import { test } from "node:test";

import { page } from "./browser.mjs";
import { front, tab } from "./room.mjs";
import { GONE, LISTED, TOP, begun, bytesOf, current, held, isTidy, lay, names, numbers, quiet,
  saved } from "./saves.mjs";

const { writeFile } = await page("files");

const PREPARED = {
  "an entry": ["SETLIST", "", { aclflag: 1, entries: [{ type: 0, flag: 1, mask: 0x21, who: "bob" }] }],
  "a list that follows nothing": ["SETLIST", "", { aclflag: 3, entries: LISTED.entries }],
  "another owner": ["CHOWN", "", { owner: "bob", group: "eng" }],
  "another group": ["CHOWN", "", { owner: "ann", group: "staff" }],
  "a folder": ["MKDIR", "/002", {}],
  "another name": ["CREATE", "/x", { data: "" }],
};

test("a save asks once for each piece and 15 times besides, and takes no numbers but for what is new", async () => {
  const [room, path] = [await begun(), `${TOP}/counted`];
  const found = [];
  for (const [pieces, letter] of [[5, "a"], [5, "a"], [5, "b"], [5, "c"], [7, "d"], [7, "e"], [4, "f"], [7, "g"]]) {
    found.push({ pieces, ...await saved(room, path, bytesOf(pieces, letter)) });
  }
  for (const { asked, pieces } of found) assert.ok(asked <= pieces + 15, `${asked} for ${pieces}`);
  assert.deepEqual(found.map((it) => it.numbers), [8, 0, 6, 0, 2, 2, 0, 0]);
  assert.equal(found[1].writes, 0);
  await isTidy(room, path, 7, 7);
});

test("a version that is much smaller leaves no more documents than it has pieces", async () => {
  const [room, path] = [await begun(), `${TOP}/smaller`];
  for (const [pieces, letter] of [[9, "a"], [9, "b"], [4, "c"]]) await saved(room, path, bytesOf(pieces, letter));
  await isTidy(room, path, 4, 9);
  const spare = (await names(room, path)).find((it) => it.startsWith(".room-gone-"));
  await room.session.askAside({ cmd: "WRITE", path: `${path}/${spare}/008`, data: btoa("left") }); // (as by a stop)
  await saved(room, path, bytesOf(5, "d"));
  assert.deepEqual((await held(room, path, "pieces"))[0].slice(5), [0, 0, 0, 0]);
  await isTidy(room, path, 9, 4);
});

test("a spare that is not as a new folder would be takes no byte", async () => {
  const room = await begun();
  for (const [what, does] of Object.entries(PREPARED)) {
    const path = `${TOP}/with ${what}`;
    await lay(room, path, 2, does);
    assert.deepEqual([what, (await saved(room, path, bytesOf(2, "c"))).numbers], [what, 3]);
    const isAnothers = ["a folder", "another name"].includes(what); // (no upload makes such)
    if (isAnothers) assert.ok((await names(room, path)).includes(GONE), what);
    else await isTidy(room, path, 2, 2);
  }
});

test("a spare that somebody may pass who may not read in it takes no byte", async () => {
  const lists = { passes: [[0x20, 3, 0]], reads: [[0x21, 3, 0]], "is denied to read": [[0x1, 1, 1], [0x21, 3, 0]] };
  const found = {};
  const room = await begun();
  for (const [what, entries] of Object.entries(lists)) {
    const path = `${TOP}/eve ${what}`;
    await lay(room, path, 2);
    await room.session.askAside({ cmd: "SETLIST", path, aclflag: 1,
      entries: entries.map(([mask, flag, type]) => ({ type, flag, mask, who: "eve" })) });
    found[what] = (await saved(room, path, bytesOf(2, "c"))).numbers;
    await isTidy(room, path, 2, 2);
  }
  assert.deepEqual(found, { passes: 3, reads: 0, "is denied to read": 3 });
});

test("a document that is not as a new one would be is found behind the answer, and written anew", async () => {
  const room = await begun();
  for (const [cmd, more] of [["SETLIST", { aclflag: 1, entries: [{ type: 0, flag: 0, mask: 1, who: "eve" }] }],
    ["SETLIST", { aclflag: 3, entries: LISTED.entries.map((it) => ({ ...it, flag: 0 })) }],
    ["CHOWN", { owner: "bob", group: "eng" }], ["CHOWN", { owner: "ann", group: "staff" }]]) {
    const path = `${TOP}/document ${JSON.stringify(more).length}`;
    await lay(room, path, 2, [cmd, "/001", more]);
    assert.equal((await saved(room, path, bytesOf(2, "c"))).numbers, 3);
    await isTidy(room, path, 2, 2);
    const { entries, aclflag } = await room.aside("GETLIST", `${path}/${await current(room, path)}/001`);
    assert.deepEqual([aclflag, entries.every((it) => it.flag & 0x80)], [1, true]);
  }
});

test("pieces that another tab moves for a moment are not written anew", async () => {
  const [room, path] = [await begun(), `${TOP}/moved`];
  const mover = await tab();
  for (const letter of ["a", "b", "c"]) await saved(room, path, bytesOf(2, letter));
  const moves = [["STAT", /room-pieces-[0-9a-f]+.001$/, path, `${path} away`],
    ["READ", /room-file$/, `${path} away`, path]];
  const plain = globalThis.fetch;
  globalThis.fetch = async (url, how) => {
    const [cmd, which, from, to] = moves[0] ?? [];
    const asked = JSON.parse(how.body ?? "{}");
    if (which && asked.cmd === cmd && which.test(asked.path)) {
      moves.shift();
      await mover.session.askAside({ cmd: "RENAME", path: from, to });
    }
    return plain(url, how);
  };
  await writeFile(room, path, bytesOf(2, "d"));
  front.asked.length = 0;
  await quiet();
  globalThis.fetch = plain;
  assert.deepEqual([moves, numbers()], [[], 0]);
  await isTidy(room, path, 2, 2);
});

test("a document that may not be written to costs a new set, before the answer", async () => {
  const [room, path] = [await begun(), `${TOP}/denied`];
  const entries = [{ type: 1, flag: 0, mask: 2, who: "ann" }];
  await lay(room, path, 2, ["SETLIST", "/001", { aclflag: 1, entries }]);
  assert.equal((await saved(room, path, bytesOf(2, "c"))).numbers, 3);
  await isTidy(room, path, 2, 2);
});

test("the same bytes are written anew where a piece is damaged, and empty what a stop left", async () => {
  const [room, path] = [await begun(), `${TOP}/same`];
  await lay(room, path, 2, ["WRITE", "/000", { data: btoa("left") }]);
  assert.equal((await saved(room, path, bytesOf(2, "b"))).writes, 2);
  await isTidy(room, path, 2, 2);
  assert.equal((await saved(room, path, bytesOf(2, "b"))).writes, 0);
  const piece = `${path}/${await current(room, path)}/001`;
  await room.session.askAside({ cmd: "WRITE", path: piece, data: btoa("other") });
  assert.equal((await saved(room, path, bytesOf(2, "b"))).numbers, 0);
  await isTidy(room, path, 2, 2);
});
