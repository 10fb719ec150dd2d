/** What goes on behind the answer of a save: beside the user, who may save again, remove it, or close the tab. */
import assert from "node:assert/strict";
import { test } from "node:test";

import { page } from "./browser.mjs";
import { endsIn, front, tab } from "./room.mjs";
import { GONE, TOP, begun, bytesOf, endAll, isQuiet, isTidy, lay, names, numbers, quiet, saved,
  until } from "./saves.mjs";

const { t } = await page("words");
const { writeFile } = await page("files");
const { NOBODY, readFile } = await page("reading");
const { removeAll } = await page("parts");

test("a save is answered with its manifest, and the user goes on beside the rest", async () => {
  const [room, path] = [await begun(), `${TOP}/behind`];
  await saved(room, path, bytesOf(20, "a"));
  front.asked.length = 0;
  await writeFile(room, path, bytesOf(20, "b"));
  const asked = front.asked.length;
  assert.equal(isQuiet(), false);
  assert.equal((await room.session.ask({ cmd: "STAT", path })).code, 0);
  assert.ok(front.asked.length < asked + 10, `${front.asked.length} requests, ${asked} before the answer`);
  assert.deepEqual(await readFile(room, path), bytesOf(20, "b"));
  await quiet();
  assert.ok(front.asked.length > asked + 20);
});

test("who saves again at once takes over what goes on behind, and so does a removal", async () => {
  const [room, path] = [await begun(), `${TOP}/again`];
  await lay(room, path, 9);
  front.asked.length = 0;
  for (const letter of ["c", "d", "e"]) await writeFile(room, path, bytesOf(9, letter));
  await quiet();
  const emptied = front.asked.filter(({ body }) => body.startsWith('{"cmd":"WRITE","data":""')).length;
  assert.deepEqual([numbers(), await readFile(room, path)], [0, bytesOf(9, "e")]);
  assert.ok(emptied < 2 * 9, `${emptied} documents were emptied`); // (what is written to next need not be empty)
  await isTidy(room, path, 9, 9);
  await writeFile(room, path, bytesOf(9, "f"));
  await removeAll(room, path);
  assert.equal(isQuiet(), true);
  assert.deepEqual(await names(room, TOP).then((it) => it.includes("again")), false);
});

test("what is found behind the answer is told once that has ended", async () => {
  const [room, path] = [await begun(), `${TOP}/told`];
  await lay(room, path, 2, ["CREATE", "/x", { data: "" }]);
  const told = [];
  const behind = () => ({ ...NOBODY, fail: (words) => told.push(words), tell: () => told.push("end") });
  await writeFile(room, path, bytesOf(2, "c"), { ...NOBODY, behind });
  assert.deepEqual(told, []);
  await quiet();
  assert.deepEqual(told, [t.noPart(`${path}/${GONE}`), "end"]);
});

test("of what a closed tab left behind its answer nothing is told, and the next save goes on from there", async () => {
  for (const fault of ["drop", "lose"]) {
    const [room, path] = [await begun(), `${TOP}/closed ${fault}`];
    await lay(room, path, 9);
    await writeFile(room, path, bytesOf(9, "c"));
    await until(() => front.asked.at(-1).body.startsWith('{"cmd":"WRITE","data":""'));
    await endsIn(() => {}, ...Array(9).fill(fault));
    endAll();
    front.faults.length = 0;
    const next = await tab();
    assert.deepEqual(next.told, []);
    assert.deepEqual(await readFile(next, path), bytesOf(9, "c"));
    assert.equal((await saved(next, path, bytesOf(9, "d"))).numbers, 0);
    await isTidy(next, path, 9, 9);
  }
});

test("what is cleared behind an answer is no piece of a version that came meanwhile", async (its) => {
  for (const letter of ["b", "c"]) { // the same bytes, and others
    const [room, other, path] = [await begun(), await tab("bob"), `${TOP}/meanwhile ${letter}`];
    await lay(room, path, 2);
    const [{ step }, { aside }] = [other, Object.getPrototypeOf(room)];
    let answered = null;
    const waits = its.mock.method(Object.getPrototypeOf(room), "aside", async function late(cmd, at, ...more) {
      if (cmd === "STAT" && at.includes(".room-pieces-")) await answered;
      return aside.call(this, cmd, at, ...more);
    });
    its.mock.method(other, "step", async (cmd, at, more) => {
      const isVersion = cmd === "WRITE" && at.endsWith(".room-file");
      if (isVersion) await writeFile(room, path, bytesOf(2, letter));
      return step.call(other, cmd, at, more);
    });
    answered = writeFile(other, path, bytesOf(2, "e"));
    await answered;
    await quiet();
    waits.mock.restore();
    assert.deepEqual([letter, await readFile(room, path)], [letter, bytesOf(2, "e")]);
  }
});
