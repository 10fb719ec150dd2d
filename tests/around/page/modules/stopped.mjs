/** A tab that ends at any request of a save, and two who save at once. */
import assert from "node:assert/strict";
import { test } from "node:test";

import { page } from "./browser.mjs";
import { front, patience, tab } from "./room.mjs";
import { TOP, begun, bytesOf, endAll, isFlying, isTidy, lay, quiet, saved, soon } from "./saves.mjs";

const { t } = await page("words");
const { writeFile } = await page("files");
const { readFile } = await page("reading");
const { PIECE } = await page("manifest");

/** The tab ends at that request of a save; whether the save had been answered, or `null` where it has fewer. */
async function endsAt(room, path, bytes, at) {
  Object.assign(front, { asked: [], faults: [...Array(at).fill("pass"), ...Array(99).fill(at % 2 ? "lose" : "drop")] });
  Object.assign(patience, { waits: [], isDead: true });
  let [isAnswered, isOver, ticks] = [false, false, 0];
  writeFile(room, path, bytes).then(() => { isAnswered = true; }).then(quiet).then(() => { isOver = true; });
  for (; !isOver && ticks < 20; await soon()) ticks = patience.waits.length && !isFlying() ? ticks + 1 : 0;
  endAll();
  front.faults.length = 0;
  patience.isDead = false;
  return isOver ? null : isAnswered;
}

test("a tab that ends at any request of a save leaves one version whole, and the next save goes on", async () => {
  const path = `${TOP}/stopped`;
  let [room, before] = [await begun(), bytesOf(2, "b")];
  await lay(room, path, 2);
  for (let at = 0; ; at += 1) {
    const [mine, next] = ["c", "e"].map((it) => bytesOf(2, String.fromCharCode(it.charCodeAt(0) + 4 * at)));
    const isAnswered = await endsAt(room, path, mine, at);
    if (isAnswered === null) return assert.ok(at > 20, `${at} stops`);
    room = await tab();
    const read = await readFile(room, path);
    assert.deepEqual(read, isAnswered || read[0] === mine[0] ? mine : before, `stop ${at}`);
    if (isAnswered) assert.deepEqual(room.told.filter(([, reply]) => !reply), [], `stop ${at}`);
    const { numbers: taken } = await saved(room, path, next);
    assert.ok(taken <= 3, `stop ${at}: ${taken} numbers`);
    await isTidy(room, path, 2, 2);
    before = next;
  }
});

test("of two who save at once one version stands, whole, and the other one says so", async () => {
  const [ann, path] = [await begun(), `${TOP}/two`];
  await lay(ann, path, 2);
  const bob = await tab("bob");
  for (let times = 0; times < 6; times += 1) {
    const wanted = [ann, bob].map((room, at) => ({ room, bytes: bytesOf(2, "cdefghijklmnopq"[2 * times + at]) }));
    const ends = await Promise.allSettled(wanted.map(async ({ room, bytes }, at) => {
      for (let count = 0; count < 3 * times * at; count += 1) await soon();
      await writeFile(room, path, bytes);
    }));
    await quiet();
    const faults = ends.filter((it) => it.status === "rejected").map((it) => it.reason.message);
    assert.deepEqual(faults, Array(faults.length).fill(t.otherStands(path)));
    const read = await readFile(ann, path);
    assert.ok(wanted.some(({ bytes }, at) => ends[at].status === "fulfilled" && bytes[0] === read[0]));
    assert.ok([...read.keys()].every((it) => read[it] === read[0] + Math.floor(it / PIECE)));
  }
  assert.ok((await saved(ann, path, bytesOf(2, "z"))).numbers <= 3);
  await isTidy(ann, path, 2, 2);
});
