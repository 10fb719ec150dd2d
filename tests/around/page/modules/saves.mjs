/** What tests of saves share: a tab over a served room, files in it, what is asked and what lies there. */
import assert from "node:assert/strict";
import { beforeEach } from "node:test";

import { kept, page, tabs } from "./browser.mjs";
import { front, patience, tab } from "./room.mjs";

const { writeFile } = await page("files");
const { manifestAt, readFile } = await page("reading");
const { PIECE } = await page("manifest");
const { part } = await page("dom");
export const TOP = `/spares-${process.pid}`;
const entries = ["ann", "bob"].map((who) => ({ type: 0, flag: 3, mask: 0x1f07ff, who }));
export const LISTED = { aclflag: 1, entries };
const now = performance.now.bind(performance);
performance.now = () => 1_000 * now(); // (the pace of the front is tried elsewhere)

let flying = 0; // requests that have no answer yet
export const isFlying = () => flying > 0;
const plain = globalThis.fetch;
globalThis.fetch = async (...all) => {
  flying += 1;
  return plain(...all).finally(() => { flying -= 1; });
};

beforeEach(() => {
  tabs.end();
  kept.clear();
  Object.assign(front, { faults: [], asked: [], most: 4_000, user: "ann" });
  Object.assign(patience, { waits: [], isDead: false });
});

export const soon = () => new Promise((goOn) => setTimeout(goOn, 1));
let ended = 0; // what tabs of before had behind an answer
export const isQuiet = () => Number(part("main").dataset.behind ?? 0) === ended;

export async function until(look) {
  for (let times = 0; !look(); times += 1) {
    assert.ok(times < 60_000, `never came: ${look}`);
    await soon();
  }
}

export const quiet = () => until(isQuiet);

/** Bytes of so many pieces, the last one short, unlike those of another letter. */
export function bytesOf(pieces, letter) {
  const bytes = new Uint8Array((pieces - 1) * PIECE + 5);
  for (let at = 0; at < bytes.length; at += PIECE) bytes.fill(letter.charCodeAt(0) + at / PIECE, at, at + PIECE);
  return bytes;
}

/** A tab of ann's, whose session is open in each lane, and a folder for this test. */
export async function begun() {
  const room = await tab();
  await room.session.askAside({ cmd: "MKDIR", path: TOP });
  await room.session.askAside({ cmd: "SETLIST", path: TOP, ...LISTED });
  const wide = Array.from({ length: 4 }, () => room.session.askAside({ cmd: "STAT", path: "/" }));
  await Promise.all([...wide, room.session.ask({ cmd: "STAT", path: "/" })]);
  front.asked.length = 0;
  return room;
}

export const isOf = (cmds) => ({ body, reply }) => cmds.includes(JSON.parse(body).cmd) && reply?.code === 0;
export const numbers = () => front.asked.filter(isOf(["MKDIR", "CREATE"])).length;
export const writes = () => front.asked.filter(isOf(["WRITE", "CREATE"])).length;

/** What a save asks before it is answered, the numbers that it takes in all, and what it writes. */
export async function saved(room, path, bytes) {
  front.asked.length = 0;
  await writeFile(room, path, bytes);
  const asked = front.asked.length;
  await quiet();
  assert.deepEqual(await readFile(room, path), bytes);
  return { asked, numbers: numbers(), writes: writes() };
}

export const names = async (room, path) => (await room.names(path))?.map(([name]) => name) ?? [];

export const current = async (room, path) => (await manifestAt(room, path)).folder;

/** The bytes of each document in the folders of a file of this kind. */
export async function held(room, path, kind) {
  const found = [];
  for (const folder of (await names(room, path)).filter((it) => it.startsWith(`.room-${kind}-`))) {
    const its = await names(room, `${path}/${folder}`);
    const read = (it) => room.session.askAside({ cmd: "READ", path: `${path}/${folder}/${it}`, keep: false });
    found.push(await Promise.all(its.map(async (it) => atob((await read(it)).data ?? "?").length)));
  }
  return found;
}

/** Nothing lies in a file but a version of so many documents and a spare of so many, which is empty. */
export async function isTidy(room, path, pieces, spare) {
  assert.deepEqual((await held(room, path, "pieces")).map((it) => it.length), [pieces]);
  assert.deepEqual(await held(room, path, "gone"), spare ? [Array(spare).fill(0)] : []);
  assert.deepEqual((await names(room, path)).length, spare ? 3 : 2);
}

export const GONE = ".room-gone-0123456789abcdef";

/** A file of so many pieces with a spare of as many, in which somebody did more. */
export async function lay(room, path, pieces, ...does) {
  await writeFile(room, path, bytesOf(pieces, "b"));
  const made = Array.from({ length: pieces }, (_, at) => ["CREATE", `/00${at}`, { data: "" }]);
  for (const [cmd, at, more] of [["MKDIR", "", {}], ...made, ...does]) {
    const reply = await room.session.askAside({ cmd, path: `${path}/${GONE}${at}`, ...more });
    assert.equal(reply.code, 0, `${cmd} ${reply.error}`);
  }
  await quiet();
}

/** All tabs have ended, with what goes on in them behind an answer. */
export function endAll() {
  tabs.end();
  ended = Number(part("main").dataset.behind ?? 0);
}
