/** What a large file is made of follows it: bob, who may change a file of ann, prepares how to go on once its list lets
 * him only read it, and tries. */
import assert from "node:assert/strict";
import { test } from "node:test";

import { page } from "./browser.mjs";
import { tab } from "./room.mjs";
import { TOP, begun, bytesOf, quiet, until } from "./saves.mjs";
import { appOver } from "./shelf.mjs";

const { showAccess } = await page("access");
const { showContents } = await page("contents");
const { ACCESS, NOENT, Refusal } = await page("room");
const { secure, writeFile } = await page("files");
const { bytesOf: textOf, manifestOf } = await page("manifest");
const { NOBODY, readFile } = await page("reading");
const { t } = await page("words");
const [ALL, VIEW, GROUP, PLANTED] = [0x1f07ff, 0x1200a9, 0x40, ".room-pieces-0123456789abcdef"];
const entry = (who, mask, flag = 3) => ({ type: 0, flag, mask, who });
const ask = async (room, cmd, path, more) => room.session.askAside({ cmd, path, ...more });

async function need(...command) {
  const reply = await ask(...command);
  assert.equal(reply.code, 0, `${command[1]} ${command[2]}: ${reply.error}`);
  return reply;
}

const lets = (room, path, mask, ofAnn = ALL) =>
  need(room, "SETLIST", path, { aclflag: 2, entries: [entry("ann", ofAnn), entry("bob", mask)] });

const listed = (aclflag, ...entries) => (room, path) => need(room, "SETLIST", path, { aclflag, entries });
const PREPARED = {
  owned: async (room, path) => {
    const { data } = await need(room, "READ", path);
    await need(room, "REMOVE", path);
    await need(room, "CREATE", path, { data });
  },
  listed: listed(1, entry("bob", ALL, 0)),
  "listed for a group": listed(1, entry("eng", ALL, GROUP)),
  "listed for all, and for no longer": listed(3, entry("EVERYONE@", ALL, 0)),
  "of another group": (room, path) => need(room, "CHOWN", path, { owner: "ann", group: "staff" }),
};

const BOTH_ORDERS = ["owned", "listed"]; // (all four are saved as cases: tests/cases)

/** A file of ann's that bob may change, with pieces of his that its manifest does not name; he opens it to himself, if
 * he may, and `writes` one that does. */
async function laid(name) {
  const [ann, path] = [await begun(), `${TOP}/${name}`];
  await writeFile(ann, path, bytesOf(2, "a"));
  const { data } = await need(ann, "READ", `${path}/.room-file`);
  await lets(ann, path, ALL);
  const bob = await tab("bob");
  await need(bob, "MKDIR", `${path}/${PLANTED}`);
  await need(bob, "CREATE", `${path}/${PLANTED}/000`, { data: btoa("bob's") });
  const text = textOf({ ...await manifestOf(new TextEncoder().encode("bob's")), folder: PLANTED });
  const writes = async () => {
    await ask(bob, "SETLIST", `${path}/.room-file`, { aclflag: 1, entries: [entry("bob", ALL, 0)] });
    return ask(bob, "WRITE", `${path}/.room-file`, { data: btoa(new TextDecoder().decode(text)) });
  };
  return { ann, bob, path, data, writes };
}

const appFor = (room) => Object.assign(appOver(room), { room });

/** What is told while the task is given what hears it. */
async function told(task) {
  const faults = [];
  const hears = { ...NOBODY, fail: (it) => faults.push(it) };
  await task({ ...hears, behind: () => ({ ...hears }) });
  await quiet();
  return faults;
}

for (const [name, prepares] of Object.entries(PREPARED)) {
  test(`a list that is set takes a manifest that is ${name} from who prepared it`, async () => {
    const { ann, bob, path, data, writes } = await laid(`set ${name}`);
    await prepares(bob, `${path}/.room-file`);
    await lets(ann, path, VIEW);
    assert.deepEqual(await told((it) => secure(ann, path, data, it)), [t.madeAnew(path)]);
    assert.equal((await writes()).code, ACCESS);
    assert.deepEqual(await told(async (it) => assert.deepEqual(await readFile(ann, path, it), bytesOf(2, "a"))), []);
    assert.deepEqual(await told((it) => secure(ann, path, data, it)), []);
  });
}

for (const [name, prepares] of BOTH_ORDERS.map((it) => [it, PREPARED[it]])) {
  test(`and so does a save, of one that is ${name}`, async () => {
    for (const letter of ["a", "b"]) { // the same bytes, and others
      const { ann, bob, path, writes } = await laid(`saved ${name} ${letter}`);
      await prepares(bob, `${path}/.room-file`);
      assert.deepEqual(await told((it) => writeFile(ann, path, bytesOf(2, letter), it)), [t.madeAnew(path)]);
      await lets(ann, path, VIEW);
      assert.equal((await writes()).code, ACCESS);
      assert.deepEqual(await readFile(ann, path), bytesOf(2, letter));
    }
  });

  test(`who reads by one that is ${name} is told, and a save behind the change takes it too`, async () => {
    const { ann, bob, path, writes } = await laid(`read ${name}`);
    await prepares(bob, `${path}/.room-file`);
    await lets(ann, path, VIEW); // (by the wire)
    assert.equal((await writes()).code, 0);
    for (const room of [ann, bob]) {
      assert.deepEqual(await told((it) => readFile(room, path, it)), [t.prepared(path)]);
      const view = await showContents(appFor(room), { view: "open", room: "club", path });
      assert.ok(view.flat().some((it) => it?.textContent?.includes(t.prepared(path))), room.user);
    }
    assert.deepEqual(await told((it) => writeFile(ann, path, bytesOf(2, "c"), it)), [t.madeAnew(path)]);
    assert.equal((await writes()).code, ACCESS);
    assert.deepEqual(await told(async (it) => assert.deepEqual(await readFile(ann, path, it), bytesOf(2, "c"))), []);
  });
}

test("a list that is set by the page takes pieces from who made them", async () => {
  const { ann, path, bob, writes } = await laid("pieces");
  assert.equal((await writes()).code, 0);
  const app = appFor(ann);
  const place = { view: "access", room: "club", path };
  const [, , panel] = await showAccess(app, place);
  const taken = panel.querySelectorAll("button.small")
    .find((it) => it.getAttribute("aria-label") === t.takeFrom("bob"));
  await taken.click();
  await until(() => app.told === t.listSet);
  await lets(ann, path, VIEW);
  assert.equal((await ask(bob, "WRITE", `${path}/${PLANTED}/000`, { data: btoa("other") })).code, NOENT);
  assert.deepEqual(await readFile(ann, path), new TextEncoder().encode("bob's"));
});

test("what keeps a manifest or pieces from it is told", async () => {
  const [one, other] = [await laid("refused"), await laid("damaged")];
  await PREPARED.owned(one.bob, `${one.path}/.room-file`);
  await lets(one.ann, one.path, VIEW, VIEW);
  const [faults] = await told((it) => secure(one.ann, one.path, one.data, it));
  assert.ok(faults.startsWith(t.prepared(one.path)), faults);
  await need(other.bob, "REMOVE", `${other.path}/${PLANTED}/000`);
  assert.equal((await other.writes()).code, 0);
  await lets(other.ann, other.path, VIEW);
  const [anew, damaged] = await told((it) => secure(other.ann, other.path, other.data, it));
  assert.equal(anew, `${t.madeAnew(other.path)} ${t.otherStands(other.path)}`);
  assert.ok(damaged.startsWith(t.prepared(other.path)), damaged);
});

test("a manifest in somebody else's file is theirs again", async () => {
  const { ann, bob, path } = await laid("of bob");
  await need(ann, "CHOWN", path, { owner: "bob", group: "eng" });
  assert.deepEqual(await told((it) => writeFile(ann, path, bytesOf(2, "b"), it)), [t.madeAnew(path)]);
  assert.equal((await need(bob, "STAT", `${path}/.room-file`)).owner, "bob");
});

/** As ann makes a manifest of hers anew that bob prepared, this happens in the place of what gives it its name. */
async function anewAs(name, happens) {
  const { ann, bob, path, data } = await laid(name);
  await PREPARED.listed(bob, `${path}/.room-file`);
  const { step } = ann;
  ann.step = (cmd, at, more) => (more?.to === `${path}/.room-file` ? happens(ann, cmd, at, more) :
    step.call(ann, cmd, at, more));
  await told((it) => secure(ann, path, data, it));
  return { ann, path, data, step };
}

test("one that neither takes its place nor gets its name back stays where it is", async () => {
  const { ann, path, data } = await anewAs("stays", (_, cmd, at) =>
    Promise.reject(new Refusal({ code: ACCESS, bit: 1, path: at }, { cmd, path: at })));
  const lists = await Promise.all((await ann.names(path)).map(([name]) =>
    ann.look("READ", `${path}/${name}/001`)));
  assert.ok(lists.some((it) => it?.data === data));
});

test("one that somebody clears on its way is written once more", async () => {
  const { ann, path, data } = await anewAs("cleared", async (room, cmd, at, more) => {
    await need(room, "REMOVE", at);
    return room.aside(cmd, at, more);
  });
  assert.equal((await need(ann, "READ", `${path}/.room-file`)).data, data);
});
