/** The page's own modules, by which some of the office's people work, each with a login of their own: a line of JSON
 * asks for something, and a line answers. What stands for the browser is that of the page's tests. */
import { AsyncLocalStorage } from "node:async_hooks";
import { readFile as readDisk } from "node:fs/promises";
import { createInterface } from "node:readline";

const { page } = await import(process.env.BROWSER);
const who = new AsyncLocalStorage();
const plain = globalThis.fetch;
const refused = {}; // how often the front answered a user 429
globalThis.fetch = async (url, how) => {
  const user = who.getStore();
  const authorization = `Basic ${btoa(`${user}:${user}-word`)}`;
  const got = await plain(url, { ...how, cache: undefined, headers: { ...how.headers, authorization } });
  if (got.status === 429) refused[user] = (refused[user] ?? 0) + 1;
  return got;
};

const [busy, { sessionOfTab }, { Room }, { writeFile }, { NOBODY, readFile }, { part }, { t }] =
  await Promise.all(["busy", "session", "room", "files", "reading", "dom", "words"].map(page));
const tabs = new Map();
const ROOM = "/rooms/plans";

async function open(user) {
  const session = await sessionOfTab(ROOM, "plans", busy, user, () => {});
  return new Room("plans", ROOM, session, busy, user);
}

function tabOf(user) {
  if (!tabs.has(user)) tabs.set(user, open(user));
  return tabs.get(user);
}

const soon = (time) => new Promise((goOn) => setTimeout(goOn, time));
const isHeld = () => part("busy-text").textContent.includes(t.held);

/** Makes documents, some beside each other, until the page says that its user is held. Gives how many. */
async function flood(room, top) {
  let made = 0;
  const make = async (lane) => {
    for (let at = 0; ; at += 1) {
      if (at % 200 === 0) await room.step("MKDIR", `${top}/${lane}-${at / 200}`);
      await writeFile(room, `${top}/${lane}-${Math.floor(at / 200)}/${at}`, new Uint8Array([at]), NOBODY, true);
      made += 1;
    }
  };
  for (let lane = 0; lane < 4; lane += 1) make(lane);
  while (!isHeld()) await soon(50);
  return made;
}

const faults = []; // that were told behind an answer
const quiet = () => ({ ...NOBODY, fail: (words) => faults.push(words), behind: quiet }); // (one for each save)

const does = {
  save: async (room, { path, file }) => writeFile(room, path, new Uint8Array(await readDisk(file)), quiet()),
  async read(room, { path }) {
    const sum = await crypto.subtle.digest("SHA-256", await readFile(room, path));
    return Buffer.from(sum).toString("hex");
  },
  flood: (room, { path }) => flood(room, path),
  session: (room) => room.session.kept.name,
  async quiet() {
    while (Number(part("main").dataset.behind ?? 0)) await soon(20);
    return { refused, faults };
  },
};

async function answer(asked) {
  try {
    return { result: await who.run(asked.user, async () => does[asked.does](await tabOf(asked.user), asked)) };
  } catch (fault) {
    return { fault: `${fault.message}` };
  }
}

for await (const line of createInterface({ input: process.stdin })) {
  const asked = JSON.parse(line);
  answer(asked).then((it) => process.stdout.write(`${JSON.stringify({ ...it, number: asked.number })}\n`));
}
