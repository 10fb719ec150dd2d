/** What the gateway of WebDAV has for the page: who changed what, and when; and addresses. */
import { ask, displayName, forEach, inFolder, language, make, namesOf, t, toldAt } from "./common.js";

let rooms = [];
export const learnDav = async () => { rooms = await toldAt("/dav.json", []); };
export const hasDav = app => rooms.includes(app.room?.name);
const wayTo = (app, path) => ["/dav", ...[app.room.name, ...namesOf(path)].map(encodeURIComponent), ""].join("/");

export async function changesIn(app, folders) {
  const found = new Map();
  await forEach(hasDav(app) ? folders : [], async folder => {
    const its = await toldAt(`${wayTo(app, folder)}?latest`, {});
    for (const [name, [who, when, kind]] of Object.entries(its)) found.set(inFolder(folder, name), { who, when, kind });
  }, 3);
  return found;
}

export function whenWords({ who, when }) {
  const [then, now] = [new Date(when * 1000), new Date()];
  const how = then.toDateString() === now.toDateString() ? { timeStyle: "short" } : { dateStyle: "medium" };
  return make("time", { dateTime: then.toISOString(), title: then.toLocaleString(language) },
    `${then.toLocaleString(language, how)}, ${displayName(who) || who}`);
}

export function showAddresses(app, path) {
  const its = `${location.origin}${wayTo(app, path)}`;
  const words = [t.inWindows(its), t.inFinder(its), t.inGnome(its.replace("http", "dav")),
    t.inDolphin(its.replace("http", "webdav")), t.davLogin];
  return ask({ title: t.openInFiles, stays: t.close, words });
}
