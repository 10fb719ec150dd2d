/** The ways to places; favourites and latest places, which the browser keeps until another logs in. */
import { FILE, FOLDER, ROOT, addressOf, icon, isWithin, kindByName, lastName, link, make, nameText, offered, part,
  shown, t } from "./common.js";
import { hasDav } from "./dav.js";
import { isInTrash, isOwnTrash, ownTrash } from "./trash.js";

const MOST_LATEST = 5; // that are shown
const KEPT = "fileroom/mine/";
const MOST = { latest: 20, stars: 20, gone: 99 };
const keyOf = ({ user, room }) => `${KEPT}${user}/${room.name}`;
const mineOf = app => ({ latest: [], stars: [], gone: [], ...JSON.parse(localStorage.getItem(keyOf(app)) ?? "{}") });
const without = (all, path) => all.filter(([it]) => it !== path);

function keep(app, kind, all) {
  try {
    localStorage.setItem(keyOf(app), JSON.stringify({ ...mineOf(app), [kind]: all.slice(0, MOST[kind]) }));
  } catch {
    // (the store is full of requests, which count more)
  }
}

export function forgetOthers(user) {
  const theirs = it => /^fileroom\/(mine|recent)\//.test(it) && !it.startsWith(`${KEPT}${user}/`);
  for (const it of Object.keys(localStorage).filter(theirs)) localStorage.removeItem(it);
}

export const latest = app => mineOf(app).latest;
export const stars = app => mineOf(app).stars;
export const isStarred = (app, path) => stars(app).some(([it]) => it === path);
export const note = (app, path, isFolder) =>
  path === ROOT || isInTrash(path) || keep(app, "latest", [[path, isFolder], ...without(latest(app), path)]);

/** Where what is in the trash was: a name there has no room for a long path. */
export const noteGone = (app, places) => keep(app, "gone", [...places, ...mineOf(app).gone]);
export const wasAt = (app, path) => mineOf(app).gone.find(([it]) => it === path)?.[1] ?? null;

export function turnStar(app, path, isFolder) {
  const others = without(stars(app), path);
  keep(app, "stars", isStarred(app, path) ? others : [[path, isFolder], ...others]);
}

export function forget(app, path) {
  for (const kind of Object.keys(MOST)) keep(app, kind, without(mineOf(app)[kind], path));
}

export function follow(app, places) {
  const moved = path => [...places].find(([from]) => isWithin(path, from)) ?? [path, path];
  const now = path => moved(path)[1] + path.slice(moved(path)[0].length);
  for (const kind of Object.keys(MOST)) keep(app, kind, mineOf(app)[kind].map(([it, ...more]) => [now(it), ...more]));
}

/** Each a title, or none, and links, with the `kind` of an icon and what is `told` to who points at it. */
async function sectionsOf(app, { room, path, view }) {
  const its = app.room?.name;
  const wayTo = (kind, words) => ({ words, kind, place: { view: kind, room: its, path: ROOT }, isNow: kind === view });
  const ways = offered([[its, wayTo("shared", t.sharedWithYou)], [hasDav(app), wayTo("recent", t.recentChanges)]]);
  const { latest: last, stars: own } = app.room ? mineOf(app) : { latest: [], stars: [] };
  const trash = app.room && (await ownTrash(app).catch(() => ({}))).path;
  const rooms = app.rooms.map(it => ({ words: it, kind: "room", place: { room: it, path: ROOT },
    isNow: it === room && !isInTrash(path) && !ways.some(({ isNow }) => isNow) }));
  const linksTo = all => all.filter(([it]) => !isInTrash(it)).map(([it, isFolder]) => ({ words: lastName(it),
    kind: kindByName(lastName(it), isFolder ? FOLDER : FILE), place: { room: its, path: it }, told: shown(it),
    isNow: it === path }));
  const thrown = { words: t.trash, kind: "trash", place: { room: its, path: trash }, isNow: isOwnTrash(app, path) };
  return [[t.rooms, rooms], ["", ways], [t.favourites, linksTo(own)],
    [t.latest, linksTo(last.filter(([it]) => it !== path).slice(0, MOST_LATEST))], ["", trash ? [thrown] : []]];
}

const linkOf = ({ words, kind, place, told, isNow }) => make("li", link(addressOf(place),
  [icon(kind), make("span", nameText(words))], { title: told, ariaCurrent: isNow ? "page" : null }));

const drawn = ([title, links]) => links.length > 0 &&
  [title && make("p.about", title), make("ul", { ariaLabel: title || null }, links.map(linkOf))];

/** (Anew only where something is other: who stands in it stays.) */
export async function drawRail(app, place) {
  const [rail, its] = [part("rail"), make("div", (await sectionsOf(app, place)).map(drawn))];
  if (its.innerHTML !== rail.firstChild?.innerHTML) rail.replaceChildren(its);
  rail.onclick = ({ target }) => {
    const { href } = target.closest("a") ?? {};
    if (href) rail.hidePopover();
    if (href === location.href) app.show();
  };
}
