/** What stands above each view: the way to it, its name, and the other views of it. */
import { takeRows } from "./drag.js";
import { ROOT, addressOf, foldersAbove, isTrash, link, make, menuButton, nameAt, nameText, shown,
  t } from "./shared.js";

const VIEWS = [["open", t.contents], ["access", t.share], ["who", t.whoMay]];
const nameOf = (place, path) => (path === ROOT ? place.room : isTrash(path) ? t.trash : nameAt(path));

function way(place, above, app) {
  const folders = above.map(path => {
    const it = make("li", link(addressOf({ room: place.room, path }), nameText(nameOf(place, path))));
    if (app) takeRows(it, app, path);
    return it;
  });
  return make("nav.above", { ariaLabel: t.foldersAbove }, make("ol.way", folders));
}

const views = place => make("nav.views", { ariaLabel: t.views }, VIEWS.map(([view, words]) =>
  link(addressOf({ ...place, view }), words, { ariaCurrent: view === place.view ? "page" : null })));

/** With a `menu` the name opens it; with a `title` the way leads to the object too; else its views stand below. */
export function head(place, { title, menu, app, hasViews = !menu && !title } = {}) {
  const name = title ?? nameOf(place, place.path);
  const its = menu ? make("h1", menuButton([nameText(name)], { className: "title" }, menu, shown(name))) :
    make("h1", { tabIndex: -1 }, nameText(name));
  const above = [...foldersAbove(place.path), ...title && !menu ? [place.path] : []]
    .filter(it => !/^.trash(.@.)?$/.test(it)); // (in which users' own lie)
  const line = make("div.head", above.length > 0 && way(place, above, app), its);
  return hasViews ? [line, views(place)] : [line];
}
