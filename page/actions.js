/** What is offered for an object: what the lists allow, or all where the room does not say. */
import { download, downloadFolder, save } from "./downloads.js";
import { copyTo, move, putBack, remove, wayBack } from "./moving.js";
import { ADD_FILE, ADD_FOLDER, APPEND, DELETE, DELETE_CHILD, FILE, FOLDER, LARGE, MOST_BYTES, PASS_THROUGH as PASS,
  READ, READ_LIST, ROOT, UNFINISHED, WRITE, addressOf, area, ask, button, changesIn, checkbox, clean, drawRail,
  entriesOf, faultLine, filesButton, folderOf, fromBase64, fromText, hasDav, inFolder, isStarred, isTrash, keepBeside,
  keepInTrash, lastName, make, makeLike, nameInput, newVersion, offered, placeIn, say, showAddresses, shown, t,
  tellFault, toBase64, toText, toldBy, trashOf, turnStar, whenWords, wholeLink, withFollows } from "./shared.js";

export const rightsOn = async (room, path) => await room.rights(path) ?? -1;

const copyLink = address => navigator.clipboard.writeText(wholeLink(address))
  .then(() => say(t.linkCopied), fault => tellFault(t.about(t.copyLink, fault.message)));

export function star(app, path, isFolder) {
  turnStar(app, path, isFolder);
  for (const { row } of document.querySelectorAll("tbody tr")) row?.showStar();
  say(t.isStar(shown(lastName(path)), isStarred(app, path)));
  drawRail(app, app.place);
}

const has = (rights, ...bits) => bits.every(it => rights & it);

export async function rightsAt(room, path) {
  const [own, above] = await Promise.all([rightsOn(room, path), path === ROOT ? 0 : rightsOn(room, folderOf(path))]);
  return { own, above };
}

export function offersFor(app, path, kind, { own, above, size }) {
  const [isFile, isLarge, isUnfinished, isFolder] = [FILE, LARGE, UNFINISHED, FOLDER].map(it => it === kind);
  const [isTop, isThrown] = [path === ROOT, toldBy(path) !== null];
  const isOver = (isLarge || isUnfinished) && has(own, ADD_FILE, ADD_FOLDER, PASS);
  const isWhole = isFolder && isTrash(path); // (somebody's, with what they may want back)
  const isMovable = !isTop && !isWhole && (has(own, DELETE) || has(above, DELETE_CHILD));
  const replaces = isUnfinished ? null : { mayRead: has(own, READ), mayAdd: has(above, ADD_FILE, ADD_FOLDER) };
  const at = view => addressOf({ view, room: app.room.name, path });
  return offered([
    [isFile && has(own, READ) || isLarge && has(own, READ, PASS),
      { words: t.download, does: () => download(app, path, size) }],
    [isFolder && has(own, READ, PASS), { words: t.downloadZip, does: () => downloadFolder(app, path) }],
    [!isThrown && (isFile && has(own, WRITE) || isOver),
      { words: t.newVersion, files: { isOne: true }, chosen: it => newVersion(app, path, it, replaces) }],
    [!isThrown && isMovable && has(above, isFile ? ADD_FILE : ADD_FOLDER),
      { key: "rename", words: t.rename, does: () => rename(app, path) }],
    [isThrown && isMovable, { words: t.putBack, does: () => putBack(app, path) }],
    [isMovable, { words: t.move, does: () => move(app, [path]) }],
    [!isTop && !isUnfinished && has(own, READ), { words: t.copy, does: () => copyTo(app, [path]) }],
    [isMovable, { key: "remove", words: t.remove, does: () => remove(app, [path]) }],
    [!isThrown && has(own, READ_LIST), { words: t.share, href: at("access"), isApart: true, isView: true }],
    [!isThrown, { words: t.whoMay, href: at("who"), isView: true }],
    [!isThrown, { words: t.copyLink, does: () => copyLink(at("open")), isView: true }],
    [isFolder && !isThrown && hasDav(app),
      { words: t.openInFiles, does: () => showAddresses(app, path), isView: true }],
    [!isThrown && !isTop, { words: t.star(isStarred(app, path)), does: () => star(app, path, isFolder), isView: true }],
  ]);
}

export const asButton = ({ words, files, chosen, does }) =>
  (chosen ? filesButton(words, files, chosen) : button(words, does));

export const textOffers = (app, path, own, bytes, text) => offered([
  [text !== null && has(own, READ, WRITE), { words: t.edit, does: () => edit(app, path) }],
  [has(own, APPEND) && (bytes === null || text !== null), { words: t.append, does: () => append(app, path) }],
]);

const tooLong = ({ length }) => (length > MOST_BYTES ? t.tooLong(length, MOST_BYTES) : "");

async function makeNew(app, folder, { title, fields = [], faultOf = () => "", does }) {
  const [{ room }, name, full] = [app, nameInput(), faultLine()];
  const place = placeIn(room, folder);
  place.then(goal => {
    if (goal !== folder) full.textContent = t.isFull(shown(folder), shown(goal));
  }).catch(fault => { full.textContent = fault.message; });
  const task = async () => {
    if (await place !== folder) await makeLike(room, await place, folder);
    await does(inFolder(await place, clean(name.value)), room);
  };
  if (!await ask({ title, does: t.make, task, fields: [[t.heads.name, name], ...fields],
    words: [t.yoursThen, full], faultOf })) return;
  const to = await place;
  await app.done(t.isMade(shown(clean(name.value))), to === folder ? null : { from: folder, to });
}

export function makeFolder(app, folder) {
  let [isMine, made] = [false, null]; // (where its list was refused, it stays)
  const mine = checkbox(t.onlyMe, false, it => {
    mine.closest("form").querySelector("p").hidden = isMine = it;
  });
  const own = { aclflag: withFollows(1, false), entries: entriesOf("all", { id: "user", name: app.user }, FOLDER) };
  return makeNew(app, folder, { title: t.newFolder, fields: [["", mine]], does: async (path, room) => {
    if (!made) await room.run("MKDIR", path);
    else if (made !== path) await room.run("RENAME", made, { to: path });
    made = path;
    if (isMine) await room.run("SETLIST", path, own);
  } });
}

export function makeDocument(app, folder) {
  const text = area();
  return makeNew(app, folder, { title: t.newDocument, fields: [[t.text, text]],
    faultOf: () => tooLong(fromText(text.value)),
    does: (path, room) => room.run("CREATE", path, { data: toBase64(fromText(text.value)) }) });
}

function asLines(text, before) {
  const end = before.includes("\r\n") ? "\r\n" : "\n";
  return `${before === "" || before.endsWith("\n") ? "" : end}${text.replaceAll("\n", end)}${end}`;
}

async function append(app, path) {
  const { room } = app;
  // (read before anything is typed)
  const before = await app.attempt(t.appendTo(shown(path)), async () =>
    toText(fromBase64((await room.look("READ", path, { keep: false }))?.data ?? "")) ?? "");
  if (before === null) return;
  const text = area("", 6);
  const isDone = await ask({ title: t.appendTo(shown(lastName(path))), does: t.append, words: t.onOwnLine,
    fields: [[t.text, text]], faultOf: () => tooLong(fromText(text.value)),
    task: () => room.run("APPEND", path, { data: toBase64(fromText(asLines(text.value, before))) }) });
  if (isDone) await app.done(t.replaced, null, null, true);
}

function settle(who, theirs, mine, keep, take) {
  const text = (words, it) => [make("h3", words), make("pre", { tabIndex: 0 }, it)];
  return ask({ title: t.changed, does: t.keepCopy, task: keep,
    words: [who, text(t.theirs, theirs), text(t.yours, mine)],
    others: [{ words: t.takeTheirs, value: "theirs", task: take }, { words: t.goOnWithMine, value: "on" }] });
}

// Where this tab kept the version before. (A trash holds 256 things: of each save it would soon be full.)
const kept = new Set();

export async function edit(app, path) {
  const [{ room }, title] = [app, t.doTo(t.edit, shown(lastName(path)))];
  const found = await app.attempt(title, () => Promise.all([room.run("READ", path),
    room.look("GETLIST", path).then(it => (it ? trashOf({ ...app, room }) : {}))]));
  if (!found) return;
  let [[{ data: seen }, { path: trash }], told, written] = [found, t.replaced];
  const text = toText(fromBase64(seen));
  if (text === null) return tellFault(t.about(title, t.noText));
  const [field, lineEnd] = [area(text), text.includes("\r\n") ? "\r\n" : "\n"]; // (a text field has \n alone)
  const typed = () => fromText(field.value.replaceAll("\n", lineEnd));
  const [since, key] = [Date.now() / 1000, room.name + path];
  const keeps = trash && checkbox(t.keepOld, !kept.has(key));
  const keep = async () => {
    told = t.keptAs(shown(lastName(await keepBeside(room, path, t.copyOf(app.user), typed()))));
  };
  const take = () => { told = t.otherStands(shown(lastName(path))); };
  const task = async () => {
    const [{ data: now }, data] = [await room.run("READ", path), toBase64(typed())];
    if (now === seen) {
      if (keeps?.firstChild.checked) {
        await keepInTrash(room, path, trash);
        keeps.firstChild.checked = false; // (what is written may be refused, and sent again)
        kept.add(key);
        told += t.keptUnder(1, t.trash);
      }
      await room.run("WRITE", path, { data });
      return void (written = data);
    }
    const its = (await changesIn(app, [folderOf(path)])).get(path);
    const who = its?.when > since ? whenWords(its) : [];
    const chosen = await settle(who, toText(fromBase64(now)) ?? t.noText, field.value, keep, take);
    if (chosen === "on") seen = now;
    if (chosen === "on" || !chosen) throw new Error(chosen ? t.notReplaced : t.unsaved);
  };
  const undo = async () => {
    if ((await room.run("READ", path)).data !== written) throw new Error(t.changed);
    await room.run("WRITE", path, { data: seen });
    await app.done(t.textBack, { to: path }, null, true);
  };
  const isDone = await ask({ title, does: t.save, fields: [[t.text, field], ...keeps ? [["", keeps]] : []], task,
    faultOf: () => tooLong(typed()),
    wayOn: button(t.download, () => save(new Blob([typed()]), lastName(path)), "small") });
  if (isDone) await app.done(told, null, written !== undefined && undo, true);
}

async function rename(app, path) {
  const to = nameInput(lastName(path), { size: 30 });
  const target = () => inFolder(folderOf(path), clean(to.value));
  const isDone = await ask({ title: t.doTo(t.rename, shown(lastName(path))), does: t.rename,
    fields: [[t.heads.name, to]], task: () => app.room.run("RENAME", path, { to: target() }) });
  if (!isDone) return;
  const now = target();
  await app.done(t.isNow(shown(path), shown(now)), { from: path, to: now }, wayBack(app, new Map([[path, now]])));
}
