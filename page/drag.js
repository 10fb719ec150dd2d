/** Rows are dragged, or cut or copied and pasted; so are pictures. Files are dropped. */
import { copyInto, moveInto, named } from "./moving.js";
import { dropped, folderOf, freePath, inFolder, isInTrash, isWithin, lastName, make, nameIn, say, shown, t, tellIt,
  upload } from "./shared.js";

const FORM = "application/x-fileroom";
let dragged = []; // paths

export function dragRow(row) {
  row.element.draggable = true;
  row.element.ondragstart = event => {
    const { chosen } = row.things;
    dragged = (chosen.includes(row) ? chosen : [row]).map(it => it.path);
    event.dataTransfer.setData(FORM, dragged.join("\n"));
    event.dataTransfer.effectAllowed = "move";
  };
  row.element.ondragend = () => { dragged = []; };
}

const mayGo = folder => dragged.length > 0 && dragged.every(it => folderOf(it) !== folder && !isWithin(folder, it));

function take(element, fits, does) {
  const mark = isOver => element.classList.toggle("dropping", isOver);
  const over = event => {
    if (!fits(event.dataTransfer)) return false;
    event.preventDefault();
    event.stopPropagation(); // (nor shall whoever is above take it)
    return true;
  };
  element.addEventListener("dragover", event => over(event) && mark(true));
  element.addEventListener("dragleave", event => element.contains(event.relatedTarget) || mark(false));
  element.addEventListener("drop", event => {
    if (!over(event)) return;
    mark(false);
    does(event.dataTransfer);
  });
}

export const takeRows = (element, app, folder, isFolder = () => true) => take(element, data =>
  data.types.includes(FORM) && isFolder() && mayGo(folder), () => moveInto(app, dragged, folder));

const hasFiles = data => data.types.includes("Files");

const put = (app, folder, data) => upload(app, folder, dropped(data));

export const takeFiles = (element, app, folder, isFolder) => take(element, data => hasFiles(data) && isFolder(),
  data => put(app, folder, data));

export function takeDrops(app) {
  const over = make("p.over", { hidden: true });
  document.body.append(over);
  const goal = () => (document.querySelector("dialog[open]") ? null : app.watched?.put && app.watched.path);
  const hide = () => { over.hidden = true; };
  addEventListener("dragover", hide, true); // (a row that takes them lets nobody else hear of it)
  addEventListener("dragover", event => {
    if (!hasFiles(event.dataTransfer)) return;
    const path = goal();
    event.preventDefault();
    event.dataTransfer.dropEffect = path ? "copy" : "none";
    if (path) over.textContent = t.dropTo(shown(nameIn(app.room.name, path)));
    over.hidden = !path;
  });
  addEventListener("dragleave", event => event.relatedTarget || hide());
  addEventListener("drop", hide, true);
  addEventListener("drop", event => {
    if (!hasFiles(event.dataTransfer)) return;
    event.preventDefault();
    if (goal()) put(app, goal(), event.dataTransfer);
  });
}

const PICTURE = /^image\/(png|jpeg|gif|webp)$/;
const heldKey = app => `fileroom/held/${app.user}/${app.room.name}`;
const isTyping = event => event.target.closest?.("input:not([type=checkbox]), textarea, dialog");

function hold(app, event) {
  const chosen = app.things?.chosen ?? [];
  const row = document.activeElement.closest(".things tr")?.row;
  const rows = chosen.length || !row ? chosen : [row];
  if (!rows.length || isTyping(event) || !getSelection().isCollapsed) return;
  event.preventDefault();
  const [paths, isCut] = [rows.map(it => it.path), event.type === "cut"];
  const text = rows.map(it => it.link.href).join("\n");
  event.clipboardData.setData("text/plain", text);
  localStorage.setItem(heldKey(app), JSON.stringify({ paths, isCut, text }));
  say(t.isHeld(named(paths), paths.length, isCut));
}

/** (The clipboard has links alone: who else fills it moves nothing.) */
function heldIn(app, data) {
  const held = JSON.parse(localStorage.getItem(heldKey(app)));
  return held?.text === data.getData("text/plain").replaceAll("\r", "") ? held : null;
}

async function putRows(app, { paths, isCut }, folder) {
  if (!isCut) return copyInto(app, paths, folder);
  const others = paths.filter(it => folderOf(it) !== folder);
  if (!others.length) return;
  localStorage.removeItem(heldKey(app));
  await moveInto(app, others, folder);
}

function putPicture(app, file, folder) {
  const path = freePath(app.room, inFolder(folder, file.type.replace(PICTURE, "screenshot.$1")));
  return upload(app, folder, path.then(it => [{ names: [lastName(it)], file }]));
}

function paste(app, event) {
  const [its, data] = [app.watched, event.clipboardData];
  if (!its || isTyping(event)) return;
  const held = isInTrash(its.path) ? null : heldIn(app, data);
  const picture = its.put && [...data.files].find(it => PICTURE.test(it.type));
  if (!held && !picture) return;
  event.preventDefault();
  (held ? putRows(app, held, its.path) : putPicture(app, picture, its.path)).catch(tellIt);
}

export function useClipboard(app) {
  for (const it of ["cut", "copy"]) addEventListener(it, event => hold(app, event));
  addEventListener("paste", event => paste(app, event));
}
