/** The trash: what was removed lies in a folder of the user's own in /trash (docs/FILES.md). */
import { EXIST, FOLDER, FOLDER_FULL, ROOT, Refusal, folderOf, inFolder, isPrivate, isTooLong, isWithin,
  language, lastName, nameFault, namesOf, orFault, pathFault, shortened, shown, t } from "./common.js";
import { isSpare } from "./manifest.js";

export const TRASH = "/trash";

/** Where a user's trash is, or was in rooms of before. */
function placesFor(user) {
  const sum = [...user].reduce((before, letter) => before + letter.charCodeAt(0), 0);
  return [inFolder(TRASH, `@${(sum % 16).toString(16)}`, user), inFolder(TRASH, user)];
}

export const isInTrash = path => isWithin(path, TRASH);
export const isTrash = path => !/@.$/.test(path) && placesFor(lastName(path)).includes(path);
export const isOwnTrash = ({ user }, path) => placesFor(user).includes(path);

/** (The gateway keeps emptied pieces in a trash.) */
export const withoutPool = (path, names) => (isTrash(path) ? names.filter(it => !isSpare(it)) : names);

export async function ownTrash({ room, user }) {
  for (const path of placesFor(user)) {
    const its = await room.look("STAT", path);
    if (its?.kind === FOLDER) return its.owner === user ? { path } : { fault: t.openTrash(path) };
  }
  return {};
}

export async function trashOf({ room, user }) {
  const its = await ownTrash({ room, user });
  if (!its.path || isPrivate(await room.aside("GETLIST", its.path), user)) return its;
  return { fault: t.openTrash(its.path) };
}

function nameInTrash(path, now) {
  const stamp = now.toISOString().replace(/[^0-9]/g, "").slice(0, 14);
  const [name, ...folders] = [lastName(path), ...namesOf(folderOf(path))];
  const whole = [name, ...folders, stamp].join("~");
  if (!isTooLong(whole) && !/[~…]/.test(path)) return whole;
  const end = `~…~${stamp}`;
  return isTooLong(name + end) ? shortened(name, "…", end) : name + end;
}

export const toTrash = (room, path, trash) => placedInTrash(path, trash, to => room.run("RENAME", path, { to }));

/** Does the task with the first free path in the trash, which it gives. */
export async function placedInTrash(path, trash, task) {
  for (let more = 0; ; more += 1) {
    const to = inFolder(trash, nameInTrash(path, new Date(Date.now() + more * 1_000)));
    const fault = await orFault(task(to));
    if (!(fault instanceof Refusal)) return to;
    if (fault.code === FOLDER_FULL) throw new Error(t.trashFull);
    if (fault.code !== EXIST || more === 30) throw fault;
  }
}

function timeOf(stamp) {
  const [, year, month, ...rest] = /^(\d{4})(\d\d)(\d\d)(\d\d)(\d\d)(\d\d)$/.exec(stamp) ?? [];
  return year ? new Date(Date.UTC(year, month - 1, ...rest)) : null;
}

/** What a name in a trash tells: `name`, `place` if that had room, and `when`. Null of anything else. */
export function toldBy(path) {
  const parts = lastName(path).split("~");
  const when = timeOf(parts.pop());
  if (!isTrash(folderOf(path)) || !when || !parts.length) return null;
  if (parts.length > 1 && parts.at(-1) === "…") {
    const name = parts.slice(0, -1).join("~");
    return nameFault(name) ? null : { name, place: null, when };
  }
  const place = inFolder(ROOT, ...parts.slice(1), parts[0]);
  return path.includes("…") || pathFault(place) ? null : { name: parts[0], place, when };
}

export const nameAt = path => toldBy(path)?.name ?? lastName(path);
export const calledAt = path => shown(toldBy(path)?.name ?? path);

export function beforeWords(path) {
  const its = toldBy(path);
  const when = its?.when.toLocaleString(language, { dateStyle: "medium", timeStyle: "short" });
  const where = its?.place ? [t.wasIn(shown(folderOf(its.place)))] : [];
  return its ? [...where, t.removedAt(when)].join(", ") : "";
}
