/** The sixteen rights, and ways to sum them up; entries of a list in words, and back (docs/LISTS.md); and what people
 * mostly give. */
import { personText } from "./names.js";
import { joined, t } from "./words.js";

export const FILE = "file";
export const FOLDER = "folder";
export const LARGE = "large"; // a document in pieces, whose list is that of the folder that holds them
export const UNFINISHED = "unfinished"; // one whose first version was never whole
export const [READ, WRITE, APPEND, ADD_FILE, ADD_FOLDER] = [0x1, 0x2, 0x4, 0x2, 0x4];
export const [PASS_THROUGH, DELETE_CHILD, DELETE] = [0x20, 0x40, 0x10000];
export const [READ_LIST, WRITE_LIST] = [0x20000, 0x40000];
const OF_OWNERS = READ_LIST | WRITE_LIST; // which an owner always may

/** With the words of the command `room`, of a document and of a folder. Commands ask for those that are `isAsked`. */
export const RIGHTS = [
  [0x1, "read", "list"], [0x4, "append", "add-folder"], [0x2, "write", "add-file"], [0x20, "execute", "traverse"],
  [0x10000, "delete"], [0x40, "delete-child"], [0x80, "read-attributes"], [0x20000, "read-acl"],
  [0x40000, "write-acl"], [0x80000, "write-owner"], [0x8, "read-named-attrs"], [0x10, "write-named-attrs"],
  [0x100, "write-attributes"], [0x200, "write-retention"], [0x400, "write-retention-hold"], [0x100000, "synchronize"],
].map(([bit, ...words]) => {
  const [onFile, onFolder = onFile, onLarge = onFile] = t.rights[bit] ?? [words[0].replaceAll("-", " ")];
  return { bit, words, [FILE]: onFile, [FOLDER]: onFolder, [LARGE]: onLarge, isAsked: bit in t.rights,
    isOfFolders: [PASS_THROUGH, DELETE_CHILD].includes(bit) };
});

export const ALL = RIGHTS.reduce((mask, it) => mask | it.bit, 0);
export const [VIEW, EDIT, CHANGE] = [0x1200a9, 0x1200af, 0x1301ef];

export const SETS = [["view", VIEW], ["edit", EDIT], ["change", CHANGE], ["all", ALL]]
  .map(([name, mask]) => ({ name, mask, does: t.sets[name] }));

/** The set that a mask is. (The right to remove its old pieces makes no other one of a large file's.) */
export const setOf = (mask, kind) => SETS.find(it => ((it.mask ^ mask) & ~(kind === LARGE ? DELETE_CHILD : 0)) === 0);

const level = name => ({ name, word: t.levels[name][0], tells: t.levels[name][1] });
const [SOME, NONE, MORE] = ["some", "none", "more"].map(level);
export const [SHUT_OUT, NOT_KNOWN, SEVERAL] = ["shut", "unknown", "several"].map(level);
const LEVELS = SETS.map(({ name }) => level(name));
const WRITES = { ...level("write"), name: "edit" }; // (nothing is added to a document)
export const LEGEND = [...LEVELS.toReversed(), WRITES, MORE, SOME, NONE, SHUT_OUT, NOT_KNOWN, SEVERAL];

/** The rights of a mask that commands ask for. (To a large file nothing is appended.) */
export function askedOf(mask, kind) {
  const isOf = it => kind === FOLDER || !it.isOfFolders && !(kind === LARGE && it.bit === APPEND);
  return RIGHTS.filter(it => it.isAsked && isOf(it)).reduce((found, { bit }) => found | (mask & bit), 0);
}

export function ofLarge(own, inside) {
  const needs = [[READ, READ | PASS_THROUGH], [WRITE, ADD_FILE | ADD_FOLDER | PASS_THROUGH]];
  const lacks = needs.filter(([bit, all]) => (own & all) !== all || !(inside & bit));
  return lacks.reduce((mask, [bit]) => mask & ~bit, own);
}

export function levelOf(allowed, kind) {
  const has = askedOf(allowed, kind);
  const kept = kind === FOLDER && DELETE;
  const at = SETS.findLastIndex(({ mask }) => askedOf(mask & ~(mask === CHANGE ? has | kept : has), kind) === 0);
  if (at < 0) return has ? SOME : NONE;
  const its = SETS[at].mask === EDIT && kind !== FOLDER ? WRITES : LEVELS[at];
  return has & ~SETS[at].mask ? { ...its, word: `${its.word}+` } : its;
}

export const rightsIn = (mask, kind) => RIGHTS.filter(it => mask & it.bit).map(it => it[kind]);
export const bothWords = right =>
  right[FILE] === right[FOLDER] || right.isOfFolders ? right[FOLDER] : `${right[FOLDER]} / ${right[FILE]}`;

export const MOST_ENTRIES = 32; // of an object's own
const DENY = 1;
const [TO_FILES, TO_FOLDERS, CHILDREN_ALONE, NOT_HERE] = [0x1, 0x2, 0x4, 0x8];
const BOTH = TO_FILES | TO_FOLDERS;
const GROUP_FLAG = 0x40;
const MARK = 0x80; // of what is handed down
const [AUTO_INHERIT, PROTECTED] = [1, 2];

export const isNamed = id => ["user", "group"].includes(id);

/** A flag that `isTurned` stands for no. */
export const REACH = [NOT_HERE, TO_FILES, TO_FOLDERS, CHILDREN_ALONE].map((flag, at) =>
  ({ flag, word: t.reach[at], isTurned: [NOT_HERE, CHILDREN_ALONE].includes(flag) }));

export const isAlike = (one, other) => JSON.stringify(one) === JSON.stringify(other);
export const isInherited = ({ flag }) => (flag & MARK) !== 0;
export const asOwn = entry => ({ ...entry, flag: entry.flag & ~MARK });
export const isDeny = ({ type }) => type === DENY;
export const newEntry = kind => ({ type: 0, flag: kind === FILE ? 0 : BOTH, mask: VIEW, who: "" });

export const whomOf = ({ who, flag }) => (who === "" || who.endsWith("@") ? { id: who, name: "" } :
  { id: flag & GROUP_FLAG ? "group" : "user", name: who });

export const withWhom = (entry, { id, name }) => ({ ...entry, who: isNamed(id) ? name : id,
  flag: (entry.flag & ~GROUP_FLAG) | (id === "group" ? GROUP_FLAG : 0) });

export const byWhom = entries =>
  [...Map.groupBy(entries, it => JSON.stringify(whomOf(it))).values()].map(its => [whomOf(its[0]), its]);

export function whomFault(entry, roster) {
  if (entry.who === "") return t.noWhom;
  const { id, name } = whomOf(entry);
  if (!roster || !isNamed(id)) return "";
  const isUser = id === "user";
  const known = isUser ? Object.keys(roster) : Object.values(roster).flat();
  return known.includes(name) ? "" : t.notInRoster(name, isUser);
}

export const forDocument = entry => ({ ...entry, flag: entry.flag & GROUP_FLAG });

// What a folder has to allow, or to deny, beside a document's right.
const BESIDE = [{ 0x1: 0x20, 0x2: 0x66 }, { 0x1: 0x20, 0x2: 0x46, 0x4: 0x46 }];

/** A document's entry as a large file needs it. (Nothing is appended to one: that right alone lets do nothing.) */
export function carried(entry) {
  const { type, flag, mask } = entry;
  const more = Object.entries(BESIDE[type]).filter(([bit]) => mask & bit);
  const own = type === DENY || mask & WRITE ? mask : mask & ~APPEND;
  return { ...entry, flag: flag & ~MARK | BOTH, mask: more.reduce((sum, [, it]) => sum | it, own) };
}

export const isPrivate = ({ aclflag, entries }, user) => !follows(aclflag) &&
  entries.every(({ who, flag }) => who === "OWNER@" || (who === user && !(flag & GROUP_FLAG)));
export const ownOf = ({ entries }) => entries.filter(it => !isInherited(it));

/** Whether all whom a folder's list lets pass may read a new document in it; no where entry by entry does not tell. */
export const passersRead = ({ entries }) => entries.every(it => {
  const mayPass = !(it.flag & NOT_HERE) && (it.mask & PASS_THROUGH);
  const isOnFiles = it.flag & TO_FILES && it.mask & READ;
  return isDeny(it) ? !isOnFiles || mayPass : !mayPass || isOnFiles;
});

/** The list without what is handed down; null where that is all of it. */
export function ownList({ aclflag, entries }) {
  const own = entries.filter(it => !isInherited(it) || !follows(aclflag));
  return own.length || aclflag !== AUTO_INHERIT ? { aclflag, entries: own } : null;
}

export const follows = aclflag => (aclflag & (AUTO_INHERIT | PROTECTED)) === AUTO_INHERIT;
export const withFollows = (aclflag, isWanted) => (follows(aclflag) === isWanted ? aclflag :
  aclflag & ~(AUTO_INHERIT | PROTECTED) | (isWanted ? AUTO_INHERIT : PROTECTED));

export const whomText = ({ id, name }, whose) =>
  [t.whom[id], id === "user" ? personText(name) : name, whose && `(${whose})`].filter(it => it).join(" ");

export const whomWords = (whom, { owner, group }) => whomText(whom, { "OWNER@": owner, "GROUP@": group }[whom.id]);

function rightsWords({ mask, flag }, kind) {
  const set = setOf(mask, kind);
  if (set) return set.does;
  if (mask === 0) return t.doNothing;
  if (kind === LARGE) return joined(rightsIn(mask, LARGE));
  const isForFiles = kind === FILE || flag & NOT_HERE && (flag & BOTH) === TO_FILES;
  const isForBoth = !isForFiles && kind === FOLDER && flag & TO_FILES;
  return joined(isForBoth ? RIGHTS.filter(it => mask & it.bit).map(bothWords) :
    rightsIn(mask, isForFiles ? FILE : FOLDER));
}

function reachWords(flag) {
  if (!(flag & BOTH)) return flag & NOT_HERE ? t.countsNowhere : t.countsHere;
  const to = t.children.filter((_, at) => flag & [TO_FILES, TO_FOLDERS][at]);
  return t.handsDown(!(flag & NOT_HERE), to, !(flag & CHILDREN_ALONE));
}

const isOfAll = ({ flag }) => (flag & (BOTH | CHILDREN_ALONE | NOT_HERE)) === BOTH;

export const ruling = (entry, kind, standing) =>
  t.ruling(isDeny(entry), whomWords(whomOf(entry), standing), rightsWords(entry, kind));

export const sentence = (entry, kind, standing) => ruling(entry, kind, standing) +
  (kind === FOLDER || kind === LARGE && !isOfAll(entry) ? ` ${reachWords(entry.flag)}` : "");

export function isFor(entry, { owner, group }, user, groups) {
  const { id, name } = whomOf(entry);
  if (id === "OWNER@") return user === owner;
  if (id === "GROUP@") return groups.includes(group);
  return id === "EVERYONE@" || (id === "user" ? name === user : groups.includes(name));
}

/** The places of the entries that are the first to name one of these rights for a user. Null where they would not come
 * to what the room `allowed`. */
export function deciding(object, user, groups, { rights, allowed }) {
  let [left, found] = [rights, user === object.owner ? OF_OWNERS : 0];
  const places = [];
  for (const [at, it] of object.entries.entries()) {
    if (it.flag & NOT_HERE || !(it.mask & left) || !isFor(it, object, user, groups)) continue;
    places.push(at);
    if (!isDeny(it)) found |= it.mask & left;
    left &= ~it.mask;
  }
  return ((found ^ allowed) & rights) === 0 ? places : null;
}

/** What people mostly give. Who works in a folder may remove what is in it, and not itself. */
const OF_FOLDERS = { view: [[VIEW, BOTH]], edit: [[EDIT, BOTH]],
  work: [[CHANGE & ~DELETE, 0], [CHANGE, BOTH | NOT_HERE]], all: [[ALL, BOTH]] };
const OF_FILES = { view: [[VIEW, 0]], write: [[EDIT, 0]], change: [[CHANGE, 0]], all: [[ALL, 0]] };
export const presetsOf = kind => (kind === FOLDER ? OF_FOLDERS : OF_FILES);

export const entriesOf = (name, whom, kind) => presetsOf(kind)[name].map(([mask, flag]) => {
  const it = withWhom({ type: 0, flag, mask, who: "" }, whom);
  return kind === LARGE ? carried(it) : it;
});

const plain = entries => entries.map(({ type, flag, mask, who }) => [type, flag, mask, who]);

/** Who has own entries that are a preset, by its `name`; `others` have others. */
export function sharesOf(own, kind) {
  const shares = byWhom(own).map(([whom, entries]) => ({ whom, entries,
    name: Object.keys(presetsOf(kind)).find(it => isAlike(plain(entriesOf(it, whom, kind)), plain(entries))) }));
  return { shares: shares.filter(it => it.name), others: shares.filter(it => !it.name) };
}

export const givenHere = entries =>
  entries.filter(it => !isDeny(it) && !(it.flag & NOT_HERE)).reduce((mask, it) => mask | it.mask, 0);
