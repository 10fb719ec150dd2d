/** What is told over the page, below: a fault until it is closed, or what it is about goes well; a word for some
 * seconds, and one that can be undone until the next. */
import { button, make, part } from "./dom.js";
import { once } from "./room.js";
import { toldAt } from "./wire.js";
import { t } from "./words.js";

const MOST_SHOWN = 5; // faults of one thing that are shown unasked
const WHILE = 6_000; // milliseconds that a word stays, and longer where it is pointed at
const section = part("notices");
const told = section.parentNode;
new ResizeObserver(() => { document.documentElement.style.scrollPaddingBottom = `${told.offsetHeight + 8}px`; })
  .observe(told);

function put(...its) {
  const it = make(...its);
  (it.querySelector("p") ?? it).append(" ", button(t.close, () => it.remove(), "small"));
  section.prepend(it);
  return it;
}

function goLater(it) {
  setTimeout(() => (it.matches(":hover, :focus-within") ? goLater(it) : it.remove()), WHILE);
}

export const pass = () => section.querySelectorAll(".good").forEach(it => it.remove());

export function say(words, undo = null) {
  pass();
  if (!words) return;
  const it = put("div.good", words, undo && [" ", button(t.undo, undo, "small undo")]);
  if (!undo) goLater(it);
}

export function settle(about) {
  for (const it of section.querySelectorAll("[data-about]")) {
    if (it.dataset.about !== about) continue;
    const whole = it.closest(".fault");
    it.remove();
    if (!whole.querySelector("[data-about]")) whole.remove();
  }
}

export function tellFaults(words, faults) {
  for (const it of faults) settle(it.about);
  if (faults.length === 1) {
    tellFault(`${words}: ${faults[0].words}`, faults[0].about);
  } else if (faults.length) {
    const items = make("ul", faults.map(({ about, words: its }) => make("li", { "data-about": about }, its)));
    const list = faults.length > MOST_SHOWN ? make("details", make("summary", t.show), items) : items;
    put("div.fault", make("p", `${words}:`), list);
  }
}

export function tellFault(words, about = words) {
  settle(about);
  put("div.fault", { "data-about": about }, words);
}

export const tellIt = fault => tellFault(fault.message);

// What the owner of a room alone is warned of; and who tries a build that is not proved.

const KEPT = "fileroom/warned"; // the day on which each warning was closed
const closed = () => JSON.parse(localStorage.getItem(KEPT) ?? "{}");
const today = () => new Date().toDateString();
const asked = new Map(); // by the day on which it was asked

const inDays = words => days => Number.isInteger(days) && words(days < 1 ? t.lessThanADay : t.someDays(days));
const WORDS = { numbers_days: inDays(t.numbersEnd), memory_days: inDays(t.memoryEnds), disk_days: inDays(t.diskEnds),
  unproved: is => is === true && t.isUnproved,
  held: users => Array.isArray(users) && users.length > 0 && t.areHeld(users.map(String)) };

function line(words, key) {
  const it = make("p.fault", words, " ", button(t.untilTomorrow, () => {
    localStorage.setItem(KEPT, JSON.stringify({ ...closed(), [key]: today() }));
    it.remove();
  }, "small"));
  return it;
}

export async function warn(user, room) {
  const day = today();
  const its = (await once(asked, day, () => toldAt("/warnings.json", {})))[room] ?? {};
  const lines = Object.entries(WORDS).map(([kind, wordsOf]) => [wordsOf(its[kind]), `${user} ${room} ${kind}`])
    .filter(([words, key]) => words && closed()[key] !== day);
  part("warned").replaceChildren(...lines.map(it => line(...it)));
}
