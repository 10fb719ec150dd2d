/** What is shown and told: the language, waits, faults and words, dialogs and menus by their keys, documents, a zip. */
import assert from "node:assert/strict";
import { test } from "node:test";

import { buttonOf, happens, kept, page, shown } from "./browser.mjs";

const { t } = await page("words");
const { area, ask, closeAll, input, isUnsaved } = await page("dialogs");
const { openMenu } = await page("dialogs");
const notices = await page("notices");
const { GaveUp, begin } = await page("busy");
const { preview } = await page("preview");
const { Zip, crcOf } = await page("downloads");
const { sizeWords } = await page("transfers");
const { Row } = await page("rows");
const { Details } = await page("rows");
const { part, make } = await page("dom");
const bytes = (text) => new TextEncoder().encode(text);
const soon = () => new Promise((goOn) => setTimeout(goOn, 0));
const key = (name, more = {}) => ({ key: name, preventDefault() {}, stopPropagation() {}, ...more });

test("the page speaks what was chosen, or what the browser asks for, or English", async () => {
  const speaks = async (chosen, ...languages) => {
    kept.clear();
    if (chosen) localStorage.setItem("fileroom/language", chosen);
    navigator.languages = languages;
    const { language, t: words } = await import(`${process.env.PAGE}/words.js?${chosen} ${languages}`);
    assert.equal(document.documentElement.lang, language);
    return [language, words.cancel];
  };
  const [english, german] = [["en", t.cancel], ["de", "Abbrechen"]];
  assert.deepEqual(await speaks("", "fr", "de-CH", "en"), german);
  assert.deepEqual(await speaks("de", "en-US"), german);
  assert.deepEqual(await speaks("xx", "fr"), english);
  assert.deepEqual(await speaks("constructor", "fr"), english);
});

test("a text of several blanks has each of them in its place, in German too", async () => {
  localStorage.setItem("fileroom/language", "de");
  const { t: german } = await import(`${process.env.PAGE}/words.js?blanks`);
  kept.clear();
  for (const [key, parts, words] of [
    ["wouldHave", ["/a", 270, 256], "In /a wären 270 Elemente; höchstens 256 sind möglich."],
    ["tooLong", [70, 64], "Das zählt als 70 Buchstaben, höchstens 64 sind möglich"],
    ["tooLarge", [17, 16], "hat 17 MiB, höchstens 16 MiB sind möglich"],
    ["listFull", [33, 32], "Das wären 33 Einträge, höchstens 32 sind möglich."],
    ["barred", ["bob", "/a", "/a/b", ""], "bob darf nicht durch /a und kommt nicht an /a/b."],
    ["shutOutAt", [["bob", "eve"], "/a"], "Kein Weg durch /a für bob und eve."],
    ["isFull", ["/a", "/b"], "/a ist voll: 256 Elemente. Was Sie anlegen, kommt in /b"],
    ["takesPlace", ["a.txt", "2 KiB"], "a.txt (2 KiB) ersetzt, was da ist"],
    ["isNow", ["/a", "/b", 1], "/a ist jetzt /b."], ["isNow", ["/a", "/b", 2], "/a sind jetzt in /b."],
    ["notInRoster", ["eve", true], "eve ist kein Benutzer dieses Raums."],
    ["notInRoster", ["eve", false], "eve ist keine Gruppe dieses Raums."],
    ["ruling", [true, "bob", "lesen"], "Verboten für bob: lesen."],
    ["ruling", [false, "bob", "lesen"], "Erlaubt für bob: lesen."],
    ["cannotUpload", [1, 3], "1 von 3 lässt sich nicht"], ["cannotUpload", [2, 3], "2 von 3 lassen sich nicht"],
    ["narrow", ["", 4, 1], "Benutzer und Gruppen mit diesen Buchstaben (Benutzer: 4, Gruppen: 1)"],
    ["handsDown", [false, ["Ordner"], true], "Gilt hier nicht, aber für Ordner darin und weiter unten."],
    ["handsDown", [true, ["Ordner"], false], "Gilt hier und für Ordner darin, weiter unten nicht."]]) {
    assert.equal(german[key](...parts).slice(0, words.length), words);
  }
});

const textsIn = (it, ...keys) => (typeof it === "string" ? [[keys.join("."), it]] :
  Object.entries(it).flatMap(([key, its]) => textsIn(its, ...keys, key)));

test("German denies what English denies, and nothing else", async () => {
  // (these German says the other way around)
  const turned = ["countsForNobody", "lacksRight", "levels.shut.0", "nameWanted", "sessionGone", "takeFrom",
    "wasStopped"];
  const denied = async (language, denial, others = []) => {
    const { t: table } = await import(`${process.env.PAGE}/words.${language}.js`);
    return textsIn(table).filter(([key, it]) => denial.test(it) !== others.includes(key)).map(([key]) => key).sort();
  };
  const english = await denied("en", /\b(no|not|nobody|nothing|nowhere|cannot|without)\b|n't/i, turned);
  const german = await denied("de", /\b(nichts?|kein(e|en|er)?|niemand|nirgends|ohne|weder)\b/i);
  assert.deepEqual(german, english);
});

test("an answer that comes late is not drawn over the row on which somebody stands by then", async () => {
  const answers = new Map();
  const row = (called) => ({ path: `/${called}`, called, kindName: "folder", cells: { kind: make("td") },
    look: () => new Promise((tell) => answers.set(called, () => tell({ kind: "folder", words: "" }))) });
  const seers = { questions: { stat: async () => null }, of: async () => null };
  const details = new Details({ app: { room: { behind() {} } }, place: { room: "club" }, seers });
  details.element.checkVisibility = () => true;
  for (const called of ["first", "second"]) {
    details.show(row(called));
    for (let times = 0; times < 500 && !answers.has(called); times += 1) await soon();
  }
  for (const called of ["second", "first"]) {
    answers.get(called)();
    for (let times = 0; times < 10; times += 1) await soon();
  }
  assert.equal(details.element.querySelector("h2").textContent, "second");
});

test("who can see it is told no longer than it is known", async () => {
  const [who, seen] = [make("td"), [{ words: t.onlyYou, told: "ann" }, null, { words: "bob", told: "bob" }]];
  const row = { path: "/a", access: "#access/club/a", cells: { who }, app: { user: "ann", room: {} }, pen: {},
    look: async () => ({ kind: "folder" }),
    things: { seers: { of: async () => seen.shift() }, details: { draw: async () => {} } } };
  const told = async () => {
    await Row.prototype.tellWho.call(row);
    return who.firstChild.hidden ? "" : who.textContent;
  };
  assert.deepEqual([await told(), await told(), await told()], [t.onlyYou, "", "bob"]);
});

test("a change of today is told by its time, one of the same day of another year by that", () => {
  const [now, before] = [new Date(), new Date()];
  before.setFullYear(now.getFullYear() - 1);
  const told = (when) => {
    const cells = { when: make("td") };
    Row.prototype.tellWhen.call({ cells }, { who: "bob", when: when.getTime() / 1_000 });
    return cells.when.textContent;
  };
  assert.match(told(now), /^\d+:\d\d.*, bob$/);
  assert.match(told(before), new RegExp(` ${before.getFullYear()}, bob$`));
});

test("a fault stays until what it is about goes well, a word until the next", () => {
  const told = () => shown("div").map((it) => it.childNodes[0]);
  notices.tellFault("one", "a");
  notices.tellFault("two", "b");
  notices.say("done");
  notices.say("done too");
  assert.deepEqual(shown("div.good").length, 1);
  notices.settle("a");
  assert.deepEqual(told(), ["done too", "two"]);
  notices.tellFaults("all", Array.from({ length: 6 }, (_, at) => ({ about: `f${at}`, words: `w${at}` })));
  assert.equal(shown("details").length, 1); // (more than five are shown once they are asked for)
  for (let at = 0; at < 6; at += 1) notices.settle(`f${at}`);
  notices.settle("b");
  notices.pass();
  assert.deepEqual(shown("div"), []);
});

test("who waits is told from the second time on, and may give up; a login is waited for", async () => {
  const [plain, pauses] = [globalThis.setTimeout, []];
  globalThis.setTimeout = (does, pause) => {
    pauses.push(pause);
    return plain(does, 0);
  };
  const waiting = begin();
  await waiting.wait(t.restarting, 1, false);
  assert.equal(part("busy").hidden, true);
  await waiting.wait(t.restarting, 2, false);
  assert.deepEqual([part("busy").hidden, part("busy-login").hidden], [false, true]);
  await waiting.wait(t.restarting, 20, false);
  assert.deepEqual(pauses, [250, 500, 5000]);
  const shut = waiting.wait(t.loginGone, 3, true);
  globalThis.setTimeout = plain;
  assert.equal(pauses.length, 3);
  assert.equal(part("busy-login").hidden, false);
  happens("focus");
  await shut;
  const other = waiting.wait(t.loginGone, 4, true);
  happens("storage", { key: "fileroom/logged-in" });
  await other;
  const given = waiting.wait(t.held, 4, true);
  assert.equal(part("busy-login").hidden, true);
  globalThis.setTimeout = () => 0; // (which never comes)
  const again = waiting.wait(t.restarting, 4, false);
  globalThis.setTimeout = plain;
  part("busy-now").onclick();
  await again;
  part("busy-stop").onclick();
  await assert.rejects(given, (fault) => fault instanceof GaveUp && fault.message === t.unknown(t.gaveUp));
  waiting.over();
  assert.equal(part("busy").hidden, true);
});

test("what is typed is not lost by a key, nor with the page", async () => {
  const [field, leaves] = [area("a"), () => {
    let isAsked = false;
    happens("beforeunload", { preventDefault: () => { isAsked = true; } });
    return isAsked;
  }];
  const asked = ask({ title: "it", does: "Do", fields: [["Text", field]] });
  const [dialog] = shown("dialog");
  assert.deepEqual([isUnsaved(), leaves()], [false, false]);
  field.value = "b";
  assert.deepEqual([isUnsaved(), leaves()], [true, true]);
  dialog.onkeydown(key("Escape"));
  assert.equal(shown("dialog").length, 1);
  buttonOf(t.discard).click();
  assert.deepEqual([await asked, shown("dialog").length, isUnsaved()], [null, 0, false]);
});

test("a name that is typed goes with Escape, and nothing is asked", async () => {
  const field = input("a");
  const asked = ask({ title: "it", does: "Do", fields: [["Name", field]] });
  field.value = "b";
  shown("dialog")[0].onkeydown(key("Escape"));
  assert.deepEqual([await asked, shown("dialog").length], [null, 0]);
});

test("who goes on typing does so where they typed, however often they pressed Escape", async () => {
  const [name, text] = [input("a"), area("a")];
  const asked = ask({ title: "it", does: "Do", fields: [["Name", name], ["Text", text]] });
  const [dialog] = shown("dialog");
  for (const [field, times] of [[text, 2], [name, 1]]) {
    field.focus();
    field.value += "b";
    for (let count = 0; count < times; count += 1) dialog.onkeydown(key("Escape"));
    document.activeElement.click();
    assert.deepEqual([document.activeElement, name.value, text.value], [field, field === name ? "ab" : "a", "ab"]);
  }
  closeAll();
  assert.equal(await asked, null);
});

test("a dialog stays until its task is done, and does it once", async () => {
  let [count, faults] = [0, [new Error("refused")]];
  const asked = ask({ title: "it", does: "Do", faultOf: () => (count < 0 ? "wrong" : ""), task: async () => {
    count += 1;
    await soon();
    if (faults.length) throw faults.pop();
  } });
  const form = shown("form")[0];
  form.onsubmit(key(""));
  form.onsubmit(key(""));
  while (form.inert) await soon();
  assert.deepEqual([count, form.querySelector(".fault").textContent], [1, "refused"]);
  form.onsubmit(key(""));
  assert.deepEqual([await asked, count], [true, 2]);
  const other = ask({ title: "other", does: "Do" });
  closeAll();
  assert.equal(await other, null);
});

test("a menu is walked by its keys", () => {
  const [anchor, pressed] = [make("button"), []];
  document.body.append(anchor);
  openMenu(anchor, ["Open", "Rename", "Remove"].map((words) => ({ words, does: () => pressed.push(words) })), "it");
  const menu = shown("div.menu")[0];
  const goes = (name) => {
    menu.onkeydown(key(name));
    return document.activeElement.textContent;
  };
  assert.equal(document.activeElement.textContent, "Open");
  assert.deepEqual(["ArrowUp", "ArrowDown", "End", "Home", "r", "r", "r"].map(goes),
    ["Remove", "Open", "Remove", "Open", "Rename", "Remove", "Rename"]);
  document.activeElement.click();
  assert.deepEqual([pressed, shown("div.menu"), document.activeElement], [["Rename"], [], anchor]);
});

test("a document is shown by its bytes, and never as a page", () => {
  const types = [];
  URL.createObjectURL = (blob) => `blob:${types.push(blob.type)}`;
  URL.revokeObjectURL = () => {};
  const text = "<script>alert(1)</script>";
  assert.equal(preview(bytes(text), "a.pdf").querySelector("pre").textContent, text);
  preview(bytes("%PDF-1.4 <script>"), "a.html");
  assert.deepEqual(types, ["application/pdf"]);
  for (const it of [Uint8Array.of(0xff, 0xfe), bytes("a\u0000b")]) {
    assert.equal(preview(it, "a.txt").textContent, t.noText);
  }
  assert.deepEqual([1023, 1024, 10 * 1024, 3 * 2 ** 20].map(sizeWords),
    [t.bytes(1023), "1.0 KiB", "10 KiB", "3.0 MiB"]);
});

test("a zip has names in UTF-8, sums, and an end that leads to them", async () => {
  assert.equal(crcOf(bytes("123456789")), 0xcbf43926);
  const zip = new Zip(new Date(2026, 0, 2, 3, 4, 6));
  zip.add("é/");
  zip.add("é/a", bytes("123456789"));
  const view = new DataView(await zip.end().arrayBuffer());
  const end = view.byteLength - 22;
  assert.deepEqual([view.getUint32(end, true), view.getUint16(end + 10, true)], [0x06054b50, 2]);
  const second = view.getUint32(end + 16, true) + 46 + 3;
  assert.equal(view.getUint32(second, true), 0x02014b50);
  assert.deepEqual([8, 10, 12, 14].map((at) => view.getUint16(second + at, true)),
    [0x800, 0, (3 << 11) | (4 << 5) | 3, (46 << 9) | (1 << 5) | 2]);
  assert.equal(view.getUint32(second + 16, true), 0xcbf43926);
  assert.equal(view.getUint32(view.getUint32(second + 42, true), true), 0x04034b50);
});
