/** A name that is too long: how long it is, and a shorter one with the same ending, is told before anything is sent. */
import assert from "node:assert/strict";
import { test } from "node:test";

import { buttonOf, page, shown } from "./browser.mjs";
import { Shelf, appOver } from "./shelf.mjs";

const { t } = await page("words");
const { makeDocument, makeFolder } = await page("actions");
const { upload } = await page("uploads");
const [LONG, SHORT] = [`${"a".repeat(70)}.pdf`, `${"a".repeat(60)}.pdf`];
const [WIDE, NARROW] = [`${"é".repeat(40)}.pdf`, `${"é".repeat(30)}.pdf`];
const soon = () => new Promise((goOn) => setTimeout(goOn, 0));
const file = { size: 1, arrayBuffer: async () => Uint8Array.of(7) };
const onDisk = (...names) => ({ names, file });

/** The dialog, once it is there, by its title. */
async function dialogOf(title) {
  for (let times = 0; times < 1000; times += 1) {
    const it = shown("dialog").find((one) => one.getAttribute("aria-label") === title);
    if (it) return it;
    await soon();
  }
  throw new assert.AssertionError({ message: `no dialog ${title}` });
}

const submit = (dialog) => dialog.querySelector("form").onsubmit({ preventDefault() {} });

for (const [make, title] of [[makeFolder, t.newFolder], [makeDocument, t.newDocument]]) {
  test(`${title}: it is told as it is typed, and taken by one press`, async () => {
    const shelf = new Shelf();
    const done = make(appOver(shelf), "/");
    const dialog = await dialogOf(title);
    const field = dialog.querySelector("input");
    for (const [name, count, short] of [[LONG, 74, SHORT], [WIDE, 84, NARROW]]) {
      field.value = name;
      field.oninput();
      assert.ok(dialog.textContent.includes(t.tooLong(count, 64)));
      submit(dialog);
      assert.deepEqual(shelf.changes(), []);
      buttonOf(t.shorten(short)).click();
      assert.equal(field.value, short);
    }
    submit(dialog);
    await done;
    assert.deepEqual(shelf.names("/"), [NARROW]);
  });
}

test("what is uploaded goes by the name that was told, or not at all", async () => {
  for (const [names, isTaken] of [[[LONG], true], [[LONG], false], [[WIDE, "in it.pdf"], true]]) {
    const shelf = new Shelf();
    const done = upload(appOver(shelf), "/", [onDisk(...names)]);
    const dialog = await dialogOf(t.cannotUpload(1, 1));
    const shorter = names.length > 1 ? `${NARROW}/in it.pdf` : SHORT;
    const [count] = names.length > 1 ? [84] : [74];
    assert.ok(dialog.textContent.includes(t.couldBe(t.about(names.join("/"), t.tooLong(count, 64)), shorter)));
    if (isTaken) submit(dialog);
    else buttonOf(t.cancel).click();
    await done;
    const wanted = isTaken ? `/${shorter}` : "/";
    assert.deepEqual([...shelf.things.keys()].at(-1), wanted);
  }
});

test("names that would be alike are told with a number each", async () => {
  const [shelf, other] = [new Shelf(), `${"a".repeat(71)}.pdf`];
  const done = upload(appOver(shelf), "/", [onDisk(LONG), onDisk(other), onDisk("b.pdf")]);
  const dialog = await dialogOf(t.cannotUpload(2, 3));
  const numbered = `${"a".repeat(56)} (2).pdf`;
  for (const [name, count, short] of [[LONG, 74, SHORT], [other, 75, numbered]]) {
    assert.ok(dialog.textContent.includes(t.couldBe(t.about(name, t.tooLong(count, 64)), short)));
  }
  submit(dialog);
  await done;
  assert.deepEqual(shelf.names("/"), [numbered, SHORT, "b.pdf"].sort());
});
