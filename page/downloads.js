/** Files go to the user's disk, folders and several things as a zip (PKWARE's APPNOTE, 4.3 to 4.5). */
import { FOLDER, ROOT, forDisk, fromText, lookInto, make, nameAt, namesOf, once, readFile, shown, sizeWords, t,
  transferring, whole } from "./shared.js";

const UTF8 = 0x800; // names are UTF-8
const VERSION = 20;
const TABLE = Uint32Array.from({ length: 256 }, (_, at) => {
  let it = at;
  for (let bit = 0; bit < 8; bit += 1) it = it & 1 ? (it >>> 1) ^ 0xedb88320 : it >>> 1;
  return it;
});

export function crcOf(bytes) {
  let crc = 0xffffffff;
  for (const it of bytes) crc = TABLE[(crc ^ it) & 0xff] ^ (crc >>> 8);
  return (crc ^ 0xffffffff) >>> 0;
}

const numbers = (...fields) => Uint8Array.from(fields.flatMap(([size, value]) =>
  Array.from({ length: size }, (_, at) => value / 2 ** (8 * at))));

const timeOf = now => (now.getHours() << 11) | (now.getMinutes() << 5) | (now.getSeconds() >> 1);
const dayOf = now => ((now.getFullYear() - 1980) << 9) | ((now.getMonth() + 1) << 5) | now.getDate();

export class Zip {
  constructor(now = new Date()) {
    Object.assign(this, { parts: [], index: [], size: 0, count: 0, time: timeOf(now), day: dayOf(now) });
  }

  #put(...parts) {
    for (const it of parts) this.size += it.length;
    // (which the browser may keep out of memory)
    this.parts.push(new Blob(parts));
    if (this.size > 0xfffff000 || this.count > 0xfff0) throw new Error(t.zipFull);
  }

  add(name, bytes = new Uint8Array(0)) {
    const text = fromText(name);
    const common = [[2, VERSION], [2, UTF8], [2, 0], [2, this.time], [2, this.day], [4, crcOf(bytes)],
      [4, bytes.length], [4, bytes.length], [2, text.length], [2, 0]];
    const folder = name.endsWith("/") ? 0x10 : 0;
    this.index.push(numbers([4, 0x02014b50], [2, VERSION], ...common, [2, 0], [2, 0], [2, 0], [4, folder],
      [4, this.size]), text);
    this.count += 1;
    this.#put(numbers([4, 0x04034b50], ...common), text, bytes);
  }

  end() {
    const [start, count] = [this.size, this.count];
    this.#put(...this.index);
    this.#put(numbers([4, 0x06054b50], [2, 0], [2, 0], [2, count], [2, count], [4, this.size - start], [4, start],
      [2, 0]));
    return new Blob(this.parts, { type: "application/zip" });
  }
}

export function save(blob, name) {
  const href = URL.createObjectURL(blob);
  make("a", { href, download: forDisk(name) }).click();
  setTimeout(() => URL.revokeObjectURL(href), 60_000);
}

export async function download(app, path, size) {
  const [name, called] = [nameAt(path), shown(nameAt(path))];
  const how = { total: size ?? 0, about: `download ${app.room.name} ${path}` };
  await transferring(app, t.doTo(t.download, called), how, async transfer => {
    const bytes = await readFile(app.room, path, transfer);
    save(new Blob([bytes], { type: "application/octet-stream" }), name);
    return t.downloaded(called, sizeWords(bytes.length), transfer.seconds);
  });
}

/** Gives places below the top: no two are one on any disk. */
function placesBelow(top) {
  const [given, used, key] = [new Map([["", top]]), new Set(), path => path.normalize("NFC").toLowerCase()];
  const free = path => {
    if (used.has(key(path))) return free(`${path}_`);
    used.add(key(path));
    return path;
  };
  const placeOf = names => once(given, names.join("/"), () =>
    free(`${placeOf(names.slice(0, -1))}/${forDisk(names.at(-1))}`));
  return placeOf;
}

async function downloadZip(app, paths, folder) {
  const { room } = app;
  const name = folder === ROOT ? room.name : nameAt(folder);
  const how = { total: 0, unit: String, about: `zip ${room.name} ${paths[0]}` };
  await transferring(app, t.doTo(t.downloadZip, shown(name)), how, async transfer => {
    const all = (await Promise.all(paths.map(it => whole(room, it, transfer)))).flat();
    const found = all.filter(it => it.path !== folder || it.isShut).sort((a, b) => (a.path < b.path ? -1 : 1));
    const [zip, placeOf, quiet] = [new Zip(), placesBelow(forDisk(name)), transfer.quiet()];
    transfer.total = transfer.bar.max = found.length;
    for (const { path, kind, isShut } of found) {
      const inside = placeOf(namesOf(path).slice(namesOf(folder).length));
      transfer.check();
      if (isShut) transfer.fail(t.isShut(shown(path)));
      if (kind === FOLDER) zip.add(`${inside}/`);
      else await readFile(room, path, quiet).then(bytes => zip.add(inside, bytes), fault => {
        transfer.check();
        transfer.fail(t.notInZip(shown(path), fault.message));
      });
      transfer.add(1);
    }
    transfer.check();
    save(zip.end(), `${name}.zip`);
    const of = zip.count < found.length ? t.ofAll(zip.count, found.length) : found.length;
    return t.zipMade(shown(name), of, found.length);
  });
}

export const downloadFolder = (app, path) => downloadZip(app, [path], path);

export async function downloadAll(app, folder, paths) {
  const [path] = paths;
  if (paths.length > 1) return downloadZip(app, paths, folder);
  const its = await lookInto(app.room, path);
  return its.names && its.kind === FOLDER ? downloadFolder(app, path) : download(app, path, its.its?.size);
}
