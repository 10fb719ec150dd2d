/** What is shown of a document; and small pictures in rows. */
import { button, link, make, shown, t, toBase64, toText } from "./common.js";
import { readFile, whileSo } from "./reading.js";

const MOST_TEXT = 2 ** 20; // letters
const MOST_PIXELS = 100e6; // of a picture
const SMALL = { bytes: 2 ** 25, pixels: 3e8, side: 96 }; // most of a folder's that are read and drawn; what is kept

/** By how the bytes begin, and never by the name. */
const TYPES = { "image/png": /^\x89PNG\r\n\x1a\n/, "image/jpeg": /^\xff\xd8\xff/, "image/gif": /^GIF8/,
  "image/webp": /^RIFF[^]{4}WEBP/, "application/pdf": /^%PDF-/ };

function typeOf(bytes) {
  const start = String.fromCharCode(...bytes.subarray(0, 12));
  return Object.keys(TYPES).find(it => TYPES[it].test(start)) ?? "";
}

export const isPdf = bytes => typeOf(bytes).endsWith("/pdf");
export const canShow = start => typeOf(start) !== "" || toText(start, true) !== null;
const pixelsOf = it => it.naturalWidth * it.naturalHeight;

/** Null where it is none, or too large. (A browser reads no more than its size till it is put somewhere. The policy of
 * the page allows no other address.) */
async function picture(bytes, alt, most) {
  const type = typeOf(bytes);
  if (!type.startsWith("image/")) return null;
  const it = make("img", { alt });
  const isThere = await new Promise(tell => {
    Object.assign(it, { onload: () => tell(true), onerror: () => tell(false) });
    it.src = `data:${type};base64,${toBase64(bytes)}`;
  });
  return isThere && pixelsOf(it) <= most ? it : null;
}

const MOVES = /^GIF[^]*(NETSCAPE|!\xf9\x04[^]{4}\0[^]*!\xf9\x04[^]{4}\0)|^.PNG[^]*acTL|^RIFF[^]*ANIM/;

function still(it, side = Infinity) {
  const { naturalWidth, naturalHeight, alt } = it;
  const part = Math.min(1, side / Math.min(naturalWidth, naturalHeight));
  const [width, height] = [naturalWidth, naturalHeight].map(its => Math.ceil(its * part));
  const first = make("canvas", { width, height, role: alt && "img", ariaLabel: alt });
  Object.assign(first.getContext("2d"), { imageSmoothingQuality: "high" }).drawImage(it, 0, 0, width, height);
  return first;
}

function played(it) {
  const first = still(it);
  it.hidden = true;
  const press = button(t.play, () => {
    [it.hidden, first.hidden] = [first.hidden, it.hidden];
    press.textContent = it.hidden ? t.play : t.stop;
  });
  return [make("p.tools", press), first, it];
}

let pdfNow = ""; // the address of the one that is shown

/** By the browser's viewer; its type keeps it from being read as a page. */
function pdf(bytes, title) {
  URL.revokeObjectURL(pdfNow);
  pdfNow = URL.createObjectURL(new Blob([bytes], { type: "application/pdf" }));
  return make("div", make("p", link(pdfNow, t.openPdf, { target: "_blank", rel: "noopener" })),
    navigator.pdfViewerEnabled && make("iframe.viewer", { src: pdfNow, title }));
}

export const nothing = () => make("p", t.noText);

export function preview(bytes, name) {
  if (typeOf(bytes).startsWith("image/")) {
    const place = make("div.picture");
    picture(bytes, shown(name), MOST_PIXELS).then(it =>
      place.append(...it && MOVES.test(new TextDecoder("latin1").decode(bytes)) ? played(it) : [it ?? nothing()]));
    return place;
  }
  if (isPdf(bytes)) return pdf(bytes, shown(name));
  const text = toText(bytes);
  if (text === null) return nothing();
  if (text === "") return make("p", t.isEmpty);
  return make("div", make("pre", { tabIndex: 0 }, text.slice(0, MOST_TEXT)),
    text.length > MOST_TEXT && make("p", t.beginning));
}

export const isPicture = name => /\.(gif|jpe?g|png|webp)$/i.test(name);

export class SmallPictures {
  constructor(room) {
    Object.assign(this, { room: room.behind(), left: SMALL.bytes, pixels: SMALL.pixels, turn: Promise.resolve() });
  }

  placeOf = name => make(isPicture(name) ? "span.small-picture" : "span");

  show(element, path, size) {
    if (!element.className) return;
    const fail = () => { element.className = "no-picture"; }; // (as large: rows below stay where they are)
    if (!(size <= this.left)) return fail();
    this.left -= size;
    this.turn = this.turn.then(() => this.#draw(element, path, fail)).catch(fail);
  }

  async #draw(element, path, fail) {
    const transfer = whileSo(() => element.isConnected); // (else another view is shown by now)
    transfer.check();
    const bytes = await readFile(this.room, path, transfer);
    const it = await picture(bytes, "", Math.min(MOST_PIXELS, this.pixels));
    if (!it) return fail();
    this.pixels -= pixelsOf(it);
    element.replaceChildren(still(it, SMALL.side));
  }
}
