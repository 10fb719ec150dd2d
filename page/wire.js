/** One exchange with the room, and the same again until it is answered. */
import { t } from "./words.js";

const WAIT = 30_000; // milliseconds for an answer
const DELAY = 30; // the code of 'later': the message did nothing
const STEP = 2.6; // milliseconds a request: the front takes 400 of a login each second, and some 200 at once
const BURST = 150;
let ready = 0; // when the next request may go

async function turn() {
  const now = performance.now();
  ready = Math.max(ready, now - BURST * STEP) + STEP;
  if (ready > now) await new Promise(goOn => setTimeout(goOn, ready - now));
}

/** Whether it acted is not known. What `isShut` is not sent again by itself: a wrong login counts as a guess, and one
 * that is held asks in vain. */
class NoAnswer extends Error {
  constructor(words, isShut = false) {
    super(words);
    this.isShut = isShut;
  }
}

function readReply(text) {
  try {
    const it = JSON.parse(text);
    return Number.isInteger(it?.code) ? it : null;
  } catch {
    return null;
  }
}

const whyNoReply = status =>
  ({ 401: t.loginGone, 404: t.roomGone, 429: t.tooMuch }[status] ?? (status >= 500 ? t.restarting : t.status(status)));

async function fetchText(url, how) {
  try {
    // (not of the page's address, which may hold a password)
    const answer = await fetch(new URL(url, location.origin), { cache: "no-store", credentials: "same-origin",
      redirect: "error", ...how, signal: AbortSignal.timeout(WAIT) });
    return { status: answer.status, isHeld: answer.headers.has("room-held"), text: await answer.text() };
  } catch {
    throw new NoAnswer(t.unreachable);
  }
}

async function exchange(url, body) {
  const headers = { "content-type": "application/json" };
  const { status, isHeld, text } = await fetchText(url, { method: "POST", headers, body });
  const reply = readReply(text);
  if (reply === null) throw new NoAnswer(isHeld ? t.held : whyNoReply(status), status === 401 || isHeld);
  if (reply.code === DELAY) throw new NoAnswer(t.restarting);
  return reply;
}

/** `before` is called before each sending; `patience` waits, or throws to give up. */
export async function untilAnswered(url, body, patience, before = () => {}) {
  const waiting = patience.begin();
  try {
    for (let times = 1; ; times += 1) {
      before();
      await turn();
      try {
        return await Promise.race([exchange(url, body), waiting.givenUp]);
      } catch (fault) {
        if (!(fault instanceof NoAnswer)) throw fault;
        await waiting.wait(fault.message, times, fault.isShut);
      }
    }
  } finally {
    waiting.over();
  }
}

export async function fileOfFront(url) {
  const { status, text } = await fetchText(url, {});
  return status === 200 ? text : null;
}

export const toldAt = (url, instead) =>
  fileOfFront(url).then(it => JSON.parse(it ?? "null") ?? instead).catch(() => instead);
