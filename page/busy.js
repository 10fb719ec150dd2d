/** Tells that requests wait for their answers. */
import { part } from "./dom.js";
import { onLogin } from "./login.js";
import { t } from "./words.js";

const SHORTEST = 250; // milliseconds
const LONGEST = 5_000;
const waiting = new Set();

export class GaveUp extends Error {}
const section = part("busy");

function tell() {
  const told = [...waiting].filter(it => it.times >= 2 || it.isShut).sort((a, b) => b.times - a.times)[0];
  section.hidden = !told;
  if (told) part("busy-text").textContent = t.waits(told.why, waiting.size, told.times);
  part("busy-login").hidden = told?.why !== t.loginGone;
}

class Waiting {
  times = 0;
  givenUp = new Promise((_, stop) => { this.stop = () => stop(new GaveUp(t.unknown(t.gaveUp))); });

  wait(why, times, isShut) {
    Object.assign(this, { why, times, isShut });
    waiting.add(this);
    tell();
    return new Promise((goOn, stop) => {
      this.goOn = goOn;
      this.givenUp.catch(stop);
      if (!isShut) this.timer = setTimeout(goOn, Math.min(SHORTEST * 2 ** (times - 1), LONGEST));
    });
  }

  over() {
    clearTimeout(this.timer);
    waiting.delete(this);
    tell();
  }
}

export const begin = () => new Waiting();

export function standIn(element) {
  const { parentNode, nextSibling } = section;
  element.prepend(section);
  return () => parentNode.insertBefore(section, nextSibling?.parentNode === parentNode ? nextSibling : null);
}

const goOn = () => waiting.forEach(it => it.isShut && it.goOn());

part("busy-now").onclick = () => waiting.forEach(it => it.goOn());
// (so that nothing goes that was typed here)
part("busy-login").onclick = () => open("/sign-in?beside");
addEventListener("focus", goOn);
onLogin(goOn);
part("busy-stop").onclick = () => waiting.forEach(it => it.stop());
