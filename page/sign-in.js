/** The page where people log in. It is shown to everybody, and asks the front for nothing but a login. */
import { logIn, tellLogin } from "./login.js";
import { t } from "./words.js";

const NAME = /^[A-Za-z0-9._-]{1,32}$/;
const MOST = 256; // bytes of a password
const part = id => document.getElementById(id);
const isBeside = location.search === "?beside"; // of a page that goes on then
const tell = words => { part("told").textContent = words; };
const why = status =>
  ({ 0: t.unreachable, 401: t.wrongLogin, 429: t.manyLogins, 503: t.noDirectory }[status] ?? t.status(status));

/** (What can be no login is not asked about: each wrong one counts as a guess.) */
const statusOf = async (name, word) =>
  (!NAME.test(name) || new TextEncoder().encode(word).length > MOST ? 401 : logIn(name, word));

function goOn() {
  tellLogin();
  if (!isBeside) return location.replace(`/${location.hash}`);
  part("form").replaceWith(t.loggedIn);
  return close();
}

async function submit() {
  const [button, name, word] = [part("form").querySelector("button"), part("name").value.trim(), part("word").value];
  button.disabled = true;
  tell(t.working);
  const status = await statusOf(name, word);
  button.disabled = false;
  if (status === 200) return goOn();
  tell(why(status));
  return part("word").select();
}

part("form").onsubmit = event => {
  event.preventDefault();
  submit();
};
part("box").hash = location.hash;
const answer = await fetch("/organisation", { cache: "no-store" });
const of = answer.status === 200 ? (await answer.text()).trim() : "";
if (of) part("of").textContent = document.title = of;
