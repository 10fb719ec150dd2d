/** The browser's own store of logins, which it fills as it asks with one: no cookie, and no key that the page keeps.
 *
 * The front lets `logged-out` in at /log-out alone, so who took that up is nobody anywhere else. */

function askAs(path, user, word) {
  return new Promise(tell => {
    const request = new XMLHttpRequest();
    request.open("GET", new URL(path, location.origin), true, user, word);
    request.onloadend = () => tell(request.status);
    request.send();
  });
}

const TOLD = "fileroom/logged-in"; // when somebody logged in last, kept to be heard of

export function tellLogin() {
  try {
    localStorage.setItem(TOLD, `${Date.now()}`);
  } catch {
    // (the store is full of requests: they go on once their tab is looked at)
  }
}

export const onLogin = does => addEventListener("storage", ({ key }) => key === TOLD && does());

export const logOut = async () => await askAs("/log-out", "logged-out", `${Math.random()}`) === 204;

/** The status. (First the login of before goes: Firefox takes its password for a new one of that name. And a browser
 * takes `%41` in a password for an A.) */
export async function logIn(user, word) {
  await logOut();
  return askAs("/log-in", user, encodeURIComponent(word));
}
