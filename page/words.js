/** The words of the page in the language that was chosen, or that the browser asks for. */

export const LANGUAGES = { en: "English", de: "Deutsch" };
const KEPT = "fileroom/language";
const CHOICE = /\{(\d)\|((?:[^{}|]|\{\d\})*)\|((?:[^{}]|\{\d\})*)\}/g;
const asked = [localStorage.getItem(KEPT), ...navigator.languages.map(it => it.split("-")[0])];
export const language = asked.find(it => Object.hasOwn(LANGUAGES, it ?? "")) ?? "en";
const { t: table } = await import(`./words.${language}.js`);

export const joined = words =>
  [words.slice(0, -1).join(", "), ...words.slice(-1)].filter(Boolean).join(` ${t.and} `);

/** {0} is a text's first blank, in which a list is joined; {0|one|other} has `one` for 1, true or nothing. */
const filled = text => (...parts) => text
  .replace(CHOICE, (_, at, one, other) => ([1, true].includes(parts[at] ?? 1) ? one : other))
  .replace(/\{(\d)\}/g, (_, at) => (Array.isArray(parts[at]) ? joined(parts[at]) : parts[at]));

export const t = Object.fromEntries(Object.entries(table).map(([key, it]) => [key, /\{\d/.test(it) ? filled(it) : it]));

export const choose = it => localStorage.setItem(KEPT, it);

document.documentElement.lang = language;
for (const it of document.querySelectorAll("[data-words]")) it.textContent = t[it.dataset.words];
for (const it of document.querySelectorAll("[data-label]")) it.placeholder = it.ariaLabel = t[it.dataset.label];
