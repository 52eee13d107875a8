// The first page until a website is published: the office's name, and of all languages the office's and those of the
// reader's browser. Without a script the page has the sentence in each language.
import { office } from "./config.js";

const plain = (/** @type {string} */ tag) => tag.toLowerCase().split("-")[0];
const wanted = new Set([office.language ?? "en", ...navigator.languages].map(plain));

const languageOf = (/** @type {HTMLElement} */ line) => line.lang || "en";
const lines = [.../** @type {NodeListOf<HTMLElement>} */ (document.querySelectorAll(".lead"))];
const shown = lines.filter((line) => wanted.has(plain(languageOf(line))));
const [first] = shown;
if (first) {
  for (const line of lines) line.hidden = !shown.includes(line);
  Object.assign(document.documentElement, { lang: languageOf(first), dir: first.dir || "ltr" });
}
if (office.name) {
  document.title = office.name;
  /** @type {HTMLElement} */ (document.querySelector("h1")).textContent = office.name;
}
