// The language of a page: the one that its reader has chosen on this device, or else the office's. Its catalogue is
// loaded, and no other; the texts of the page that are marked by `data-t` become those of the catalogue.
import { office } from "../config.js";
import { LANGUAGES } from "./languages.js";
import { t, take, tc } from "./texts.js";

const SOURCE = "en";
const CHOICE = "cpi-language"; // the name of the choice in the device's storage

/** The language of a tag such as "fr-CA" that there is a catalogue of, the longest first; or undefined. */
function known(tag) {
  for (let rest = tag; rest; rest = rest.slice(0, Math.max(0, rest.lastIndexOf("-")))) {
    const found = LANGUAGES.find(({ code }) => code === rest);
    if (found) return found;
  }
  return undefined;
}

const officeTag = () => office.language ?? "en-GB";

/** What is kept on the device; a browser that keeps nothing throws. */
function chosen() {
  try {
    return localStorage.getItem(CHOICE) ?? "";
  } catch {
    return "";
  }
}

/** Where the catalogue of a language is: each page has its own, in its folder. */
export const addressOf = (code) => new URL(`languages/${code}.json`, document.baseURI).href;

async function loaded(code) {
  const response = await fetch(addressOf(code), { credentials: "omit", redirect: "error" });
  if (!response.ok) throw new Error(String(response.status));
  return response.json();
}

/** Each marked element with its English texts, by the name of an attribute, or "" for its content. */
const marked = [...document.querySelectorAll("[data-t]")].map((element) => {
  const names = element.dataset.t === "" ? [""] : element.dataset.t.split(" ").map((name) => (name === "text" ? "" : name));
  return { element, texts: names.map((name) => [name, name ? element.getAttribute(name) : element.textContent]) };
});

function translate() {
  for (const { element, texts } of marked) {
    const { context } = element.dataset;
    for (const [name, text] of texts) {
      const told = context ? tc(context, text) : t(text);
      if (name) element.setAttribute(name, told);
      else if (element.textContent !== told) element.textContent = told;
    }
  }
}

/** Speaks a language of LANGUAGES. Throws if its catalogue can't be had: the page stays as it was then. */
async function speak({ code, dir }) {
  const catalogue = code === SOURCE ? null : await loaded(code);
  const own = officeTag(), locale = known(own)?.code === code ? own : code === SOURCE ? "en-GB" : code;
  take(catalogue && { ...catalogue, dir }, locale, office.digits);
  Object.assign(document.documentElement, { lang: locale, dir });
  translate();
}

/** Begins with the chosen language, or the office's, or else the source, as far as their catalogues can be had. */
export async function begin() {
  for (const tag of [chosen(), officeTag(), SOURCE]) {
    const language = known(tag);
    const isSpoken = language && await speak(language).then(() => true, () => false);
    if (isSpoken) return;
  }
}

/** Speaks the language that was chosen, and keeps the choice. Throws if its catalogue can't be had. */
export async function choose(code) {
  await speak(known(code));
  try {
    localStorage.setItem(CHOICE, code);
  } catch {
    // (a browser that keeps nothing: the choice is for now)
  }
}
