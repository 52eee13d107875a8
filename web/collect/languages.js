// The choice of a language, from the head of the page. It is kept on this device, and so is the catalogue, so that the
// page speaks it without a line too.
import { find, make } from "../shared/dom.js";
import { addressOf, choose } from "../shared/language.js";
import { LANGUAGES } from "../shared/languages.js";
import { spoken as code, t } from "../shared/texts.js";

/** Is called when the page speaks another language; the page sets it. */
export const on = { spoken: () => {} };

/** Shows which language the page speaks, and lets the worker keep its catalogue. */
export async function spoken() {
  find("language").textContent = code().toUpperCase();
  find("manifest").href = code() === "en" ? "manifest.webmanifest" : `manifest.${code()}.webmanifest`;
  if (code() === "en" || !("serviceWorker" in navigator)) return;
  navigator.serviceWorker.ready.then(({ active }) => active?.postMessage({ keep: addressOf(code()) }));
}

function open() {
  const button = ({ code: each, name, dir }) => make("button", {
    type: "button", lang: each, dir, "aria-pressed": String(each === code()), "data-language": each,
  }, name);
  find("languages-list").replaceChildren(...LANGUAGES.map(button));
  find("languages-fault").textContent = "";
  find("languages").showModal();
  find("languages-list").querySelector("[aria-pressed=true]").focus();
}

async function chosen({ target }) {
  const { language } = target.closest("[data-language]")?.dataset ?? {};
  if (!language) return;
  try {
    if (language !== code()) await choose(language);
  } catch {
    find("languages-fault").textContent = t("The texts in this language aren’t on this phone yet, and you are offline.");
    return;
  }
  find("languages").close();
  await spoken();
  on.spoken();
}

/** The events of the button in the head, and of its choice. */
export function listen() {
  find("language").addEventListener("click", open);
  find("languages-list").addEventListener("click", chosen);
}
