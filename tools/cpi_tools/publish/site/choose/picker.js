// The field in which an item is sought, and the items that are chosen.
import { MOST_ITEMS } from "./choice.js";
import { byId, made, others } from "./elements.js";
import { allItems } from "./files.js";
import { find, listOf, saidOf } from "../assets/search.js";
import { figureText, t } from "../assets/spoken.js";

const MOST_FOUND = 12;

/**
 * `chosen` takes a new choice of codes, `failed` a fault; the page sets both.
 * @type {{ chosen: (codes: string[]) => unknown, failed: (fault: Error) => unknown, codes: string[] }}
 */
export const picker = { chosen: () => {}, failed: () => {}, codes: [] };

/** The items that a text finds, as on the page of all items: those whose code begins with it first, and what is said. */
export function matching(items, sought) {
  const { rows, isNear } = find(listOf(items.map((item) => item.join(" "))), sought);
  const found = items.filter((_, at) => rows[at] && sought.trim()), isCode = ([code]) => code.startsWith(sought.trim());
  const ordered = [...found.filter(isCode), ...found.filter((item) => !isCode(item))];
  return { found: ordered, said: saidOf(sought, found.length, items.length, isNear) };
}

/** Shows the items that fit the text of the field, as buttons. */
async function seek() {
  const text = byId("seek").value, items = await allItems();
  if (text !== byId("seek").value) return; // (more was typed meanwhile)
  const { found, said } = matching(items, text), shown = found.slice(0, MOST_FOUND);
  byId("matches").replaceChildren(...shown.map(([code, title]) => made("li", {}, made("button", {
    type: "button", "data-code": code, disabled: picker.codes.includes(code), onclick: () => add(code),
  }, made("span", { class: "code" }, code), " ", others(title)))));
  const more = found.length > shown.length ? [t("The first {count} items are shown.", { count: figureText(String(shown.length)) })] : [];
  byId("match-count").textContent = [said, ...more].join(" ");
}

function add(code) {
  if (picker.codes.length >= MOST_ITEMS) {
    byId("match-count").textContent = t("The page shows at most {most} items: remove one first.", { most: figureText(String(MOST_ITEMS)) });
    return;
  }
  byId("seek").value = "";
  byId("matches").replaceChildren();
  byId("match-count").textContent = "";
  byId("seek").focus();
  picker.chosen([...picker.codes, code]);
}

/** Shows the items that are chosen, each with a button that takes it out. */
export function showChosen(items) {
  picker.codes = items.map(({ code }) => code);
  byId("chosen").replaceChildren(...items.map(({ code, title }) => made("li", {}, made("button", {
    type: "button", disabled: items.length === 1, title: items.length === 1 ? t("The last item stays") : t("Remove"),
    onclick: () => picker.chosen(picker.codes.filter((other) => other !== code)),
  }, others(title), " ", made("span", { class: "code" }, code), made("span", { "aria-hidden": "true" }, " ×"),
  made("span", { class: "hidden" }, t(", remove"))))));
}

export function listenToPicker() {
  const guarded = () => seek().catch(picker.failed);
  byId("seek").addEventListener("input", guarded);
  byId("seek").addEventListener("keydown", (event) => {
    if (event.key !== "Enter") return;
    event.preventDefault();
    byId("matches").querySelector("button:not([disabled])")?.click();
  });
}
