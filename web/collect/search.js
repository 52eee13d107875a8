// Finding a row: by item, unit or outlet as one types, and by folding the outlets that one isn't in.
import { find } from "../shared/dom.js";
import { t, tn } from "../shared/texts.js";
import { rowOf } from "./state.js";

const folded = new Set(); // the numbers of the outlets that are folded
let words = []; // of the search

/** Letters whose stroke or ligature has no decomposition (Unicode Standard Annex 15), as one types them without it. */
const LETTERS = { ł: "l", ø: "o", đ: "d", ð: "d", ħ: "h", ŧ: "t", ı: "i", ß: "ss", æ: "ae", œ: "oe" };

/** A text as it is searched: without accents, in small letters. */
const plain = (text) => text.normalize("NFKD").replace(/\p{M}/gu, "").toLowerCase()
  .replace(/[łøđðħŧıßæœ]/g, (letter) => LETTERS[letter]);

export const isFolded = (outlet) => folded.has(outlet) && words.length === 0;

/** Whether a row has each word of the search. */
export function isFound([, , outlet = "", , text = "", unit = ""]) {
  if (words.length === 0) return true;
  const all = plain(`${outlet} ${text} ${unit}`);
  return words.every((word) => all.includes(word));
}

/** Hides what isn't found, and opens what is. */
export function filter() {
  let count = 0;
  for (const section of find("list").querySelectorAll(".outlet")) {
    let isEmpty = true;
    for (const item of section.querySelectorAll("li")) {
      item.hidden = !isFound(rowOf(Number(item.id.slice(5))));
      if (!item.hidden) {
        isEmpty = false;
        count += 1;
      }
    }
    section.hidden = isEmpty;
    section.open = !isFolded(Number(section.dataset.outlet));
  }
  for (const row of find("list").querySelectorAll("[data-quote]")) {
    row.hidden = words.length > 0 && !isFound(rowOf(Number(row.dataset.quote)) ?? []);
    if (!row.hidden) count += 1;
  }
  // t: of rows, under the search
  find("found").textContent = words.length ? tn("{count} found", "{count} found", count) : "";
}

/** Searches for a text, from now on. */
function searchFor(text) {
  words = plain(text).split(/\s+/).filter(Boolean);
  filter();
}

/** Says that no row that was found is to do. */
export function sayNone() {
  // t: none of the rows that were found is left to do
  find("found").textContent = t("You have entered all of these.");
}

/** Nothing is searched for, and nothing is folded. */
export function forget() {
  open(false);
  find("search").value = "";
  words = [];
  folded.clear();
}

/** Opens the field, which has the focus then, or closes it, and shows all rows again. */
function turn() {
  open(find("search").hidden);
  if (!find("search").hidden) {
    find("search").focus();
    return;
  }
  find("search").value = "";
  searchFor("");
}

function open(isOpen) {
  find("search").hidden = !isOpen;
  find("seek").setAttribute("aria-expanded", String(isOpen));
}

/** The events of the field, and of the outlets' heads. */
export function listen() {
  find("seek").addEventListener("click", turn);
  find("search").addEventListener("input", ({ target }) => searchFor(target.value));
  find("search").addEventListener("keydown", ({ key, target }) => {
    if (key === "Enter") target.blur(); // (so that the keyboard of a phone goes)
  });
  find("list").addEventListener("toggle", ({ target }) => {
    if (words.length) return; // (what was opened by a search is folded again after it)
    const outlet = Number(target.dataset.outlet);
    if (target.open) folded.delete(outlet);
    else folded.add(outlet);
  }, true);
}
