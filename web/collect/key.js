// A collector's key as it is typed, or as a printed code brings it. A key has 32 characters, 0 to 9 and a to f. On
// paper a check character comes after them, so that the page finds a slip before anything is sent.

import { t, whole } from "../shared/texts.js";

const LENGTH = 32;
const ALPHABET = "0123456789abcdefghijklmnopqrstuvwxyz";

/** Whether a text ends in its check character (ISO/IEC 7064, MOD 37,36). */
function isChecked(text) {
  const size = ALPHABET.length;
  const added = (sum, each) => (((sum || size) * 2) % (size + 1) + ALPHABET.indexOf(each)) % size;
  return [...text].reduce(added, size / 2) === 1;
}

/** The key that was typed, with blanks or hyphens perhaps: { key }, or { fault } that says what is wrong with it. */
export function readKey(text) {
  const typed = text.replace(/[\s-]/g, "").toLowerCase();
  const odd = [...typed.slice(0, LENGTH)].findIndex((each) => !/[0-9a-f]/.test(each));
  if (odd >= 0) {
    const values = { number: whole(odd + 1), character: [...typed][odd], length: whole(LENGTH) };
    return { fault: t("Character {number} can’t be “{character}”: a key has {length} characters, each a digit or a letter from a to f.", values) };
  }
  if (typed.length < LENGTH || typed.length > LENGTH + 1) {
    const values = { count: whole(typed.length), length: whole(LENGTH), longest: whole(LENGTH + 1) };
    return { fault: t("A key has {length} characters, or {longest} with its check character. This one has {count}.", values) };
  }
  if (typed.length > LENGTH && !isChecked(typed)) {
    return { fault: t("A character is wrong, or two are swapped: compare the key with the sheet.") };
  }
  return { key: typed.slice(0, LENGTH) };
}

/** Longest name of a collector, in characters. */
const LONGEST_NAME = 60;

export const nameIn = (text) => [...text.trim()].slice(0, LONGEST_NAME).join("");

/** Takes the key and the name of a printed code out of the address; null if there is none. */
export function takeLink() {
  const found = new URLSearchParams(location.hash.slice(1));
  if (!found.has("key")) return null;
  history.replaceState(null, "", location.pathname);
  return { text: found.get("key"), name: nameIn(found.get("name") ?? "") };
}
