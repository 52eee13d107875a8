// The choice of a reader, and its address, such as `choose.html?items=00+01.1&show=index+year&from=2025-01`.
// A word that is left out has its default. Nothing here needs a page, so a test runs it by itself.
import { figureText, monthText, t } from "../assets/spoken.js";

export const MOST_ITEMS = 20;

/** The measures by their words in an address: name, unit, and the column of an item's file. */
export const MEASURES = new Map([
  ["index", { name: t("Index"), unit: "", column: "chained" }],
  ["year", { name: t("Annual change"), unit: t("Percent"), column: "shown_year_change" }],
  ["month", { name: t("Monthly change"), unit: t("Percent"), column: "shown_month_change" }],
  ["contribution-year", {
    name: t("Contribution to the annual change in all items"), unit: t("Percentage points"),
    column: "contribution_year",
  }],
  ["contribution-month", {
    name: t("Contribution to the monthly change in all items"), unit: t("Percentage points"),
    column: "contribution_month",
  }],
  ["weight", { name: t("Weight in use"), unit: t("Parts of the weight of all items in that month"), column: "weight" }],
]);

/** What holds without a word: `from` is two years before `to`, `to` is the newest month. */
export const DEFAULTS = Object.freeze({
  items: ["00"], show: ["index"], from: "", to: "", hundred: "same", revision: "latest", decimals: "shown",
});

const CODE = /^(00|(0[1-9]|1[0-3])(\.\d(\.\d(\.\d(-(0[1-9]|[1-9]\d))?)?)?)?|[A-Z][A-Z0-9_]{0,29})$/;
const MONTH = /^\d{4}-(0[1-9]|1[0-2])$/, YEAR = /^\d{4}$/;
const MOMENT = /^\d{4}-(0[1-9]|1[0-2])-(0[1-9]|[12]\d|3[01])T([01]\d|2[0-3]):[0-5]\d:[0-5]\dZ$/;

const SPAN = 24; // months before the last one that are shown if nothing else is chosen

export const isMoment = (revision) => MOMENT.test(revision);

export function moved(month, by) {
  const count = Number(month.slice(0, 4)) * 12 + Number(month.slice(5)) - 1 + by;
  return `${String(Math.floor(count / 12)).padStart(4, "0")}-${String((count % 12) + 1).padStart(2, "0")}`;
}

/** The months from one to another. */
export function monthsBetween(from, to) {
  const found = [];
  for (let month = from; month <= to; month = moved(month, 1)) found.push(month);
  return found;
}

/** The months that are chosen. `known` has the first and the last month that the site has. */
export function monthsOf({ from, to }, known) {
  const last = to || known.last, first = from || moved(last, -SPAN);
  return monthsBetween(first < known.first ? known.first : first, last);
}

/** The years of which the site has each month. */
export function fullYears({ first, last }) {
  const years = new Set(monthsBetween(first, last).map((month) => month.slice(0, 4)));
  return [...years].filter((year) => `${year}-01` >= first && `${year}-12` <= last);
}

/**
 * Reads an address: `{ choice, faults }`. `known` is what the site has: its `first` and `last` month, and `base`, the
 * December before the first. A word that can't be taken has its default, and a line in `faults` with the text that was
 * read and the texts that are wanted.
 */
export function choiceOf(search, known) {
  const choice = { ...DEFAULTS }, faults = [];
  for (const [word, text] of new URLSearchParams(search)) {
    const read = READERS[word];
    const found = read ? read(text.trim(), known) : { fault: t("this page doesn’t know this name; it knows {words}", { words: WORDS }) };
    if (found.fault) faults.push({ read: `${word}=${text}`, fault: found.fault });
    if ("value" in found) choice[word] = found.value;
  }
  const last = choice.to || known.last;
  if (choice.from > last) {
    faults.push({ read: `from=${choice.from}`, fault: t("it is after {month}, the last month that you chose", { month: monthText(last) }) });
    choice.from = "";
  }
  return { choice, faults };
}

/** A choice as an address; a default isn't written. */
export function addressOf(choice) {
  const words = new URLSearchParams();
  for (const [word, value] of Object.entries(choice)) {
    const text = [value].flat().join(" ");
    if (text !== [DEFAULTS[word]].flat().join(" ")) words.set(word, text);
  }
  const found = words.toString();
  return found ? `?${found}` : "";
}

/** The same choice for good: with its months by name, as published until now, and `period` = 100 if that is one. */
export function fixed(choice, known, period) {
  const months = monthsOf(choice, known);
  const revision = choice.revision === "latest" ? known.moment : choice.revision;
  const span = { from: months[0] ?? known.first, to: months.at(-1) ?? known.last };
  return { ...choice, ...span, hundred: period ?? choice.hundred, revision };
}

// ---- the words of an address

const WORDS = Object.keys(DEFAULTS).join(", ");

const READERS = {
  items: (text) => {
    const all = parts(text), bad = all.filter((code) => !CODE.test(code)), good = all.filter((code) => CODE.test(code));
    const many = good.length > MOST_ITEMS
      ? t("it names {given} items, and the page shows at most {most}", { given: figureText(String(good.length)), most: figureText(String(MOST_ITEMS)) }) : "";
    const odd = bad.length
      ? t("{codes} is neither a code such as 01.1.1 nor the id of a special aggregate", { codes: bad.join(", ") }) : "";
    const value = good.length ? good.slice(0, MOST_ITEMS) : DEFAULTS.items;
    return { value, fault: odd || many || (good.length ? "" : t("it names no item; an example is items=00+01.1")) };
  },
  show: (text) => {
    const all = parts(text), bad = all.filter((word) => !MEASURES.has(word));
    const value = [...MEASURES.keys()].filter((word) => all.includes(word));
    const words = [...MEASURES.keys()].join(", "), read = bad.join(", ");
    const none = value.length ? "" : t("the measures are {words}", { words });
    const fault = bad.length ? t("{read} isn’t a measure; the measures are {words}", { read, words }) : none;
    return { value: value.length ? value : DEFAULTS.show, fault };
  },
  from: (text, known) => monthOf(text, known),
  to: (text, known) => monthOf(text, known),
  hundred: (text, known) => {
    const isPeriod = (MONTH.test(text) && text >= known.base && text <= known.last) || fullYears(known).includes(text);
    if (isPeriod || text === "same" || text === "own") return { value: text };
    const span = { first: known.base, last: known.last };
    return { fault: YEAR.test(text)
      ? t("it has to be same, own, a year with twelve months, or a month from {first} to {last}", span)
      : t("it has to be same, own, a year, or a month from {first} to {last}", span) };
  },
  revision: (text) => (text === "latest" || /^[1-9]$/.test(text) || isMoment(text) ? { value: text }
    : { fault: t("it has to be latest, a revision from 1 to 9, or a time such as 2026-01-28T08:30:00Z") }),
  decimals: (text) => (text === "shown" || text === "all" ? { value: text } : { fault: t("it has to be shown or all") }),
};

const parts = (text) => [...new Set(text.split(/[\s,]+/).filter(Boolean))];

function monthOf(text, { first, last }) {
  if (text === "" || (MONTH.test(text) && text >= first && text <= last)) return { value: text };
  return { fault: t("it isn’t a month from {first} to {last}", { first, last }) };
}
