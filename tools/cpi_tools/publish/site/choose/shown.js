// What a choice shows: items, months and measures, and for each measure a picture with what is read out of it and its key.
import { figureText, monthText, t } from "../assets/spoken.js";
import { monthsOf } from "./choice.js";
import { made, others } from "./elements.js";
import { chosenRows, hundredOf } from "./lines.js";
import { measureOf } from "./measured.js";
import { pictureOf, unitOfPicture } from "./picture.js";

export const MOST_LINES = 6; // lines that a picture shows

/** The items, months and measures of a choice; `found` are the files of its items, `known` is what the site has. */
export function shownOf(choice, found, known) {
  const items = found.map((item) => ({ ...item, rows: chosenRows(item.latest, item.earlier, choice.revision) }));
  const months = monthsOf(choice, known), all = items.map(({ rows }) => rows);
  const wanted = hundredOf(all, months, choice.hundred, known.reference) ?? known.reference;
  return { items, months, measures: choice.show.map((word) => measureOf(word, items, months, wanted, choice.decimals)) };
}

/** What is shown of a measure but its name: a place for the picture, which `drawPictures` fills, and the key to it. */
export function partsOf(measure, caption) {
  const { lines } = measure;
  const values = { shown: figureText(String(MOST_LINES)), all: figureText(String(lines.length)) };
  const few = lines.length > MOST_LINES ? [made("p", { class: "note" },
    t("The picture shows the first {shown} of {all} items.", values))] : [];
  return [
    made("figure", { class: "lines" }, made("figcaption", {}, ...caption, made("small", {}, unitOf(measure))),
      made("div", { class: "picture" })),
    made("p", { class: "note readout", "aria-live": "polite" }),
    made("ul", { class: "lines-key" }, ...lines.slice(0, MOST_LINES).map(keyOf)), ...few,
  ];
}

/** The sign of a line, its title, and the period in which it is 100 if the picture has several. */
export const keyOf = ({ title, hundred }, n) => made("li", {}, made("svg:svg", { viewBox: "0 0 34 12", "aria-hidden": "true" },
  made("svg:path", { class: `curve curve-${n}`, d: "M2 6H32" })), made("span", {}, others(title),
  ...(hundred ? [made("small", {}, hundred)] : [])));

/** Draws the pictures, as wide as there is room, and says how wide the last one is. */
export function drawPictures({ measures, months }) {
  let width = 0;
  for (const [n, holder] of document.querySelectorAll(".picture").entries()) {
    width = Math.max(280, Math.floor(holder.clientWidth));
    const readout = holder.closest("section").querySelector(".readout");
    const lines = measures[n].lines.slice(0, MOST_LINES);
    const told = (at) => readout.replaceChildren(...(at === null ? [] : read(lines, months, at)));
    const picture = pictureOfMeasure(measures[n], months, width, told);
    holder.replaceChildren(picture ?? made("p", { class: "note" }, t("These items have no such figures for these months.")));
  }
  return width;
}

/** Whether the picture of a measure has zero on its axis, as one of changes has. */
const hasZero = ({ isLevel, word }) => !isLevel && word !== "weight";

/** The lines of a picture that has any figure; null if it has none. */
function drawnOf({ lines }) {
  const few = lines.slice(0, MOST_LINES);
  return few.some(({ values }) => values.some((value) => value !== null)) ? few : null;
}

/** What is said below the name of a picture: the unit of a measure, and whether the axis is cut. */
export function unitOf(measure) {
  const lines = drawnOf(measure);
  return lines ? unitOfPicture(measure.unit, lines, hasZero(measure)) : measure.unit;
}

/** The picture of a measure; null if there is no figure. */
export function pictureOfMeasure(measure, months, width, told) {
  const lines = drawnOf(measure), { name, unit } = measure;
  if (!lines) return null;
  return pictureOf({ name: t("{name} ({unit})", { name, unit }), months, lines, hasZero: hasZero(measure), width }, told);
}

/** The figures of a month in words. */
export const read = (lines, months, at) => [`${monthText(months[at])}: `, ...lines.flatMap(({ title, texts, hundreds }, n) =>
  [n ? ", " : "", others(title), ` ${texts[at]}${hundreds[at] ? ` (${hundreds[at]})` : ""}`])];

/** Shows faults, each with the text that was read; the element is hidden if there are none. */
export function tellIn(element, faults) {
  element.hidden = !faults.length;
  element.replaceChildren(...faults.map(({ read: text, fault }) => made("p", {}, others(text), t(": {fault}.", { fault }))));
}
