// The pictures that a page has from the beginning tell the figures of a month too, under a pointer and by the arrow keys.
// The figures are those of the table that a picture has on its page, or else of the item's file, which is asked for once
// somebody points at a picture, as this script is (`assets/point.js`). Without a script all of the page is there but this.
import { t } from "../assets/spoken.js";
import { monthsBetween } from "./choice.js";
import { itemOf, site } from "./files.js";
import { chosenRows, hundredOf } from "./lines.js";
import { measureOf } from "./measured.js";
import { listenTo } from "./pointer.js";
import { read } from "./shown.js";

const MEASURE = { level: "index", year: "year", month: "month" }; // by the kind of a picture the word of its measure

const page = document.querySelector("script[data-living]").dataset; // top, code, title, all, reference: see shown.html
site.top = page.top;

/** The lines of a kind of picture over months: of the item, and of all items beside its level. */
async function linesOf(kind, months) {
  const titles = { [page.code]: page.title, ...(kind === "level" ? { "00": page.all } : {}) };
  const codes = [...new Set([page.code, ...Object.keys(titles)])];
  const items = await Promise.all(codes.map(async (code) => {
    const { latest } = await itemOf(code, false);
    return { code, title: titles[code], rows: chosenRows(latest, [], "latest") };
  }));
  const wanted = hundredOf(items.map(({ rows }) => rows), months, "same", page.reference) ?? page.reference;
  return measureOf(MEASURE[kind], items, months, wanted, "shown").lines;
}

/** What a picture says of a month, counted from 0: a function of it, which promises texts and elements; null if nothing. */
function sayingOf(svg, months) {
  const rows = [...svg.parentElement.querySelectorAll("details tr")].reverse();
  if (rows.length === months.length) {
    return async (n) => [...rows[n].cells].map(({ textContent }) => textContent).join(": ");
  }
  const { kind } = svg.dataset;
  if (!(kind in MEASURE) || !page.code) return null;
  let lines = null;
  return async (n) => read(await (lines ??= linesOf(kind, months).catch((fault) => { lines = null; throw fault; })), months, n);
}

/** Where the months and the values of a picture are: its lines from side to side say so. */
function placeOf(svg, count) {
  const ways = [...svg.querySelectorAll(".grid, .zero")].map((path) => path.getAttribute("d")).join("");
  const levels = [...ways.matchAll(/M(\d+) ([\d.]+)H(\d+)/g)].map(([, ...found]) => found.map(Number));
  const [[left, , right]] = levels, heights = levels.map(([, y]) => y);
  const x = (n) => left + (right - left) * (n + 0.5) / count;
  return { width: svg.viewBox.baseVal.width, top: Math.min(...heights), foot: Math.max(...heights), x };
}

/** Lets a picture tell its figures below it. */
function revive(svg) {
  const months = monthsBetween(...svg.dataset.months.split(" ")), say = sayingOf(svg, months);
  if (!say) return;
  const readout = svg.nextElementSibling;
  let at = null;
  const told = async (n) => {
    at = n;
    if (n === null) {
      readout.replaceChildren();
      return;
    }
    const said = await say(n).catch((fault) => t("{fault}. Reload the page in a moment", { fault: fault.message }));
    if (at === n) readout.replaceChildren(...[said].flat());
  };
  listenTo(svg, months.length, placeOf(svg, months.length), told);
}

for (const svg of document.querySelectorAll("svg[data-months][tabindex]")) revive(svg);
