// The figures of a measure: a line for each chosen item, as it is shown and with all its digits.
import { figureText, monthText, t } from "../assets/spoken.js";
import { MEASURES } from "./choice.js";
import { decimal, indexIn, NONE, shortened, signed } from "./lines.js";

const DECIMALS = { index: 1, "contribution-year": 2, "contribution-month": 2 };

const EACH_ITS_OWN = t("each item with its own reference period");

/** `December 2025 = 100`, or `2025 = 100`. */
const saysHundred = (period) => t("{period} = 100", { period: period.length === 4 ? figureText(period) : monthText(period) });

/**
 * A measure `{ word, name, unit, isLevel, lines }` of items `{ code, title, rows }` over months; `wanted` is the period
 * that is 100 for each item that is linked to it. If all lines have the same period, the unit says it, else each line.
 */
export function measureOf(word, items, months, wanted, decimals) {
  const { name, unit } = MEASURES.get(word), isLevel = word === "index";
  const lines = items.map((item) => lineOf(item, word, months, wanted, decimals));
  const periods = new Set(lines.flatMap((line) => line.periods.filter(Boolean)));
  if (!isLevel || periods.size > 1) return { word, name, unit: isLevel ? EACH_ITS_OWN : unit, isLevel, lines };
  const plain = lines.map((line) => ({ ...line, hundred: "", hundreds: line.hundreds.map(() => "") }));
  return { word, name, unit: [...periods].map(saysHundred).join(""), isLevel, lines: plain };
}

/**
 * A line: `texts` as they are shown, `exact` with all digits, `values` for a picture, `periods` in which its index is 100
 * by month, the same in words as `hundreds`, all of them as `hundred`, `breaks` (the months, counted from 0, with a break
 * before them), those of them that aren't linked to the months before as `begins`, and `marks` (see marksOf).
 */
function lineOf({ code, title, rows }, word, months, wanted, decimals) {
  const found = months.map((month) => rows.get(month));
  const cells = found.map((row) => (row ? cellOf(row, rows, word, wanted, decimals) : NO_CELL));
  const periods = cells.map(({ period }) => period), hundreds = periods.map((it) => (it ? saysHundred(it) : ""));
  const breaks = word === "index" ? breaksOf(found) : [];
  return {
    code, title, periods, hundreds, hundred: said(hundreds, months), marks: found.map(marksOf),
    texts: cells.map(({ text }) => text), exact: cells.map(({ exact }) => exact),
    values: cells.map(({ exact }) => (exact === "" ? null : Number(exact))),
    breaks, begins: breaks.filter((n) => found[n].base !== found.slice(0, n).findLast(Boolean).base),
  };
}

const NO_CELL = { text: NONE, exact: "", period: "" };

function cellOf(row, rows, word, wanted, decimals) {
  if (word === "index") {
    const { over, under, period } = indexIn(rows, row.month, wanted), exact = decimal(over, under, 6);
    return { text: figureText(decimals === "all" ? exact : decimal(over, under, DECIMALS.index)), exact, period };
  }
  const exact = row[MEASURES.get(word).column];
  const text = decimals === "all" || !(word in DECIMALS) ? exact : shortened(exact, DECIMALS[word]);
  return { text: figureText(signed(text, word !== "weight")), exact, period: "" };
}

/** `December 2024 = 100, from January 2027 on December 2026 = 100`. */
function said(hundreds, months) {
  let told = "", before = "";
  for (const [n, text] of hundreds.entries()) {
    const values = { bases: told, month: monthText(months[n]), base: text };
    if (text && text !== before) told = told ? t("{bases}; since {month}, {base}", values) : text;
    before = text || before;
  }
  return told;
}

/** The rows, counted from 0, with a break before them; the first one has none. */
const breaksOf = (rows) => rows.flatMap((row, n) => (row?.break === "1" && rows.slice(0, n).some(Boolean) ? [n] : []));

/** The letters of a row's notes. Of an earlier revision they are those that its own table gives: imputed, and a break. */
const marksOf = (row) => (row
  ? row.notes ?? `${row.imputed === "1" ? "i" : ""}${row.break === "1" ? "b" : ""}` : "");
