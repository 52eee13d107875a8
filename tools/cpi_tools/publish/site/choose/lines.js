// The figures of an item over the months, from its file: the revision that is chosen, and the period in which its index
// is 100. All sums are of whole numbers (BigInt), and each figure is rounded once. Nothing here needs a page.
import { isMoment } from "./choice.js";

export const NONE = "–";

const HUNDRED = 100_000_000n; // an index of 100, in millionths of a point

/** The rows of a CSV file (RFC 4180), each by the names of the columns. */
export function rowsOf(text) {
  const records = [[]];
  for (const [, quoted, plain, end] of text.matchAll(/(?:"((?:[^"]|"")*)"|([^",\r\n]*))(,|\r?\n|$)/g)) {
    records.at(-1).push(quoted === undefined ? plain : quoted.replaceAll('""', '"'));
    if (end !== ",") records.push([]);
  }
  const [names, ...rows] = records.filter((fields) => fields.length > 1);
  return rows.map((fields) => Object.fromEntries(names.map((name, n) => [name, fields[n] ?? ""])));
}

/**
 * An item's rows by month in the revision that is chosen: the latest; the one of that number, or the last one before it;
 * or the last one that was published at a moment. `latest` are the rows of its file, `earlier` those of all revisions
 * that others came after. Contributions are of the latest revisions.
 */
export function chosenRows(latest, earlier, revision) {
  if (revision === "latest") return new Map(latest.map((row) => [row.month, row]));
  const isKnown = isMoment(revision) ? (row) => row.published <= revision : (row) => row.revision <= revision;
  const found = new Map();
  for (const row of [...earlier, ...latest]) {
    const before = found.get(row.month);
    if (isKnown(row) && !(before && before.revision > row.revision)) found.set(row.month, row);
  }
  const isNow = latest.every((row) => found.get(row.month) === row);
  return new Map([...found].map(([month, row]) => [month, isNow ? row : ofItsTime(row)]));
}

/** A row of an earlier revision has the changes of its table, and no contributions. */
const ofItsTime = (row) => ({
  ...row, shown_month_change: row.month_change, shown_year_change: row.year_change, contribution_month: "",
  contribution_year: "",
});

// ---- the period in which an index is 100

export const millionths = (text) => BigInt(text.replace(".", ""));

/**
 * The level of an item in a period, and `base`, the December from which the levels that are linked to it begin; null
 * without it. The level is the ratio `over / under`, in millionths of a point.
 */
export function levelIn(rows, period) {
  if (period.length === 4) return averageIn(rows, period);
  const row = rows.get(period);
  if (row) return { over: millionths(row.chained), under: 1n, base: row.base };
  const isBase = [...rows.values()].some(({ base }) => base === period);
  return isBase ? { over: HUNDRED, under: 1n, base: period } : null;
}

/** The mean of the twelve levels of a year, which are linked: an item is in the whole plan of a year. */
function averageIn(rows, year) {
  const found = [...rows.values()].filter(({ month }) => month.startsWith(`${year}-`));
  if (found.length !== 12) return null;
  return { over: found.reduce((sum, row) => sum + millionths(row.chained), 0n), under: 12n, base: found[0].base };
}

/**
 * The period that is 100 for all items: the one that is chosen, or null if each has its own. With `same` it is the
 * office's reference period, or else the latest December in which one of them is 100, if all are linked to it.
 * `lines` are rows by month of each item, `months` those that are shown, `reference` is the office's or empty.
 */
export function hundredOf(lines, months, hundred, reference) {
  if (hundred === "own") return null;
  if (hundred !== "same") return hundred;
  const periods = new Set(lines.flatMap((rows) => months.filter((month) => rows.has(month))
    .map((month) => periodOf(rows, month, reference))));
  if (periods.size <= 1) return null;
  const shown = lines.map((rows) => months.findLast((month) => rows.has(month)) && rows).filter(Boolean);
  const ends = shown.map((rows) => rows.get(months.findLast((month) => rows.has(month))).base);
  const latest = [...ends].sort().at(-1);
  return shown.every((rows, n) => levelIn(rows, latest)?.base === ends[n]) ? latest : null;
}

/** The period in which an item is 100 for its level of a month, if `wanted` is a period that it may be linked to. */
export function periodOf(rows, month, wanted) {
  const level = wanted ? levelIn(rows, wanted) : null, { base } = rows.get(month);
  return level && level.base === base ? wanted : base;
}

/** The index of an item in a month as `over / under` points, with the period in which it is 100. */
export function indexIn(rows, month, wanted) {
  const level = millionths(rows.get(month).chained), period = periodOf(rows, month, wanted);
  if (period !== wanted) return { over: level, under: 1_000_000n, period };
  const { over, under } = levelIn(rows, wanted);
  return { over: 100n * level * under, under: over, period };
}

// ---- texts

/** over / under (not below 0) with some decimals, rounded once, halves upwards. */
export function decimal(over, under, digits) {
  const text = String((2n * over * 10n ** BigInt(digits) + under) / (2n * under)).padStart(digits + 1, "0");
  return digits ? `${text.slice(0, -digits)}.${text.slice(-digits)}` : text;
}

/**
 * A figure of a file with fewer decimals, rounded to the nearest. If the decimals that it has end in the middle between
 * two, they don't say which way the exact figure goes, and all of them stay.
 */
export function shortened(text, digits) {
  const [, sign, figure] = /^(-?)(.*)$/.exec(text), [, after = ""] = figure.split(".");
  if (after.length <= digits || /^50*$/.test(after.slice(digits))) return text;
  const found = decimal(BigInt(figure.replace(".", "")), 10n ** BigInt(after.length), digits);
  return sign && /[1-9]/.test(found) ? `-${found}` : found;
}

/** A figure as it is shown: with the sign of mathematics, and a plus if it is a change. */
export function signed(text, isChange) {
  if (text === "") return NONE;
  if (text.startsWith("-")) return `−${text.slice(1)}`;
  return isChange && /[1-9]/.test(text) ? `+${text}` : text;
}
