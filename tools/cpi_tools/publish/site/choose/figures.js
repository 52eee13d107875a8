// The figures of measures as tables of the page, and as a file.
import { figureText, monthText, shortMonth, t } from "../assets/spoken.js";
import { made, others } from "./elements.js";

const MOST_COLUMNS = 6; // so that a table isn't wider than a sheet of paper

/** Tables of a measure, the newest month first, with so many items in each as fit. */
export function tablesOf({ name, unit, lines }, months) {
  const groups = [];
  for (let at = 0; at < lines.length; at += MOST_COLUMNS) groups.push(lines.slice(at, at + MOST_COLUMNS));
  return groups.map((group, n) => {
    const values = { name, part: figureText(String(n + 1)), parts: figureText(String(groups.length)), unit };
    const isParted = groups.length > 1;
    const caption = isParted ? t("{name} ({unit}), {part} of {parts}", values) : t("{name} ({unit})", values);
    const label = isParted ? t("{name}, {part} of {parts}", values) : name;
    const rows = months.map((month, at) => rowOf(month, at, group)).reverse();
    const table = made("table", {}, made("caption", {}, caption),
      headOf(group), made("tbody", {}, ...rows));
    return made("div", { class: "scroll", tabindex: 0, role: "region", "aria-label": label }, table);
  });
}

const headOf = (lines) => made("thead", {}, made("tr", {}, made("th", { scope: "col" }, t("Month")),
  ...lines.map(({ code, title, hundred }) => made("th", { scope: "col", class: "n" },
    made("a", { href: `node/${code}.html` }, others(title)), ...(hundred ? [made("small", {}, hundred)] : [])))));

function rowOf(month, at, lines) {
  const cells = lines.map(({ texts, exact, marks }) => made("td", { class: "n" }, texts[at],
    ...(exact[at] && marks[at] ? [made("sup", {}, marks[at])] : [])));
  return made("tr", {}, made("th", { scope: "row", class: "month" }, ...headOfRow(month)), ...cells);
}

/** A month that is `Dec 2026` on a telephone. */
const headOfRow = (month) =>
  [made("span", { class: "wide" }, monthText(month)), made("span", { class: "narrow" }, shortMonth(month))];

// ---- a file

const field = (text) => (/[",\r\n]/.test(text) ? `"${text.replaceAll('"', '""')}"` : text);

/** The figures as CSV (RFC 4180), a row for each item and month that it has, with all digits. */
export function csvOf(items, months, measures) {
  const head = measures.flatMap(({ word, isLevel }) => (isLevel ? [word, "reference"] : [word.replace("-", "_")]));
  const rows = items.flatMap(({ code, title, rows: own }, at) => months.flatMap((month, n) => {
    const row = own.get(month);
    const figures = measures.map(({ isLevel, lines }) =>
      [lines[at].exact[n], ...(isLevel ? [lines[at].periods[n]] : [])]);
    return row ? [[month, row.revision, row.published, code, title, ...figures.flat(), row.imputed, row.break]] : [];
  }));
  const all = [["month", "revision", "published", "code", "title", ...head, "imputed", "break"], ...rows];
  return all.map((row) => `${row.map(field).join(",")}\n`).join("");
}
