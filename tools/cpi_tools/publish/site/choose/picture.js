// A picture of lines over months, which can be pointed at. Figures are texts; floats are in pictures only.
import { figureText, monthMark, monthText, t } from "../assets/spoken.js";
import { made, isolated } from "./elements.js";
import { listenTo } from "./pointer.js";

const LEFT = 48, RIGHT = 14, TOP = 12, FOOT = 44; // what is free around the lines, in pixels
const LABEL = 52; // the room of a month's name

const drawn = (name, attributes, ...children) => made(`svg:${name}`, attributes, ...children);
const between = (n, least, most) => Math.min(most, Math.max(least, n));

/** Where the axis begins, ends, and its step: round numbers, at least as far apart as the figures' last digit. */
export function axisOf(least, greatest, parts = 5) {
  const room = Math.max(0, 0.5 - (greatest - least)) / 2;
  const [low, high] = [least - room, greatest + room], raw = (high - low) / parts;
  const size = 10 ** Math.floor(Math.log10(raw));
  const step = [1, 2, 2.5, 5, 10].map((n) => n * size).find((n) => n >= raw - 1e-12);
  return { low: Math.floor(low / step + 1e-9) * step, high: Math.ceil(high / step - 1e-9) * step, step };
}

/** The axis of the values of some lines, with zero on it if it has to be there. */
function axisOfLines(lines, hasZero) {
  const values = lines.flatMap((line) => line.values.filter((value) => value !== null)).concat(hasZero ? [0] : []);
  return axisOf(Math.min(...values), Math.max(...values));
}

/** A unit, and that the axis of the picture of some lines is cut if it neither begins at zero nor crosses it. */
export function unitOfPicture(unit, lines, hasZero) {
  const { low, high } = axisOfLines(lines, hasZero);
  return low > 1e-9 || high < -1e-9 ? t("{unit}; the axis doesn't begin at zero", { unit }) : unit;
}

/**
 * A picture of lines `{ title, texts, values, hundreds, breaks, begins }`, a figure a month, null if there is none;
 * before each month of `breaks` (counted from 0) is a mark, and at `begins` a line begins anew. `told(n)` is called with
 * the month that is pointed at, or null.
 */
export function pictureOf({ name, months, lines, hasZero, width }, told) {
  const height = Math.round(between(width * 0.48, 240, 400));
  const axis = axisOfLines(lines, hasZero);
  const x = (n) => LEFT + (months.length < 2 ? 0.5 : n / (months.length - 1)) * (width - LEFT - RIGHT);
  const y = (value) => TOP + (axis.high - value) / (axis.high - axis.low) * (height - TOP - FOOT);
  const place = { width, height, x, y };
  const said = t("{name}. {lines}. The arrow keys read out the months.", { name, lines: summary(lines, months) });
  const svg = drawn("svg", { viewBox: `0 0 ${width} ${height}`, role: "img", tabindex: 0, "aria-label": said });
  const breaks = new Set(lines.flatMap((line) => line.breaks));
  // (the first line is drawn last, above the others)
  const curves = [...lines.entries()].reverse().flatMap(([n, line]) => curve(line, n, place));
  const marks = [...breaks].map((n) => mark(n, place));
  svg.append(...levels(axis, hasZero, place), ...named(months, place), ...marks, ...curves);
  listenTo(svg, months.length, { width, top: TOP, foot: height - FOOT, x }, told);
  return svg;
}

/** The last figure of each line in words. */
function summary(lines, months) {
  return lines.map(({ title, texts, values, hundreds }) => {
    const last = values.findLastIndex((value) => value !== null);
    if (last < 0) return t("{title}: none", { title: isolated(title) });
    const base = hundreds[last], places = { title: isolated(title), figure: texts[last], month: monthText(months[last]) };
    return base ? t("{title}: {figure} ({base}) in {month}", { ...places, base }) : t("{title}: {figure} in {month}", places);
  }).join("; ");
}

/** A mark before a month. */
const mark = (n, { height, x }) => {
  const at = n > 0 ? (x(n - 1) + x(n)) / 2 : x(0);
  return drawn("line", { class: "break", x1: at, x2: at, y1: TOP, y2: height - FOOT });
};

function levels(axis, hasZero, { width, y }) {
  const digits = axis.step % 1 === 0 ? 0 : axis.step * 10 % 1 < 1e-9 ? 1 : 2;
  const count = Math.round((axis.high - axis.low) / axis.step) + 1;
  return Array.from({ length: count }, (_, n) => axis.low + n * axis.step).flatMap((value) => {
    const isZero = Math.abs(value) < 1e-9, kind = hasZero && isZero ? "zero" : "grid";
    const text = (isZero ? 0 : value).toFixed(digits).replace("-", "−");
    return [
      drawn("line", { class: kind, x1: LEFT, x2: width - RIGHT, y1: y(value), y2: y(value) }),
      drawn("text", { class: "end", x: LEFT - 7, y: y(value) + 4 }, figureText(text)),
    ];
  });
}

/** The names of months, as many as there is room for, at round ones; below the first one and each January is the year. */
function named(months, { width, height, x }) {
  const room = Math.max(1, Math.floor((width - LEFT - RIGHT) / LABEL));
  const every = [1, 2, 3, 6, 12, 24, 60].find((n) => months.length / n <= room) ?? 120;
  const isNamed = (month) => (Number(month.slice(0, 4)) * 12 + Number(month.slice(5)) - 1) % every === 0;
  return [...months.entries()].filter(([, month]) => isNamed(month)).flatMap(([n, month], at) => {
    const hasYear = at === 0 || month.endsWith("-01"), below = height - FOOT, middle = between(x(n), 26, width - 26);
    return [
      drawn("line", { class: "grid", x1: x(n), x2: x(n), y1: below, y2: below + 5 }),
      drawn("text", { class: "middle", x: middle, y: below + 20 }, monthMark(month)),
      ...(hasYear ? [drawn("text", { class: "middle", x: middle, y: below + 37 }, figureText(month.slice(0, 4)))] : []),
    ];
  });
}

function curve({ values, begins }, n, { x, y }) {
  let path = "", isOpen = false;
  for (const [month, value] of values.entries()) {
    const isJoined = isOpen && !begins.includes(month);
    if (value !== null) path += `${isJoined ? "L" : "M"}${x(month).toFixed(1)} ${y(value).toFixed(1)}`;
    isOpen = value !== null;
  }
  const last = values.findLastIndex((value) => value !== null);
  if (last < 0) return [];
  const dot = drawn("circle", { class: `curve-dot-${n}`, cx: x(last), cy: y(values[last]), r: 4 });
  return [drawn("path", { class: `curve curve-${n}`, d: path }), dot];
}
