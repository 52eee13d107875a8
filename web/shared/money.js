// Prices are whole numbers of minor units; they are shown and typed with a decimal mark. No floating point.
import { office } from "../config.js";
import { inDigits, t } from "./texts.js";

export const LEAST = 1;
export const MOST = 100_000_000;

/** A price as a list shows it, with the currency if the office has set one. */
export function shown(price) {
  if (!office.currency) return figures(price);
  // t: a price with the name of the currency: 3.21 EUR
  return t("{figures} {currency}", { figures: figures(price), currency: office.currency });
}

/** A price as it is typed, in the digits of the office. */
export function figures(price) {
  const digits = String(price).padStart(office.minorDigits + 1, "0");
  if (!office.minorDigits) return inDigits(digits);
  return inDigits(digits.slice(0, -office.minorDigits) + office.decimal + digits.slice(-office.minorDigits));
}

/** The price that was typed, as `read` reads it for this office. */
export function typed(text) {
  return read(text, office.minorDigits, office.currency);
}

/**
 * A text as a price in minor units: { price } if it can be read in one way only, { readings, isRounded } if the collector
 * has to say which of them is meant (one or two), null if it is no price from LEAST to MOST.
 *
 * A point or a comma before the last three digits may group them or be a decimal mark: a fuel's price at a pump is
 * 1,459 even if the office writes two decimals. So the collector is asked, unless the office writes no decimals. If the
 * first reading has more decimals than the office writes, it is the nearest price, halves up, and `isRounded` says so.
 *
 * @returns {{ price?: number, readings?: number[], isRounded?: boolean } | null}
 */
export function read(text, minorDigits, currency = "") {
  const figure = plain(text, currency);
  const whole = WHOLE.test(figure) ? priceOf(figure, "", minorDigits) : null;
  const [, before, mark, after] = DECIMAL.exec(figure) ?? [];
  const isDecimal = mark && after.length <= minorDigits && !before.includes(mark) && (!before || WHOLE.test(before));
  const decimal = isDecimal ? priceOf(before, after, minorDigits) : null;
  if (minorDigits && DOUBTFUL.test(figure)) return asked(decimal, whole, before + after, minorDigits);
  const price = decimal ?? whole;
  return price === null ? null : { price };
}

/** The readings of a doubtful figure, whose digits are thousandths if its mark is a decimal one. */
function asked(decimal, whole, digits, minorDigits) {
  const step = 10 ** Math.max(3 - minorDigits, 0), count = Number(digits), rest = count % step;
  const nearest = (count - rest) / step + (2 * rest >= step && rest ? 1 : 0);
  const first = decimal ?? (minorDigits < 3 && nearest >= LEAST ? nearest : null);
  const readings = [first, whole].filter((price) => price !== null);
  return readings.length ? { readings, isRounded: decimal === null && rest > 0 && first !== null } : null;
}

// The forms of a figure in plain signs. "." and "," may be either mark; " ", "'" and "\u066c" (the Arabic thousands
// mark) only group; "\u066b" (the Arabic decimal mark) never does. India groups by two digits before the last three.
const WHOLE = /^(?:\d{1,9}|[1-9]\d{0,2}([., '\u066c])\d{3}(?:\1\d{3})*|[1-9]\d?([., '\u066c])\d\d(?:\2\d\d)*\2\d{3})$/;
const DECIMAL = /^(.*)([.,\u066b])(\d+)$/;
const DOUBTFUL = /^[1-9]\d{0,2}[.,]\d{3}$/;

/** The plain sign of each form of a mark. */
const MARKS = new Map([
  ...Array.from(".\uff0e", (form) => [form, "."]),
  ...Array.from(",\uff0c\u060c", (form) => [form, ","]),
  ...Array.from(" \u00a0\u2009\u202f", (form) => [form, " "]),
  ...Array.from("'\u2019", (form) => [form, "'"]),
  ...Array.from("\u066b\u066c", (form) => [form, form]),
]);

const DIGIT = /^\p{Nd}$/u;
const DIRECTION = /[\u061c\u200e\u200f\u202a-\u202e\u2066-\u2069]/g; // invisible marks

/** A text in plain signs, without the currency at its start or its end; "" if something else is in it. */
function plain(text, currency) {
  const [all, name] = [text, currency].map((one) => one.replace(DIRECTION, "").trim());
  const isFirst = all.startsWith(name), isLast = !isFirst && all.endsWith(name);
  const figure = all.slice(isFirst ? name.length : 0, isLast ? -name.length : undefined).trim();
  const signs = Array.from(figure, (sign) => (DIGIT.test(sign) ? valueOf(sign) : MARKS.get(sign)));
  return signs.includes(undefined) ? "" : signs.join("");
}

/** The value of a decimal digit: each script has its ten in a row from zero on (The Unicode Standard, section 4.6). */
function valueOf(digit) {
  const code = digit.codePointAt(0);
  let first = code;
  while (DIGIT.test(String.fromCodePoint(first - 1))) first -= 1;
  return (code - first) % 10; // (some rows follow each other)
}

/** The price of the digits on both sides of a decimal mark, or null if it isn't within the limits. */
function priceOf(before, after, minorDigits) {
  const price = Number(before.replace(/\D/g, "") + after.padEnd(minorDigits, "0"));
  return price >= LEAST && price <= MOST ? price : null;
}

/** `+4.2 %` of 42 tenths of a percent, with the decimal mark and the digits of the office. */
export function percent(tenths) {
  const size = Math.abs(tenths), sign = tenths > 0 ? "+" : tenths < 0 ? "−" : "±";
  // t: a change with its sign, and the percent sign of your language: +4.2 %
  return t("{change} %", { change: sign + inDigits(`${Math.floor(size / 10)}${office.decimal}${size % 10}`) });
}

/**
 * The change from a last price in tenths of a percent, halves away from zero.
 *
 * All steps are exact: they are whole numbers of at most 2000 * MOST + MOST (2 * 10 ** 11, below 2 ** 53), and the
 * division leaves no rest.
 */
export function changeOf(price, last) {
  const twice = 2000 * Math.abs(price - last) + last;
  const tenths = (twice - (twice % (2 * last))) / (2 * last);
  return price < last && tenths ? -tenths : tenths;
}

/** The bounds that the office has for a last price, by an item's tolerance in thousandths. */
export function bounds(last, low, high) {
  const least = last * low + 999, most = last * high;
  return { last, low: (least - (least % 1000)) / 1000, high: (most - (most % 1000)) / 1000 };
}
