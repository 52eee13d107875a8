// How the scripts of the site say texts, figures and months, in the language of their page. English is the source: a text
// is a whole sentence, by which catalogues know it, with places for what changes, `{month}`. The script `assets/words.js`
// of another language has its texts, and how it writes figures.
// A page that is opened from a disk can't load modules, so this is a plain script; a test loads it by `require`.
"use strict";

/** The language: its tag, its texts and plural forms by their English, its digits, and its signs by those of ASCII. */
const SPOKEN = globalThis.WORDS ?? { tag: "en", texts: {}, plural: { one: 0, other: 1 }, digits: "latn", signs: {} };

const LOCALE = `${SPOKEN.tag}-u-ca-gregory-nu-${SPOKEN.digits}`;
const MONTHS = new Intl.DateTimeFormat(LOCALE, { month: "long", year: "numeric", timeZone: "UTC" });
const SHORT_MONTHS = new Intl.DateTimeFormat(LOCALE, { month: "short", year: "numeric", timeZone: "UTC" });
const MONTH_MARKS = new Intl.DateTimeFormat(LOCALE, { month: "short", timeZone: "UTC" });
const DAYS = new Intl.DateTimeFormat(LOCALE, { dateStyle: "long", timeZone: "UTC" });
const TIMES = new Intl.DateTimeFormat(LOCALE, { timeStyle: "short", hourCycle: "h23", timeZone: "UTC" });

/** `d'octobre 2025`, or `de mars 2025`: what a French text has in a place such as `{of_month}`. */
const joined = (text) => (/^[aeiouyhàâéèêëîïôöùûü]/i.test(text) ? `d\u2019${text}` : `de ${text}`);

/** A text with a capital first letter, as a line begins. */
const begun = (text) => text.charAt(0).toUpperCase() + text.slice(1);

/** What is in a place of a text, with the word before it if the language joins the two, or with a capital letter in a place
 * such as `{Month}`, with which a text begins. */
function placed(values, name) {
  const plain = name.charAt(0).toLowerCase() + name.slice(1);
  if (plain !== name) return plain in values ? begun(String(values[plain])) : undefined;
  return values[name] ?? (name.startsWith("of_") && name.slice(3) in values ? joined(String(values[name.slice(3)])) : undefined);
}

/** A text with its places filled. */
const filled = (text, values) => text.replace(/\{([A-Za-z_]+)\}/g, (place, name) => String(placed(values, name) ?? place));

/** A text in the language; `values` are put into its places. */
const t = (text, values = {}) => filled(SPOKEN.texts[text] ?? text, values);

/** The form of a text for a count, which fills the place `{count}`. */
function tn(one, many, count, values = {}) {
  const form = SPOKEN.plural[new Intl.PluralRules(SPOKEN.tag).select(count)] ?? SPOKEN.plural.other;
  return filled((SPOKEN.texts[one] ?? [one, many])[form], { count: figureText(String(count)), ...values });
}

/** A figure such as `−0.3` as the language writes it. */
const figureText = (text) => text.replace(/[-0-9.+\u2212]/g, (sign) => SPOKEN.signs[sign] ?? sign);

/** The forms of a figure in plain signs. "." and "," may be either mark; " ", "'" and "\u066c" (the Arabic thousands mark)
 * only group; "\u066b" (the Arabic decimal mark) never does. India groups by two digits before the last three. */
const WHOLE = /^(?:\d{1,15}|[1-9]\d{0,2}([., '\u066c])\d{3}(?:\1\d{3})*|[1-9]\d?([., '\u066c])\d\d(?:\2\d\d)*\2\d{3})$/;
const DECIMAL = /^(.*)([.,\u066b])(\d*)$/;
const DOUBTFUL = /^[1-9]\d{0,2}[.,]\d{3}$/;

/** The plain sign of each form of a mark. */
const MARKS = new Map([[".", ".\uff0e"], [",", ",\uff0c\u060c"], [" ", " \u00a0\u2009\u202f"], ["'", "'\u2019"],
  ["\u066b", "\u066b"], ["\u066c", "\u066c"]].flatMap(([mark, forms]) => [...forms].map((form) => [form, mark])));

const DIGIT = /^\p{Nd}$/u;
const DIRECTION = /[\u061c\u200e\u200f\u202a-\u202e\u2066-\u2069]/g; // invisible marks

/** The value of a decimal digit: each script has its ten in a row from zero on (The Unicode Standard, section 4.6). */
function valueOf(digit) {
  const code = digit.codePointAt(0);
  let first = code;
  while (DIGIT.test(String.fromCodePoint(first - 1))) first -= 1;
  return (code - first) % 10; // (some rows follow each other)
}

/**
 * An amount that was typed with the digits and the marks of any keyboard: { minor }, its minor units with so many decimals;
 * { readings }, the two figures that a mark before three digits may mean; null if it is no amount.
 */
function amountRead(text, decimals) {
  const signs = Array.from(text.replace(DIRECTION, "").trim(), (sign) => (DIGIT.test(sign) ? valueOf(sign) : MARKS.get(sign)));
  const figure = signs.includes(undefined) ? "" : signs.join(""), bare = (part) => part.replace(/\D/g, "");
  const [, before = "", mark, after = ""] = DECIMAL.exec(figure) ?? [];
  const isDecimal = Boolean(mark) && (before ? WHOLE.test(before) && !before.includes(mark) : after !== "") && after.length <= decimals;
  if (DOUBTFUL.test(figure) && decimals) return { readings: [bare(figure), `${before}.${after}`] };
  if (isDecimal) return { minor: BigInt(bare(before) + after.padEnd(decimals, "0")) };
  return WHOLE.test(figure) ? { minor: BigInt(bare(figure) + "0".repeat(decimals)) } : null;
}

/** "1 234.50" of minor units with so many decimals, with narrow spaces. */
function moneyText(minor, digits) {
  const text = minor.toString().padStart(digits + 1, "0");
  const whole = text.slice(0, text.length - digits).replace(/\B(?=(\d{3})+$)/g, "\u202f");
  return figureText(digits ? `${whole}.${text.slice(-digits)}` : whole);
}

/** `December 2025` of `2025-12`. */
const monthText = (month) => MONTHS.format(new Date(`${month}-01`));

/** `Dec 2025`, as a telephone shows it. */
const shortMonth = (month) => SHORT_MONTHS.format(new Date(`${month}-01`));

/** `Dec` of `2025-12`, at the axis of a picture. */
const monthMark = (month) => MONTH_MARKS.format(new Date(`${month}-01`));

/** `28 January 2026 at 08:30 UTC` of `2026-01-28T08:30:00Z`. */
function momentText(moment) {
  const at = new Date(moment);
  return t("{day} at {time}", { day: DAYS.format(at), time: TIMES.format(at) }) + " UTC";
}

if (typeof module !== "undefined") {
  module.exports = { t, tn, figureText, amountRead, moneyText, monthText, shortMonth, monthMark, momentText };
}
