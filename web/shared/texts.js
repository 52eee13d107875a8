// The texts of a page in the language of its reader. English is the source: a text is a whole sentence, by which
// catalogues know it (gettext), with places for what changes, `{month}`. po/ has the catalogues, and tools/pages writes
// those that pages load. Each text is a string in a call of t, tc or tn, where Babel's extractor finds it.

const SOURCE = { code: "en", dir: "ltr", plural: { one: 0, other: 1 }, texts: {} };

/** Between a context and its text in the names of a catalogue, as in gettext's files. */
const CONTEXT_ENDS = "\u0004";

let catalogue = SOURCE; // { code, dir, plural, texts }: by name a text, or its plural forms
let tag = document.documentElement.lang; // of the language, and of the digits (BCP 47, Unicode Technical Standard 35)
let digits = null; // the ten of the office, or null for 0 to 9
let made = new Map(); // forms of Intl, by their kinds and options

/** Speaks by a catalogue from now on, null being the source; `locale` is its tag with a region, `digits` a system. */
export function take(taken, locale, system = "latn") {
  catalogue = taken ?? SOURCE;
  tag = `${locale}-u-ca-gregory-nu-${system}`;
  const ten = Array.from("0123456789", (digit) => new Intl.NumberFormat(`en-u-nu-${system}`).format(Number(digit)));
  digits = ten[0] === "0" ? null : ten;
  made = new Map();
}

/** A form of Intl in the language, such as Intl.ListFormat: made once, as a slow phone needs some milliseconds for it. */
export function form(Kind, options = {}) {
  const name = `${Kind.name} ${JSON.stringify(options)}`;
  if (!made.has(name)) made.set(name, new Kind(tag, options));
  return made.get(name);
}

/** The code of the language, such as "fr". */
export const spoken = () => catalogue.code;

/** A text; `values` are put into its places, and a place without one stays. */
export const t = (text, values) => filled(catalogue.texts[text] ?? text, values);

/** A text that needs another translation in a certain context: what the context is. */
export const tc = (context, text, values) =>
  filled(catalogue.texts[`${context}${CONTEXT_ENDS}${text}`] ?? text, values);

/** A text in the form that its language has for a count, which is `{count}`. */
export function tn(one, many, count, values) {
  const { plural, texts } = catalogue, which = plural[form(Intl.PluralRules).select(count)] ?? plural.other;
  return filled((texts[one] ?? [one, many])[which], { count: whole(count), ...values });
}

const PLACE = /\{([a-z_]+)\}/g;

const filled = (text, values) =>
  (values ? text.replace(PLACE, (place, name) => String(values[name] ?? place)) : text);

/** A text as what an element is made of: strings, and in its places elements or strings. */
export function parts(text, values) {
  return text.split(PLACE).map((part, n) => (n % 2 ? values[part] ?? `{${part}}` : part)).filter((part) => part !== "");
}

/** A figure in the digits of the office. */
export const inDigits = (figure) => (digits ? figure.replace(/[0-9]/g, (digit) => digits[Number(digit)]) : figure);

/** A whole number, such as a count or a receipt, in the digits of the office. */
export const whole = (number) => inDigits(String(number));

/** A whole number that may be large, such as a count of letters: its digits in groups. */
export const grouped = (number) => form(Intl.NumberFormat).format(number);
