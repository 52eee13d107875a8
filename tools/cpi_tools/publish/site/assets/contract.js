// The index clause of a contract: new amount = amount * level now / level then, rounded once, halves upwards.
// All of it in whole numbers (BigInt): amounts in minor units of money, levels in millionths or in tenths of a point, each
// rounded once from the exact level.
// The address of a result says which revisions it was computed from, so it gives the same one after a later revision.
// A page that is opened from a disk can't load modules, so this is a plain script; a test loads it by `require`.
"use strict";

if (typeof module !== "undefined") Object.assign(globalThis, require("./spoken.js"));

/** Minor units of "1 234.50" with so many decimals; null if it is no amount, or can be read in two ways. */
const amountOf = (text, digits) => amountRead(text, digits)?.minor ?? null;

/** "1234.50" of minor units, as an address has it in each language. */
function plainAmount(minor, digits) {
  const text = minor.toString().padStart(digits + 1, "0");
  return digits ? `${text.slice(0, -digits)}.${text.slice(-digits)}` : text;
}

/** a / b to the nearest whole number, halves upwards; b is above 0. */
const rounded = (a, b) => (2n * a + b) / (2n * b);

/** The level of an item in a month as it is used: with six decimals in millionths, or with one in tenths. */
const levelUsed = (item, month, decimals) => BigInt((decimals === 1 ? item.tenths : item.levels)[month]);

/** "102.3" or "102.345678" of a level as it is used. */
function levelText(level, decimals) {
  const text = level.toString().padStart(decimals + 1, "0");
  return figureText(`${text.slice(0, -decimals)}.${text.slice(-decimals)}`);
}

/** What a contract pays, in minor units: amount * now / then. */
const clause = (amount, then, now) => rounded(amount * now, then);

/** What is wrong with what stands in the form, or an empty text. `levels` are those of all months from the one to the other. */
function faultOf(amount, item, levels, digits, text = "") {
  const title = item.title;
  if (amount === null) return badAmount(digits, text);
  if (levels[0] === null || levels[levels.length - 1] === null) return t("{title} has no index for one of these months.", { title });
  return levels.includes(null) ? t("{title} left the index between these months and came back, so its indices "
    + "can't be compared.", { title }) : "";
}

/** How an amount is written. */
function badAmount(digits, text) {
  const readings = amountRead(text, digits)?.readings, wanted = figureText(`1234${digits ? `.${"5".padEnd(digits, "0")}` : ""}`);
  if (readings) {
    const [whole, decimal] = readings.map(figureText);
    return t("{text} can be read as {whole} or as {decimal}. Write the amount like this: {wanted}.", { text, whole, decimal, wanted });
  }
  return digits ? t("Write the amount as a number with at most {decimals} decimal places, such as {wanted}.", { decimals: figureText(String(digits)), wanted })
    : t("Write the amount as a whole number, such as {wanted}.", { wanted });
}

// ---- revisions and addresses

/** The revision of a month, by its number or the latest: its levels by item, its moment and its sum; undefined if there is none. */
function revisionOf(data, month, number = data.revisions[month]) {
  if (number !== data.revisions[month]) return data.earlier.find((it) => it.month === month && it.revision === number);
  return { month, revision: number, published: data.published[month], sum: data.sums[month], items: data.items, isLatest: true };
}

/** The level of an item by a revision as it is used, null if the item isn't in it. */
function levelBy(revision, code, decimals) {
  const item = revision.items[code];
  if (!revision.isLatest) return item ? BigInt(item[decimals === 1 ? 1 : 0]) : null;
  return item.levels[revision.month] === null ? null : levelUsed(item, revision.month, decimals);
}

/** The period in which an item is 100 for its level of a month: in words, such as "December 2025", and as an address has it
 * in every language, `2025-12`. */
const hundredOf = (item, month) => (item.hundreds.filter(([first]) => first <= month).pop() ?? item.hundreds[0]).slice(1);

const NAMES = ["amount", "code", "then", "now", "decimals", "later", "fall", "then-revision", "now-revision", "hundred"];

/** What a contract says unless it says otherwise: it isn't written into an address. */
const USUAL = { later: "first", fall: "follows" };

/** The months of the tables in words, such as "January 2025 to December 2026". */
const span = (data) => t("{first} to {last}", { first: data.names[0], last: data.names[data.names.length - 1] });

/** Whether a value of a name of an address is one, and what is said if it isn't. */
function wanted(data) {
  const isMonth = (text) => data.months.includes(text);
  const month = (given) => t("The address contains {given}. The value has to be a month such as {month}, from {span}.", { given, month: data.months[0], span: span(data) });
  return {
    code: [(text) => Object.hasOwn(data.items, text), (given) => t("The address contains {given}. The value has to be an item that the form offers.", { given })],
    then: [isMonth, month],
    now: [isMonth, month],
    decimals: [(text) => ["1", "6"].includes(text), (given) => t("The address contains {given}. The value has to be 1 or 6.", { given })],
    later: [(text) => ["first", "day"].includes(text), (given) => t("The address contains {given}. The value has to be {one} or {other}.", { given, one: "first", other: "day" })],
    fall: [(text) => ["follows", "stays"].includes(text), (given) => t("The address contains {given}. The value has to be {one} or {other}.", { given, one: "follows", other: "stays" })],
  };
}

/** What the part of an address after # asks for: the values of the form, the revisions, the period; and a line for each thing
 * that it asks for in vain, with what it can be. */
function readAddress(text, data) {
  const asked = { values: {}, revisions: {}, hundred: null, faults: [] };
  const rules = wanted(data);
  for (const [name, value] of new URLSearchParams(text)) {
    const isKnown = NAMES.includes(name);
    const [isRight, says] = (isKnown && rules[name]) || [() => true];
    if (!isKnown) asked.faults.push(t("The address contains “{name}”, which this page doesn't know. It knows "
      + "{names}.", { name, names: NAMES.join(", ") }));
    else if (!isRight(value)) asked.faults.push(says(`${name}=${value}`));
    else if (name === "hundred") asked.hundred = value;
    else if (name.endsWith("-revision")) asked.revisions[name.split("-")[0]] = value;
    else asked.values[name] = value;
  }
  for (const [at, number] of Object.entries(asked.revisions)) {
    const month = data.months.indexOf(asked.values[at]);
    if (month >= 0 && /^[1-9]$/.test(number) && revisionOf(data, month, Number(number))) asked.revisions[at] = Number(number);
    else {
      const [given, last] = [`${at}-revision=${number}`, figureText(String(data.revisions[month]))];
      asked.faults.push(month < 0 ? t("The address contains {given}, so it needs the month too.", { given })
        : t("The address contains {given}. {month} has revisions {first} to {last}.", { given, month: data.names[month], first: figureText("1"), last }));
      delete asked.revisions[at];
    }
  }
  return asked;
}

/** The part of an address after # that gives the same result again. */
function addressOf(chosen, digits) {
  const { minor, code, then, now, decimals, period } = chosen;
  const own = Object.entries(USUAL).map(([name, usual]) => [name, chosen[name] ?? usual]).filter(([name, value]) => value !== USUAL[name]);
  const named = { amount: plainAmount(minor, digits), code, then: then.name, now: now.name, decimals, ...Object.fromEntries(own) };
  return `#${new URLSearchParams({ ...named, "then-revision": then.revision, "now-revision": now.revision, hundred: period })}`;
}

// ---- a result

/** What was chosen, with both levels and the new amount in minor units; `fault` says why there is none. */
function computed(values, revisions, data) {
  const { amount, code } = values;
  const [decimals, item, minor] = [Number(values.decimals), data.items[code], amountOf(amount, data.digits)];
  const [then, now] = ["then", "now"].map((name) => {
    const month = data.months.indexOf(values[name]);
    const revision = revisionOf(data, month, item.isSet ? undefined : revisions[name]);
    return { ...revision, name: values[name], says: data.names[month], level: levelBy(revision, code, decimals) };
  });
  const between = item.levels.slice(Math.min(then.month, now.month), Math.max(then.month, now.month) + 1);
  const isGone = then.level === null || now.level === null;
  const fault = faultOf(minor, item, isGone ? [null] : between, data.digits, amount);
  const [hundred, period] = hundredOf(item, now.month), later = values.later ?? USUAL.later, fall = values.fall ?? USUAL.fall;
  const found = { amount, code, decimals, later, fall, item, minor, then, now, hundred, period, fault };
  return fault ? found : { ...found, result: clause(minor, then.level, now.level) };
}

/** An amount with its currency. */
const money = (minor, data) => `${moneyText(minor, data.digits)} ${data.currency}`.trim();

/** A revision as a figure. */
const numberText = (at) => figureText(String(at.revision));

/** What a text says of a month's index: the month, its level, its revision and when that was published. */
const indexValues = (at, decimals) => ({ month: at.says, index: levelText(at.level, decimals), revision: numberText(at), moment: at.published });

/** A month's index in words: "March 2026: 103.2 (revision 2, published 20 April 2026)". */
const indexText = (at, decimals) => t("{month}: {index} (revision {revision}, published {moment}).", indexValues(at, decimals));

/** The clause for a contract that begins with the index of the earlier month: which month and which revision is due at an
 * adjustment, and what follows if the index falls or ends. */
function clauseText(chosen, data) {
  const { then, decimals, item, code, hundred, later, fall } = chosen;
  const of = { title: data.title, item: item.title, code, office: data.office };
  return [
    decimals === 1 ? t("The amount follows the {title}, {item} ({code}), of {office}, as printed, with one decimal place.", of)
      : t("The amount follows the {title}, {item} ({code}), of {office}, with all six decimal places.", of),
    t("The base index is the index of {month}: {index} (revision {revision}, published {moment}), with {period} = 100.", { ...indexValues(then, decimals), period: hundred }),
    t("At each adjustment date, the index that applies is the index of the latest month that the office has published by then."),
    later === "first" ? t("It applies as first published: a later revision of that month changes nothing.")
      : t("Its latest revision at the adjustment date applies: a revision after that date changes nothing."),
    t("The new amount is the original amount multiplied by the index that applies and divided by the base index."),
    data.digits ? t("It is rounded once, to the nearest {unit}, with halves rounded up.", { unit: figureText(`0.${"1".padStart(data.digits, "0")}`) })
      : t("It is rounded once, to the nearest whole unit, with halves rounded up."),
    fall === "follows" ? t("If the index that applies is lower than the one before, the amount falls with it.")
      : t("If the new amount would be lower than the amount paid until then, the amount stays unchanged."),
    t("If the index is later given a new reference period, both indices are used with that period."),
    code === "00" ? t("If the office no longer publishes this index, the index that it names as the successor replaces it, linked in the last month for which both exist.")
      : t("If the office no longer publishes this index, the index that it names as the successor replaces it, linked in the last month for which both exist. If it names none, the index of all items replaces it."),
  ].join(" ");
}

/** The result for a letter, with the address that gives it again. */
function resultText(chosen, data, address) {
  const { minor, then, now, decimals, item, code, hundred, result } = chosen;
  const of = { title: data.title, item: item.title, code, office: data.office, period: hundred };
  return [
    decimals === 1 ? t("{title}, {item} ({code}), of {office}, as printed, with one decimal place, {period} = 100.", of)
      : t("{title}, {item} ({code}), of {office}, with all six decimal places, {period} = 100.", of),
    indexText(then, decimals), indexText(now, decimals),
    `${money(minor, data)} \u00d7 ${levelText(now.level, decimals)} / ${levelText(then.level, decimals)} = ${money(result, data)}.`,
    address,
  ].join(" ");
}

/** Lines for what differs from the latest figures, or from what an address asked for: a later revision, or another period. */
function noticesOf(chosen, { revisions, hundred }, data) {
  const { then, now, decimals, code, item } = chosen;
  const said = [];
  for (const [name, at] of item.isSet ? [["then", then], ["now", now]] : []) {
    if ((revisions[name] ?? at.revision) !== at.revision) {
      const values = { asked: figureText(String(revisions[name])), month: at.says, revision: numberText(at) };
      said.push(t("The address asks for revision {asked} of {month}. A special aggregate is computed from the "
        + "latest revisions, so this amount uses revision {revision}.", values));
    }
  }
  for (const at of [then, now]) {
    if (!at.isLatest) {
      const latest = revisionOf(data, at.month);
      const values = { month: at.says, earlier: numberText(at), index: levelText(levelBy(latest, code, decimals), decimals), revision: numberText(latest), moment: latest.published };
      said.push(t("{month} was revised after revision {earlier}: its index is {index} in revision {revision}, "
        + "published {moment}.", values));
    }
  }
  if (!then.isLatest || !now.isLatest) {
    const latest = computed({ ...chosen, then: then.name, now: now.name }, {}, data);
    if (!latest.fault) said.push(t("With the latest revisions, the new amount is {amount}.", { amount: money(latest.result, data) }));
  }
  if (![null, chosen.hundred, chosen.period].includes(hundred)) {
    said.push(t("This address was made for an index with {then} = 100. The office now publishes it with {now} = 100, so the amount may differ because indices are rounded.", { then: /^\d{4}-\d\d$/.test(hundred) ? monthText(hundred) : hundred, now: chosen.hundred }));
  }
  return said;
}

// ---- the page

/** Writes a text into an element of the page. */
const write = (id, text) => { document.getElementById(id).textContent = text; };

/** Writes some lines, each a paragraph of its own, and hides the place if there are none. */
function writeLines(id, lines) {
  const place = document.getElementById(id);
  place.hidden = !lines.length;
  place.replaceChildren(...lines.map((line) => Object.assign(document.createElement("p"), { textContent: line })));
}

/** The address of this page that stays: the one that the site names, or else the one at which it was opened. */
function ownAddress() {
  const named = document.querySelector("link[rel=canonical]")?.getAttribute("href");
  return named ?? location.href.split("#")[0];
}

function show(form, state, data) {
  const values = Object.fromEntries(["amount", "code", "then", "now", "decimals", "later", "fall"].map((name) => [name, form.elements[name].value]));
  const chosen = computed(values, state.revisions, data);
  write("fault", chosen.fault);
  form.elements.amount.setAttribute("aria-invalid", String(chosen.minor === null));
  for (const id of ["result", "texts"]) document.getElementById(id).hidden = chosen.fault !== "";
  writeLines("notices", chosen.fault ? [] : noticesOf(chosen, state, data));
  document.getElementById("latest").hidden = chosen.fault !== "" || (chosen.then.isLatest && chosen.now.isLatest && [null, chosen.hundred, chosen.period].includes(state.hundred));
  if (chosen.fault) return null;
  const { then, now, decimals, minor, item, result } = chosen;
  const address = ownAddress() + addressOf(chosen, data.digits);
  write("value", money(result, data));
  write("words", t("{title}: {then_index} in {then}, {now_index} in {now}.", { title: item.title, then: then.says, then_index: levelText(then.level, decimals), now: now.says, now_index: levelText(now.level, decimals) }));
  write("formula", `${moneyText(minor, data.digits)} \u00d7 ${levelText(now.level, decimals)} / ${levelText(then.level, decimals)} = ${moneyText(result, data.digits)}`);
  for (const [id, at] of [["then-source", then], ["now-source", now]]) {
    write(id, t("{month}: revision {revision}, published {moment}, table with SHA-256 {sum}.", { month: at.says, revision: numberText(at), moment: at.published, sum: at.sum }));
  }
  write("clause-text", clauseText(chosen, data));
  write("result-text", resultText(chosen, data, address));
  const link = document.getElementById("address");
  link.href = link.textContent = address;
  return addressOf(chosen, data.digits);
}

/** Puts what an address asks for into the form, and says what it asks for in vain. */
function fill(form, data) {
  const asked = readAddress(location.hash.slice(1), data);
  for (const [name, value] of Object.entries(asked.values)) form.elements[name].value = name === "amount" ? figureText(value) : value;
  writeLines("address-faults", asked.faults);
  return { revisions: asked.revisions, hundred: asked.hundred };
}

/** A text without the signs that keep names apart on this page, and with plain spaces: in a contract nobody would see them. */
const plain = (text) => text.replace(/[\u2066-\u2069\u200e\u200f]/g, "").replace(/[\u00a0\u2009\u202f]/g, " ");

/** What is copied by hand has none of them either. */
function copyPlain(event) {
  const text = String(getSelection());
  if (plain(text) === text) return;
  event.clipboardData.setData("text/plain", plain(text));
  event.preventDefault();
}

/** Copies a text; if the browser doesn't let a page do so, the text is selected. */
async function copy(button) {
  const from = document.getElementById(button.dataset.copies);
  const said = button.parentElement.querySelector("[role=status]");
  try {
    await navigator.clipboard.writeText(plain(from.textContent));
    said.textContent = t("Copied.");
  } catch {
    getSelection().selectAllChildren(from);
    said.textContent = t("The text is selected: copy it with the keyboard.");
  }
}

function begin(data) {
  const form = document.getElementById("clause");
  let state = { revisions: {}, hundred: null };
  const showAll = (isKept) => {
    const address = show(form, state, data);
    if (isKept) history.replaceState(null, "", address ?? `#${new URLSearchParams(new FormData(form))}`);
  };
  const latest = () => { state = { revisions: {}, hundred: null }; writeLines("address-faults", []); showAll(true); };
  const read = () => { state = fill(form, data); showAll(false); };
  form.hidden = false;
  form.addEventListener("input", latest);
  form.addEventListener("submit", (event) => event.preventDefault());
  document.getElementById("latest").addEventListener("click", latest);
  for (const button of document.querySelectorAll("[data-copies]")) button.addEventListener("click", () => copy(button));
  document.addEventListener("copy", copyPlain);
  window.addEventListener("hashchange", read);
  read();
}

if (typeof module !== "undefined") {
  module.exports = { amountOf, badAmount, plain, moneyText: globalThis.moneyText, levelUsed, levelText, clause, faultOf, readAddress, addressOf, computed, noticesOf, clauseText, resultText };
} else {
  begin(window.LEVELS);
}
