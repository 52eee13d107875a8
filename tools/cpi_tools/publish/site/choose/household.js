// My own inflation: what a household buys now, and what it cost before, by the published index of each item. All of it is
// computed here: what is typed is sent nowhere, and stands in the part of the address after #, which a browser doesn't send.
// Sums are of whole numbers (BigInt), and each figure is rounded once.
import { amountRead, figureText, moneyText, monthText, t } from "../assets/spoken.js";
import { monthsBetween } from "./choice.js";
import { byId, isolated, made, others } from "./elements.js";
import { itemOf, site } from "./files.js";
import { chosenRows, decimal, millionths, signed } from "./lines.js";
import { pictureOf, unitOfPicture } from "./picture.js";
import { keyOf, read } from "./shown.js";

const form = byId("household"), known = form.dataset; // top, titles, digits, currency, last: see my-inflation.html
const digits = Number(known.digits);
site.top = known.top;
site.isListed = known.titles === "listed";

const money = (minor) => `${moneyText(minor, digits)} ${known.currency}`.trim();
const fields = () => [...form.querySelectorAll("input[data-code]")];

/** What is spent, by codes, in minor units; `isBad` marks a field that can't be read. */
function spending() {
  const found = new Map();
  let isBad = false;
  for (const field of fields()) {
    const text = field.value.trim(), minor = text ? amountRead(text, digits)?.minor : 0n;
    field.setAttribute("aria-invalid", String(minor === undefined));
    if (minor === undefined) isBad = true;
    else if (minor > 0n) found.set(field.dataset.code, minor);
  }
  return { found, isBad };
}

/** What the same things cost in a month, as over / under minor units: each amount moves as the index of its item does. */
function costIn(month, spent) {
  let over = 0n, under = 1n;
  for (const { minor, rows } of spent) {
    const then = millionths(rows.get(month).chained), now = millionths(rows.get(known.last).chained);
    over = over * now + minor * then * under;
    under *= now;
  }
  return { over, under };
}

/** The first item that has no index in one of the months, or that was gone between them; undefined if each has all. */
const unlinked = (items, months) => items.find(({ rows }) => {
  const found = months.map((month) => rows.get(month));
  return found.includes(undefined) || new Set(found.map(({ base }) => base)).size > 1;
});

/** A change of an index from 100, given with one decimal, such as `+3.1 %`. */
function changeText(over, under) {
  const isDown = over < under, size = decimal(100n * BigInt(isDown ? under - over : over - under), under, 1);
  const change = figureText(signed(isDown && /[1-9]/.test(size) ? `-${size}` : size, true));
  return t("{change} %", { change }).replace(" %", "\u202f%"); // (no line is broken there)
}

/** A line of the picture, with 100 in the first month: `levels` are over / under by month. */
function lineOfLevels(title, levels) {
  const [first] = levels;
  const texts = levels.map(({ over, under }) => decimal(100n * over * first.under, under * first.over, 1));
  const none = levels.map(() => "");
  return { title, texts: texts.map(figureText), values: texts.map(Number), hundred: "", hundreds: none, breaks: [], begins: [] };
}

/** What the two changes mean, in a sentence. */
function meaning(own, all) {
  const difference = own.over * all.under - all.over * own.under;
  if (changeText(own.over, own.under) === changeText(all.over, all.under)) return t("Your household’s prices changed as much as the index.");
  return difference > 0n
    ? t("Compared with what all households buy, your purchases became more expensive.")
    : t("Compared with what all households buy, your purchases became cheaper.");
}

let asked = 0; // which answer is the last one's

/** Shows what the form says. */
async function show() {
  const mine = (asked += 1), { found, isBad } = spending();
  byId("fault").textContent = isBad ? t("Write the amount in digits, such as {wanted}.", { wanted: figureText("250") }) : "";
  byId("result").hidden = isBad || found.size === 0;
  if (byId("result").hidden) return;
  // (the files of all fields, so that none says what is bought)
  const [whole, ...items] = await Promise.all(["00", ...fields().map((field) => field.dataset.code)].map((code) => itemOf(code, false)));
  if (mine !== asked) return;
  const spent = items.filter(({ code }) => found.has(code))
    .map(({ code, title, latest }) => ({ title, rows: chosenRows(latest, [], "latest"), minor: found.get(code) }));
  const all = { title: whole.title, rows: chosenRows(whole.latest, [], "latest") };
  const months = monthsBetween(byId("from").value, known.last), gone = unlinked([...spent, all], months);
  if (gone) {
    byId("result").hidden = true;
    byId("fault").textContent = t("{title} has no index for one of these months.", { title: isolated(gone.title) });
    return;
  }
  tell(spent, all, months);
}

/** Tells a result: both changes, what they mean, and the picture. */
function tell(spent, all, months) {
  const sum = spent.reduce((whole, { minor }) => whole + minor, 0n), then = costIn(months[0], spent);
  const [before, after] = [months[0], known.last].map((month) => millionths(all.rows.get(month).chained));
  const own = { over: sum * then.under, under: then.over }, official = { over: after, under: before };
  const rounded = (2n * then.over + then.under) / (2n * then.under);
  byId("value").textContent = changeText(own.over, own.under);
  byId("sentence").textContent = t("What you buy for {now} a month in {month} cost {then} in {before}: a change of {own}. The official index of all items changed by {all}.", {
    now: money(sum), month: monthText(known.last), then: money(rounded), before: monthText(months[0]),
    own: changeText(own.over, own.under), all: changeText(official.over, official.under),
  });
  byId("meaning").textContent = meaning(own, official);
  const lines = [
    lineOfLevels(t("My household"), months.map((month) => costIn(month, spent))),
    lineOfLevels(all.title, months.map((month) => ({ over: millionths(all.rows.get(month).chained), under: 1n }))),
  ];
  drawLines(lines, months);
}

/** Draws the picture, as wide as there is room. */
function drawLines(lines, months) {
  const unit = t("{period} = 100", { period: monthText(months[0]) }), name = t("{name} ({unit})", { name: t("Index"), unit });
  const told = (n) => byId("readout").replaceChildren(...(n === null ? [] : read(lines, months, n)));
  byId("unit").textContent = unitOfPicture(unit, lines, false);
  byId("key").replaceChildren(...lines.map(keyOf));
  byId("readout").replaceChildren();
  const width = Math.max(280, Math.floor(byId("picture").clientWidth));
  byId("picture").replaceChildren(pictureOf({ name, months, lines, hasZero: false, width }, told));
}

// ---- the form and its address

/** A field for an item that is added, with its title. */
async function addField(code) {
  if (fields().some((field) => field.dataset.code === code)) return;
  const { title } = await itemOf(code, false), id = `spent-${code}`;
  byId("added").append(made("div", { class: "field" }, made("label", { for: id }, others(title)),
    made("input", { id, type: "text", inputmode: "decimal", "data-code": code, "aria-describedby": "fault" })));
}

/** The address of what the form says. */
function addressNow() {
  const spent = [...spending().found].map(([code, minor]) => `${code}:${decimal(minor, 10n ** BigInt(digits), digits)}`);
  return `#${new URLSearchParams({ spent: spent.join(" "), from: byId("from").value })}`;
}

/** Takes the address: an item that it names has its field. */
async function follow() {
  const words = new URLSearchParams(location.hash.slice(1)), from = words.get("from");
  if ([...byId("from").options].some(({ value }) => value === from)) byId("from").value = from;
  const named = (words.get("spent") ?? "").split(" ").map((part) => part.split(":")).filter(([code, amount]) => code && amount);
  for (const [code] of named) await addField(code);
  const amounts = Object.fromEntries(named);
  for (const field of fields()) field.value = figureText(amounts[field.dataset.code] ?? "");
  await show();
}

function changed() {
  history.replaceState(null, "", addressNow());
  show().catch(failed);
}

function failed(fault) {
  byId("result").hidden = true;
  byId("fault").textContent = t("{fault}. Reload the page in a moment", { fault: isolated(fault.message) });
}

form.hidden = false;
byId("without").hidden = true;
form.addEventListener("input", ({ target }) => { if (target !== byId("add")) changed(); });
byId("add").addEventListener("change", async ({ target }) => {
  const code = target.value;
  target.value = "";
  if (!code) return;
  await addField(code).catch(failed);
  byId(`spent-${code}`)?.focus();
});
form.addEventListener("submit", (event) => event.preventDefault());
addEventListener("hashchange", () => follow().catch(failed));
addEventListener("resize", () => { if (!byId("result").hidden) show().catch(failed); });
follow().catch(failed);
