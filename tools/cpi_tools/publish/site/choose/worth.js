// Then and now: what an amount of one month comes to in the money of another, by the index of an item. The address holds the
// choice. The sum is one of whole numbers, from all digits that are published, and is rounded once.
import { amountRead, figureText, momentText, moneyText, monthText, t } from "../assets/spoken.js";
import { byId, isolated, made, others } from "./elements.js";
import { itemOf, site } from "./files.js";
import { chosenRows, decimal, signed } from "./lines.js";

const form = byId("worth"), known = form.dataset; // top, titles, digits, currency: see then-and-now.html
const digits = Number(known.digits);
site.top = known.top;
site.isListed = known.titles === "listed";

const FIELDS = ["amount", "item", "from", "to"]; // their ids are the words of an address
const USUAL = { amount: `1000${digits ? `.${"0".repeat(digits)}` : ""}`, item: "00" };

const PLACE = "\ufffc"; // of the title, which is an element: no sign that isn't seen is copied with the sentence

const levelOf = (row) => BigInt(row.chained.replace(".", ""));
const rounded = (over, under) => (2n * over + under) / (2n * under);
const money = (minor) => `${moneyText(minor, digits)} ${known.currency}`.trim();

/** What is wrong with the choice, or an empty text. */
function whyNone(title, rows, minor, then, now) {
  if (minor === undefined) return t("Write the amount in digits, such as {wanted}.", { wanted: figureText(USUAL.amount) });
  if (!then || !now) return t("{title} has no index for one of these months.", { title: isolated(title) });
  return then.base === now.base ? ""
    : t("{title} left the index between these months and came back, so its indices can't be compared.", { title: isolated(title) });
}

/** By how much an index has changed, such as `+6.3 %`. */
function changeOf(then, now) {
  const [before, after] = [levelOf(then), levelOf(now)], size = after < before ? before - after : after - before;
  const tenths = decimal(1000n * size, before * 10n, 1);
  const change = figureText(signed(after < before && /[1-9]/.test(tenths) ? `-${tenths}` : tenths, true));
  return t("{change} %", { change }).replace(" %", "\u202f%"); // (no line is broken there)
}

let asked = 0; // which answer is the last one's

/** Shows what the form asks for. */
async function show() {
  const mine = (asked += 1), [code, from, to] = ["item", "from", "to"].map((id) => byId(id).value);
  const { title, latest } = await itemOf(code, false);
  if (mine !== asked) return;
  const rows = chosenRows(latest, [], "latest"), { minor } = amountRead(byId("amount").value, digits) ?? {};
  const [then, now] = [rows.get(from), rows.get(to)], fault = whyNone(title, rows, minor, then, now);
  byId("fault").textContent = fault;
  byId("amount").setAttribute("aria-invalid", String(minor === undefined));
  byId("result").hidden = fault !== "";
  if (fault) return;
  const result = rounded(minor * levelOf(now), levelOf(then));
  const values = { amount: money(minor), then: monthText(from), result: money(result), now: monthText(to), change: changeOf(then, now) };
  byId("value").textContent = money(result);
  const sentence = t("What cost {amount} in {then} costs {result} in {now}, according to the index of {title} ({change}).",
    { ...values, title: PLACE }).split(PLACE);
  byId("sentence").replaceChildren(sentence[0], others(title), ...sentence.slice(1));
  byId("formula").textContent = `${moneyText(minor, digits)} × ${figureText(now.chained)} / ${figureText(then.chained)} = ${moneyText(result, digits)}`;
  for (const [at, row] of [["then-source", then], ["now-source", now]]) {
    byId(at).textContent = t("{month}: {index} (revision {revision}, published {moment}).",
      { month: monthText(row.month), index: figureText(row.chained), revision: figureText(row.revision), moment: momentText(row.published) });
  }
  byId("of").replaceChildren(made("a", { href: `node/${code}.html` }, others(title)));
}

/** Takes the address, and says what it asks for in vain. */
async function follow() {
  const words = new URLSearchParams(location.search), faults = [];
  for (const [id, usual] of Object.entries(USUAL)) byId(id).value = words.get(id) ?? usual;
  byId("amount").value = figureText(byId("amount").value);
  await addItem(words.get("item"));
  for (const id of ["from", "to"]) {
    const wanted = words.get(id);
    if (!wanted) continue;
    if ([...byId(id).options].some(({ value }) => value === wanted)) byId(id).value = wanted;
    else faults.push(t("The address contains {given}. The value has to be a month such as {month}.", { given: isolated(`${id}=${wanted}`), month: byId(id).value }));
  }
  byId("address-faults").textContent = faults.join(" ");
  await show();
}

/** Puts an item of the address into the list, if it isn't there: an item below the groups. */
async function addItem(code) {
  if (!code || byId("item").value === code) return;
  const { title } = await itemOf(code, false);
  byId("item").append(made("option", { value: code }, `${code} ${isolated(title)}`));
  byId("item").value = code;
}

/** The form has changed: the address follows. */
function changed() {
  const words = new URLSearchParams(FIELDS.map((id) => [id, byId(id).value]));
  const { minor } = amountRead(byId("amount").value, digits) ?? {};
  if (minor !== undefined) words.set("amount", decimal(minor, 10n ** BigInt(digits), digits));
  history.replaceState(null, "", `?${words}`);
  show().catch(failed);
}

function failed(fault) {
  byId("result").hidden = true;
  byId("fault").textContent = t("{fault}. Reload the page in a moment", { fault: isolated(fault.message) });
}

form.hidden = false;
byId("without").hidden = true;
form.addEventListener("input", changed);
form.addEventListener("submit", (event) => event.preventDefault());
addEventListener("popstate", () => follow().catch(failed));
follow().catch(failed);
