// The work list of a month by outlet, and the stored quotes. Rows don't move while a collector works: the view chooses
// the rows, and after that each row changes in its place.
import { becomes, find, make } from "../shared/dom.js";
import { shown } from "../shared/money.js";
import { clockOf, dayOf, inWords } from "../shared/months.js";
import { t, tc, tn, whole } from "../shared/texts.js";
import { showDeadline } from "./deadline.js";
import { draftOf } from "./drafts.js";
import { showHead } from "./head.js";
import { questions } from "./optional.js";
import * as search from "./search.js";
import { entryOf, isToDo, rowOf, state, storedOf, takeKept } from "./state.js";
import * as store from "./store.js";
import * as unsent from "./unsent.js";
import { inMarks, slotOf, stillStored, statusOf } from "./wording.js";

let open = new Set(); // the slots that To do shows; a row stays there until the view is chosen again
let tall = new Set(); // those with a line of what the office still has, which stays as long

/** Reads what the phone has kept, and shows it. */
export async function show() {
  const { who, month } = state;
  const [list, entries] = await Promise.all([store.listOf(who, month), store.entries(who)]);
  if (state.who !== who || state.month !== month) return; // (another call shows what is there by now)
  takeKept(list ?? null, entries);
  render();
}

/** Chooses the rows that the view shows from now on. */
export function choose() {
  open = new Set();
  tall = new Set();
  unsent.choose();
  render();
}

/** Whether To do shows a slot. */
function isOpen(slot) {
  if (statusOf(slot)[0] !== "good" || questions.isOpen(slot)) open.add(slot);
  return open.has(slot);
}

/** Shows all of it. */
export function render() {
  find("month").textContent = inWords(state.month);
  for (const view of ["todo", "all", "quotes"]) {
    find(`show-${view}`).setAttribute("aria-pressed", String(state.view === view));
  }
  becomes(find("list"), make("div", { id: "list" }, ...listed()));
  search.filter();
  showCounts();
}

/** Shows what has changed of some slots of the month. */
export function touch(slots) {
  if (state.view === "quotes") {
    render();
    return;
  }
  for (const slot of slots) {
    const row = rowOf(slot), item = find(`slot-${slot}`);
    if (!row || !item) continue;
    becomes(item.firstChild, slotButton(row));
    const section = item.closest(".outlet");
    becomes(section.querySelector(".count"), countSpan(rowsOf(row[1])));
  }
  showCounts();
}

/** Shows the counts, above the list and in the head. */
export function showCounts() {
  const { work = [], at } = state.list ?? {};
  const stored = work.filter(([slot]) => storedOf(slot)).length;
  find("progress").textContent = state.list ? progress(stored, work.length, at) : "";
  // t: how many rows are stored, of how many; short
  const share = t("{stored} of {all}", { stored: whole(stored), all: whole(work.length) });
  find("share").textContent = state.list ? share + restOf(stored, work.length) : "";
  find("done").hidden = work.length === 0;
  find("done").max = work.length || 1;
  find("done").value = stored;
  find("jump").disabled = state.view === "quotes" || !work.some(([slot]) => isToDo(slot));
  unsent.render();
  showDeadline();
  showHead();
}

/** What a count lacks in width, so that no line breaks anew, and no row moves. */
const restOf = (stored, all) => "\u2007".repeat(String(all).length - String(stored).length);

function progress(stored, all, at) {
  const counts = { stored: whole(stored), all: whole(all) };
  const isToday = new Date(at).toDateString() === new Date().toDateString();
  // t: {time} is such as 17:30, when the list came
  return (isToday ? t("{stored} of {all} stored, as of {time}", { ...counts, time: clockOf(at) })
    // t: {day} is such as 25 Nov 2026, when the list came
    : t("{stored} of {all} stored, as of {day}", { ...counts, day: dayOf(at) })) + restOf(stored, all);
}

function whyNoList() {
  if (state.line === "unknown") return t("Asking the office for this month’s list…");
  if (state.line === "down") return t("This month’s list isn’t on this phone yet, and you are offline.");
  return t("No list for this month yet.");
}

const empty = (text) => make("p", { class: "empty" }, text);

function listed() {
  if (!state.list) return [empty(whyNoList())];
  if (state.view === "quotes") return [quotesTable()];
  const sections = outletSections();
  if (sections.length) return sections;
  const isDone = state.list.work.length > 0;
  return [empty(isDone ? t("All done: everything for this month is stored.") : t("Nothing to price this month."))];
}

const rowsOf = (outlet) => state.list.work.filter((row) => row[1] === outlet);

/** The rows of each outlet by its number, as they are shown: in the order of the office's list. */
function byOutlet() {
  const outlets = new Map();
  for (const row of state.list?.work ?? []) {
    if (!outlets.has(row[1])) outlets.set(row[1], []);
    outlets.get(row[1]).push(row);
  }
  return outlets;
}

/** A section for each outlet with something to show. */
function outletSections() {
  return [...byOutlet()].map(([number, rows]) => outletSection(number, rows)).filter(Boolean);
}

function outletSection(number, rows) {
  const rowsShown = state.view === "todo" ? rows.filter(([slot]) => isOpen(slot)) : rows;
  if (rowsShown.length === 0) return null;
  return make("details", { class: "outlet", id: `at-${number}`, "data-outlet": number, open: !search.isFolded(number) },
    make("summary", {}, make("h3", {}, make("bdi", {}, rows[0][2])), countSpan(rows)),
    make("ul", {}, ...rowsShown.map((row) => make("li", { id: `slot-${row[0]}` }, slotButton(row)))));
}

function countSpan(rows) {
  const count = rows.filter(([slot]) => ["todo", "bad"].includes(statusOf(slot)[0])).length;
  // t: of the rows of an outlet; short
  return make("span", { class: "count" }, count ? tn("{count} to do", "{count} to do", count)
    // t: of the rows of an outlet; short
    : t("all entered"));
}

function slotButton([slot, , , , text, unit, last]) {
  const [kind, told] = statusOf(slot), entry = entryOf(slot), stored = storedOf(slot);
  const mark = entry ? inMarks(entry.mark, entry.value) : stored ? inMarks(stored[2], stored[3]) : "";
  return make("button", { class: "slot", type: "button", "data-slot": slot },
    make("span", { class: "what" },
      make("bdi", { class: "item" }, text),
      make("span", { class: "unit" }, make("bdi", {}, unit), " · ", lastOf(last))),
    make("span", { class: "told" },
      make("span", { class: "mark" }, mark), make("span", { class: `chip ${kind}` }, told),
      make("span", { class: questions.isOpen(slot) ? "still asks" : "still" }, lineOf(slot))));
}

function lastOf(price) {
  // t: there is no last price of this row; short
  if (price === null) return t("no last price");
  // t: the last price of this row; short
  return t("last {price}", { price: shown(price) });
}

/** Whether a draft is kept of a slot, the desk asks about it, or what the office still has of it. A row that had such a line
 * keeps it. */
function lineOf(slot) {
  // t: of a row whose form was closed before it was saved; short
  const told = draftOf({ month: state.month, slot }) ? t("Typed, not saved") : questions.lineOf(slot) || stillStored(slot);
  if (told) tall.add(slot);
  return told || (tall.has(slot) ? "\u00a0" : "");
}

function quotesTable() {
  if (state.list.quotes.length === 0) return empty(t("The office has none of your prices for this month."));
  const head = (text, n) => make("th", { scope: "col", class: n ? "number" : null }, text);
  // t: the heads of a table: the item, what is stored of it, and the number of its receipt
  const heads = [t("Item"), tc("head of a column", "Stored"), t("Receipt")].map(head);
  return make("table", { class: "quotes" },
    make("caption", {}, t("Your prices, as stored by the office")),
    make("thead", {}, make("tr", {}, ...heads)), make("tbody", {}, ...state.list.quotes.map(quoteRow)));
}

function quoteRow([slot, , mark, value, receipt]) {
  const row = rowOf(slot);
  return make("tr", { "data-quote": slot },
    make("td", {}, make("bdi", { class: "item" }, row?.[4] ?? slotOf(slot)),
      make("span", { class: "unit" }, make("bdi", {}, row?.[2] ?? ""))),
    make("td", { class: "number" }, inMarks(mark, value)), make("td", { class: "number" }, whole(receipt)));
}

// ---- From row to row

/** The next slot that is to do behind one, in the order of what is shown; after the last the first. Null if none is. */
export function nextToDo(slot) {
  const slots = [...byOutlet().values()].flat().filter(search.isFound).map((row) => row[0]), at = slots.indexOf(slot);
  return slots.slice(at + 1).concat(slots.slice(0, at + 1)).find(isToDo) ?? null;
}

let at = null; // the slot whose row had the focus last

/** The focus goes to the row of a slot, which is brought into sight if it isn't; to the views if it isn't there. */
export function focusOn(slot) {
  const button = find(`slot-${slot}`)?.firstChild;
  if (button) button.closest("details").open = true;
  const target = button && !button.parentElement.hidden ? button : find("show-all");
  bringIntoSight(target);
  target.focus({ preventScroll: true });
  at = slot;
}

/** Scrolls to an element, if it isn't in sight; again in the next frames, as rows in sight get their heights. */
function bringIntoSight(element, frames = 2) {
  if (!isInSight(element)) element.scrollIntoView({ block: "center" });
  if (frames) requestAnimationFrame(() => bringIntoSight(element, frames - 1));
}

/** Whether nothing of a row or a button lies below the head of the page, or outside the window. */
function isInSight(element) {
  const { top, bottom } = (element.closest("li") ?? element).getBoundingClientRect();
  return top >= find("head").getBoundingClientRect().bottom && bottom <= innerHeight;
}

/** The focus goes to the next row that is to do. */
export function jump() {
  const next = nextToDo(at);
  if (next !== null) focusOn(next);
  else search.sayNone();
}
