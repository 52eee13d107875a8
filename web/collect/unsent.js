// The entries that the office hasn't stored, of all months, on top of the list: why, and what can be done with each.
// What is listed is chosen with the view, so that nothing moves under a finger; the head counts them at any moment.
import { becomes, find, make } from "../shared/dom.js";
import { inWords } from "../shared/months.js";
import { parts, t } from "../shared/texts.js";
import { notes, questions } from "./optional.js";
import { entryAt, keyOfEntry, kindOf, rowOf, state, storedOf } from "./state.js";
import * as store from "./store.js";
import { article, inMarks, slotOf, whyNotStored } from "./wording.js";

let listed = []; // entries, as they were when they were listed
const stored = new Map(); // of those: what the office has stored since, as it was sent
let dropping = null; // the entry of the question

/** Are called to open the form of an entry, and when one was dropped; the page sets both. */
export const on = { open: () => {}, dropped: () => {} };

/** Lists what isn't stored now: what was refused or needs a look, and what waits if it has no row or isn't taken. */
export function choose() {
  stored.clear();
  const hasRow = ({ month, slot }) => month === state.month && rowOf(slot);
  listed = state.entries.filter((entry) => kindOf(entry) !== "waiting" || !hasRow(entry) || state.refusal);
  listed.sort((a, b) => (a.month === b.month ? a.at - b.at : a.month < b.month ? -1 : 1));
}

/** Shows the list, each entry in its place with what has become of it. */
export function render() {
  find("unsent").hidden = listed.length === 0;
  becomes(find("unsent-list"), make("ul", { id: "unsent-list" }, ...listed.map(item)));
}

/** Lists what isn't stored, brings it into sight and gives it the focus; if there are only questions or notes, those. */
function showAll() {
  choose();
  render();
  if (listed.length === 0 && (questions.showAll() || notes.showAll())) return;
  find("unsent").scrollIntoView({ block: "start" });
  find("unsent-title").focus({ preventScroll: true });
}

/** The office has answered entries: an entry that it has stored is shown with what was stored. */
export function settled(answered) {
  for (const [sent, { receipt }] of answered) if (receipt) stored.set(keyOfEntry(sent), sent);
}

function item(then) {
  const now = entryAt(then.month, then.slot), sent = now ? null : stored.get(keyOfEntry(then)) ?? storedAs(then);
  const entry = now ?? sent ?? then;
  const { outlet, text, unit } = rowIn(entry);
  const where = [make("span", {}, inWords(entry.month)), outlet && " · ", outlet && make("bdi", {}, outlet)];
  const named = article(make("bdi", { class: "item" }, text), unit && make("bdi", {}, unit));
  const entered = make("strong", {}, inMarks(entry.mark, entry.value));
  return make("li", { id: `unsent-${entry.month}-${entry.slot}`, "data-unsent": keyOfEntry(entry) },
    make("p", { class: "muted" }, ...where.filter(Boolean)),
    // t: {item} is an item with its unit, {entered} is such as 3.21, or Sold out
    make("p", {}, ...parts(t("{item}: {entered}"), { item: make("span", {}, ...named), entered })),
    make("p", { class: sent ? "why good" : "why" }, ...becomeOf(then, now, sent)),
    make("div", { class: now ? "actions" : "actions gone" },
      // t: a button that opens the form of an entry
      make("button", { type: "button", "data-do": "open" }, t("Open")),
      // t: a button that throws away an entry that isn't stored
      make("button", { type: "button", "data-do": "drop" }, t("Delete"))));
}

/** The outlet, the item and the unit of an entry; in place of an item that isn't known its slot. */
function rowIn({ row, slot }) {
  const [, , outlet, , text, unit] = row ?? [null, null, "", null, slotOf(slot), ""];
  return { outlet, text, unit };
}

/** An entry, if the office has what it says: another tab may have sent it. */
function storedAs(entry) {
  const [, , mark, value] = (entry.month === state.month && storedOf(entry.slot)) || [];
  return mark === entry.mark && value === entry.value ? entry : null;
}

/** Why an entry isn't stored; if that has changed since it was listed, a few words in the room that it had. */
function becomeOf(then, now, sent) {
  const before = whyNotStored(then);
  if (now && whyNotStored(now) === before) return [before];
  const after = now ? changed(kindOf(now)) : sent ? t("Stored.") : t("It is no longer on this phone.");
  return [make("span", { class: "before" }, before), make("span", {}, after)];
}

function changed(kind) {
  if (kind === "waiting") return t("It is waiting to be sent.");
  // t: "open it" is open the entry, by the button Open
  return kind === "refused" ? t("Refused: open it.") : t("Open and check it.");
}

// ---- Dropping one

/** Asks whether an entry is to be dropped. */
function askToDrop(entry) {
  dropping = entry;
  const { outlet, text, unit } = rowIn(entry), bdi = (it) => make("bdi", {}, it);
  const item = make("span", {}, ...article(bdi(text), unit && bdi(unit)));
  const values = { item, entered: inMarks(entry.mark, entry.value), month: inWords(entry.month), outlet: bdi(outlet) };
  find("dropping-text").replaceChildren(
    // t: {item} is an item with its unit, {entered} is such as 3.21, or Sold out, {month} is such as November 2026
    ...parts(outlet ? t("{item}: {entered}, {month}, {outlet}.") : t("{item}: {entered}, {month}."), values), " ",
    entry.state === "waiting" ? t("It will be deleted from this phone, unless the office has stored it by now.")
      : t("The office hasn’t stored it, and it will be deleted from this phone."));
  find("dropping").returnValue = "keep";
  find("dropping").showModal();
}

async function dropped() {
  const entry = dropping;
  dropping = null;
  if (find("dropping").returnValue !== "drop" || !entry || entry.who !== state.who) return;
  await store.dropEntry(entry);
  await on.dropped(entry);
  find(listed.length ? "unsent-title" : "show-todo").focus({ preventScroll: true });
}

/** Takes an entry out of the list that was dropped; not one that the office has stored meanwhile. */
export function leaveOut({ month, slot }) {
  const isLeft = (it) => it.month !== month || it.slot !== slot || stored.has(keyOfEntry(it)) || entryAt(month, slot);
  listed = listed.filter(isLeft);
}

/** Leaves nothing of a collector in the page. */
export function forget() {
  listed = [];
  stored.clear();
  dropping = null;
  find("dropping-text").textContent = "";
  find("dropping").close("keep");
}

/** The events of the list and of the question. */
export function listen() {
  find("alarm").addEventListener("click", showAll);
  find("unsent-list").addEventListener("click", ({ target }) => {
    const [month, slot] = target.closest("[data-unsent]")?.dataset.unsent.split("/") ?? [];
    const entry = month && entryAt(month, Number(slot));
    if (entry && target.dataset.do === "open") on.open(entry.slot, entry.month, true);
    if (entry && target.dataset.do === "drop") askToDrop(entry);
  });
  find("dropping").addEventListener("close", dropped);
}
