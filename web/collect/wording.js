// The words for slots and entries.
import { isolated } from "../shared/dom.js";
import { shown } from "../shared/money.js";
import { parts, t, tc, whole } from "../shared/texts.js";
import { REFUSED } from "./refused.js";
import { entryOf, kindOf, state, storedOf } from "./state.js";

/** A refusal in a sentence or two: why, and what to do. */
export function toCollector({ refused }) {
  // t: {number} is the number of a refusal that the page has no words for
  return REFUSED[refused] ? t(REFUSED[refused]) : t("Refusal {number}. Ask the desk.", { number: whole(refused) });
}

/** An item with its unit, elements both, as what an element is made of; without its unit if it has none. */
export function article(item, unit) {
  if (!unit) return [item];
  // t: an item and its unit: Rice, long grain, 1 kg
  return parts(t("{item}, {unit}"), { item, unit });
}

/** What is shown in place of an item that isn't known. */
export const slotOf = (slot) => t("Slot {number}", { number: whole(slot) });

/** `3.21`, `Sold out`, `Comparable article, 4.90`. */
export function inMarks(mark, value) {
  if (mark === "missing") return reason(value);
  const price = shown(value);
  if (mark === "price") return price;
  return mark === "comparable" ? t("Comparable replacement, {price}", { price }) : t("Replacement, {price}", { price });
}

function reason(value) {
  const reasons = {
    // t: why there is no price; short
    stock: () => t("Sold out"), closed: () => t("Shop closed"),
    // t: why there is no price; short
    gone: () => t("No longer sold"), refused: () => t("Shop refused"),
  };
  return reasons[value]?.() ?? value;
}

/** The status of a slot: [kind, text]. */
export function statusOf(slot) {
  const entry = entryOf(slot), stored = storedOf(slot);
  if (entry) return stateOf(kindOf(entry));
  // (the form has the number of its receipt)
  if (stored) return ["good", tc("state of a row", "Stored")];
  // t: of a row without an entry; short
  return ["todo", tc("state of a row", "To do")];
}

function stateOf(kind) {
  // t: of an entry that is kept on this phone; short
  if (kind === "waiting") return ["waiting", t("To be sent")];
  // t: of an entry that its collector has to look at once more; short
  if (kind === "look") return ["bad", t("Check again")];
  // t: of an entry that the office refused; short
  return ["bad", t("Refused")];
}

/** The office's quote of a slot whose entry says something else; or no text. */
export function stillStored(slot) {
  const stored = storedOf(slot);
  // t: what the office still has of a row; short. {entered} is such as 3.21, or Sold out
  return entryOf(slot) && stored ? t("Stored: {entered}", { entered: inMarks(stored[2], stored[3]) }) : "";
}

/** Why an entry isn't stored, and what to do, in a sentence or two. */
export function whyNotStored(entry) {
  if (entry.state === "waiting") return state.refusal ? toCollector(state.refusal) : t("It is waiting to be sent.");
  if (entry.had) return whyLacked(entry);
  if (entry.state !== "moved") return toCollector(entry.reply);
  const { mark, value, receipt } = entry.reply;
  const values = { entered: inMarks(mark, value), receipt: whole(receipt) };
  // t: {entered} is such as 3.21, or Sold out
  return t("The office has {entered} (receipt {receipt}), stored after you typed this. Which one is right?", values);
}

/** The same of an entry that the office had stored, before it was restored from a copy. */
function whyLacked({ state: become, reply, had }) {
  if (become !== "moved") {
    const told = { receipt: whole(had), why: toCollector(reply) };
    // t: {receipt} is the number of a receipt; {why} is a sentence or two, such as: The window has closed. Tell the desk.
    return t("The office had stored this with receipt {receipt}, but was then restored from a copy that lacks it. {why}", told);
  }
  const values = { entered: inMarks(reply.mark, reply.value), receipt: whole(reply.receipt), had: whole(had) };
  // t: {entered} is such as 3.21, or Sold out; {receipt} and {had} are numbers of receipts
  return t("The office was restored from a copy. It now has {entered} (receipt {receipt}). Before that, it had this "
    + "entry (receipt {had}). Which one is right?", values);
}

const isFull = ({ name }) => name === "QuotaExceededError";

/** Why an entry isn't on the phone, from the browser's error, whose name it has. */
export const entryNotKept = (fault) => (isFull(fault)
  ? t("An entry couldn’t be saved: the phone is full. Free some space, and save again.")
  // t: {error} is the browser's name of an error
  : t("An entry couldn’t be saved: the browser doesn’t allow it ({error}). Allow this site to store data, or use a window that isn’t private.",
    { error: fault.name }));

/** The same of the entry in the form. */
export const thisNotKept = (fault) => (isFull(fault)
  ? t("This entry couldn’t be saved: the phone is full. Free some space, and save again.")
  // t: {error} is the browser's name of an error
  : t("This entry couldn’t be saved: the browser doesn’t allow it ({error}). Allow this site to store data, or use a window that isn’t private.",
    { error: fault.name }));

/** The same of what the page itself needs. */
export const pageKeepsNothing = (fault) => (isFull(fault)
  ? t("The page can’t store its data: the phone is full. Free some space, and save again.")
  // t: {error} is the browser's name of an error
  : t("The page can’t store its data: the browser doesn’t allow it ({error}). Allow this site to store data, or use "
    + "a window that isn’t private.", { error: isolated(fault.name) }));
