// The form of one entry: what was found, its price or why there is none, and the second look before it closes.
import { find } from "../shared/dom.js";
import { figures, typed } from "../shared/money.js";
import { t } from "../shared/texts.js";
import * as drafts from "./drafts.js";
import * as form from "./form.js";
import { noticeUntilRead } from "./head.js";
import { refresh, send } from "./line.js";
import { focusOn, nextToDo, touch } from "./list.js";
import { farFrom } from "./look.js";
import { notes, questions } from "./optional.js";
import { entryAt, isToDo, rowOf, state, storedOf, takeEntries, takeEntry } from "./state.js";
import { showStorage } from "./storage.js";
import * as store from "./store.js";
import * as tabs from "./tabs.js";
import * as unsent from "./unsent.js";
import { entryNotKept, slotOf, thisNotKept } from "./wording.js";

let editing = null; // { month, slot, row, entry, stored, seen, isListed, wasToDo, filled, came }
let isSaving = false;
let cameAt = -Infinity; // when the form of the next row came, by performance.now()

const UNKNOWN = (slot) => [slot, null, "", "", slotOf(slot), "", null, null, null];

/**
 * Opens the form of a slot, or fills it in anew; of another month than the one shown, from its entry. As it closes, the
 * focus goes to the row of the slot, or back to the list of what isn't stored (`isUnsent`).
 */
export function edit(slot, month = state.month, isUnsent = false) {
  const isShown = month === state.month, entry = entryAt(month, slot);
  const row = (isShown && rowOf(slot)) || entry?.row || UNKNOWN(slot);
  const stored = isShown ? storedOf(slot) : undefined;
  const isListed = isShown && !isUnsent && Boolean(rowOf(slot));
  const seen = Math.max(entry?.seen ?? 0, stored?.[4] ?? 0, entry?.state === "moved" ? entry.reply.receipt : 0);
  editing = { month, slot, row, entry, stored, seen, isListed, wasToDo: isListed && isToDo(slot) };
  form.fill(editing);
  editing.filled = form.content();
  if (!isOpen()) {
    form.showSaved(null);
    form.forgetTaps();
    find("entry").showModal();
  }
  if (drafts.draftOf(editing)) form.putDraft(drafts.draftOf(editing), editing);
  if (entry?.state === "moved") form.showQuestion(entry); // (what was written before it answers nothing)
  editing.came = form.content(); // with what was written before
  if (form.markOf() !== "missing") form.focusPrice();
}

/** The mark in the form; null, after the form shows a fault or a question, if it can't be kept so. */
function chosen() {
  const mark = form.markOf();
  if (!mark) return form.showFault(t("Choose what you found."));
  if (mark === "missing") {
    const value = form.reasonOf();
    return value ? { mark, value } : form.showFault(t("Choose a reason."));
  }
  const read = typed(find("price").value);
  if (read?.price) return { mark, value: read.price };
  if (read?.readings) return form.askReading(read.readings, read.isRounded);
  form.focusPrice();
  return form.showFault(t("Type the price in digits, such as {price}.", { price: figures(210) }));
}

/** Keeps what the form says on the phone, and sends it; the form of the next row comes in its place. */
async function save(isConfirmed) {
  const isTwice = performance.now() - cameAt < form.TWICE && form.content() === editing.came;
  const choice = isSaving || isTwice ? null : chosen();
  if (!choice) return;
  const far = isConfirmed ? null : farFrom(choice, editing.row);
  // (the focus stays with the price, so that a key that is pressed twice confirms nothing)
  if (far) form.showQuestion({ state: "refused", reply: far });
  else await keep({ ...choice, confirm: isConfirmed });
}

/** Puts an entry on the phone's disk, and goes on. If there is no room, say, the form stays and says so. */
async function keep(choice) {
  const edited = editing, { month, slot, row, seen } = edited;
  form.showFault("");
  const price = form.awaitTyping(), said = questions.written(); // (another row's form may be open before the note is kept)
  isSaving = true;
  try {
    // (note and answer first: a price is sent at once, and they wait for it)
    if (!(await notes.keep(edited, choice)) || !(await questions.keep(edited, choice, said))) {
      if (editing === edited && isOpen()) find("price").value = price;
      return;
    }
    const kept = await store.keepEntry(state, { month, slot, row, seen, ...choice, state: "waiting" });
    if (kept) goOn(kept, edited, form.typedSince());
  } catch (fault) {
    if (editing !== edited || !isOpen()) { // (its row says that it isn't saved)
      noticeUntilRead(() => entryNotKept(fault));
      return;
    }
    find("price").value = price; // (whatever was typed ahead)
    form.showFault(thisNotKept(fault));
  } finally {
    isSaving = false;
  }
}

/** Shows an entry that was kept, goes on to the next row that is to do, and sends. */
function goOn(kept, edited, text) {
  if (kept.who !== state.who) return; // (signed out meanwhile, in another tab)
  takeEntry(kept);
  drafts.keepDraft(kept, null);
  tabs.tell("entries");
  showStorage();
  const { slot, row, wasToDo } = edited;
  const next = wasToDo && isOpen() && editing === edited ? nextToDo(slot) : null;
  if (next !== null) {
    edit(next);
    form.showSaved(kept, row[1] !== rowOf(next)[1]);
    form.goOnTyping(text);
    cameAt = performance.now();
  } else if (editing === edited) {
    close();
  }
  touch([slot]);
  send(kept);
}

/** The office has answered entries: the form that is open knows the receipt of its own. */
export function settled(answered) {
  for (const [{ month, slot }, { receipt = 0 }] of answered) {
    if (editing?.month === month && editing.slot === slot) editing.seen = Math.max(editing.seen, receipt);
  }
}

/** Closes the form without saving it. */
export function leave() {
  const content = form.content();
  drafts.keepDraft(editing, content === editing.filled ? null : content);
  close();
  touch([editing.slot]);
}

function close() {
  const { slot, isListed } = editing;
  find("entry").close();
  if (isListed) focusOn(slot);
}

/** Takes an entry back: the office's own, if it has one, is what counts. */
async function drop() {
  const { entry, slot, month } = editing;
  const isDropped = await store.dropEntry(entry);
  await dropped(entry);
  if (editing === null) return; // (signed out meanwhile, in another tab)
  if (isDropped) {
    drafts.keepDraft(entry, null);
    close();
  } else {
    edit(slot, month);
    form.showFault(t("The office has answered in the meantime, so you can’t undo this entry. Check it again."));
  }
}

/** Shows that an entry was dropped. */
export async function dropped(entry) {
  const entries = await store.entries(entry.who);
  if (state.who !== entry.who) return; // (signed out meanwhile, in another tab)
  takeEntries(entries);
  unsent.leaveOut(entry);
  tabs.tell("entries");
  touch([entry.slot]);
  if (entry.state !== "refused") refresh(true); // (the office may have this one, or a later one of another device)
}

/** Sends an entry in the place of the one that another device has stored since. */
function sendMine() {
  const { mark, value, confirm } = editing.entry;
  keep({ mark, value, confirm });
}

/** Closes the form, and leaves nothing of its slot in the page. */
export function forget() {
  find("entry").close();
  editing = null;
  drafts.forget();
  form.empty();
}

export const isOpen = () => find("entry").open;

/** The events of the form. */
export function listen() {
  form.listen(() => editing);
  form.on.reading = (price) => {
    find("price").value = figures(price);
    save(false);
  };
  find("entry-form").addEventListener("submit", (event) => {
    event.preventDefault();
    save(false);
  });
  find("entry-confirm").addEventListener("click", () => save(true));
  find("entry-mine").addEventListener("click", sendMine);
  find("entry-theirs").addEventListener("click", drop);
  find("entry-drop").addEventListener("click", drop);
  find("entry-cancel").addEventListener("click", leave);
  find("entry").addEventListener("cancel", (event) => {
    event.preventDefault();
    leave();
  });
}
