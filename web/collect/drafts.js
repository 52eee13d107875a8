// What a collector wrote into a form and didn't save: it is there again when the form is opened, until it is saved, the
// entry is taken back in its form, or the page is closed or loaded anew.
import { keyOfEntry } from "./state.js";

const drafts = new Map(); // by month and slot: what form.content() gave

/** The draft of a month and slot, or undefined. */
export const draftOf = (entry) => drafts.get(keyOfEntry(entry));

/** Keeps a draft in the place of the one before; null takes it away. */
export function keepDraft(entry, content) {
  if (content === null) drafts.delete(keyOfEntry(entry));
  else drafts.set(keyOfEntry(entry), content);
}

export const count = () => drafts.size;

export const forget = () => drafts.clear();
