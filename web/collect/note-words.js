// The words for notes of the field.
import { make } from "../shared/dom.js";
import { t, tn } from "../shared/texts.js";

/** A note in a line, as what an element is made of: sale, brand, quantity, text, photograph. */
export function noteInWords({ isSale, brand, quantity, text, hasPhoto }) {
  const found = [
    // t: of a price: it is a reduced one of a sale; short
    isSale && t("On sale"), brand && make("bdi", {}, brand), quantity && make("bdi", {}, quantity),
    text && make("bdi", {}, text),
    // t: a part of a note; short
    hasPhoto && t("with a photograph"),
  ].filter(Boolean);
  return found.flatMap((part, n) => (n ? [" · ", part] : [part]));
}

/** Why a note isn't sent, and what to do. */
export function whyNotSent({ fault }) {
  const reasons = {
    price: () => t("The note will be sent once the office has stored the price that the note is about."),
    moved: () => t("The office’s price has changed since you wrote this note. Open and save the note, or delete it."),
    line: () => t("You are offline. The note will be sent automatically."),
    busy: () => t("The desk’s machine is busy. The note will be sent automatically."),
    office: () => t("The desk’s machine can’t reach the office. The note will be sent automatically."),
    none: () => t("The office isn’t accepting notes at the moment. The note will be sent automatically as soon as the office accepts it."),
    key: () => t("The key isn’t accepted. Ask the desk."),
    picture: () => t("The photograph can’t be read. Open the note and take another photograph."),
    long: () => t("The note and its photograph are too large. Open the note and take another photograph."),
    many: () => t("You have reached this month’s limit on notes. Tell the desk, or delete this note."),
    past: () => t("Notes for this month are no longer kept. Delete this one."),
  };
  // t: of a note; {fault} is a word
  return reasons[fault]?.() ?? t("The desk’s machine can’t read this note ({fault}). Open the note and correct it, or delete it.", { fault });
}

/** Whether a note needs its collector. */
export const needsLook = ({ state, fault }) => state === "refused" || fault === "moved" || fault === "key";

// t: in the head of the page; short
export const toBeSent = (count) => tn("{count} note to be sent", "{count} notes to be sent", count);

// t: on the red button of the head; short
export const toLookAt = (count) => tn("{count} note to check", "{count} notes to check", count);

export const thrownAway = (count) => tn("{count} note on this phone hasn’t been sent to the desk. Signing out deletes it.",
  "{count} notes on this phone haven’t been sent to the desk. Signing out deletes them.", count);
