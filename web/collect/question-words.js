// The words for the desk's questions and their answers.
import { make } from "../shared/dom.js";
import { t, tn } from "../shared/texts.js";
import { inMarks } from "./wording.js";

/** An answer in a line, as what an element is made of: what it says of the price, and its text. */
export function answerInWords({ what, mark, value, text }) {
  const found = [
    // t: an answer to the desk; {entered} is such as 3.21, or Sold out
    what === "confirmed" && t("{entered} is right", { entered: inMarks(mark, value) }),
    // t: an answer to the desk; {entered} is such as 3.21, or Sold out
    what === "corrected" && t("Corrected to {entered}", { entered: inMarks(mark, value) }),
    text && make("bdi", {}, text),
  ].filter(Boolean);
  return found.flatMap((part, n) => (n ? [" · ", part] : [part]));
}

/** Why an answer isn't sent, and what to do. */
export function whyNotSent({ fault }) {
  const reasons = {
    price: () => t("The answer will be sent once the office has stored the price that the answer is about."),
    moved: () => t("The office’s price has changed since you answered. Open the question and answer again, or delete this answer."),
    line: () => t("You are offline. The answer will be sent automatically."),
    busy: () => t("The desk’s machine is busy. The answer will be sent automatically."),
    office: () => t("The desk’s machine can’t reach the office. The answer will be sent automatically."),
    none: () => t("The office isn’t accepting answers at the moment. The answer will be sent automatically as soon as the office accepts it."),
    key: () => t("The key isn’t accepted. Ask the desk."),
    long: () => t("The answer is too long. Open the answer and shorten it, or delete it."),
    many: () => t("You have reached the limit on answers to this question. Tell the desk, or delete this answer."),
    question: () => t("The desk no longer has this question. Delete the answer."),
  };
  // t: of an answer to the desk; {fault} is a word
  return reasons[fault]?.()
    ?? t("The desk’s machine can’t read the answer ({fault}). Open the answer and correct it, or delete it.", { fault });
}

/** Whether an answer needs its collector. */
export const needsLook = ({ state, fault }) => state === "refused" || fault === "moved" || fault === "key";

// t: in the head of the page; short
export const toBeSent = (count) => tn("{count} answer to be sent", "{count} answers to be sent", count);

// t: on the red button of the head; short
export const toBeAnswered = (count) => tn("{count} question", "{count} questions", count);

export const thrownAway = (count) => tn(
  "{count} answer on this phone hasn’t been sent to the desk. Signing out deletes it.",
  "{count} answers on this phone haven’t been sent to the desk. Signing out deletes them.", count);
