// The desk's question in the form of an entry: its text above the price, and below the price what to answer: that the price
// is right, another price, which is saved like any other, or a text. What is written stays until it is sent or dropped.
import { find, make } from "../shared/dom.js";
import { grouped, parts, t } from "../shared/texts.js";
import { windows } from "./answers.js";
import { focusPrice } from "./form.js";
import { MOST_LETTERS } from "./note-limits.js";
import { keyOfEntry } from "./state.js";
import { inMarks } from "./wording.js";

/** Is called with an answer, { what, mark, value, receipt, text }, to the question of the form; the page sets it. */
export const on = { answer: async (question, said) => {} };

let shown = null; // what the form is filled in for: { month, slot, question, stored }
const typed = new Map(); // by month and slot, what was written and not sent: { question, text }

/** Puts the question and the answer into the form. */
export function build() {
  const button = (id, work) => make("button", { id, type: "button", onclick: work });
  find("entry-last").after(make("p", { id: "question", hidden: true }));
  find("entry-hint").closest("form").querySelector("fieldset").before(make("div", { id: "answer", hidden: true },
    make("label", { for: "answer-text", id: "answer-label" }),
    make("textarea", {
      id: "answer-text", maxlength: MOST_LETTERS, dir: "auto", rows: 2, "aria-describedby": "answer-about answer-fault",
    }),
    make("p", { id: "answer-fault", class: "fault", role: "alert" }),
    make("div", { class: "actions" }, button("answer-right", confirm), button("answer-other", focusPrice),
      button("answer-send", sendText)),
    make("p", { id: "answer-about", class: "muted" })));
  find("answer-text").addEventListener("input", keepTyped);
}

/** Fills it in for an entry; `answer` is the one that isn't sent yet, if there is one. */
export function fill({ month, slot, entry, stored }, question, answer) {
  const before = typed.get(keyOfEntry({ month, slot })), asked = question ?? answer?.question ?? before?.question ?? null;
  shown = asked && { month, slot, question: asked, stored: entry ? undefined : stored };
  find("question").hidden = find("answer").hidden = !asked;
  find("answer-fault").textContent = "";
  find("answer-text").value = asked ? before?.text ?? answer?.text ?? "" : "";
  if (asked) speak(Boolean(question));
}

/** The texts of it, in the language that the page speaks now. */
function speak(isOpen) {
  const { month, question, stored } = shown;
  const asked = { question: make("bdi", {}, question.text) };
  // t: above the form of a price; {question} is what the desk has written
  find("question").replaceChildren(...(isOpen ? parts(t("The desk asks: {question}"), asked)
    // t: above the form of a price; {question} is what the desk has written
    : parts(t("The desk no longer asks this: {question}"), asked)));
  // t: the field of a text
  find("answer-label").textContent = t("Your answer to the desk");
  find("answer-right").hidden = !stored;
  // t: a button that tells the desk so; {entered} is such as 3.21, or Sold out
  if (stored) find("answer-right").textContent = t("{entered} is right", { entered: inMarks(stored[2], stored[3]) });
  // t: a button that leads to the field of the price
  find("answer-other").textContent = t("Correct the price");
  // t: a button
  find("answer-send").textContent = t("Send the text");
  const about = isClosed(month)
    ? t("The window for this month has closed, so the office won’t accept another price. Write the correct price in "
      + "the text: the desk can reopen the window.")
    : t("To correct the price, type the right one above and save it. The desk will see the change.");
  // t: {count} is a number of letters
  const most = t("At most {count} characters. Only you and the desk can read your answer.",
    { count: grouped(MOST_LETTERS) });
  find("answer-about").textContent = `${about} ${most}`;
}

const isClosed = (month) => windows().some((it) => it.month === month && it.closes * 1000 <= Date.now());

const text = () => find("answer-text").value.trim();

function keepTyped() {
  if (!shown) return;
  if (text()) typed.set(keyOfEntry(shown), { question: shown.question, text: text() });
  else typed.delete(keyOfEntry(shown));
}

async function confirm() {
  const [, , mark, value, receipt] = shown.stored;
  await answer({ what: "confirmed", mark, value, receipt, text: text() });
}

async function sendText() {
  find("answer-fault").textContent = text() ? "" : t("Write your answer first.");
  if (text()) await answer({ what: "text", mark: "", value: 0, receipt: 0, text: text() });
  else find("answer-text").focus();
}

async function answer(said) {
  const { question } = shown;
  try {
    await on.answer(question, said);
  } catch (fault) {
    // t: {error} is the browser's name of an error
    find("answer-fault").textContent = t("The answer couldn’t be saved: the browser doesn’t allow it ({error}).", { error: fault.name });
  }
}

/** The question of the form, with what is written below it; null if it has none. */
export const written = () => shown && { question: shown.question, text: text() };

/** What was written to a question is kept elsewhere by now. */
export const forgetTyped = (entry) => typed.delete(keyOfEntry(entry));

/** Whether an answer was written in the form of a month and slot, and not sent. */
export const isTyped = (entry) => typed.has(keyOfEntry(entry));

export const countTyped = () => typed.size;

/** Leaves nothing of a collector in the form. */
export function clear() {
  typed.clear();
  fill({ month: "", slot: 0, entry: undefined, stored: undefined }, null, null);
  find("question").replaceChildren();
}
