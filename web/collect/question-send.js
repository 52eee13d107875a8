// Asks the desk's application for a collector's questions, and sends answers, at /notes/ of the front, as notes are sent.
import { ask, wordOf } from "./note-send.js";

/** Words for why an answer isn't taken that won't be other ones if it is sent again. */
const FOR_GOOD = new Set(["form", "long", "many", "question"]);

const isQuestion = (row) => Array.isArray(row) && row.length === 7 && Number.isInteger(row[0]) && typeof row[6] === "string";

/** The questions that wait for an answer: { number, month, slot, receipt, price, at, text } each; null if none can be had. */
export async function questionsOf({ key }) {
  const [, reply] = await ask("questions", key).catch(() => [0, null]);
  if (!Array.isArray(reply?.questions) || !reply.questions.every(isQuestion)) return null;
  return reply.questions.map(([number, month, slot, receipt, price, at, text]) =>
    ({ number, month, slot, receipt, price, at, text }));
}

function formOf({ what, text }, receipt) {
  const form = new FormData();
  form.set("what", what);
  if (receipt) form.set("receipt", String(receipt));
  if (text) form.set("text", text);
  return form;
}

/**
 * Sends an answer, with the receipt of the price that it speaks of, if it does. { number } once it is kept there; else
 * { fault, isForGood }: a word for why not, and whether sending it again changes nothing.
 */
export async function send({ key }, answer, receipt) {
  try {
    const [status, reply] = await ask(`${answer.month}/questions/${answer.number}`, key, formOf(answer, receipt));
    if (status === 200 && Number.isInteger(reply?.answer)) return { number: reply.answer };
    const fault = status === 413 ? "long" : reply?.refused || status === 401 ? "key" : reply?.fault ?? wordOf(status);
    return { fault, isForGood: FOR_GOOD.has(fault) };
  } catch {
    return { fault: "line", isForGood: false };
  }
}
