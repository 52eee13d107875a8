// What the office's answers to entries say of the window of a month. They win over the published windows: the file of
// these may be older than what the desk has set since.
import { greatest } from "./quotes.js";
import { state } from "./state.js";
import * as store from "./store.js";

/** The refusals of a month whose window isn't open yet, and of one whose window has closed. */
const NOT_YET = 23, CLOSED = 24;

/** The last moment of a Date in seconds (ECMA-262): nobody knows when such a window closes, or opens. */
const UNKNOWN = 8_640_000_000_000;

const seconds = () => Date.now() / 1000;
const windowOf = (month) => state.windows.find((it) => it.month === month);

/**
 * The published windows, each as the office's last answer says if the file said otherwise at that moment: then its
 * `word` is "open", "closed" or "early". An answer counts until the file has another window of the month.
 */
export const windows = () => state.windows.map(corrected);

function corrected(window) {
  const answer = state.answers[window.month];
  if (!answer || !isOf(answer, window) || agrees(answer, window)) return window;
  const { word, at } = answer, opens = Math.min(window.opens, at);
  if (word === "open") return { ...window, word, opens, closes: UNKNOWN };
  return word === "closed" ? { ...window, word, opens, closes: at } : { ...window, word, opens: UNKNOWN, closes: UNKNOWN };
}

const isOf = (answer, { opens, closes }) => answer.opens === opens && answer.closes === closes;

function agrees({ word, at }, { opens, closes }) {
  if (word === "open") return opens <= at && at < closes;
  return word === "closed" ? at >= closes : at < opens;
}

/**
 * By month the greatest receipt that the phone knows before entries are sent, by its lists and by what it has just looked
 * up, also by month; none of a month without a list.
 */
export async function receiptsBefore({ who }, sent, lookedUp) {
  const months = [...new Set(sent.map(({ month }) => month))];
  const lists = await Promise.all(months.map((month) => store.listOf(who, month)));
  const top = (list, month) => Math.max(greatest(list.quotes), lookedUp.get(month) ?? 0);
  return new Map(lists.flatMap((list, n) => (list ? [[months[n], top(list, months[n])]] : [])));
}

/**
 * Takes what the answers to entries, [entry, reply] each, say of the windows; whether that is news, and not what the file
 * says. A receipt that isn't new says nothing: what is stored already has it at any moment.
 */
export async function hear(answered, before) {
  const known = state.answers;
  let isNews = false;
  for (const [{ month }, reply] of answered) {
    const word = wordOf(reply, before.get(month)), window = windowOf(month);
    if (!word || !window) continue;
    const { [month]: last, ...others } = state.answers, { opens, closes } = window;
    const answer = { word, at: seconds(), opens, closes };
    isNews ||= !agrees(answer, window) && !(last?.word === word && isOf(last, window));
    if (last || !agrees(answer, window)) state.answers = agrees(answer, window) ? others : { ...others, [month]: answer };
  }
  // (a phone that keeps nothing says so at the next entry)
  if (state.answers !== known) await store.keepShared("answers", state.answers).catch(() => {});
  return isNews;
}

/** Takes the answers that this phone has kept. */
export async function takeAnswers() {
  state.answers = (await store.shared("answers"))?.content ?? {};
}

function wordOf({ receipt, refused }, last = Infinity) {
  if (receipt > last) return "open";
  return refused === CLOSED ? "closed" : refused === NOT_YET ? "early" : null;
}
