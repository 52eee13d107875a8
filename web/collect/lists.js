// Asks for the lists: the work list and the quotes of the month that is shown, the items with their tolerances, and the
// windows. A save needs none of them: its receipt is enough.
import { ask, NoAnswer } from "../shared/api.js";
import { readWindows } from "../shared/windows.js";
import { takeAnswers } from "./answers.js";
import { isPast } from "./deadline.js";
import { forgetLists, keepList, listsOf } from "./kept-lists.js";
import { areRows, greatest } from "./quotes.js";
import { state, takeItems } from "./state.js";
import * as store from "./store.js";

/**
 * Milliseconds for which a list is new enough when a collector returns to the page; the items, which are long; and the
 * quotes of another month than the one that is shown.
 */
const NEW = 15 * 60_000, NEW_ITEMS = 6 * 3_600_000, NEW_ELSEWHERE = 12 * 3_600_000;

const isNew = (at, age = NEW) => Date.now() - at <= age && at <= Date.now();

/** Whether the list of the month that is shown is missing, doubted, or older than a return to the page wants. */
export const isOld = () => !state.list || state.list.isDoubted || !isNew(state.list.at);

/** Takes what the phone has kept for everybody. */
export async function takeShared() {
  const [items, windows] = await Promise.all([store.shared("items"), store.shared("windows")]);
  takeItems(items?.content);
  state.windows = windows?.content ?? [];
  await takeAnswers();
}

/**
 * Asks for all lists, and keeps them; a refusal, or null. With `isWhole` the items are asked for, however new. `onBack` is
 * called if the office was restored from a copy.
 */
export async function fetchLists(collector, isWhole, onBack) {
  const { key, who, signal } = collector, { month } = state;
  await Promise.all([fetchItems(isWhole, signal), fetchWindows()]);
  const months = await monthsToAsk(who, month);
  const [work, quotes] = await Promise.all([`/work/${month}`, `/quotes/${months.at(0)}/${months.at(-1)}`]
    .map((path) => ask("GET", path, { key, signal })));
  if (state.who !== who) return null;
  const refused = [work, quotes].find((reply) => Number.isInteger(reply.refused));
  if (refused) return refused;
  if (!areRows(work.work) || !areRows(quotes.quotes)) throw new NoAnswer("odd");
  let isBack = false;
  for (const each of months) {
    const asked = Date.now(), parts = each === month ? { work: work.work, at: asked, asked } : { asked };
    const list = { quotes: quotes.quotes.filter((row) => row[1] === each), ...parts };
    isBack = (await keepList(collector, each, list)) || isBack;
  }
  await forgetLists(collector, (each) => each !== month && isPast(each));
  if (isBack) onBack();
  return null;
}

/**
 * The months whose quotes are asked for: the one that is shown, and of the others those that the office may lack something
 * of. Of these a list is doubted, or old: sooner if it has later receipts than the list that is shown.
 */
async function monthsToAsk(who, month) {
  const lists = isPast(month) ? [] : (await listsOf(who)).filter(([each]) => !isPast(each));
  const last = greatest(state.list?.quotes ?? []);
  const isOldOne = ({ quotes, at, asked = at }) => !isNew(asked, greatest(quotes) > last ? NEW : NEW_ELSEWHERE);
  const others = lists.filter(([each, list]) => each !== month && (list.isDoubted || isOldOne(list)));
  return [month, ...others.map(([each]) => each)].sort();
}

async function fetchItems(isWhole, signal) {
  const kept = await store.shared("items");
  const hasAll = (state.list?.work ?? []).every((row) => state.tolerance.has(row[3]));
  if (!isWhole && hasAll && kept?.at && Date.now() - kept.at < NEW_ITEMS) return;
  const { items } = await ask("GET", "/items", { signal });
  if (!Array.isArray(items) || !items.every(Array.isArray)) throw new NoAnswer("odd");
  await store.keepShared("items", items);
  takeItems(items);
}

/** The windows are the desk's to publish: without their file the page has no deadline. */
async function fetchWindows() {
  const windows = await readWindows();
  if (!windows) return;
  await store.keepShared("windows", windows);
  state.windows = windows;
}
