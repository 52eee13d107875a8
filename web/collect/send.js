// Sends the entries of the phone. One tab at a time does (line.js), so that a later mark is never overtaken.
import { ask, NoAnswer } from "../shared/api.js";
import { hear, receiptsBefore } from "./answers.js";
import { keepList, keepMoved, settle } from "./kept-lists.js";
import { areRows, greatest, hasMovedOn } from "./quotes.js";
import * as store from "./store.js";

const ROWS = 50; // rows of one import: the office serves one after another, so nobody holds it for long

/** Seconds after which an entry that was refused for a while is tried again, at first, and at most. */
const FIRST_WAIT = 60, LONGEST_WAIT = 900;

/**
 * Refusals that may be over later: the slot isn't there (20), since an office that was restored from a copy lacks what the
 * desk has sent, the month has no window yet (21), the slot is another collector's (22), the window isn't open (23), it
 * has closed (24).
 */
const FOR_A_WHILE = new Set([20, 21, 22, 23, 24]);

/** Versions of entries that were made while the office answered; nothing is looked up for so many milliseconds. */
const fresh = new Set(), FRESH = 60_000;

/** An entry was just made, and the office answers. */
export const made = ({ version }) => fresh.add(version);

const isFresh = ({ version, at }) => fresh.has(version) && Date.now() - at < FRESH;

/** The row of an import that an entry is. */
function recordOf({ slot, month, mark, value, confirm }) {
  return `quote,${slot},${month},${mark},${value}${confirm ? ",confirm" : ""}`;
}

/** In how many milliseconds an entry is to be sent: 0 for now, Infinity if it waits for its collector. */
export function dueIn({ state, reply, tried, times = 0 }, now = Date.now()) {
  if (state === "waiting") return 0;
  if (state !== "refused" || !FOR_A_WHILE.has(reply.refused)) return Infinity;
  const wait = Math.min(LONGEST_WAIT, FIRST_WAIT * 2 ** times);
  // (a clock that was set back doesn't hold it up for longer)
  return Math.min(Math.max(0, (tried ?? 0) + wait * 1000 - now), wait * 1000);
}

/**
 * Sends what is due, and hands on the entries that were answered, [entry, reply] each, and whether the answers say something
 * else of a window than the page knew (`on.settled`); a reply is empty if the page asks the collector instead. With `isAll`
 * what was refused for a while is due. Null once all of it was answered; a refusal of all if the office took no more, and
 * the rest waits; or throws NoAnswer. An entry that the office stored before gets its receipt again. `on.back` is called if
 * the office was restored from a copy.
 */
export async function sendAll(collector, isAll, on) {
  const isDue = (entry) => dueIn(entry, isAll ? Infinity : undefined) === 0;
  const lookedUp = new Map(); // by month the greatest receipt: of an entry whose answer was lost it is no new one
  const refusal = await lookUp(collector, isDue, on, lookedUp);
  if (refusal) return refusal;
  const done = new Set(); // versions
  for (;;) {
    const due = (await store.entries(collector.who)).filter((entry) => isDue(entry) && !done.has(entry.version));
    const sent = due.slice(0, ROWS);
    if (sent.length === 0) return null;
    for (const { version } of sent) done.add(version);
    const before = await receiptsBefore(collector, sent, lookedUp);
    const rows = await imported(collector, sent);
    if (!Array.isArray(rows)) return rows;
    const end = rows.findIndex((row) => !isOwn(row));
    const answered = sent.map((entry, n) => [entry, rows[n]]).slice(0, end < 0 ? ROWS : end);
    if (!(await settle(collector, answered))) return null; // (signed out meanwhile)
    await on.settled(answered, await hear(answered, before));
    if (end >= 0) return rows[end];
  }
}

/** The replies to the rows of an import, or the refusal of all of it. Throws NoAnswer, also if it makes no sense. */
async function imported({ key, signal }, sent) {
  const body = sent.map((entry) => `${recordOf(entry)}\n`).join("");
  try {
    const reply = await ask("POST", "/import", { key, body, signal });
    if (isOfAll(reply)) return reply;
    if (!isReplyTo(sent, reply)) throw new NoAnswer("odd");
    for (const { version } of sent) fresh.delete(version);
    return reply.rows;
  } catch (fault) {
    fresh.clear(); // (what waits from now on may be overtaken)
    throw fault;
  }
}

/** Whether a reply refuses all that was sent. The office finds no fault in a whole import of this page: a front did. */
function isOfAll(reply) {
  if (reply.refused === 10) throw new NoAnswer("odd");
  return isRefusal(reply);
}

const isRefusal = (reply) => Number.isInteger(reply?.refused);
const isReceipt = (reply) => Number.isInteger(reply?.receipt) && reply.receipt > 0;
const isReplyTo = (sent, { rows }) => Array.isArray(rows) && rows.length === sent.length
  && rows.every((row) => isReceipt(row) || isRefusal(row));

/** Whether an answer is of this entry only: not the key's refusal (11), nor of the office's memory or disk (90). */
const isOwn = ({ refused }) => refused !== 11 && refused !== 90;

/**
 * Looks up what the office has of the months of entries that weren't sent at once. Of those that another device has
 * overtaken meanwhile the collector is asked; `lookedUp` gets the greatest receipt of each month. A refusal of all, or null; throws NoAnswer.
 */
async function lookUp(collector, isDue, on, lookedUp) {
  const isLate = (entry) => isDue(entry) && !isFresh(entry);
  const months = new Set((await store.entries(collector.who)).filter(isLate).map(({ month }) => month));
  for (const month of months) {
    const reply = await ask("GET", `/quotes/${month}/${month}`, collector);
    if (isOfAll(reply)) return reply;
    if (!areRows(reply.quotes)) throw new NoAnswer("odd");
    lookedUp.set(month, greatest(reply.quotes));
    if (await keepList(collector, month, { quotes: reply.quotes })) await on.back();
    const quotes = new Map(reply.quotes.map((row) => [row[0], row]));
    const late = (await store.entries(collector.who)).filter((entry) => entry.month === month && isLate(entry));
    const moved = late.map((entry) => [entry, quotes.get(entry.slot)]).filter(([entry, quote]) => hasMovedOn(entry, quote));
    if (moved.length === 0) continue;
    await keepMoved(collector, month, moved);
    await on.settled(moved.map(([entry]) => [entry, {}]));
  }
  return null;
}
