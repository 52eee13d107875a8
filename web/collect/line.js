// The connection to the office: sends what is due, asks for the lists when they are wanted, and tries again by itself.
import { NoAnswer } from "../shared/api.js";
import { notice, showHead } from "./head.js";
import { render, show, showCounts, touch } from "./list.js";
import { fetchLists, isOld } from "./lists.js";
import { expectedAt } from "./opening.js";
import { showSentAgain } from "./restored.js";
import { dueIn, made, sendAll } from "./send.js";
import { state, storedOf, takeEntries, takeKept } from "./state.js";
import * as store from "./store.js";
import * as tabs from "./tabs.js";
import { toCollector } from "./wording.js";

const LONGEST_WAIT = 60; // seconds between two tries
const LONGEST_TIMER = 900; // seconds

let isGoing = false; // a try is under way
let isAsked = false; // another one was asked for meanwhile
let isAll = false; // what was refused for a while is to be sent too
let wanted = ""; // the lists that are wanted: "", "lists", or "whole" with the items
let tries = 0, timer = 0;
let giving = new AbortController(); // gives up what is under way

/** Are called when another tab has signed out, and with entries that the office has answered; the page sets both. */
export const on = { gone: () => {}, settled: () => {} };

/**
 * Sends an entry that was just made. It is looked up before that if it takes the place of one that wasn't stored, or if
 * the list knows more than its form did.
 */
export function send(entry) {
  const isFirst = !entry.mine && entry.month === state.month && (storedOf(entry.slot)?.[4] ?? 0) <= entry.seen;
  if (state.line === "up" && isFirst) made(entry);
  return again();
}

/** Sends what waits and asks for the lists: always at the start, else if those of the month are old. */
export function refresh(isStart = false) {
  if ((isStart || isOld()) && !wanted) wanted = "lists";
  return again();
}

/** Sends all that may be stored by now, and asks for all lists: the collector wants it. */
export function refreshAll() {
  wanted = "whole";
  isAll = true;
  return again();
}

/** Tries now, however long the page meant to wait. */
export async function again() {
  tries = 0;
  isAsked = true;
  if (isGoing) return;
  isGoing = true;
  try {
    while (isAsked && state.key) {
      isAsked = false;
      await once();
    }
  } finally {
    isGoing = false;
  }
}

/** No more tries by itself, and what is under way is given up: the next collector doesn't wait for it. */
export function rest() {
  clearTimeout(timer);
  giving.abort();
  giving = new AbortController();
  isAsked = isAll = false;
  wanted = "";
}

/** One tab at a time: the lists that it gets are never older than the entries that another one has sent. */
const byItself = (work) => navigator.locks.request("cpi-collect-line", work);

async function once() {
  const { who } = state;
  clearTimeout(timer);
  showHead();
  let wait = null; // seconds to wait at least, if not all went well
  try {
    wait = await byItself(exchanged);
  } catch (fault) {
    if (!(fault instanceof NoAnswer)) {
      timer = setTimeout(later, LONGEST_WAIT * 1000); // (the phone's disk was full, say)
      throw fault;
    }
    const line = { line: "down", odd: "odd" }[fault.kind] ?? "busy";
    const expected = line === "busy" ? await expectedAt(giving.signal) : null;
    if (state.who === who) Object.assign(state, { line, expected });
    wait = fault.wait;
  }
  if (state.who !== who || !who) return;
  if (state.list) showCounts();
  else render(); // (which says why there is none)
  const due = Math.min(...state.entries.map((entry) => dueIn(entry)), Infinity) / 1000;
  if (wait === null && !wanted && due === Infinity) return;
  const isLate = wait !== null || wanted || due === 0;
  const after = isLate ? Math.max(wait ?? 0, Math.min(LONGEST_WAIT, 2 ** tries)) * (0.75 + Math.random() / 2) : due;
  tries = isLate ? tries + 1 : 0;
  timer = setTimeout(later, Math.min(after, LONGEST_TIMER) * 1000);
}

/** A try whose wait grows from one to the next. */
async function later() {
  const before = tries;
  const going = again();
  tries = before;
  await going;
}

/** Sends, and asks for the lists; seconds to wait if the office didn't take all, else null. */
async function exchanged() {
  const { key, who } = state, isWhole = isAll;
  isAll = false;
  if (state.line !== "up") state.line = "unknown"; // (until the office answers, or doesn't)
  if ((await store.storedKey()) !== key) {
    await on.gone();
    return null;
  }
  const collector = { key, who, signal: giving.signal };
  const events = { settled: (answered, isNews) => settled(collector, answered, isNews), back: () => restored(collector) };
  const refusal = await sendAll(collector, isWhole, events).catch((fault) => {
    isAll ||= isWhole && state.who === who;
    throw fault;
  });
  const wait = waitAfter(collector, refusal), entries = await store.entries(who);
  if (state.who !== who) return null;
  takeEntries(entries);
  return wait === null && wanted ? listed(collector) : wait;
}

/** Shows a refusal of all; seconds to wait then, or null. */
function waitAfter({ who }, refusal) {
  if (state.who !== who || !refusal) return null;
  state.refusal = refusal;
  notice(toCollector(refusal));
  return refusal.refused === 11 ? LONGEST_WAIT : 0;
}

/** Takes what was answered, and shows it in its place; the windows are asked for if the answers say otherwise. */
async function settled(collector, answered, isNews) {
  const { who } = collector;
  if (state.who !== who) return;
  Object.assign(state, { line: "up", refusal: null });
  notice("");
  const [list, entries] = await Promise.all([store.listOf(who, state.month), store.entries(who)]);
  if (state.who !== who) return;
  takeKept(list ?? null, entries);
  if ((list?.isDoubted || isNews) && !wanted) wanted = "lists";
  on.settled(answered);
  touch(answered.filter(([{ month }]) => month === state.month).map(([{ slot }]) => slot));
  if (answered.some(([{ had }, { receipt }]) => had && receipt)) await showSentAgain(collector);
  tabs.tell("answered");
}

/** The office was restored from a copy: shows what it lacks, which is sent again, and asks for the lists that it has. */
async function restored({ who }) {
  if (state.who !== who) return;
  if (!wanted) wanted = "lists";
  await show();
}

/** Asks for the lists; seconds to wait if they are refused, else null. */
async function listed(collector) {
  const { month } = state, asked = wanted;
  let isBack = false;
  const refusal = await fetchLists(collector, asked === "whole", () => { isBack = true; });
  if (state.who !== collector.who) return null;
  state.line = "up";
  if (state.month !== month) return null; // (that month's list is wanted still)
  if (wanted === asked && ![11, 90].includes(refusal?.refused)) wanted = "";
  if (!refusal) state.refusal = null;
  isAsked ||= isBack; // (what it lacks waits now)
  if (isBack) await restored(collector);
  else await show();
  notice(refusal ? toCollector(refusal) : "");
  return { 11: LONGEST_WAIT, 90: 0 }[refusal?.refused] ?? null;
}
