// Notes of the field, which an office may let its collectors send with a price. A note goes to the phone's disk with its
// price, and to the desk's machine once the office has stored that price. Until then it is on the phone, with why, and
// nobody but its collector drops it.
import { find, make } from "../shared/dom.js";
import * as entry from "./entry.js";
import { showHead } from "./head.js";
import * as form from "./note-form.js";
import * as left from "./note-list.js";
import { send, sentOf } from "./note-send.js";
import * as store from "./note-store.js";
import { trying } from "./note-tries.js";
import { needsLook, thrownAway, toBeSent, toLookAt } from "./note-words.js";
import { notes } from "./optional.js";
import { entryAt, state } from "./state.js";
import { listOf } from "./store.js";
import * as tabs from "./tabs.js";

const FILES = ["notes.css", "notes.js", "note-form.js", "note-limits.js", "note-list.js", "note-photo.js", "note-send.js",
  "note-store.js", "note-tries.js", "note-words.js"];

let kept = []; // the notes of the collector that aren't sent
let sent = new Map(); // by month what the desk has, as far as it was asked for

const noteAt = (month, slot) => kept.find((note) => note.month === month && note.slot === slot);

/** Reads what the phone has kept, and shows it. */
async function reload() {
  const { who } = state, found = who ? await store.notesOf(who) : [];
  if (state.who !== who) return;
  kept = found;
  render();
}

function render() {
  left.render(kept);
  showHead();
}

/**
 * Keeps what is written in the form; whether its entry may be kept too. A note that was emptied there is dropped: its
 * collector wants it.
 */
async function keep({ month, slot, row }, { mark, value }) {
  const { who } = state, before = noteAt(month, slot), said = await form.said();
  if (said === undefined || state.who !== who) return false;
  if (said) await store.keep({ who, month, slot, row, mark, value, ...said });
  else if (before) await store.drop(before);
  else return true;
  await reload();
  tabs.tell("entries");
  return true;
}

// ---- Sending

/** (the page tries again by itself only while something waits) */
const { again, rest } = trying(sendAll, reload,
  (seconds) => (kept.some(({ state: become }) => become === "waiting") ? seconds : null));

async function sendAll() {
  const { key, who } = state;
  for (const note of await store.notesOf(who)) {
    if (state.who !== who) return;
    if (note.state === "waiting" && !(await sendOne({ key, who }, note))) return;
  }
}

/** Sends a note, if its price is stored; whether the next one may be tried. */
async function sendOne(collector, note) {
  const receipt = await receiptOf(collector, note);
  if (!receipt) return true;
  const { number, fault, isForGood } = await send(collector, note, receipt);
  if (!number) {
    await store.change(note, { fault, state: isForGood ? "refused" : "waiting" });
    return isForGood || fault === "price";
  }
  await store.drop(note);
  sent.delete(note.month);
  tabs.tell("entries");
  return true;
}

/** The receipt of the price that a note is of; 0, with why, if the office has none or another one. */
async function receiptOf({ who }, note) {
  const { month, slot, mark, value } = note;
  const row = (await listOf(who, month))?.quotes.find((it) => it[0] === slot);
  if (row?.[2] === mark && row[3] === value) return row[4];
  const fault = row && !entryAt(month, slot) ? "moved" : "price";
  if (note.fault !== fault) await store.change(note, { fault });
  return 0;
}

/** What the desk has of a month of the collector; null if it can't be asked now. */
async function sentIn(month) {
  const { key, who } = state;
  if (!sent.has(month)) {
    const found = await sentOf({ key }, month);
    if (!found || state.who !== who) return null;
    sent.set(month, found);
  }
  return sent.get(month);
}

// ---- The page

async function begin() {
  await reload();
  again();
}

async function drop(note) {
  await store.drop(note);
  await reload();
  tabs.tell("entries");
}

/** Leaves nothing of a collector in the page. */
function clear() {
  rest();
  kept = [];
  sent = new Map();
  form.clear();
  left.clear();
}

/** The files of the notes are kept like the others, so that they are there without a line. */
function keepFiles() {
  const addresses = FILES.map((file) => new URL(file, import.meta.url).href);
  navigator.serviceWorker?.ready.then(({ active }) => addresses.forEach((keep) => active?.postMessage({ keep })));
}

const waiting = () => kept.filter((note) => !needsLook(note)).length;
const looked = () => kept.filter(needsLook).length;
const ifAny = (count, words) => (count ? words(count) : "");

/** Puts the notes into the page. */
export function listen() {
  document.head.append(make("link", { rel: "stylesheet", href: new URL("notes.css", import.meta.url).href }));
  form.build();
  left.build();
  form.on.sent = sentIn;
  left.on.open = ({ slot, month }) => entry.edit(slot, month, true);
  left.on.drop = drop;
  Object.assign(notes, {
    begin, keep, render, clear,
    fill: (edited, draft) => form.fill(edited, draft, noteAt(edited.month, edited.slot)),
    written: form.written,
    settled: again,
    count: () => kept.length,
    told: () => ifAny(waiting(), toBeSent),
    alarm: () => ifAny(looked(), toLookAt),
    whatIsLeft: () => ifAny(kept.length, thrownAway),
    showAll: left.showAll,
    forget: store.forget,
  });
  addEventListener("online", again);
  find("send").addEventListener("click", again);
  tabs.listen(reload);
  keepFiles();
}
