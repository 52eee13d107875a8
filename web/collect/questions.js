// Questions of the desk about single prices. The phone keeps those that wait for an answer, shows each at its row and in its
// form, and keeps the answer until the desk's machine has it. A price that is corrected is an entry as any other: its answer
// waits until the office has stored it.
import { find, make } from "../shared/dom.js";
import { t } from "../shared/texts.js";
import * as entry from "./entry.js";
import { showHead } from "./head.js";
import * as line from "./line.js";
import { touch } from "./list.js";
import { LONGEST_WAIT, trying } from "./note-tries.js";
import { questions } from "./optional.js";
import * as form from "./question-form.js";
import * as left from "./question-list.js";
import { questionsOf, send } from "./question-send.js";
import * as store from "./question-store.js";
import { needsLook, thrownAway, toBeAnswered, toBeSent } from "./question-words.js";
import * as shownMonth from "./shown-month.js";
import { entryAt, rowOf, state } from "./state.js";
import { listOf } from "./store.js";
import * as tabs from "./tabs.js";

/** Milliseconds after which the desk's machine is asked again. */
const NEW = 15 * 60_000;

const FILES = ["questions.css", "questions.js", "question-form.js", "question-list.js", "question-send.js",
  "question-store.js", "question-words.js"];

let asked = []; // the questions that wait for an answer, as they came last
let kept = []; // the answers of the collector that aren't sent
let rows = new Map(); // by month the rows of its work list, as far as the phone has them
let askedAt = 0; // when they came, or were asked for in vain

const questionAt = (month, slot) => asked.find((it) => it.month === month && it.slot === slot);
const answerAt = (month, slot) => kept.find((it) => it.month === month && it.slot === slot);
const hasAnswer = ({ number }) => kept.some((it) => it.number === number);
const isOpen = (slot) => asked.some((it) => it.month === state.month && it.slot === slot && !hasAnswer(it));

/** Reads what the phone has kept, and shows it. */
async function reload() {
  const { who } = state;
  const [found, answers] = who ? await Promise.all([store.askedOf(who), store.answersOf(who)]) : [undefined, []];
  const months = [...new Set([...(found?.rows ?? []), ...answers].map(({ month }) => month))];
  const lists = await Promise.all(months.map((month) => listOf(who, month)));
  if (state.who !== who) return;
  const before = asked;
  [asked, kept] = [found?.rows ?? [], answers];
  askedAt = Math.max(askedAt, found?.at ?? 0);
  rows = new Map(months.map((month, n) => [month, lists[n]?.work ?? []]));
  render();
  touch([...new Set([...before, ...asked].map(({ slot }) => slot))]);
}

function render() {
  const answered = kept.map((answer) => ({ question: answer.question, answer }));
  const open = asked.filter((it) => !hasAnswer(it)).map((question) => ({ question, answer: undefined }));
  const rowAt = ({ month, slot }) => rows.get(month)?.find((row) => row[0] === slot)
    ?? (month === state.month ? rowOf(slot) : undefined);
  left.render([...open, ...answered].map((it) => ({ ...it, row: rowAt(it.question) ?? it.answer?.row })));
  showHead();
}

// ---- Answers

/** Keeps an answer in the place of one that isn't sent yet. Throws the browser's error. */
async function keepAnswer(question, said, row) {
  const { who } = state, { number, month, slot } = question;
  await store.keep({ who, number, month, slot, question, row, ...said });
  form.forgetTyped(question);
  await reload();
  tabs.tell("entries");
}

/** Takes an answer of the form's buttons, and closes the form. */
async function answered(question, said) {
  const { month, slot } = question;
  await keepAnswer(question, said, month === state.month ? rowOf(slot) : undefined);
  entry.leave();
  again();
}

/**
 * Keeps what the form answered with an entry, `said` as `written` gave it: that the price is corrected, or what was written
 * if it stays as it is. An answer that waits for another price than this one is in its place no more.
 */
async function keep({ month, slot, row, stored }, { mark, value }, said) {
  const { question, text = "" } = said ?? {}, before = answerAt(month, slot);
  if (!question) return true;
  if (stored?.[2] !== mark || stored?.[3] !== value) {
    await keepAnswer(question, { what: "corrected", mark, value, receipt: 0, text }, row);
  } else if (text) {
    await keepAnswer(question, { what: "text", mark: "", value: 0, receipt: 0, text }, row);
    again();
  } else if (before?.what === "corrected") {
    await drop(before);
  }
  return true;
}

// ---- Sending

const isWaiting = () => kept.some(({ state: become }) => become === "waiting");

/** (while nothing waits, the page asks for questions now and then) */
const { again, rest } = trying(exchanged, reload,
  (seconds) => (state.key ? isWaiting() ? seconds : LONGEST_WAIT : null));

/** Sends the answers, and asks for the questions, if those that came are old. */
async function exchanged() {
  const { key, who } = state;
  let isSent = false;
  for (const answer of await store.answersOf(who)) {
    if (state.who !== who) return;
    if (answer.state !== "waiting") continue;
    const { isDone, isNext } = await sendOne({ key, who }, answer);
    isSent ||= isDone;
    if (!isNext) break;
  }
  if (isSent || Date.now() - askedAt >= NEW || askedAt > Date.now()) await fetchQuestions({ key, who });
}

async function fetchQuestions({ key, who }) {
  const found = await questionsOf({ key });
  if (state.who !== who) return; // (nothing was asked yet of whoever has signed in meanwhile)
  askedAt = Date.now();
  if (!found) return;
  await store.keepAsked(who, found);
  tabs.tell("entries");
}

/** Sends an answer, if its price is stored: whether it is sent, and whether the next one may be tried. */
async function sendOne(collector, answer) {
  const receipt = await receiptOf(collector, answer);
  if (receipt === null) return { isDone: false, isNext: true };
  const { number, fault, isForGood } = await send(collector, answer, receipt);
  if (number) {
    await store.drop(answer);
    tabs.tell("entries");
    return { isDone: true, isNext: true };
  }
  const isMoved = fault === "price" && answer.what === "confirmed";
  await store.change(answer, { fault: isMoved ? "moved" : fault, state: isForGood || isMoved ? "refused" : "waiting" });
  return { isDone: false, isNext: isForGood || fault === "price" };
}

/** The receipt of the price that an answer speaks of, 0 if it speaks of none; null, with why, if the office has another. */
async function receiptOf({ who }, answer) {
  const { month, slot, what, mark, value, receipt } = answer;
  if (what !== "corrected") return receipt;
  const row = (await listOf(who, month))?.quotes.find((it) => it[0] === slot);
  if (row?.[2] === mark && row[3] === value) return row[4];
  const fault = row && !entryAt(month, slot) ? "moved" : "price";
  if (answer.fault !== fault) await store.change(answer, { fault });
  return null;
}

// ---- The page

async function begin() {
  askedAt = 0;
  await reload();
  askedAt = 0; // (a phone that is opened asks)
  again();
}

/** Asks now: the collector wants it. */
function update() {
  askedAt = 0;
  again();
}

async function drop(answer) {
  await store.drop(answer);
  form.forgetTyped(answer);
  await reload();
  tabs.tell("entries");
}

/** Opens the form of a question, in its month. */
async function open({ month, slot }) {
  if (month !== state.month) await shownMonth.turnWithout(month);
  if (!state.list) await line.refresh();
  else line.refresh();
  entry.edit(slot, month);
}

/** Leaves nothing of a collector in the page. */
function clear() {
  rest();
  [asked, kept, rows, askedAt] = [[], [], new Map(), 0];
  form.clear();
  left.clear();
}

/** The files of the questions are kept like the others, so that they are there without a line. */
function keepFiles() {
  const addresses = FILES.map((file) => new URL(file, import.meta.url).href);
  navigator.serviceWorker?.ready.then(({ active }) => addresses.forEach((each) => active?.postMessage({ keep: each })));
}

const waiting = () => kept.filter((answer) => !needsLook(answer)).length;
const looked = () => asked.filter((it) => !hasAnswer(it)).length + kept.filter(needsLook).length;
const ifAny = (count, words) => (count ? words(count) : "");

/** What the row of a slot says of a question; or no text. */
function lineOf(slot) {
  if (form.isTyped({ month: state.month, slot })) return t("Typed, not saved");
  // t: of a row about whose price the desk has a question; short
  if (isOpen(slot)) return t("The desk asks");
  // t: of a row whose answer to the desk is on this phone; short
  return answerAt(state.month, slot) ? t("Answer to be sent") : "";
}

/** Puts the questions into the page. */
export function listen() {
  document.head.append(make("link", { rel: "stylesheet", href: new URL("questions.css", import.meta.url).href }));
  form.build();
  left.build();
  form.on.answer = answered;
  left.on.open = open;
  left.on.drop = drop;
  Object.assign(questions, {
    begin, keep, render, clear, isOpen, lineOf,
    fill: (edited) => form.fill(edited, questionAt(edited.month, edited.slot), answerAt(edited.month, edited.slot)),
    written: form.written,
    settled: again,
    count: () => kept.length,
    told: () => ifAny(waiting(), toBeSent),
    alarm: () => ifAny(looked(), toBeAnswered),
    whatIsLeft: () => ifAny(kept.length, thrownAway),
    countTyped: form.countTyped,
    showAll: left.showAll,
    forget: store.forget,
  });
  addEventListener("online", update);
  find("send").addEventListener("click", update);
  document.addEventListener("visibilitychange", () => {
    if (!document.hidden && state.key) again();
  });
  tabs.listen(reload);
  keepFiles();
}
