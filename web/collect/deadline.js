// When the window of a month opens and closes, as the desk has published it in calendar.json, or as the office has answered
// since, and which month is open by that. Moments are in seconds since 1970 UTC, as in the file; the page shows them by the
// office's clock if the file has it, and by the phone's if that differs.
import { find } from "../shared/dom.js";
import { inWords, moved, timeBy, timeOf, thisMonth } from "../shared/months.js";
import { form, t, tc, tn } from "../shared/texts.js";
import { windows } from "./answers.js";
import { state } from "./state.js";

const MINUTE = 60, HOUR = 3600, DAY = 86_400;

/** If a window closes within so many seconds, the page warns of entries that aren't stored. */
const SOON = 2 * DAY;

const seconds = () => Date.now() / 1000;

/**
 * The month that collectors work on: the one whose window is open, of several the one that closes first; else the next
 * one to open; else the month of the phone's clock.
 */
export function currentMonth() {
  const now = seconds(), first = (name) => (a, b) => a[name] - b[name];
  const open = windows().filter(({ opens, closes }) => opens <= now && now < closes).sort(first("closes"));
  const coming = windows().filter(({ opens }) => opens > now).sort(first("opens"));
  return (open[0] ?? coming[0])?.month ?? thisMonth();
}

/**
 * Whether a month is over for good: its window isn't open, and that of a later month has closed, or it lies three months
 * or more before this one.
 */
export function isPast(month) {
  const now = seconds(), isOpen = windows().some((window) => window.month === month && now < window.closes);
  const isLastClosed = !windows().some((window) => window.month > month && window.closes <= now);
  return !isOpen && (!isLastClosed || month < moved(thisMonth(), -2));
}

/**
 * Shows when the window of the month closes. If it does so soon, a second line counts the entries that aren't stored:
 * it is there from the beginning, so that no row moves as one is saved.
 */
export function showDeadline() {
  const window = windows().find(({ month }) => month === state.month);
  const count = state.entries.filter(({ month }) => month === state.month).length;
  const left = window ? window.closes - seconds() : SOON, isSoon = left < SOON && (left > 0 || count > 0);
  find("deadline").textContent = window ? wordsOf(window) : "";
  find("left").textContent = window ? shortOf(window) : "";
  find("unstored").textContent = isSoon ? warning(count) : "";
  find("unstored").classList.toggle("late", isSoon && count > 0);
}

function wordsOf(window) {
  const now = seconds(), { month, opens, closes } = window;
  if (window.word) return wordsOfOffice(window);
  if (now < opens) {
    const moment = momentOf(opens * 1000, window.opens_zone);
    const values = { month: inWords(month), moment, within: within(opens - now) };
    // t: {moment} is such as 30 November, 18:00; {within} is such as in 2 days
    return t("The window for {month} opens on {moment}, {within}.", values);
  }
  const moment = momentOf(closes * 1000, window.closes_zone);
  // t: {moment} is such as 30 November, 18:00; {within} is such as in 2 days
  if (now < closes) return t("The window closes on {moment}, {within}.", { moment, within: within(closes - now) });
  return t("The window closed on {moment}.", { moment });
}

/** The same in some words, under the month. */
function shortOf({ word, opens, closes }) {
  const now = seconds();
  // t: of the window of a month in which prices are taken; short
  if (word === "open") return tc("window of a month", "open");
  // t: of the window of a month in which prices are taken; short
  if (word === "closed" || (!word && now >= closes)) return tc("window of a month", "closed");
  // t: of the window of a month in which prices are taken; short
  if (word) return tc("window of a month", "not open yet");
  // t: {within} is such as in 2 days, until prices are taken; short
  if (now < opens) return t("opens {within}", { within: within(opens - now) });
  // t: {time} is such as 2 days, as long as prices are taken; short
  return t("{time} left", { time: lasting(closes - now) });
}

/** What the office's last answer said, if the published window is another one. */
function wordsOfOffice({ word, month }) {
  const values = { month: inWords(month) };
  if (word === "open") return t("The office accepts prices for {month}. This phone doesn’t know the deadline yet.", values);
  if (word === "closed") return t("The office says that the window for {month} has closed.", values);
  return t("The office says that the window for {month} isn’t open yet.", values);
}

/** A moment by the office's clock; if the phone's differs, by that too, and by that only if the office's isn't known. */
function momentOf(at, zone) {
  if (!zone) return timeOf(at);
  const moment = timeBy(zone, at);
  if (new Date(at).getTimezoneOffset() * -MINUTE === zone[1]) return moment;
  // t: one moment by two clocks: 30 November, 18:00 CET (30 November, 20:00 by this phone)
  return t("{moment} ({own} on this phone’s clock)", { moment, own: timeOf(at) });
}

function warning(count) {
  if (count === 0) return t("Everything you entered is stored.");
  return tn("One entry isn’t stored yet.", "{count} entries aren’t stored yet.", count);
}

/** How long that is, in the largest unit of which there are two at least: never more than is left. */
function counted(left) {
  if (left >= 2 * DAY) return [Math.floor(left / DAY), "day"];
  if (left >= 2 * HOUR) return [Math.floor(left / HOUR), "hour"];
  return [Math.floor(left / MINUTE), "minute"];
}

/** `in 2 days`. */
const within = (left) => form(Intl.RelativeTimeFormat).format(...counted(left));

/** `2 days`. */
function lasting(left) {
  const [count, unit] = counted(left);
  return form(Intl.NumberFormat, { style: "unit", unit, unitDisplay: "long" }).format(count);
}

/** The event of the line of month, deadline and progress: it unfolds the whole sentences. */
export function listen() {
  find("more").addEventListener("click", () => {
    const isOpen = !find("whole").toggleAttribute("hidden");
    find("more").setAttribute("aria-expanded", String(isOpen));
  });
}
