// The head of the page: who is signed in, the connection to the office, and how much isn't stored. It is seen always.
import { becomes, find, make } from "../shared/dom.js";
import { form, t, tn } from "../shared/texts.js";
import { timeToCome } from "./opening.js";
import { notes, questions } from "./optional.js";
import { countOf, state } from "./state.js";

/** Shows all of it. "All sent" appears only when nothing is left on the phone. */
export function showHead() {
  const waiting = countOf("waiting"), refused = countOf("refused"), look = countOf("look");
  find("who").replaceChildren(state.name);
  find("line").textContent = state.who ? [wordsOf(waiting), notes.told(), questions.told()].filter(Boolean).join(" · ") : "";
  find("line").dataset.line = state.line === "up" && waiting ? "waiting" : state.line;
  showAlarm([
    // t: of entries, on the red button of the head; short
    state.refusal && waiting && tn("{count} not accepted", "{count} not accepted", waiting),
    // t: of entries, on the red button of the head; short
    refused && tn("{count} refused", "{count} refused", refused),
    // t: of entries, on the red button of the head; short
    look && tn("{count} to check", "{count} to check", look),
    notes.alarm(),
    questions.alarm(),
  ].filter(Boolean));
}

/** The red button: how many entries need the collector, a text of each kind. */
function showAlarm(told) {
  const list = form(Intl.ListFormat, { type: "unit", style: "short" }).formatToParts(told);
  find("alarm").hidden = told.length === 0;
  find("alarm").replaceChildren(make("span", {},
    ...list.map(({ type, value }) => (type === "element" ? make("span", {}, value) : value))));
}

function wordsOf(waiting) {
  if (state.line === "down") {
    return waiting ? tn("Offline: {count} entry kept on this phone", "Offline: {count} entries kept on this phone", waiting)
      // t: no connection to the office; short
      : t("Offline");
  }
  const time = state.line === "busy" ? timeToCome(state.expected) : "";
  if (time) {
    return waiting ? tn("The office will answer around {time}: {count} entry kept on this phone",
      "The office will answer around {time}: {count} entries kept on this phone", waiting, { time })
      // t: while it starts; short
      : t("The office will answer around {time}", { time });
  }
  if (state.line === "busy") {
    return waiting ? tn("The office is busy: {count} entry kept on this phone",
      "The office is busy: {count} entries kept on this phone", waiting) : t("The office is busy");
  }
  if (state.line === "odd") return whenOdd(waiting);
  if (waiting && state.refusal) {
    return tn("Not accepted: {count} entry kept on this phone", "Not accepted: {count} entries kept on this phone", waiting);
  }
  // t: of entries, in the head of the page; short
  if (waiting) return tn("{count} to be sent", "{count} to be sent", waiting);
  // t: nothing is left on this phone; short
  return state.entries.length + notes.count() + questions.count() === 0 ? t("All sent") : "";
}

/** (two lines of a small phone, so that the head doesn't grow) */
function whenOdd(waiting) {
  // t: at most 60 letters
  if (waiting === 0) return t("The office’s answer can’t be read. The page asks again.");
  // t: at most 70 letters
  return tn("The page doesn’t know whether {count} entry is stored. It asks again.",
    "The page doesn’t know whether {count} entries are stored. It asks again.", waiting);
}

let lasting = () => ""; // gives a text that stays until the collector has read it, or none
let onRead = () => {}; // is called then

/** A text about all of the page, until it is over; or none. */
export function notice(text) {
  const kept = lasting(), told = text || kept, isLasting = Boolean(told) && told === kept;
  // t: a button under a notice, which goes away then
  const read = isLasting && make("button", { type: "button", onclick: wasRead }, t("OK"));
  // (a button that is there stays, so that a finger that is on it isn't lost)
  becomes(find("notice"), make("p", { id: "notice", class: "notice", role: "alert", hidden: !told },
    ...[told, isLasting && " ", read].filter(Boolean)));
}

/** A text about all of the page, as a function gives it, that stays until the collector has read it (`read`); or none. */
export function noticeUntilRead(text, read = () => {}) {
  lasting = text;
  onRead = read;
  notice("");
}

function wasRead() {
  onRead();
  noticeUntilRead(() => "");
}
