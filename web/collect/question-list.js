// The desk's questions, and the answers that aren't sent, at the end of the page, so that no row moves.
import { becomes, find, make } from "../shared/dom.js";
import { inWords } from "../shared/months.js";
import { t } from "../shared/texts.js";
import { answerInWords, needsLook, whyNotSent } from "./question-words.js";
import { article, slotOf } from "./wording.js";

/** Are called to open the form of a question, and to drop an answer; the page sets both. */
export const on = { open: async (question) => {}, drop: async (answer) => {} };

let listed = [];
let dropping = null; // the answer of the question whether to drop it

/** Puts the list and its question into the page. */
export function build() {
  find("work").append(make("section", { id: "questions", class: "card", "aria-labelledby": "questions-title", hidden: true },
    make("h2", { id: "questions-title", tabindex: "-1" }), make("ul", { id: "questions-list" })));
  document.body.append(make("dialog", { id: "answer-dropping", "aria-labelledby": "answer-dropping-title" },
    make("form", { method: "dialog" },
      make("h2", { id: "answer-dropping-title" }), make("p", { id: "answer-dropping-text" }),
      make("div", { class: "actions" },
        make("button", { id: "answer-keep", class: "main", value: "keep" }),
        make("button", { id: "answer-gone", class: "warn", value: "drop" })))));
  find("questions-list").addEventListener("click", ({ target }) => {
    const found = listed.find((it) => idOf(it) === target.closest("li")?.id);
    if (found && target.dataset.do === "open") on.open(found.question);
    if (found?.answer && target.dataset.do === "drop") askToDrop(found.answer);
  });
  find("answer-dropping").addEventListener("close", dropped);
}

const idOf = ({ question }) => `question-${question.number}`;

/** Shows questions, { question, answer, row } each: the answer that isn't sent and the row of the list, if there are. */
export function render(found) {
  listed = found;
  find("questions").hidden = found.length === 0;
  // t: a heading: questions about single prices
  find("questions-title").textContent = t("Questions from the desk");
  becomes(find("questions-list"), make("ul", { id: "questions-list" }, ...found.map(item)));
}

function item({ question, answer, row }) {
  const { month, slot, text } = question, [, , outlet = "", , name = slotOf(slot), unit = ""] = row ?? [];
  return make("li", { id: idOf({ question }) },
    make("p", { class: "muted" }, inWords(month), outlet && " · ", outlet && make("bdi", {}, outlet)),
    make("p", {}, ...article(make("bdi", { class: "item" }, name), unit && make("bdi", {}, unit))),
    make("p", { class: "asks" }, make("bdi", {}, text)),
    answer && make("p", {}, ...answerInWords(answer)),
    answer && make("p", { class: needsLook(answer) ? "why bad" : "why" }, whyNotSent(answer)),
    make("div", { class: "actions" },
      // t: a button that opens the form of a question
      make("button", { type: "button", "data-do": "open" }, answer ? t("Open") : t("Answer")),
      answer && make("button", { type: "button", "data-do": "drop" }, t("Delete"))));
}

/** Brings the list into sight; whether there is one. */
export function showAll() {
  if (listed.length === 0) return false;
  find("questions").scrollIntoView({ block: "start" });
  find("questions-title").focus({ preventScroll: true });
  return true;
}

// ---- Dropping one

function askToDrop(answer) {
  dropping = answer;
  find("answer-dropping-title").textContent = t("Delete this answer?");
  find("answer-keep").textContent = t("Keep it");
  find("answer-gone").textContent = t("Delete it");
  find("answer-dropping-text").replaceChildren(...answerInWords(answer), ". ",
    t("The desk doesn’t have it, and it will be deleted from this phone."));
  find("answer-dropping").returnValue = "keep";
  find("answer-dropping").showModal();
}

async function dropped() {
  const answer = dropping;
  dropping = null;
  find("answer-dropping-text").textContent = "";
  if (find("answer-dropping").returnValue !== "drop" || !answer) return;
  await on.drop(answer);
  find(listed.length ? "questions-title" : "show-todo").focus({ preventScroll: true });
}

/** Leaves nothing of a collector in the page. */
export function clear() {
  dropping = null;
  find("answer-dropping").close("keep");
  render([]);
}
