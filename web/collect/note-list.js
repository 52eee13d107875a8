// The notes that aren't sent, at the end of the page, so that no row moves: each with why, and what can be done with it.
import { becomes, find, make } from "../shared/dom.js";
import { inWords } from "../shared/months.js";
import { t } from "../shared/texts.js";
import { needsLook, noteInWords, whyNotSent } from "./note-words.js";
import { rowOf, state } from "./state.js";
import { article, inMarks, slotOf } from "./wording.js";

/** Are called to open the form of a note, and to drop one; the page sets both. */
export const on = { open: (note) => {}, drop: async (note) => {} };

let listed = [];
let dropping = null; // the note of the question

/** Puts the list and its question into the page. */
export function build() {
  find("work").append(make("section", { id: "notes-left", class: "card", "aria-labelledby": "notes-left-title", hidden: true },
    make("h2", { id: "notes-left-title", tabindex: "-1" }), make("ul", { id: "notes-left-list" })));
  document.body.append(make("dialog", { id: "note-dropping", "aria-labelledby": "note-dropping-title" },
    make("form", { method: "dialog" },
      make("h2", { id: "note-dropping-title" }), make("p", { id: "note-dropping-text" }),
      make("div", { class: "actions" },
        make("button", { id: "note-keep", class: "main", value: "keep" }),
        make("button", { id: "note-gone", class: "warn", value: "drop" })))));
  find("notes-left-list").addEventListener("click", ({ target }) => {
    const note = listed.find((it) => idOf(it) === target.closest("li")?.id);
    if (note && target.dataset.do === "open") on.open(note);
    if (note && target.dataset.do === "drop") askToDrop(note);
  });
  find("note-dropping").addEventListener("close", dropped);
}

const idOf = ({ month, slot }) => `note-${month}-${slot}`;

/** Shows the notes that aren't sent. */
export function render(notes) {
  listed = notes;
  find("notes-left").hidden = notes.length === 0;
  // t: a heading: notes that are on the phone only
  find("notes-left-title").textContent = t("Notes not sent");
  becomes(find("notes-left-list"), make("ul", { id: "notes-left-list" }, ...notes.map(item)));
}

function item(note) {
  const { month, slot, row } = note, [, , outlet = "", , text = slotOf(slot), unit = ""] = row ?? [];
  const isShown = month === state.month && rowOf(slot);
  return make("li", { id: idOf(note) },
    make("p", { class: "muted" }, inWords(month), outlet && " · ", outlet && make("bdi", {}, outlet)),
    make("p", {}, make("span", {}, ...article(make("bdi", { class: "item" }, text), unit && make("bdi", {}, unit))), ": ",
      make("strong", {}, inMarks(note.mark, note.value))),
    make("p", {}, ...noteInWords({ ...note, hasPhoto: Boolean(note.photo) })),
    make("p", { class: needsLook(note) ? "why bad" : "why" }, whyNotSent(note)),
    make("div", { class: "actions" },
      isShown && make("button", { type: "button", "data-do": "open" }, t("Open")),
      make("button", { type: "button", "data-do": "drop" }, t("Delete"))));
}

/** Brings the list into sight; whether there is one. */
export function showAll() {
  if (listed.length === 0) return false;
  find("notes-left").scrollIntoView({ block: "start" });
  find("notes-left-title").focus({ preventScroll: true });
  return true;
}

// ---- Dropping one

function askToDrop(note) {
  dropping = note;
  find("note-dropping-title").textContent = t("Delete this note?");
  find("note-keep").textContent = t("Keep it");
  find("note-gone").textContent = t("Delete it");
  find("note-dropping-text").replaceChildren(...noteInWords({ ...note, hasPhoto: Boolean(note.photo) }), ". ",
    t("The desk doesn’t have it, and it will be deleted from this phone."));
  find("note-dropping").returnValue = "keep";
  find("note-dropping").showModal();
}

async function dropped() {
  const note = dropping;
  dropping = null;
  find("note-dropping-text").textContent = "";
  if (find("note-dropping").returnValue !== "drop" || !note) return;
  await on.drop(note);
  find(listed.length ? "notes-left-title" : "show-todo").focus({ preventScroll: true });
}

/** Leaves nothing of a collector in the page. */
export function clear() {
  dropping = null;
  find("note-dropping").close("keep");
  render([]);
}
