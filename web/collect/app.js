// The page of a collector. An entry goes to the phone first, then to the office.
import { office } from "../config.js";
import { find, isolated } from "../shared/dom.js";
import { begin } from "../shared/language.js";
import { t } from "../shared/texts.js";
import * as deadline from "./deadline.js";
import * as entry from "./entry.js";
import * as exported from "./export.js";
import { notice, noticeUntilRead, showHead } from "./head.js";
import * as languages from "./languages.js";
import * as line from "./line.js";
import { choose, jump, render } from "./list.js";
import { notes, questions } from "./optional.js";
import * as search from "./search.js";
import * as session from "./session.js";
import * as shownMonth from "./shown-month.js";
import { state } from "./state.js";
import * as storage from "./storage.js";
import * as unsent from "./unsent.js";
import { pageKeepsNothing } from "./wording.js";

const MINUTE = 60_000; // milliseconds

/** The files of the page are kept, so that it opens without a line. */
async function keepFiles() {
  if (!("serviceWorker" in navigator)) return;
  const address = new URL("sw.js", import.meta.url).href;
  const policy = globalThis.trustedTypes
    ?.createPolicy("cpi-worker", { createScriptURL: (url) => (url === address ? url : "") });
  const kept = await navigator.serviceWorker.register(policy?.createScriptURL(address) ?? address, { scope: "./" })
    .catch(() => null);
  if (!kept) return;
  takesOver(kept.waiting ?? kept.installing);
  kept.addEventListener("updatefound", () => takesOver(kept.installing));
}

/** Lets new files take the place of the old ones: all of this page are loaded by now, so it has none of both. */
function takesOver(worker) {
  const go = () => { if (worker.state === "installed") worker.postMessage("go"); };
  worker?.addEventListener("statechange", go);
  if (worker) go();
}

function listen() {
  for (const view of ["todo", "all", "quotes"]) {
    find(`show-${view}`).addEventListener("click", () => {
      state.view = view;
      choose();
    });
  }
  find("month-before").addEventListener("click", () => shownMonth.turn(-1));
  find("month-after").addEventListener("click", () => shownMonth.turn(1));
  find("send").addEventListener("click", line.refreshAll);
  find("jump").addEventListener("click", jump);
  find("list").addEventListener("click", (event) => {
    const button = event.target.closest("[data-slot]");
    if (button) entry.edit(Number(button.dataset.slot));
  });
  addEventListener("online", line.again);
  addEventListener("offline", () => {
    state.line = "down";
    if (state.who) showHead();
  });
  document.addEventListener("visibilitychange", returned);
  addEventListener("unhandledrejection", ({ reason }) => notice(told(reason)));
  setInterval(passed, MINUTE);
}

/** The collector has come back to the page. */
async function returned() {
  if (document.hidden || !state.who) return;
  await shownMonth.follow();
  if (!entry.isOpen()) choose();
  await line.refresh();
}

/** A minute has passed. */
async function passed() {
  if (!state.who) return;
  deadline.showDeadline();
  await shownMonth.follow();
}

/** Loads what an office needs that takes notes of the field, and asks collectors; nothing, if it takes none. */
async function loadNotes() {
  const { notes: areTaken } = /** @type {{ notes?: boolean }} */ (office);
  if (areTaken !== true) return;
  // (a phone that has had notes for long may not have the files of questions yet)
  const parts = await Promise.allSettled([import("./notes.js"), import("./questions.js")]);
  for (const { value } of /** @type {any[]} */ (parts)) value?.listen();
  if (parts.every(({ status }) => status === "fulfilled")) return;
  noticeUntilRead(() => t("The part of this page that handles notes isn’t on this phone yet. Open the page again when you are online."));
}

/** An error that nothing else has reported: of a browser that keeps nothing, or of the page itself. */
function told(fault) {
  return fault instanceof DOMException ? pageKeepsNothing(fault)
    : t("An error occurred on this page: {error}. Reload the page.",
      { error: isolated(String(fault?.message ?? fault)) });
}

line.on.gone = session.followOthers;
line.on.settled = (answered) => {
  entry.settled(answered);
  unsent.settled(answered);
  notes.settled();
  questions.settled();
};
languages.on.spoken = () => {
  find("key-fault").textContent = "";
  notice("");
  render();
  notes.render();
  questions.render();
};
unsent.on.open = entry.edit;
unsent.on.dropped = entry.dropped;
for (const part of [deadline, entry, exported, languages, search, session, storage, unsent]) part.listen();
listen();
keepFiles();
begin().then(languages.spoken).then(loadNotes).then(session.start);
