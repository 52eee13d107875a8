// Signing in and out: by a key that is typed, or by the link of a printed code.
import { ask, NoAnswer } from "../shared/api.js";
import { find } from "../shared/dom.js";
import { t, tn } from "../shared/texts.js";
import { takeAnswers } from "./answers.js";
import * as drafts from "./drafts.js";
import * as entry from "./entry.js";
import { noticeUntilRead } from "./head.js";
import { nameIn, readKey, takeLink } from "./key.js";
import * as line from "./line.js";
import { choose, render, show } from "./list.js";
import { takeShared } from "./lists.js";
import { expectedAt, timeToCome } from "./opening.js";
import { notes, questions } from "./optional.js";
import { showSentAgain } from "./restored.js";
import * as search from "./search.js";
import * as shownMonth from "./shown-month.js";
import { signedOut, state, takeKept } from "./state.js";
import { showStorage } from "./storage.js";
import * as store from "./store.js";
import * as tabs from "./tabs.js";
import * as unsent from "./unsent.js";
import { toCollector } from "./wording.js";

/** Begins with the key that is kept, or with the one of the link by which the page was opened. */
export async function start() {
  const link = takeLink(), key = await store.storedKey();
  if (key) await enter(key, await store.storedName());
  else showSignIn();
  if (link) await follow(link);
  if (key) await refresh();
}

/** A link signs in, if nobody is signed in; what another collector hasn't sent stays on the phone. */
async function follow(link) {
  const { key, fault } = readKey(link.text);
  if (state.key && fault) {
    // t: {fault} is a sentence that says what is wrong with the key
    noticeUntilRead(() => t("The link you opened doesn’t contain a key. {fault}", { fault }));
  } else if (state.key && state.key !== key) {
    noticeUntilRead(() => t("Another collector is signed in on this phone. Sign out first, then scan the code again."));
  } else if (state.key) {
    await store.keepSession(key, link.name || state.name);
    state.name = link.name || state.name;
    render();
  } else {
    find("key").value = link.text;
    find("name").value = link.name;
    find("key-fault").textContent = fault ?? "";
    if (key) await signIn();
  }
}

// ---- Signing in

function showSignIn() {
  find("work").hidden = find("leave").hidden = true;
  find("sign-in").hidden = false;
  find("key-fault").textContent = "";
  render();
  find("key").focus();
}

async function signIn() {
  if (!find("asking").hidden) return;
  const { key, fault } = readKey(find("key").value), name = nameIn(find("name").value);
  find("key-fault").textContent = fault ?? "";
  if (fault) return;
  find("asking").hidden = false;
  const why = await keyFault(key).finally(() => { find("asking").hidden = true; });
  find("key-fault").textContent = why;
  if (why) return;
  await store.keepSession(key, name);
  await navigator.storage?.persist?.().catch(() => false); // asks the browser not to clear what isn't sent
  find("sign-in-form").reset();
  find("key").type = "password";
  tabs.tell("key");
  await enter(key, name);
  await refresh();
}

/** Why a key opens nothing here, or no text. */
async function keyFault(key) {
  try {
    const { work, refused } = await ask("GET", `/work/${state.month}`, { key });
    if (work || refused === 21) return "";
    return refused === 12 ? t("This key doesn’t belong to a collector.") : toCollector({ refused: refused ?? 90 });
  } catch (fault) {
    if (!(fault instanceof NoAnswer)) throw fault;
    if (fault.kind === "odd") {
      return t("The office’s answer can’t be read. Try again in a moment, or on another network.");
    }
    if (fault.kind !== "line") {
      const time = timeToCome(await expectedAt());
      return time ? t("The office is starting. Try again around {time}.", { time })
        : t("The office is busy. Try again in a moment.");
    }
    return t("The office can’t be reached. Sign in once when you are online; afterwards the page also works offline.");
  }
}

async function enter(key, name) {
  await takeShared();
  Object.assign(state, { who: await store.nameOf(key), key, name: name ?? "" });
  shownMonth.begin();
  find("sign-in").hidden = true;
  find("work").hidden = find("leave").hidden = false;
  await show();
  if (state.entries.length > 0) await showStorage();
  choose();
  await notes.begin();
  await questions.begin();
  await showSentAgain(state);
}

/** Asks for the lists; the month may be another one by them. */
async function refresh() {
  await line.refresh(true);
  await shownMonth.follow();
}

// ---- Signing out

function askToLeave() {
  const count = state.entries.length, written = drafts.count() + questions.countTyped();
  const lost = [whatIsLeft(count), notes.whatIsLeft(), questions.whatIsLeft(), written && whatIsWritten(written)];
  find("leaving-text").textContent = lost.filter(Boolean).join(" ");
  find("leaving-taken").hidden = count === 0;
  // t: a button of the question of "Sign out"
  find("leaving-go").textContent = count + notes.count() + questions.count() ? t("Delete and sign out") : t("Sign out");
  find("leaving").returnValue = "stay";
  find("leaving").showModal();
}

function whatIsLeft(count) {
  if (!count) {
    return t("Everything you saved has been sent. Signing out deletes the key and the lists from this phone.");
  }
  return tn("{count} entry on this phone hasn’t been stored by the office. Signing out deletes it.",
    "{count} entries on this phone haven’t been stored by the office. Signing out deletes them.", count);
}

const whatIsWritten = (count) => tn("You will lose what you typed but didn’t save in {count} form.",
  "You will lose what you typed but didn’t save in {count} forms.", count);

async function left() {
  if (find("leaving").returnValue !== "leave") return;
  line.rest();
  await notes.forget(state.who);
  await questions.forget(state.who);
  await store.forget(state.who); // (if the browser refuses that, the page says so, and all stays)
  cleared();
  tabs.tell("key");
  showSignIn();
}

/** Leaves nothing of a collector in the page. */
function cleared() {
  line.rest();
  entry.forget();
  unsent.forget();
  search.forget();
  notes.clear();
  questions.clear();
  Object.assign(state, signedOut());
  takeKept(null, []);
  find("storage").hidden = true;
  noticeUntilRead(() => "");
  render();
}

/** Another tab signed out, or another collector in: this one goes the same way. */
export async function followOthers() {
  if ((await store.storedKey()) === (state.key ?? undefined)) return;
  cleared();
  find("leaving").close("stay");
  await start();
}

/** The events of signing in and out. */
export function listen() {
  find("sign-in-form").addEventListener("submit", (event) => {
    event.preventDefault();
    signIn();
  });
  find("key-shown").addEventListener("change", ({ target }) => {
    find("key").type = target.checked ? "text" : "password";
  });
  find("leave").addEventListener("click", askToLeave);
  find("leaving").addEventListener("close", left);
  addEventListener("hashchange", async () => {
    const link = takeLink();
    if (link) await follow(link);
  });
  tabs.listen(async (what) => {
    if (what === "key") {
      await followOthers();
    } else if (state.who) {
      if (what === "answered") {
        state.line = "up";
        await takeAnswers();
      }
      await show();
    }
  });
}
