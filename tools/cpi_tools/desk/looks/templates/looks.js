// The prices to look at: keys go through the rows, and a mark or a note goes out without loading the page anew. Without
// this script each button is a form, which leads back to the next row. The desk alone makes rows: what a row has after a
// mark is taken from the page that answers.
const table = document.querySelector("table.looks"), many = document.getElementById("many");
const message = document.getElementById("message"), counts = document.getElementById("counts");
const every = document.getElementById("every");

/** Milliseconds from one look at a trial that runs to the next. */
const LOOKS_EVERY = 3000;

const rows = () => [...table.tBodies[0].rows];
const fields = () => [...table.querySelectorAll("input[name=text]")];
const boxes = () => [...table.querySelectorAll("input[name=checked]")];
const isWriting = () => fields().some((it) => it.value !== "" || it === document.activeElement);

let current = document.querySelector("tr.look:target");
let requests = 0; // so far: an answer to an earlier one has older counts
let isLeaving = false; // a form goes out as without this script

// ---- rows

/** The row with the focus, or the one that had it last. */
const rowNow = () => document.activeElement?.closest("tr.look") ?? current;

function go(row) {
  if (!row) return;
  current?.classList.remove("current");
  current = row;
  row.classList.add("current");
  row.focus({ preventScroll: true });
  row.scrollIntoView({ block: "nearest" });
}

/** The row so many rows further on, or the first one. */
function rowBy(step) {
  const all = rows(), at = all.indexOf(rowNow());
  return at < 0 ? all[0] : all[at + step];
}

/** Says something below the filters, of a row if there is one; the text of others in it is the page's. */
function say(text, row = null) {
  const name = row?.querySelector("th b")?.textContent;
  message.textContent = name && text ? `${name}: ${text}` : text;
  message.className = text ? "told" : "";
}

/** Shows a row as seen or not, as the form of its button says from now on. */
function showSeen(row, isSeen) {
  const form = row.querySelector("form.mark"), button = form.querySelector("button");
  row.toggleAttribute("data-seen", isSeen);
  form.elements.namedItem("what").value = isSeen ? "unseen" : "seen";
  button.textContent = isSeen ? form.dataset.unseen : form.dataset.seen;
  if (isSeen) button.setAttribute("aria-pressed", "true");
  else button.removeAttribute("aria-pressed");
}

// ---- what is sent

/** Sends a form; the page that answers if it was carried out, else null, and why not is said. */
async function sent(form, more, row) {
  const body = new URLSearchParams(/** @type {any} */ (new FormData(form))), number = requests += 1;
  body.delete("once"); // (each press is a form of its own: the page isn't loaded anew between two)
  for (const [name, text] of Object.entries(more)) body.set(name, text);
  let page, answer;
  try {
    answer = await fetch(form.action, { method: "POST", body });
    page = new DOMParser().parseFromString(await answer.text(), "text/html");
  } catch {
    say(message.dataset.away, row);
    return null;
  }
  if (answer.status === 403 || new URL(answer.url).pathname.endsWith("/sign-in")) {
    leave(form, more);
    return null;
  }
  if (!answer.ok || !answer.redirected) {
    say(page.querySelector("#refused, .told.bad")?.textContent.trim() ?? message.dataset.away, row);
    const fresh = row && page.getElementById(row.id);
    if (fresh) takeNotes(row, fresh); // (somebody else may have asked)
    return null;
  }
  const fresh = page.getElementById("counts");
  if (fresh && number === requests) showCounts(fresh);
  return page;
}

/** Shows the counts of an answer; that nothing is left is said. */
function showCounts(fresh) {
  counts.textContent = fresh.textContent;
  say(fresh.dataset.count === "0" ? message.dataset.none : "");
}

/** Sends a form as without a script, since the session has ended: the desk keeps it until somebody has signed in. */
function leave(form, more) {
  for (const [name, value] of Object.entries(more)) {
    if (name !== "only") form.append(Object.assign(document.createElement("input"), { type: "hidden", name, value }));
  }
  isLeaving = !fields().some((it) => it.form !== form && it.value !== "");
  form.submit();
}

const busy = new WeakSet();

/** Sends the form of a row, and shows what the desk has of it then: also what others have noted meanwhile. */
async function mark(form) {
  const row = form.closest("tr.look"), field = form.elements.namedItem("text"), text = field?.value;
  if (busy.has(form)) return;
  busy.add(form);
  const page = await sent(form, { only: row.id.replace("look-", "") }, row);
  busy.delete(form);
  const fresh = page?.getElementById(row.id);
  if (!fresh) return;
  const known = row.querySelector(".notes").childElementCount + (field ? 1 : 0);
  if (takeNotes(row, fresh) > known) say(message.dataset.others, row);
  showSeen(row, fresh.hasAttribute("data-seen"));
  if (field && field.value === text) field.value = ""; // (what was typed meanwhile stays)
  const fold = form.closest("details");
  if (fold && field.value === "") fold.open = false;
  if (fold || !form.isConnected) go(row); // (what had the focus is gone)
}

/** Takes what is noted and asked of a price from a row of a newer page; how much that is. */
function takeNotes(row, fresh) {
  const notes = row.querySelector(".notes"), question = row.querySelector("input[name=question]");
  notes.replaceChildren(...fresh.querySelector(".notes").childNodes);
  if (question) question.value = fresh.querySelector("input[name=question]").value;
  return notes.childElementCount;
}

/** Sends what is checked; the rows stay where they are. */
async function markMany(button) {
  if (busy.has(many)) return;
  busy.add(many);
  const checked = boxes().filter((it) => it.checked);
  const page = await sent(many, { what: button.value });
  busy.delete(many);
  if (!page) return;
  for (const box of checked) {
    showSeen(box.closest("tr.look"), button.value === "seen");
    box.checked = false;
  }
  every.querySelector("input").checked = false;
}

// ---- a trial that runs meanwhile

/** Loads the page anew once the trial is done, unless somebody is at work in it: then it says so. */
async function watch() {
  const address = new URL(location.href);
  address.searchParams.set("itself", "1");
  const page = await fetch(address).then((answer) => answer.text(), () => null)
    .then((text) => text && new DOMParser().parseFromString(text, "text/html"));
  const fresh = page?.getElementById("message");
  if (page && !fresh) return;
  if (!page || fresh.dataset.running) setTimeout(watch, LOOKS_EVERY);
  else if (isWriting() || boxes().some((it) => it.checked)) say(message.dataset.new);
  else location.reload();
}

// ---- keys

const KEYS = {
  j: () => go(rowBy(1)),
  k: () => go(rowBy(-1)),
  s: () => {
    const row = rowNow();
    if (!row) return;
    const form = row.querySelector("form.mark"), isSeen = row.hasAttribute("data-seen");
    mark(form);
    if (!isSeen) go(rowBy(1) ?? row);
  },
  n: () => {
    const row = rowNow() ?? rows()[0];
    go(row);
    row.querySelector(".noting input[name=text]").focus();
  },
  q: () => {
    const row = rowNow() ?? rows()[0], fold = row.querySelector("details.asking");
    if (!fold) return;
    go(row);
    fold.open = true;
    fold.querySelector("input[name=text]").focus();
  },
};

/** The letter of a key, also on a keyboard with other letters than Latin ones. */
const letterOf = ({ key, code }) => (/^[a-z]$/i.test(key) ? key : code.replace("Key", "")).toLowerCase();

addEventListener("keydown", (event) => {
  const { target, ctrlKey, metaKey, altKey, isComposing } = event, at = /** @type {any} */ (target);
  if (ctrlKey || metaKey || altKey || isComposing) return;
  if (event.key === "Escape" && at.name === "text") go(at.closest("tr.look"));
  if (at.closest?.("input:not([type=checkbox]), textarea, select")) return;
  const work = KEYS[letterOf(event)];
  if (!work) return;
  event.preventDefault();
  work();
});

table.addEventListener("focusin", (event) => {
  const row = event.target.closest("tr.look");
  if (!row || row === current) return;
  current?.classList.remove("current");
  current = row;
  row.classList.add("current");
});
table.addEventListener("submit", (event) => {
  event.preventDefault();
  mark(event.target);
});
many.addEventListener("submit", (event) => {
  event.preventDefault();
  markMany(event.submitter);
});
every.addEventListener("change", (event) => {
  for (const box of boxes()) box.checked = event.target.checked;
});
addEventListener("beforeunload", (event) => {
  if (!isLeaving && fields().some((it) => it.value !== "")) event.preventDefault();
});

every.hidden = document.getElementById("keys").hidden = false;
if (current) go(current);
if (message.dataset.running) setTimeout(watch, LOOKS_EVERY);
