// As a form is sent, its buttons can't be pressed once more, and a line below them says how long it takes. Without this
// file the application knows a form that is sent twice.

const lines = document.getElementById("long-forms");

/** What is said of a form: its own line of the page's list, or the last one, which is of any form. */
function textFor(form) {
  const path = new URL(form.action).pathname;
  const items = [...lines.children];
  const own = items.find((item) => item.dataset.address === path) ?? items[items.length - 1];
  return own.textContent;
}

/** Forms that were sent can be sent again. */
function release() {
  for (const line of document.querySelectorAll("p.waits")) line.remove();
  for (const form of document.querySelectorAll("form[data-sent]")) {
    delete form.dataset.sent;
    for (const button of form.querySelectorAll("button")) button.removeAttribute("aria-disabled");
  }
}

function sent(event) {
  const form = event.target;
  if (form.method !== "post" || event.defaultPrevented) return;
  if (form.dataset.sent) {
    event.preventDefault();
    return;
  }
  form.dataset.sent = "yes";
  for (const button of form.querySelectorAll("button")) button.setAttribute("aria-disabled", "true");
  const line = document.createElement("p");
  line.className = "told waits";
  line.setAttribute("role", "status");
  form.after(line);
  line.textContent = textFor(form);
  addEventListener("beforeunload", asked, { once: true });
}

/** Whoever is asked whether to leave the page may stay: then nothing was sent. No time passes in it until the answer. */
function asked(event) {
  if (event.defaultPrevented) setTimeout(release);
}

/** A page that comes back from the browser's memory can send its forms again. */
function shown(event) {
  if (event.persisted) release();
}

/** On a narrow screen the links to pages are one line that scrolls: brings one of them to its middle. */
function bringIntoSight(link) {
  const all = link.closest("nav"), { left, width } = link.getBoundingClientRect(), box = all.getBoundingClientRect();
  all.scrollBy({ left: left + width / 2 - box.left - box.width / 2, behavior: "instant" });
}

// (a browser leaves a link that has the focus as it is, if a part of it is in sight)
const pages = document.querySelector("header nav"), here = pages?.querySelector("[aria-current]");
if (here) bringIntoSight(here);
pages?.addEventListener("focusin", (event) => bringIntoSight(event.target));
if (lines) {
  document.addEventListener("submit", sent);
  window.addEventListener("pageshow", shown);
}
