// The pictures of a page tell the figures of each month, under a pointer, a finger and the arrow keys. The scripts for that
// are asked for once somebody points at a picture or the focus comes to one, so a page that is only read costs no more.
// A page that is opened from a disk can't load modules, so this is a plain script, and the pictures of such a page are
// those of a page without scripts.
"use strict";

if (location.protocol !== "file:") {
  const page = document.currentScript.dataset; // says, fault, scripts, and what living.js reads: see shown.html
  const wanted = page.scripts.split(" "); // each after those that it needs
  let tries = 0; // how often they were asked for
  let asked = null; // the promise of all scripts, once they were asked for
  let last = null; // what was done before they were there, which then happens again

  /** Runs all scripts, one after the other. Those that were had stay, if a later one can't be had. */
  async function ask() {
    tries += 1;
    const again = tries > 1 ? `?${tries}` : ""; // (some browsers don't ask twice for a module that they couldn't have)
    for (; wanted.length; wanted.shift()) await import(new URL(wanted[0] + again, document.baseURI).href);
  }

  /** Asks for the scripts, and lets happen again what was done last. What failed is asked for again the next time. */
  async function begin(svg) {
    try {
      await (asked ??= ask());
    } catch {
      asked = null;
      svg.nextElementSibling.textContent = page.fault;
      return;
    }
    const again = last;
    last = null;
    again?.svg.dispatchEvent(new again.Kind(again.type, again.values));
  }

  /** Keeps what was done over a picture, and forgets it if the pointer goes elsewhere. */
  function keep(event) {
    if (!wanted.length) return;
    const { type, key, clientX, clientY, pointerType } = event, svg = event.currentTarget;
    if (type === "keydown" && !["ArrowLeft", "ArrowRight", "Home", "End"].includes(key)) return;
    if (type === "keydown") event.preventDefault(); // (it doesn't scroll the page)
    const isOver = pointerType === "touch" || !["pointerleave", "blur"].includes(type);
    const values = { key, clientX, clientY, pointerType, cancelable: true };
    last = isOver ? { svg, type, Kind: event.constructor, values } : null;
    if (isOver) begin(svg);
  }

  /** Its title and its description become its name: a browser shows no title over what is pointed at. */
  function name(svg) {
    const [title, says] = ["title", "desc"].map((part) => svg.querySelector(part));
    const values = { name: title.textContent, lines: says.textContent.replace(/\.\s*$/, "") };
    svg.setAttribute("aria-label", page.says.replace("{name}", () => values.name).replace("{lines}", () => values.lines));
    svg.removeAttribute("aria-labelledby");
    svg.setAttribute("tabindex", "0");
    title.remove();
  }

  for (const svg of document.querySelectorAll("svg[data-months]")) {
    svg.dataset.kind = svg.getAttribute("aria-labelledby").split("-title")[0];
    if (!svg.parentElement.querySelector("details tr") && !page.code) continue;
    name(svg);
    const readout = document.createElement("p");
    readout.className = "note readout";
    readout.setAttribute("aria-live", "polite");
    svg.after(readout);
    for (const kind of ["focus", "pointermove", "pointerdown", "pointerleave", "keydown", "blur"]) {
      svg.addEventListener(kind, keep);
    }
  }
}
