// What the form of an entry shows. Price and Save come first: they are seen above the keyboard of a small phone.
import { office } from "../config.js";
import { find, make } from "../shared/dom.js";
import { changeOf, figures, percent, shown, typed } from "../shared/money.js";
import { inWords } from "../shared/months.js";
import { parts, t, whole } from "../shared/texts.js";
import { boundsOf, isOutside } from "./look.js";
import { notes, questions } from "./optional.js";
import { keyOfEntry, state } from "./state.js";
import { article, inMarks, whyNotStored } from "./wording.js";

/** Is called with the reading of a price that the collector has chosen; the page sets it. */
export const on = { reading: () => {} };

const form = () => find("entry-form");
const isReplacement = (mark) => mark === "comparable" || mark === "other";

export const markOf = () => form().mark.value;
export const reasonOf = () => form().reason.value;

/** Fills the form in for a row with its entry and its stored quote, if there are any. */
export function fill({ month, slot, row, entry, stored }) {
  const [, , outlet, , text, unit] = row;
  const [mark, value] = entry ? [entry.mark, entry.value] : stored ? [stored[2], stored[3]] : ["price", ""];
  find("entry").dataset.entry = keyOfEntry({ month, slot });
  find("entry-outlet").replaceChildren(make("bdi", {}, outlet), month === state.month ? "" : ` · ${inWords(month)}`);
  find("entry-item").replaceChildren(...article(make("bdi", {}, text), unit && make("bdi", {}, unit)));
  find("entry-last").textContent = lastInWords(row);
  find("entry-stored").textContent = stored ? storedInWords(stored) : "";
  find("entry-map").replaceChildren(...mapLink(outlet));
  for (const radio of form().mark) {
    radio.checked = radio.value === mark;
    radio.disabled = row[6] === null && isReplacement(radio.value) && radio.value !== mark;
  }
  for (const radio of form().reason) radio.checked = mark === "missing" && radio.value === value;
  find("price").value = mark === "missing" || value === "" ? "" : figures(value);
  find("entry-drop").hidden = !entry;
  find("entry-withdraw").hidden = !stored || stored[2] === "missing";
  notes.fill({ month, slot }, null);
  questions.fill({ month, slot, entry, stored });
  showFault("");
  showQuestion(entry && entry.state !== "waiting" ? entry : null);
  showFields(row);
  showChange(row);
  find("entry").scrollTop = 0;
}

function storedInWords([, , mark, value, receipt]) {
  // t: {entered} is such as 3.21, or Sold out
  return t("The office has stored: {entered} (receipt {receipt}).",
    { entered: inMarks(mark, value), receipt: whole(receipt) });
}

/** A link from a shop to a map, if the office has set the map's address, with {shop} for the name. Nothing is sent there
 * before the link is touched. */
function mapLink(outlet) {
  const { map = "" } = /** @type {{ map?: string }} */ (office);
  if (!/^(geo:|https:\/\/)/.test(map)) return [];
  const href = map.replace("{shop}", () => encodeURIComponent(outlet));
  const target = map.startsWith("geo:") ? null : "_blank"; // (a program of the phone takes the place of no page)
  // t: a link of the form: opens the map of the phone
  return [make("a", { href, target, rel: "noreferrer" }, t("Show this shop on a map"))];
}

/** What the form has: mark, reason, price as it is written, and a note; null if nothing is written in it. */
export function content() {
  const mark = markOf(), reason = reasonOf(), price = find("price").value.trim(), note = notes.written();
  return note || (mark === "missing" ? reason : price) ? JSON.stringify([mark, reason, price, note]) : null;
}

/** Puts what was written before into the form of an entry. */
export function putDraft(written, edited) {
  const [mark, reason, price, note] = JSON.parse(written), { row } = edited;
  form().mark.value = mark;
  form().reason.value = reason;
  find("price").value = price;
  if (note) notes.fill(edited, note);
  showQuestion(null);
  showFields(row);
  showChange(row);
  find("price-fault").textContent = t("You typed this earlier, but didn’t save it.");
}

/** Scrolls the form to some of its parts, the first one last, if they are out of sight. */
function bringIntoSight(...ids) {
  for (const id of ids.reverse()) find(id).scrollIntoView({ block: "nearest" });
}

function lastInWords(row) {
  if (row[6] === null) return t("There is no last price.");
  const found = boundsOf(row);
  if (!found) return t("Last price {last}.", { last: shown(row[6]) });
  return t("Last price {last}. Usual range: {low} to {high}.", inPrices(found));
}

const inPrices = ({ last, low, high }) => ({ last: shown(last), low: shown(low), high: shown(high) });

/** Shows what the chosen mark needs. */
function showFields(row) {
  const mark = markOf();
  find("entry-price").hidden = mark === "missing";
  find("entry-reason").hidden = mark !== "missing";
  find("entry-hint").textContent = row[6] === null ? t("A replacement needs an earlier price for this slot.") : "";
}

/** Shows by how much the price that is being typed differs from the last one. */
function showChange(row) {
  const { price } = typed(find("price").value) ?? {};
  const isTold = price && row[6] !== null && markOf() !== "missing" && markOf() !== "other";
  find("entry-change").textContent = isTold ? percent(changeOf(price, row[6])) : "";
  find("entry-change").classList.toggle("far", Boolean(isTold) && isOutside(price, boundsOf(row)));
}

/** The price field has the focus, with what it has chosen, so that a figure takes its place. */
export function focusPrice() {
  find("price").focus();
  find("price").select();
  bringIntoSight("price");
}

let isTyped = false; // since Save was pressed

/** Lets the next figure take the place of the price while its entry is being kept; the price. */
export function awaitTyping() {
  if (document.activeElement === find("price")) find("price").select();
  isTyped = false;
  return find("price").value;
}

/** The text that a fast hand has typed since, for the next row. */
export const typedSince = () => (isTyped ? find("price").value : "");

/** Puts what was typed ahead into the form. */
export function goOnTyping(text) {
  if (!text) return;
  find("price").value = text;
  find("price").dispatchEvent(new Event("input"));
}

/** Says that something is wrong with what was typed; null. */
export function showFault(text) {
  find("price-fault").textContent = text;
  if (text) bringIntoSight("price-fault");
  find("price").setAttribute("aria-invalid", String(Boolean(text)));
  return null;
}

/** Names the entry that was saved last, and says if the next row is in another shop; null for none. */
export function showSaved(kept, isElsewhere = false) {
  find("entry").classList.toggle("elsewhere", isElsewhere);
  const outlet = find("entry-outlet");
  // t: above the form, when the next row is in another shop
  if (isElsewhere) outlet.replaceChildren(...parts(t("Next shop: {outlet}"), { outlet: outlet.firstChild }));
  const [, , , , text = ""] = kept?.row ?? [];
  // t: {entered} is such as 3.21, or Sold out
  const saved = kept && parts(t("{entered} saved: {item}"),
    { entered: inMarks(kept.mark, kept.value), item: make("bdi", {}, text) });
  find("entry-saved").replaceChildren(...(saved ?? []));
}

/** Asks which price is meant by what was typed; the first reading may be rounded. Null. */
export function askReading(readings, isRounded) {
  showQuestion(null);
  find("entry-refusal").hidden = false;
  find("entry-refusal").replaceChildren(make("p", {}, t("This could mean more than one price. Which one is it?")),
    make("div", { class: "actions" }, ...readings.map((price, n) =>
      make("button", { type: "button", "data-reading": price, onclick: () => on.reading(price) },
        // t: a button: a price that was typed with more decimals than the office writes: 1.46, rounded
        isRounded && n === 0 ? t("{price}, rounded", { price: shown(price) }) : shown(price)))));
  bringIntoSight("entry-refusal");
  return null;
}

/** Shows why an entry isn't stored, with what its collector can decide; null for none. */
export function showQuestion(entry) {
  const isFar = entry?.reply.refused === 26, isMoved = entry?.state === "moved";
  find("entry-refusal").hidden = !entry;
  find("entry-last").hidden = isFar; // (the refusal says the same)
  find("entry-confirm").hidden = !isFar;
  find("entry-save").disabled = isFar || isMoved; // until something is changed
  find("entry-mine").hidden = find("entry-theirs").hidden = !isMoved;
  if (isMoved) {
    const { mark, value } = entry.reply;
    // t: a button that sends my own entry; {entered} is such as 3.21, or Sold out
    find("entry-mine").textContent = t("Mine: {entered}", { entered: inMarks(entry.mark, entry.value) });
    // t: a button that keeps what the office has; {entered} is such as 3.21, or Sold out
    find("entry-theirs").textContent = t("The stored one: {entered}", { entered: inMarks(mark, value) });
  }
  find("entry-refusal").replaceChildren(...(entry ? question(entry, isFar, isMoved) : []));
  if (entry) bringIntoSight("entry-refusal", isMoved ? "entry-mine" : "entry-confirm");
}

function question(entry, isFar, isMoved) {
  if (isMoved) return [whyNotStored(entry)];
  const { reply } = entry;
  if (!isFar) {
    // t: {number} is the number of the refusal; a sentence that says why comes after it
    const refused = t("Refused ({number}).", { number: whole(reply.refused) });
    return [make("strong", {}, refused), " ", whyNotStored(entry)];
  }
  return [make("strong", {}, t("This price is far from the last one. Check it again.")),
    make("span", { class: "bounds" },
      t("Last price {last}. Usual range: {low} to {high}.", inPrices(reply)))];
}

/** Leaves nothing of a slot in the form. */
export function empty() {
  for (const name of ["outlet", "item", "last", "stored", "refusal", "hint", "saved", "change", "mine", "theirs"]) {
    find(`entry-${name}`).textContent = "";
  }
  showFault("");
  form().reset();
}

// ---- Double taps

/** Milliseconds and pixels within which two taps are one. */
export const TWICE = 500;
const NEAR = 24;

let tapped = null; // the tap before, and whose form it was in: { at, x, y, shown }

/** Stops the second of two taps if the next row came between them: its form may have another button in that place. */
function keepTwiceAway(event) {
  const { type, detail, timeStamp: at, clientX: x, clientY: y } = event, shown = find("entry").dataset.entry;
  if (detail === 0) return; // (a key's, or the page's own)
  const isNext = tapped && tapped.shown !== shown && at - tapped.at < TWICE;
  if (isNext && Math.hypot(x - tapped.x, y - tapped.y) < NEAR) {
    event.preventDefault();
    event.stopPropagation();
  } else if (type === "click") {
    setTimeout(() => { tapped = { at, x, y, shown }; }); // (after the click that a label hands on)
  }
}

/** Begins anew: the next tap is the first one. */
export function forgetTaps() {
  tapped = null;
}

/** The events within the form; `edited` gives what it is filled in for. */
export function listen(edited) {
  for (const type of ["mousedown", "click"]) find("entry").addEventListener(type, keepTwiceAway, true);
  form().addEventListener("input", forgetTaps);
  form().addEventListener("change", ({ target }) => {
    if (target.name === "mark") showFields(edited().row);
    if (target.name) showQuestion(null);
    showChange(edited().row);
  });
  find("price").addEventListener("input", () => {
    isTyped = true;
    showFault("");
    showQuestion(null);
    showChange(edited().row);
  });
  find("entry-withdraw").addEventListener("click", () => {
    form().mark.value = "missing";
    showFields(edited().row);
    showQuestion(null);
    form().reason[0].focus();
  });
  // (the keyboard of a phone stays: Save doesn't take the focus from the price)
  find("entry-save").addEventListener("mousedown", (event) => event.preventDefault());
}
