// The note in the form of an entry: a fold below what was found, with the sale, brand and quantity of a replacement, a
// text, and a photograph.
import { find, make } from "../shared/dom.js";
import { grouped, t } from "../shared/texts.js";
import { MOST_BRAND_LETTERS, MOST_LETTERS, MOST_QUANTITY_LETTERS } from "./note-limits.js";
import { drawnAnew, showIn } from "./note-photo.js";
import { noteInWords } from "./note-words.js";

/** Gives what the desk has of a month of the collector (note-send.js), or null; the page sets it. */
export const on = { sent: async (month) => /** @type {any[] | null} */ (null) };

const EMPTY = { isSale: false, brand: "", quantity: "", text: "", photo: null };

let of = null; // the month and slot of the form: { month, slot }
let photo = null; // a JPEG
let drawing = Promise.resolve(null); // gives the photograph once it is drawn; undefined if the file is no picture
let chosen = 0; // how many photographs were chosen
const drafts = new Map(); // photographs that were chosen and not saved, by a name
const names = new WeakMap(); // of photographs

/** Puts the fold into the form. */
export function build() {
  const field = (id, tag, attributes) => [make("label", { for: id, id: `${id}-label` }), make(tag, { id, ...attributes })];
  find("entry-stored").before(make("details", { id: "note" },
    make("summary", { id: "note-title" }),
    make("div", {},
      make("label", { class: "check" }, make("input", { id: "note-sale", type: "checkbox" }), make("span", { id: "note-sale-label" })),
      make("div", { id: "note-other" },
        ...field("note-brand", "input", { maxlength: MOST_BRAND_LETTERS, dir: "auto", autocomplete: "off" }),
        ...field("note-quantity", "input", { maxlength: MOST_QUANTITY_LETTERS, dir: "auto", autocomplete: "off" })),
      ...field("note-text", "textarea", { maxlength: MOST_LETTERS, dir: "auto", rows: 3, "aria-describedby": "note-about" }),
      ...field("note-photo", "input", { type: "file", accept: "image/*", "aria-describedby": "note-about note-fault" }),
      make("p", { id: "note-fault", class: "fault", role: "alert" }),
      make("canvas", { id: "note-picture", role: "img", hidden: true }),
      make("button", { id: "note-drop", type: "button", hidden: true, onclick: dropPhoto }),
      make("p", { id: "note-about", class: "muted" }),
      make("ul", { id: "note-sent", class: "muted" }))));
  find("note-photo").addEventListener("change", choose);
  find("entry-form").addEventListener("change", showFields);
  find("note").addEventListener("toggle", showSent);
}

/** The texts of the fold, in the language that the page speaks now. */
function speak() {
  const texts = {
    // t: a fold of the form of a price: what its collector notes of it
    "note-title": t("Note for the desk"),
    "note-sale-label": t("This is a sale price"),
    "note-brand-label": t("Brand of the replacement"),
    // t: of an article, such as 750 g
    "note-quantity-label": t("Its quantity"),
    "note-text-label": t("Note"),
    "note-photo-label": t("Photograph"),
    "note-drop": t("Remove the photograph"),
    // t: {count} is a number of letters
    "note-about": t("At most {count} characters. Only you and the desk can read the note. A photograph is sent "
      + "without location or device data. Don’t photograph people.", { count: grouped(MOST_LETTERS) }),
  };
  for (const [id, text] of Object.entries(texts)) find(id).textContent = text;
  // t: what a picture shows, for who doesn't see it
  find("note-picture").setAttribute("aria-label", t("The photograph that will be sent"));
}

/** Fills it in for an entry: with what was written before, else with the note that isn't sent yet, if there is one. */
export function fill({ month, slot }, draft, note) {
  of = { month, slot };
  chosen += 1;
  speak();
  const [isSale, brand, quantity, text, name] = draft ? JSON.parse(draft) : [];
  const said = draft ? { isSale, brand, quantity, text, photo: drafts.get(name) ?? null } : note ?? EMPTY;
  find("note-sale").checked = said.isSale;
  for (const part of ["brand", "quantity", "text"]) find(`note-${part}`).value = said[part];
  find("note-photo").value = "";
  takePhoto(said.photo);
  showFields();
  find("note-sent").replaceChildren();
  const isOpen = Boolean(draft || note);
  if (isOpen && find("note").open) showSent();
  find("note").open = isOpen;
}

/** Brand and quantity are of another article; what is written in them stays in sight. */
function showFields() {
  const mark = find("entry-form").mark.value, isWritten = find("note-brand").value || find("note-quantity").value;
  find("note-other").hidden = mark !== "comparable" && mark !== "other" && !isWritten;
}

// ---- The photograph

function choose() {
  const [file] = find("note-photo").files;
  if (!file) return;
  chosen += 1;
  const own = chosen;
  drawing = drawnAnew(file).then((made) => {
    if (own === chosen) drawn(made); // (else another one was chosen, or another form came)
    return made ?? undefined;
  });
}

/** Shows the photograph that was chosen, or that the file is none. */
function drawn(made) {
  find("note-photo").value = "";
  takePhoto(made ?? photo);
  if (made) {
    find("note-drop").focus({ preventScroll: true }); // (the field is gone)
  } else {
    find("note-fault").textContent = t("This file can’t be read as a picture. Choose a photograph.");
    find("note-fault").scrollIntoView({ block: "nearest" });
  }
}

function dropPhoto() {
  takePhoto(null);
  find("note-photo").focus();
}

/** Takes a photograph, which has the place of the field then; null gives the field again. */
function takePhoto(taken) {
  photo = taken;
  drawing = Promise.resolve(taken);
  if (photo && !names.has(photo)) {
    names.set(photo, crypto.randomUUID());
    drafts.set(names.get(photo), photo);
  }
  find("note-fault").textContent = "";
  find("note-drop").hidden = !photo;
  find("note-photo").hidden = find("note-photo-label").hidden = Boolean(photo);
  showIn(find("note-picture"), photo);
}

// ---- What is written

const valueOf = (part) => find(`note-${part}`).value.trim();

const fields = () => ({
  isSale: find("note-sale").checked, brand: valueOf("brand"), quantity: valueOf("quantity"), text: valueOf("text"),
});

/** What is written, as a text for a draft; null for nothing. */
export function written() {
  const { isSale, brand, quantity, text } = fields();
  if (!isSale && !brand && !quantity && !text && !photo) return null;
  return JSON.stringify([isSale, brand, quantity, text, photo && names.get(photo)]);
}

/** What is to be kept, once the photograph is drawn: null for nothing, undefined if the file turns out to be no picture. */
export async function said() {
  const own = fields(), taken = await drawing;
  if (taken === undefined) return undefined;
  return own.isSale || own.brand || own.quantity || own.text || taken ? { ...own, photo: taken } : null;
}

/** Shows what the desk has of this slot by now, while the fold is open. */
async function showSent() {
  const { month, slot } = of ?? {};
  if (!month || !find("note").open) return;
  const rows = (await on.sent(month))?.filter((row) => row[1] === slot) ?? [];
  if (of?.month !== month || of.slot !== slot) return; // (another form came)
  const line = ([, , , , isSale, brand, quantity, text, hasPhoto]) =>
    // t: before a note that the desk has
    make("li", {}, t("Sent:"), " ", ...noteInWords({ isSale, brand, quantity, text, hasPhoto }));
  find("note-sent").replaceChildren(...rows.map(line));
}

/** Leaves nothing of a collector in the form. */
export function clear() {
  fill({ month: "", slot: 0 }, null, null);
  of = null;
  drafts.clear();
}
