// The page: what its form and its address choose, as pictures, tables and a file. The address comes first: a change of
// the form is written there, and shown from there, so back and forward work.
import { figureText, momentText, monthText, t } from "../assets/spoken.js";
import { png, save } from "../assets/take.js";
import { addressOf, choiceOf, DEFAULTS, fixed, fullYears, MEASURES, monthsBetween } from "./choice.js";
import { fileOf } from "./drawing.js";
import { byId, isolated, made } from "./elements.js";
import { csvOf, tablesOf } from "./figures.js";
import { itemsOf, site } from "./files.js";
import { listenToPicker, picker, showChosen } from "./picker.js";
import { drawPictures, partsOf, shownOf, tellIn } from "./shown.js";

const NARROW = 640; // pixels of a page, as in style.css
const FIELDS = ["from", "to", "hundred", "revision", "decimals"]; // their ids are the words of an address

const known = byId("choice").dataset; // first, last, base, reference, moment, revisions, source, embed: see choose.html
site.top = known.top ?? "";
site.isListed = known.titles === "listed";

let choice = DEFAULTS;
let shown = { items: [], months: [], measures: [] };
let asked = 0; // which answer is the last one's
let width = 0; // of the pictures, in pixels

// ---- the form

const option = (value, text) => made("option", { value }, text);

/** Fills the fields that have a choice of months, periods, revisions and measures. */
function fillForm() {
  const months = monthsBetween(known.first, known.last).reverse();
  const named = (values) => values.map((value) => option(value, value.length === 4 ? figureText(value) : monthText(value)));
  byId("from").append(option("", t("Two years earlier")), ...named(months));
  byId("to").append(option("", t("The newest, {month}", { month: monthText(known.last) })), ...named(months));
  byId("hundred").append(option("same", t("The same for all items")), option("own", t("Each item’s own")),
    ...named(fullYears(known).reverse()), ...named([...months, known.base]));
  const numbers = Array.from({ length: Number(known.revisions) }, (_, n) => String(n + 1));
  byId("revision").append(option("latest", t("The latest of each month")), ...numbers.map((number) =>
    option(number, number === "1" ? t("The first of each month")
      : t("Revision {number}, or the previous one", { number: figureText(number) }))));
  byId("show").append(...[...MEASURES].map(([word, { name }]) => made("label", {},
    made("input", { type: "checkbox", value: word, onchange: () => choose({ show: ticked() }) }), " ", name)));
}

const boxes = () => [...byId("show").querySelectorAll("input")];
const ticked = () => boxes().filter(({ checked }) => checked).map(({ value }) => value);

/** Shows the choice in the form. */
function setForm() {
  for (const word of FIELDS) {
    const field = byId(word), value = choice[word];
    if (![...field.options].some((one) => one.value === value)) field.append(option(value, t("As published on {moment}", { moment: momentText(value) })));
    field.value = value;
  }
  for (const box of boxes()) {
    box.checked = choice.show.includes(box.value);
    box.disabled = box.checked && choice.show.length === 1; // (one measure stays)
  }
}

// ---- a choice, and its address

/** Takes a change of the choice: into the address, and onto the page. */
function choose(change) {
  const read = choiceOf(addressOf({ ...choice, ...change }), known);
  choice = read.choice;
  history.pushState(null, "", location.pathname + addressOf(choice));
  return guarded(show)(read.faults);
}

/** Takes what the address says. */
function follow() {
  const read = choiceOf(location.search, known);
  choice = read.choice;
  return guarded(show)(read.faults);
}

// ---- showing a choice

const tell = (faults) => tellIn(byId("fault"), faults);

const guarded = (work) => (...words) => Promise.resolve().then(() => work(...words)).catch(failed);
const failed = (fault) => tell([{ read: t("This page"), fault: t("an error occurred: {fault}", { fault: isolated(fault.message) }) }]);

/** Asks for the files of the chosen items, and shows them. `faults` are those of the address. */
async function show(faults) {
  const mine = (asked += 1);
  setForm();
  tell(faults);
  byId("said").textContent = t("The figures are loading.");
  const answers = await itemsOf(choice);
  if (mine !== asked) return;
  tell([...faults, ...answers.faults]);
  showChosen(choice.items.map((code) => answers.found.find((item) => item.code === code) ?? { code, title: "" }));
  draw(answers.found);
}

function draw(found) {
  shown = shownOf(choice, found, known);
  const { items, months, measures } = shown;
  byId("said").textContent = items.length
    ? t("{first} to {last}", { first: monthText(months[0]), last: monthText(months.at(-1)) }) : "";
  byId("parts").replaceChildren(...(items.length ? measures.map(partOf) : []));
  width = drawPictures(shown);
  offer();
}

/** The place of a measure: its picture, the key to the picture, the ways to take it, and its tables. */
const partOf = (measure, n) => made("section", { "aria-labelledby": `part-${n}` },
  made("h2", { id: `part-${n}` }, measure.name), ...partsOf(measure, []), takeOf(measure, n), ...tablesOf(measure, shown.months));

// ---- taking a picture

/** The ways to take the picture of a measure: as SVG, as PNG, and as a page to embed, which shows the newest month if no
 * last one is chosen. */
function takeOf(measure, n) {
  const said = made("span", { role: "status" }), place = `${known.embed}${addressOf({ ...choice, show: [measure.word] })}`;
  const button = (kind, work) => made("button", { type: "button", "aria-label": `${kind}: ${measure.name}`,
    onclick: () => work().then(() => { said.textContent = ""; }, () => { said.textContent = NOT_TAKEN; }) }, kind);
  const named = (kind) => `cpi-${measure.word}-${shown.months[0]}-${shown.months.at(-1)}.${kind}`;
  const svg = () => fileOf(shown.measures[n], shown.months, sourceOf());
  const asSvg = async () => save(new Blob([svg()], { type: "image/svg+xml" }), named("svg"));
  // (an address that begins with data: is the one that the policy of the front lets a picture have)
  const asPng = async () => save(await png(`data:image/svg+xml;charset=utf-8,${encodeURIComponent(svg())}`), named("png"));
  const embed = known.embed ? [made("a", { href: place, "aria-label": t("Page to embed: {name}", { name: measure.name }) },
    t("Page to embed"))] : [];
  return made("p", { class: "take" }, t("Download this chart:"), " ", button("SVG", asSvg), " ", button("PNG", asPng), " ",
    ...embed, " ", said);
}

const NOT_TAKEN = t("The picture can’t be made here.");

/** The lines at the foot of a picture: the office, the revision if one is chosen, and the address of these figures. */
function sourceOf() {
  const revision = choice.revision === "latest" ? [] : [byId("revision").selectedOptions[0].textContent];
  return [[known.source, ...revision].join("; "), ...(hasAddress() ? [byId("cite").textContent] : [])];
}

const hasAddress = () => document.querySelector("link[rel=canonical]") !== null;

/** Offers the file, and the address under which these figures stay. */
function offer() {
  const { items, months, measures } = shown, link = byId("file");
  if (link.href) URL.revokeObjectURL(link.href);
  link.href = URL.createObjectURL(new Blob([csvOf(items, months, measures)], { type: "text/csv" }));
  link.download = `cpi-${months[0]}-${months.at(-1)}.csv`;
  byId("take").hidden = !items.length;
  const periods = new Set(measures.flatMap(({ lines }) => lines.flatMap((line) => line.periods.filter(Boolean))));
  const period = periods.size === 1 ? [...periods][0] : null;
  // (the address of this page that stays: the one that the site names, or else the one at which it was opened)
  const own = document.querySelector("link[rel=canonical]")?.getAttribute("href") ?? location.href;
  const address = new URL(addressOf(fixed(choice, known, period)), own).href;
  byId("cite").href = address;
  byId("cite").textContent = address;
}

// ---- events

picker.chosen = (items) => choose({ items });
picker.failed = failed;
for (const word of FIELDS) byId(word).addEventListener("change", () => choose({ [word]: byId(word).value }));
byId("choice").addEventListener("submit", (event) => event.preventDefault());
addEventListener("popstate", follow);
new ResizeObserver(() => {
  const holder = document.querySelector(".picture");
  if (holder && Math.abs(holder.clientWidth - width) >= 8) width = drawPictures(shown);
}).observe(byId("parts"));
listenToPicker();
fillForm();
byId("without").hidden = true;
// (an address that was sent shows its figures on the first screen of a telephone)
byId("choosing").open = !location.search || innerWidth > NARROW;
byId("choice").hidden = false;
follow();
