// The small page that shows a choice in a frame of another site: its pictures with their keys, and the way to the page for
// choosing, with the same choice. Without a last month in its address it shows the newest one.
import { t } from "../assets/spoken.js";
import { choiceOf } from "./choice.js";
import { byId, isolated, made } from "./elements.js";
import { itemsOf, site } from "./files.js";
import { drawPictures, partsOf, shownOf, tellIn } from "./shown.js";

const known = byId("parts").dataset; // first, last, base, reference, moment, revisions: see chosen.html
site.root = "../";
site.top = `../${known.top ?? ""}`;
site.isListed = known.titles === "listed";

async function show() {
  const { choice, faults } = choiceOf(location.search, known);
  const answers = await itemsOf(choice), shown = shownOf(choice, answers.found, known);
  tellIn(byId("fault"), [...faults, ...answers.faults]);
  byId("parts").replaceChildren(...shown.measures.map((measure) => made("section", {},
    ...partsOf(measure, [measure.name]))));
  drawPictures(shown);
  addEventListener("resize", () => drawPictures(shown));
}

byId("without").hidden = true;
byId("choose").href = `../choose.html${location.search}`;
show().catch((fault) => tellIn(byId("fault"),
  [{ read: t("This page"), fault: t("an error occurred: {fault}", { fault: isolated(fault.message) }) }]));
