// The files of the site that the page reads: the file of each chosen item, and the list of all items. Each is asked for
// once.
import { figureText, t } from "../assets/spoken.js";
import { isolated } from "./elements.js";
import { rowsOf } from "./lines.js";

/** The way from the page to the folder of its language, and to that of the pack, and whether titles are those of the list
 * of items, not of files: the page sets them. */
export const site = { root: "", top: "", isListed: false };

/** A file that can't be had: its name, and the status of the server, 0 if there was no answer. */
export class NoFile extends Error {
  constructor(name, status) {
    const values = { name: isolated(name), status: figureText(String(status)) };
    super(status ? t("{name}: the server answered with status {status}", values) : t("{name}: the server doesn’t respond", values));
    this.status = status;
  }
}

const kept = new Map();

/** The text of a file of the site. Raises NoFile; what failed is asked for again the next time. */
function textOf(name) {
  if (!kept.has(name)) kept.set(name, fetched(name).catch((fault) => { kept.delete(name); throw fault; }));
  return kept.get(name);
}

async function fetched(name) {
  const response = await fetch(name, { credentials: "omit" }).catch(() => { throw new NoFile(name, 0); });
  if (!response.ok) throw new NoFile(name, response.status);
  return response.text();
}

/** An item: its code, its title, its latest rows, and those of earlier revisions if `hasEarlier` asks for them. */
export async function itemOf(code, hasEarlier) {
  const latest = rowsOf(await textOf(`${site.top}node/${code}.csv`));
  const isRevised = hasEarlier && latest.some(({ revision }) => revision !== "1");
  const earlier = isRevised ? rowsOf(await textOf(`${site.top}node/${code}-earlier.csv`).catch(noneOf404)) : [];
  const listed = site.isListed ? (await allItems()).find(([other]) => other === code)?.[1] : undefined;
  return { code, title: listed ?? plain(latest.at(-1).title), latest, earlier };
}

/** A title without the apostrophe that `publish --safe-csv` writes before what a spreadsheet takes for a formula. */
const plain = (title) => title.replace(/^'(?=[=+\-@\t\r\uff1d\uff0b\uff0d\uff20])/, "");

/** (a special aggregate is computed from the latest tables, so it has no file of earlier revisions) */
function noneOf404(fault) {
  if (fault.status === 404) return "";
  throw fault;
}

/** All items as pairs of code and title. */
export const allItems = async () => JSON.parse(await textOf(`${site.root}assets/items.json`));

/** All items of a choice, and the faults of those that can't be had. */
export async function itemsOf({ items, revision }) {
  const answers = await Promise.all(items.map((code) => itemOf(code, revision !== "latest")
    .then((item) => ({ item, fault: null }), (reason) => ({ item: null, fault: { read: code, fault: faultOf(reason) } }))));
  return { found: answers.flatMap(({ item }) => item ?? []), faults: answers.flatMap(({ fault }) => fault ?? []) };
}

/** Why an item isn't shown. */
const faultOf = ({ status, message }) => (status === 404
  ? t("this code belongs to no item or special aggregate on this site")
  : t("{fault}. Reload the page in a moment", { fault: message }));
