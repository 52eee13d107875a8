// Takes the entries that aren't stored out of the phone, as a copy or a file, for a collector whose key or phone can't
// send them: the desk can enter them then.
import { written } from "../shared/csv.js";
import { make } from "../shared/dom.js";
import { t } from "../shared/texts.js";
import { state } from "./state.js";
import { whyNotStored } from "./wording.js";

const COLUMNS = ["month", "slot", "outlet", "item", "unit", "mark", "value", "confirmed", "written", "state"];

/**
 * All entries that aren't stored, as CSV (RFC 4180): prices in minor units, the moment of writing in UTC, or none if the
 * office had stored the entry before it was restored from a copy. The desk reads it, so its columns and marks have the
 * names of records in every language; the state is for people.
 */
function asCsv() {
  const rows = state.entries.map((entry) => {
    const [, , outlet = "", , text = "", unit = ""] = entry.row ?? [];
    return [entry.month, entry.slot, outlet, text, unit, entry.mark, entry.value, entry.confirm ? "yes" : "",
      entry.had ? "" : new Date(entry.at).toISOString(), stateOf(entry)];
  });
  return [COLUMNS, ...rows].map((row) => `${row.map((value) => written(String(value))).join(",")}\r\n`).join("");
}

const SHOWN = 5000; // milliseconds for which the button says what became of a copy

const stateOf = (entry) => (entry.state === "waiting" && !state.refusal
  // t: of an entry, in a column of the file that "Save as a file" writes
  ? t("to be sent") : whyNotStored(entry));

async function copy({ target }) {
  const isCopied = await navigator.clipboard.writeText(asCsv()).then(() => true, () => false);
  // t: what the button "Copy all" says for a few seconds
  target.textContent = isCopied ? t("Copied") : t("The browser doesn’t allow copying: use “Save as a file”");
  setTimeout(() => { target.textContent = t("Copy all"); }, SHOWN);
}

function save() {
  const address = URL.createObjectURL(new Blob([asCsv()], { type: "text/csv" }));
  const day = new Date().toISOString().slice(0, 10);
  // t: the name of a file; {day} is such as 2026-11-27
  const name = t("not-stored-{day}", { day });
  make("a", { href: address, download: `${name}.csv` }).click();
  setTimeout(() => URL.revokeObjectURL(address), 60_000);
}

/** The events of the buttons, wherever the page has them. */
export function listen() {
  for (const button of document.querySelectorAll("[data-do=copy]")) button.addEventListener("click", copy);
  for (const button of document.querySelectorAll("[data-do=save]")) button.addEventListener("click", save);
}
