// The table of weights: Enter and the arrows go from row to row, a column that is pasted goes down from its field, and
// whoever leaves the page with changes that aren't saved is asked. Without this script each field is filled in by itself,
// and Enter saves the table.
const form = document.getElementById("weights");
let isSaving = false;

/** The fields of a column, from the top down. */
const column = (name) => [...form.querySelectorAll(`input[type=text][name=${name}]`)];

/** Goes so many rows on from a field, if there is such a row. */
function go(field, step) {
  const all = column(field.name), next = all[all.indexOf(field) + step];
  next?.focus();
  next?.select();
  return Boolean(next);
}

function pressed(event) {
  const steps = { Enter: event.shiftKey ? -1 : 1, ArrowDown: 1, ArrowUp: -1 };
  const isPlain = !event.ctrlKey && !event.altKey && !event.metaKey && !event.isComposing;
  if (!(event.key in steps) || !isPlain || !event.target.matches("input[type=text]")) return;
  event.preventDefault();
  go(event.target, steps[event.key]);
}

/** Fills a pasted column in from a field on; what has more columns, or more rows than are left, isn't taken apart here. */
function pasted(event) {
  const lines = event.clipboardData.getData("text").replace(/\r?\n$/, "").split(/\r?\n/);
  const all = column(event.target.name), at = all.indexOf(event.target);
  if (at < 0 || lines.length < 2 || lines.some((line) => line.includes("\t")) || lines.length > all.length - at) return;
  event.preventDefault();
  lines.forEach((line, row) => { all[at + row].value = line.trim(); });
  go(all[at], lines.length - 1);
}

/** Whether something was typed that isn't saved, also in rows that were refused. */
const isUnsaved = () => form.querySelector("tr.refused") !== null
  || [...form.querySelectorAll("input[type=text]")].some((field) => field.value !== field.defaultValue);

if (form) {
  form.addEventListener("submit", () => { isSaving = true; });
  addEventListener("beforeunload", (event) => {
    if (!isSaving && isUnsaved()) event.preventDefault();
  });
  form.addEventListener("keydown", pressed);
  form.addEventListener("paste", pasted);
}
