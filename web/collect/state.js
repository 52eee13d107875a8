// The state of the page: the collector, the month, its list, and the entries that aren't stored.
import { thisMonth } from "../shared/months.js";

export const signedOut = () => ({
  key: null, who: null, name: "", month: thisMonth(), view: "todo",
  list: null, // { work, quotes, at } of the month, as the office sent it last
  entries: [], // all that the office hasn't stored, of all months
  line: "unknown", // "up", "down", "busy", "odd"
  expected: null, // when a busy office is expected to answer, in milliseconds, or null
  refusal: null, // of all that waits: the key is denied (11), or the office's memory or disk failed (90), say
});

export const state = {
  ...signedOut(),
  tolerance: new Map(), // [low, high] in thousandths, by item
  windows: [], // { month, opens, closes, and zones } as the desk has published them, by month
  answers: {}, // by month what the office's last answer says of its window, if the file says otherwise
};

/** Takes the tolerances of a list of items, if there is one. */
export function takeItems(items) {
  if (items) state.tolerance = new Map(items.map(([code, , , low, high]) => [code, [low, high]]));
}

const bySlot = { entries: new Map(), stored: new Map(), rows: new Map() }; // of the month

/** Takes what the phone has kept: the list of the month, or null, and all entries. */
export function takeKept(list, entries) {
  state.list = list;
  bySlot.stored = new Map((list?.quotes ?? []).map((row) => [row[0], row]));
  bySlot.rows = new Map((list?.work ?? []).map((row) => [row[0], row]));
  takeEntries(entries);
}

/** Takes all entries, in the place of those before. What the office lacks counts if its slot has no entry else. */
export function takeEntries(entries) {
  const own = new Set(entries.filter(({ had }) => !had).map(keyOfEntry));
  state.entries = entries.filter((entry) => !entry.had || !own.has(keyOfEntry(entry)));
  bySlot.entries = new Map(entries.filter(({ month }) => month === state.month).map((entry) => [entry.slot, entry]));
}

/** Takes an entry that the phone has kept, in the place of the one before of its slot and month. */
export function takeEntry(entry) {
  takeEntries([...state.entries.filter((it) => keyOfEntry(it) !== keyOfEntry(entry)), entry]);
}

export const keyOfEntry = ({ month, slot }) => `${month}/${slot}`;
export const entryOf = (slot) => bySlot.entries.get(slot);
export const storedOf = (slot) => bySlot.stored.get(slot);
export const rowOf = (slot) => bySlot.rows.get(slot);

/** The entry of a month and slot, whatever month is shown. */
export const entryAt = (month, slot) => state.entries.find((it) => it.month === month && it.slot === slot);

/**
 * What becomes of an entry: "waiting" to be sent, to be looked at again ("look": its price is far from the last one, or
 * another one was stored since), or "refused".
 */
export function kindOf(entry) {
  if (entry.state === "waiting") return "waiting";
  return entry.state === "moved" || entry.reply.refused === 26 ? "look" : "refused";
}

export const countOf = (kind) => state.entries.filter((entry) => kindOf(entry) === kind).length;

/** Whether nothing was entered for a slot, and the office has nothing of it. */
export const isToDo = (slot) => !entryOf(slot) && !storedOf(slot);
