// The quotes of a month as the office has them: [slot, month, mark, value, receipt] each, by slot. The list of a month
// that a phone keeps also has `former`, the quotes that were replaced since: one of them is there again if the office was
// restored from a copy. It `isDoubted` if something else has shown that.

/** Quotes of a slot that are kept as former ones, at most. */
const FORMER = 4;

/** Whether something is a list of rows that begin with a slot, as quotes and work lists are. */
export const areRows = (rows) =>
  Array.isArray(rows) && rows.every((row) => Array.isArray(row) && Number.isInteger(row[0]));

/** A list with the receipt of an entry, as the office would send it now. */
export function marked(list, { slot, month, mark, value }, receipt) {
  const row = [slot, month, mark, value, receipt], before = list.quotes.find((it) => it[0] === slot);
  const others = list.quotes.filter((it) => it !== before);
  return {
    ...list,
    work: list.work.map((it) => (it[0] === slot ? [...it.slice(0, 7), mark, receipt] : it)),
    quotes: [...others, row].sort((a, b) => a[0] - b[0]),
    former: before && !isEqual(before, row) ? withFormer(list.former, before) : list.former,
  };
}

function withFormer(former = [], row) {
  const own = former.filter(([slot]) => slot === row[0]), others = former.filter(([slot]) => slot !== row[0]);
  return [...others, ...own.slice(1 - FORMER), row];
}

/**
 * Whether a quote was stored since an entry was made, by another device of the collector: it isn't the one that this
 * phone had seen last, and it isn't what this phone has written down itself. (Its receipt is smaller than the one that was
 * seen if the office was restored from a copy, and has given receipts again.)
 */
export function hasMovedOn(entry, quote) {
  if (!quote || quote[4] === (entry.seen ?? 0)) return false;
  const own = [[entry.mark, entry.value], ...(entry.mine ?? [])];
  return !own.some(([mark, value]) => mark === quote[2] && value === quote[3]);
}

// ---- An office that was restored from a copy

const isSame = (a, b) => a[2] === b[2] && a[3] === b[3]; // in mark and value
const isEqual = (a, b) => isSame(a, b) && a[4] === b[4];

/** The greatest receipt of some quotes, or 0. */
export const greatest = (quotes) => quotes.reduce((most, [, , , , receipt]) => Math.max(most, receipt), 0);

/**
 * Whether the receipt of an entry makes one doubt the kept lists: an entry gets a greater one than `top`, the greatest
 * before it, unless its quote was stored already.
 */
export const castsDoubt = (list, { slot, month, mark, value }, receipt, top) => receipt <= top
  && !list?.quotes.some((row) => row[0] === slot && isEqual(row, [slot, month, mark, value, receipt]));

/**
 * Compares the quotes that a phone knows of a month with those that the office has now. In an office that wasn't restored
 * from a copy no quote goes away, and another one of its slot has a greater receipt.
 *
 * `isBack` says whether it was restored. `lost` has what was stored after the moment of the copy and isn't there, as
 * [quote, seen]: `seen` is the receipt of the quote in its place if this phone knew that one before it, else 0. `former`
 * has the former quotes from now on.
 */
export function compared({ quotes: known, former = [] }, quotes) {
  const now = new Map(quotes.map((row) => [row[0], row]));
  const isThere = (row) => now.has(row[0]) && isEqual(row, now.get(row[0]));
  const changed = known.filter((row) => !isThere(row)), intact = greatest(known.filter(isThere));
  const isBack = changed.some((row) => !(now.get(row[0])?.[4] > row[4]));
  const lost = isBack ? changed.filter((row) => isLost(row, now.get(row[0]), intact)) : [];
  const others = changed.filter((row) => !lost.includes(row) && !isSame(row, now.get(row[0])));
  return {
    isBack,
    lost: lost.map((row) => [row, former.some((it) => it[0] === row[0] && isThere(it)) ? now.get(row[0])[4] : 0]),
    // (later receipts were given again since)
    former: others.reduce(withFormer, isBack ? former.filter((row) => row[4] <= intact) : former),
  };
}

/** Whether a quote was stored after the copy's moment, and the office has none in its place, or another one. */
function isLost(row, quote, intact) {
  if (!quote) return true;
  return !isSame(row, quote) && (quote[4] <= row[4] || row[4] > intact);
}
