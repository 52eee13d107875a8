// The second look: a price that is far from the last one is asked about before its form closes. The bounds are those of
// the item's tolerance, as the office has them; the office decides.
import { bounds } from "../shared/money.js";
import { state } from "./state.js";

/** The bounds of a row's price, { last, low, high } in minor units; null if it has no last price, or no tolerance. */
export function boundsOf([, , , item, , , last]) {
  const tolerance = state.tolerance.get(item);
  return last === null || !tolerance ? null : bounds(last, ...tolerance);
}

/** Whether a price lies outside bounds. */
export const isOutside = (price, found) => found !== null && (price < found.low || price > found.high);

/** The refusal that the office would give a price that is far from the last one, or null. */
export function farFrom({ mark, value }, row) {
  const found = mark === "price" || mark === "comparable" ? boundsOf(row) : null;
  return isOutside(value, found) ? { refused: 26, ...found } : null;
}
