// How long the office opens its file, as the front knows it: /opening.json is there only meanwhile.
import { endOf } from "../shared/api.js";
import { clockOf } from "../shared/months.js";

const PATIENCE = 5; // seconds: the next try mustn't wait for this for long

/** When the office is expected to answer, in milliseconds; null if nobody knows, or if that moment is past. */
export async function expectedAt(signal) {
  try {
    const response = await fetch("/opening.json", { cache: "no-store", credentials: "omit", signal: endOf(PATIENCE, signal) });
    const until = response.ok ? (await response.json()).until * 1000 : NaN;
    return until > Date.now() ? until : null;
  } catch {
    return null;
  }
}

/** `17:30`, of a moment that is still to come; none if it is past. */
export const timeToCome = (at) => (at > Date.now() ? clockOf(at) : "");
