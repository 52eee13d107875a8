// When notes and answers go to the desk's machine: at once if the page asks for it, and by themselves less and less often.
import { state } from "./state.js";

/** Seconds between two tries at most. */
export const LONGEST_WAIT = 900;

/**
 * What tries: `again` now, however long the page meant to wait, one try at a time, of one tab; `rest` ends the waiting.
 * `exchange` sends what there is, `reload` shows what came of it, and `wait` gives the seconds until the next try by itself,
 * for those that have grown with each try in vain; null for none.
 */
export function trying(exchange, reload, wait) {
  let isGoing = false, isAsked = false, tries = 0, timer = 0;

  async function again() {
    tries = 0;
    isAsked = true;
    if (isGoing) return;
    isGoing = true;
    try {
      while (isAsked && state.key) {
        isAsked = false;
        // (notes and answers go one way, and the front lets a phone ask two things at a time)
        await navigator.locks.request("cpi-notes", exchange);
        await reload();
      }
    } finally {
      isGoing = false;
      later();
    }
  }

  function later() {
    clearTimeout(timer);
    const seconds = wait(Math.min(LONGEST_WAIT, 2 ** (tries + 1)) * (0.75 + Math.random() / 2));
    if (seconds === null) return;
    timer = setTimeout(async () => {
      const before = tries + 1;
      const going = again();
      tries = before;
      await going;
    }, seconds * 1000);
  }

  return { again, rest: () => clearTimeout(timer) };
}
