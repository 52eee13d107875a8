// Which month is shown: the one whose window is open, until the collector turns to another one.
import { moved } from "../shared/months.js";
import { currentMonth } from "./deadline.js";
import { isOpen } from "./entry.js";
import { notice } from "./head.js";
import * as line from "./line.js";
import { choose, show } from "./list.js";
import { state } from "./state.js";

let followed = null; // the month that was worked on when it was last looked up

/** Begins with the month that is worked on now. */
export function begin() {
  state.month = followed = currentMonth();
}

/** Turns to the month that is worked on by now, on a page that was left open, say; never while a form is open. */
export async function follow() {
  const now = currentMonth();
  if (now === followed || isOpen()) return;
  followed = now;
  if (state.month !== now) await turnTo(now);
}

/** Turns to the month so many months later. */
export const turn = (by) => turnTo(moved(state.month, by));

async function turnTo(month) {
  await turnWithout(month);
  await line.refresh();
}

/** Turns to a month as the phone has it. */
export async function turnWithout(month) {
  state.month = month;
  notice("");
  await show();
  choose();
}
