// Says that the office was restored from a copy, and what was sent again, until its collector has read that.
import { form, tn, whole } from "../shared/texts.js";
import { noticeUntilRead } from "./head.js";
import { forgetSentAgain, sentAgain } from "./kept-lists.js";
import { state } from "./state.js";

/** Says what was sent again of a collector, if that wasn't read yet. */
export async function showSentAgain({ key, who }) {
  const receipts = await sentAgain(who);
  if (receipts.length === 0 || state.who !== who) return;
  noticeUntilRead(() => inWords(receipts), () => forgetSentAgain({ key, who }));
}

function inWords(numbers) {
  const count = numbers.length, receipts = { receipts: inRanges(numbers) };
  // t: {receipts} are numbers of receipts, such as 6–8, 12
  return tn("The office was restored from a copy that lacked {count} of your entries. This phone sent it again and "
    + "got a new receipt: {receipts}.", "The office was restored from a copy that lacked {count} of your entries. "
    + "This phone sent them again and got new receipts: {receipts}.", count, receipts);
}

/** Numbers as `6–8, 12`. */
function inRanges(numbers) {
  const ranges = [];
  for (const number of [...numbers].sort((a, b) => a - b)) {
    if (ranges.at(-1)?.[1] === number - 1) ranges.at(-1)[1] = number;
    else ranges.push([number, number]);
  }
  const texts = ranges.map(([first, last]) => (first === last ? whole(first) : `${whole(first)}–${whole(last)}`));
  return form(Intl.ListFormat, { type: "unit", style: "short" }).format(texts);
}
