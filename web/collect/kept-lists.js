// The lists of months that the phone keeps: { work, quotes, at }, and more of the quotes (quotes.js). What the office
// answers to entries is written into them. Whatever quotes come from it are compared with those that it had before: if it
// was restored from a copy, what it lacks becomes entries, which are sent again.
import { castsDoubt, compared, greatest, marked } from "./quotes.js";
import { got, ofCollector, placeOf, within, writeAs } from "./store.js";

const TOP = "top", AGAIN = "again"; // beside the lists: the greatest receipt, and the receipts of what was sent again

/** All lists of a collector, [month, list] each. */
export const listsOf = (who) => within(["lists"], "readonly", (lists) => monthsIn(lists, who));

async function monthsIn(lists, who) {
  const [keys, all] = await Promise.all([lists.getAllKeys(ofCollector(who)), lists.getAll(ofCollector(who))].map(got));
  return all.map((list, n) => [keys[n][1], list]).filter(([, { work }]) => work);
}

/** Doubts all lists: the office may lack something of each. */
async function doubtAll(lists, who) {
  const months = await monthsIn(lists, who);
  await Promise.all(months.map(([month, list]) => got(lists.put({ ...list, isDoubted: true }, [who, month]))));
}

/** Forgets the lists of months of which a function says that they are past. */
export const forgetLists = (collector, isPast) => writeAs(collector, ["lists"], async (lists) => {
  const past = (await monthsIn(lists, collector.who)).filter(([month]) => isPast(month));
  await Promise.all(past.map(([month]) => got(lists.delete([collector.who, month]))));
});

// ---- What comes from the office

/**
 * Keeps what came of the list of a month: its quotes, and perhaps other parts of it. True if the office was restored from
 * a copy: then what it lacks becomes entries, and the other lists are doubted. Else quotes without other parts aren't kept.
 */
export const keepList = (collector, month, { quotes, ...parts }) =>
  writeAs(collector, ["queue", "lists"], async (queue, lists) => {
    const { who } = collector, list = await got(lists.get([who, month]));
    const { isBack, lost, former } = compared(list ?? { quotes: [] }, quotes);
    if (!isBack && Object.keys(parts).length === 0) return false;
    if (isBack) await doubtAll(lists, who);
    for (const [quote, seen] of lost) await putBack(queue, who, { quote, seen, list });
    await got(lists.put({ ...list, ...parts, quotes, former, isDoubted: false }, [who, month]));
    const known = isBack ? (await monthsIn(lists, who)).map(([, it]) => greatest(it.quotes)) : [await topOf(lists, who)];
    await got(lists.put(Math.max(...known, greatest(quotes)), [who, TOP]));
    return isBack;
  });

const topOf = async (lists, who) => (await got(lists.get([who, TOP]))) ?? 0;

/**
 * Makes an entry of a quote that the office lacks. It was looked at before, so it is confirmed. If its slot has an own
 * entry, that one is sent behind it.
 */
async function putBack(queue, who, { quote: [slot, month, mark, value, had], seen, list }) {
  const own = await got(queue.get(placeOf(who, { month, slot, had: 0 })));
  if (own) await got(queue.put({ ...own, seen, mine: [...(own.mine ?? []), [mark, value]] }));
  const [name] = placeOf(who, { month, slot, had }), row = list.work.find((it) => it[0] === slot);
  const made = { state: "waiting", version: crypto.randomUUID(), at: Date.now() };
  await got(queue.put({ who: name, month, slot, mark, value, confirm: true, row, seen, had, ...made }));
}

// ---- What it answers

/**
 * Settles entries that were answered, [entry, reply] each, and writes their receipts into the kept lists, as the office
 * would tell them now. An entry that was changed since it was sent stays, and knows the receipt.
 */
export const settle = (collector, answered) => writeAs(collector, ["queue", "lists"], async (queue, lists) => {
  const { who } = collector, kept = new Map(), again = []; // kept: the list of a month
  let top = await topOf(lists, who), isDoubted = false;
  for (const [sent, reply] of answered) {
    const { month } = sent, { receipt } = reply;
    await settleOne(queue, who, sent, reply);
    if (!kept.has(month)) kept.set(month, await got(lists.get([who, month])));
    const list = kept.get(month);
    if (!receipt) continue;
    isDoubted ||= castsDoubt(list, sent, receipt, top);
    top = Math.max(top, receipt);
    if (list) kept.set(month, marked(list, sent, receipt));
    if (sent.had) again.push(receipt);
  }
  for (const [month, list] of kept) if (list) await got(lists.put(list, [who, month]));
  await got(lists.put(top, [who, TOP]));
  if (again.length) await got(lists.put([...(await got(lists.get([who, AGAIN])) ?? []), ...again], [who, AGAIN]));
  if (isDoubted) await doubtAll(lists, who);
});

async function settleOne(queue, who, sent, reply) {
  const place = placeOf(who, sent), now = await got(queue.get(place));
  // (what an own entry has replaced isn't wanted any more)
  if (reply.receipt && !sent.had) queue.delete(placeOf(who, { ...sent, had: 1 }));
  if (now?.version === sent.version) {
    await got(reply.receipt ? queue.delete(place) : queue.put(refused(now, reply)));
  } else if (now && reply.receipt) {
    await got(queue.put({ ...now, seen: reply.receipt }));
  }
}

/** An entry with its refusal, and how often in a row it was refused so before. */
function refused(entry, reply) {
  const isSame = entry.state === "refused" && entry.reply.refused === reply.refused;
  return { ...entry, state: "refused", reply, tried: Date.now(), times: isSame ? (entry.times ?? 0) + 1 : 0 };
}

/**
 * Marks entries of a month of which the office has another quote, stored since they were made: [entry, quote] each. The
 * kept list has that quote from now on.
 */
export const keepMoved = (collector, month, moved) => writeAs(collector, ["queue", "lists"], async (queue, lists) => {
  const { who } = collector;
  let list = await got(lists.get([who, month]));
  for (const [sent, [slot, , mark, value, receipt]] of moved) {
    const now = await got(queue.get(placeOf(who, sent))), theirs = { mark, value, receipt };
    if (list) list = marked(list, { slot, month, mark, value }, receipt);
    if (now?.version !== sent.version) continue;
    await got(queue.put({ ...now, state: "moved", reply: theirs, tried: Date.now() }));
  }
  if (list) await got(lists.put(list, [who, month]));
});

/** The new receipts of what was sent again, until the collector has read them. */
export const sentAgain = async (who) =>
  (await within(["lists"], "readonly", (lists) => got(lists.get([who, AGAIN])))) ?? [];

/** The collector has read them. */
export const forgetSentAgain = (collector) =>
  writeAs(collector, ["lists"], (lists) => got(lists.delete([collector.who, AGAIN])));
