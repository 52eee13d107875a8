// What a phone keeps of the desk's questions, in a store of its own: those that wait for an answer, as the desk's machine
// gave them last, { who, at, rows }, and the answers that aren't sent, one of a question. An answer is { who, number, month,
// slot, question, row, what, mark, value, receipt, text, at, version, state, fault }: `what` is "confirmed", "corrected" or
// "text"; mark and value are those of the price that it speaks of; `state` is "waiting" or "refused", and `fault` a word for
// why.
import { got } from "./store.js";

let opened = null;

function database() {
  opened ??= got(Object.assign(indexedDB.open("cpi-questions", 1), {
    onupgradeneeded({ target }) {
      target.result.createObjectStore("asked", { keyPath: "who" });
      target.result.createObjectStore("answers", { keyPath: ["who", "number"] });
    },
  }));
  opened.catch(() => { opened = null; });
  return opened;
}

/** Works with a store; what is done is on the disk afterwards. Throws the browser's error. */
async function doing(name, work) {
  const change = (await database()).transaction(name, "readwrite", { durability: "strict" });
  const isDone = new Promise((resolve, reject) => {
    change.oncomplete = resolve;
    change.onabort = () => reject(change.error);
  });
  const [found] = await Promise.all([work(change.objectStore(name)), isDone]);
  return found;
}

/** The questions that wait for an answer: { who, at, rows }, or undefined. */
export const askedOf = (who) => doing("asked", (store) => got(store.get(who)));

/** Keeps the questions in the place of those before. */
export const keepAsked = (who, rows) => doing("asked", (store) => got(store.put({ who, rows, at: Date.now() })));

const ofCollector = (who) => IDBKeyRange.bound([who], [who, []]);

/** The answers of a collector that aren't sent, the first ones first. */
export async function answersOf(who) {
  const found = await doing("answers", (store) => got(store.getAll(ofCollector(who))));
  return found.sort((a, b) => a.at - b.at);
}

/** Keeps an answer in the place of the one before to its question. */
export const keep = (answer) => doing("answers", (store) =>
  got(store.put({ ...answer, version: crypto.randomUUID(), at: Date.now(), state: "waiting", fault: "line" })));

/** Does something with an answer, unless another one took its place. */
const withSame = (answer, work) => doing("answers", async (store) => {
  const now = await got(store.get([answer.who, answer.number]));
  if (now?.version === answer.version) await got(work(store, now));
});

/** Keeps what became of an answer: its `state` and `fault`. */
export const change = (answer, become) => withSame(answer, (store, now) => store.put({ ...now, ...become }));

/** Takes an answer away. */
export const drop = (answer) => withSame(answer, (store) => store.delete([answer.who, answer.number]));

/** Forgets the questions and the answers of a collector. */
export async function forget(who) {
  await doing("asked", (store) => got(store.delete(who)));
  await doing("answers", (store) => got(store.delete(ofCollector(who))));
}
