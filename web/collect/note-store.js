// The notes that a phone keeps until they are sent, in a store of their own: one of a collector, month and slot.
// { who, month, slot, version, at, row, mark, value, isSale, brand, quantity, text, photo, state, fault }: mark and value
// are those of the price that the note is of; `photo` is a JPEG or null; `state` is "waiting" or "refused", and `fault` a
// word for why.
import { got } from "./store.js";

let opened = null;

function database() {
  opened ??= got(Object.assign(indexedDB.open("cpi-notes", 1), {
    onupgradeneeded({ target }) {
      target.result.createObjectStore("notes", { keyPath: ["who", "month", "slot"] });
    },
  }));
  opened.catch(() => { opened = null; });
  return opened;
}

/** Works with the store; what is done is on the disk afterwards. Throws the browser's error. */
async function doing(work) {
  const change = (await database()).transaction("notes", "readwrite", { durability: "strict" });
  const isDone = new Promise((resolve, reject) => {
    change.oncomplete = resolve;
    change.onabort = () => reject(change.error);
  });
  const [found] = await Promise.all([work(change.objectStore("notes")), isDone]);
  return found;
}

const placeOf = ({ who, month, slot }) => [who, month, slot];
const ofCollector = (who) => IDBKeyRange.bound([who], [who, []]);

/** The notes of a collector, the first ones first. */
export async function notesOf(who) {
  const found = await doing((store) => got(store.getAll(ofCollector(who))));
  return found.sort((a, b) => a.at - b.at);
}

/** Keeps a note in the place of the one before of its slot and month. It waits for its price first. */
export const keep = (note) =>
  doing((store) => got(store.put({ ...note, version: crypto.randomUUID(), at: Date.now(), state: "waiting", fault: "price" })));

/** Does something with a note, unless another one took its place. */
const withSame = (note, work) => doing(async (store) => {
  const now = await got(store.get(placeOf(note)));
  if (now?.version === note.version) await got(work(store, now));
});

/** Keeps what became of a note: its `state` and `fault`. */
export const change = (note, become) => withSame(note, (store, now) => store.put({ ...now, ...become }));

/** Takes a note away. */
export const drop = (note) => withSame(note, (store) => store.delete(placeOf(note)));

/** Forgets all notes of a collector. */
export const forget = (who) => doing((store) => got(store.delete(ofCollector(who))));
