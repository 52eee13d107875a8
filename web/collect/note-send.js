// Sends notes to the desk's application, at /notes/ of the front, under the collector's key.

const SECONDS = 120; // for a photograph on a slow line

/** Words for why a note isn't taken that won't be other ones if it is sent again. */
const FOR_GOOD = new Set(["form", "picture", "long", "many", "past"]);

/** Asks; [status, reply], the reply being null if it isn't the application's. Throws if no answer comes. */
export async function ask(path, key, body) {
  const response = await fetch(`/notes/${path}`, {
    method: body ? "POST" : "GET", headers: { Authorization: `CPI-Key ${key}` }, body, cache: "no-store",
    credentials: "omit", redirect: "error", referrerPolicy: "no-referrer", signal: /** @type {any} */ (AbortSignal).timeout?.(SECONDS * 1000),
  });
  const isJson = (response.headers.get("Content-Type") ?? "").startsWith("application/json");
  const reply = isJson ? await response.json() : null;
  return [response.status, reply];
}

function formOf({ isSale, brand, quantity, text, photo }, receipt) {
  const form = new FormData();
  form.set("receipt", String(receipt));
  for (const [name, value] of Object.entries({ sale: isSale ? "yes" : "", brand, quantity, text })) {
    if (value) form.set(name, value);
  }
  if (photo) form.set("photo", photo, "photo.jpg");
  return form;
}

/**
 * Sends a note of a price with a receipt. { number } once it is kept there; else { fault, isForGood }: a word for why not,
 * and whether sending it again changes nothing.
 */
export async function send({ key }, note, receipt) {
  try {
    const [status, reply] = await ask(`${note.month}/${note.slot}`, key, formOf(note, receipt));
    if (status === 200 && Number.isInteger(reply?.note)) return { number: reply.note };
    const fault = status === 413 ? "long" : reply?.refused || status === 401 ? "key" : reply?.fault ?? wordOf(status);
    return { fault, isForGood: FOR_GOOD.has(fault) };
  } catch {
    return { fault: "line", isForGood: false };
  }
}

/** A word for why there is no answer, by the status of what came. */
export const wordOf = (status) => (status === 429 || status >= 500 ? "busy" : "none");

/** What the desk has of a collector's month, [number, slot, receipt, at, isSale, brand, quantity, text, hasPhoto] each; or
 * null. */
export async function sentOf({ key }, month) {
  const [, reply] = await ask(month, key).catch(() => [0, null]);
  return Array.isArray(reply?.notes) ? reply.notes : null;
}
