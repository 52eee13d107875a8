// A browser that may clear what it keeps: said once something is kept, and at a start with entries that wait, until the
// collector has read it. The notice lies over the end of the page, so no row moves.
import { find } from "../shared/dom.js";
import * as store from "./store.js";

/** Says it, unless the browser keeps its data for good, or it was read. */
export async function showStorage() {
  const isSafe = await navigator.storage?.persisted?.().catch(() => false);
  find("storage").hidden = isSafe || Boolean(await store.isNoticeRead());
}

/** The event of the notice. */
export function listen() {
  find("storage-read").addEventListener("click", async () => {
    await store.keepNoticeRead();
    find("storage").hidden = true;
  });
}
