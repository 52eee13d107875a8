// The tabs of one browser: each hears of the changes that another one makes.

const channel = new BroadcastChannel("cpi-collect");

/** Tells the other tabs what has changed: the key ("key"), entries ("entries"), or what is stored ("answered"). */
export const tell = (what) => channel.postMessage(what);

/** Calls back with each change in another tab. */
export const listen = (heard) => channel.addEventListener("message", ({ data }) => heard(data));
