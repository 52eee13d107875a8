// The windows of the months, as the desk has published them beside the pages: when each opens and closes, in seconds
// since 1970 UTC, and perhaps what the office's clock calls its time then, with how many seconds it is ahead of UTC.

const FILE = new URL("../calendar.json", import.meta.url);

/** The published windows by month, none if the desk publishes none; null if they can't be had now, or make no sense. */
export async function readWindows() {
  try {
    const response = await fetch(FILE, { cache: "no-cache", credentials: "omit", redirect: "error" });
    if (response.status === 404) return [];
    if (!response.ok) return null;
    const { months } = await response.json();
    return months.every(isWindow) ? months.sort((a, b) => (a.month < b.month ? -1 : 1)) : null;
  } catch {
    return null;
  }
}

const LAST = 8_640_000_000_000; // the last moment of a Date (ECMA-262)

const isMoment = (at) => Number.isInteger(at) && at >= 0 && at <= LAST;
const isZone = (it) => it === undefined
  || (Array.isArray(it) && /^[A-Z][A-Za-z0-9+:-]{0,9}$/.test(it[0]) && Number.isInteger(it[1]) && Math.abs(it[1]) < 86_400);
const isWindow = ({ month, opens, closes, opens_zone, closes_zone }) =>
  /^[0-9]{4}-(0[1-9]|1[0-2])$/.test(month) && isMoment(opens) && isMoment(closes) && opens < closes
  && isZone(opens_zone) && isZone(closes_zone);
