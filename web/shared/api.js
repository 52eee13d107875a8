// Asks the office over its interface at /api/. A key goes in the field Authorization alone, never in an address.

/** No answer of the office came: what was asked may have been done or not. Asking the same again is safe. */
export class NoAnswer extends Error {
  constructor(kind, wait = 0) {
    super(kind);
    // "line": nothing came; "busy": the front said to come again, and the office wasn't asked; "lost": the front was
    // not answered; "odd": an answer came that isn't the office's.
    this.kind = kind;
    this.wait = wait; // seconds
  }
}

/** The reply as an object, or a table as { text }. What is asked is given up after so many seconds, or by a signal. */
export async function ask(method, path, { key, body, seconds = 60, signal } = {}) {
  const headers = key ? { Authorization: `CPI-Key ${key}` } : {};
  if (body !== undefined) headers["Content-Type"] = "text/csv; charset=utf-8";
  let response, text;
  try {
    response = await fetch(`/api${path}`, {
      method, headers, body, cache: key ? "no-store" : "default", credentials: "omit", redirect: "error",
      referrerPolicy: "no-referrer", signal: endOf(seconds, signal),
    });
    text = await response.text();
  } catch {
    throw new NoAnswer("line");
  }
  const type = response.headers.get("Content-Type") ?? "";
  if (type.startsWith("application/json")) {
    const reply = parsed(text);
    if (reply) return reply;
  } else if (response.ok && type.startsWith("text/") && !type.startsWith("text/html")) {
    return { text };
  }
  // It was the front, not the office, that answered.
  if (response.status === 401) return { refused: 11 }; // a key that is denied there
  if (response.status === 400 || response.status === 404 || response.status === 413) return { refused: 10 };
  const kind = response.ok ? "odd" : response.status === 429 || response.status === 503 ? "busy" : "lost";
  throw new NoAnswer(kind, Number(response.headers.get("Retry-After")) || 0);
}

/** A signal that ends after so many seconds, or with another one, as far as the browser can join them. */
export function endOf(seconds, signal) {
  const late = AbortSignal.timeout?.(seconds * 1000);
  return signal && late ? AbortSignal.any?.([signal, late]) ?? late : signal ?? late;
}

function parsed(text) {
  try {
    const reply = JSON.parse(text);
    return reply !== null && typeof reply === "object" ? reply : null;
  } catch {
    return null;
  }
}
