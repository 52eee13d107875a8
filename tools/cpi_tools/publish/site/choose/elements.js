// Elements are made from texts only; nothing is read as markup.
//
// A text of others (a title, the office, an address that somebody typed) is an element of its own, `bdi`, or isolated if
// there is no place for an element: so it can't turn the words next to it (Unicode Standard Annex 9, isolates).
// `cpi_tools/text/others.py` has the rule for what Python writes.

const SVG = "http://www.w3.org/2000/svg";

export const byId = (id) => document.getElementById(id);

/** An element with attributes and children. A name such as `svg:path` is one of a picture; `on..` are listeners. */
export function made(name, attributes = {}, ...children) {
  const [kind, prefix] = name.split(":").reverse();
  const element = prefix ? document.createElementNS(SVG, kind) : document.createElement(kind);
  for (const [word, value] of Object.entries(attributes)) {
    if (word.startsWith("on")) element.addEventListener(word.slice(2), value);
    else if (value === true) element.setAttribute(word, "");
    else if (value !== false) element.setAttribute(word, value);
  }
  element.append(...children);
  return element;
}

/** A text of others as an element. */
export const others = (text) => made("bdi", {}, closed(text));

/** A text of others between FIRST STRONG ISOLATE and POP DIRECTIONAL ISOLATE. */
export const isolated = (text) => `\u2068${closed(text)}\u2069`;

/**
 * A text that can't leave its element: each isolate of its own is closed, what would close another one is left out, and
 * what would begin a paragraph is a space.
 */
function closed(text) {
  let open = 0;
  const kept = text.replace(/[\n\r\x1c-\x1e\x85\u2029]/g, " ").replace(/[\u2066-\u2069]/g, (sign) => {
    if (sign === "\u2069" && open === 0) return "";
    open += sign === "\u2069" ? -1 : 1;
    return sign;
  });
  return kept + "\u2069".repeat(open);
}
