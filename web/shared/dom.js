// Elements are made from texts alone. Nothing in these pages reads text as markup.
//
// A text that others wrote (a title, an item, an outlet, the office, a file, a cell) is drawn in an element of its own,
// `make("bdi", {}, text)`, and in an attribute or an option it is `isolated(text)`: so neither its direction nor an
// override in it turns the words next to it (Unicode Standard Annex 9, isolates).

export const find = (id) => document.getElementById(id);

/** An element with attributes and children; a child that is no element becomes text. */
export function make(name, attributes = {}, ...children) {
  const kept = (child) => (typeof child === "string" ? closed(child) : child);
  return filled(document.createElement(name), attributes, name === "bdi" ? children.map(kept) : children);
}

function filled(element, attributes, children) {
  for (const [name, value] of Object.entries(attributes)) {
    if (name.startsWith("on")) element.addEventListener(name.slice(2), value);
    else if (value === true) element.setAttribute(name, "");
    else if (value !== false && value !== null && value !== undefined) element.setAttribute(name, value);
  }
  element.append(...children.filter((child) => child !== null && child !== undefined).map((child) =>
    child instanceof Node ? child : document.createTextNode(String(child))));
  return element;
}

/** A text of others for a place that has no elements: between FIRST STRONG ISOLATE and POP DIRECTIONAL ISOLATE. */
export const isolated = (text) => `\u2068${closed(text)}\u2069`;

/**
 * A text that can't leave its element: each isolate of its own is closed, what would close another one is left out, and
 * what would begin a paragraph is a space.
 */
function closed(text) {
  let open = 0;
  const kept = text.replace(/[\r\x1c-\x1e\x85\u2029]/g, " ").replace(/[\u2066-\u2069]/g, (mark) => {
    if (mark === "\u2069" && open === 0) return "";
    open += mark === "\u2069" ? -1 : 1;
    return mark;
  });
  return kept + "\u2069".repeat(open);
}

/**
 * Makes an element like a fresh one, and leaves alone what is the same, children with an id by their id (their order
 * never changes): what has the focus, or is being touched, stays. Listeners of fresh elements aren't taken over.
 */
export function becomes(element, fresh) {
  for (const { name } of [...element.attributes]) if (!fresh.hasAttribute(name)) element.removeAttribute(name);
  for (const { name, value } of fresh.attributes) {
    if (element.getAttribute(name) !== value) element.setAttribute(name, value);
  }
  const wanted = [...fresh.childNodes];
  for (const [n, child] of wanted.entries()) {
    if (child.id) {
      const same = [...element.childNodes].slice(n).find((found) => found.id === child.id);
      while (same && element.childNodes[n] !== same) element.childNodes[n].remove();
      if (!same) {
        element.insertBefore(child, element.childNodes[n] ?? null);
        continue;
      }
    }
    const now = element.childNodes[n];
    if (!now) element.append(child);
    else if (now.isEqualNode(child)) continue;
    else if (now instanceof Element && now.nodeName === child.nodeName) becomes(now, child);
    else now.replaceWith(child);
  }
  while (element.childNodes.length > wanted.length) element.lastChild.remove();
}
