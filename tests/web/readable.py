"""What any page owes its readers, asked of the browser: contrast, names, room for a finger, no sideways scroll."""

from __future__ import annotations

from collections.abc import Sequence

from .browser import Browser

LEAST_PIXELS = 44
"""What is touched is at least so wide and high, links in a text aside."""

SEEN = """
const sheet = new CSSStyleSheet();
sheet.replaceSync("* { content-visibility: visible !important; }");
document.adoptedStyleSheets = [sheet];
const open = document.querySelector("dialog[open]");
const isSeen = (element) => element.checkVisibility({ checkOpacity: true, checkVisibilityCSS: true })
  && (!open || element.closest("dialog[open]"));
const all = (selector) => [...document.querySelectorAll(selector)].filter(isSeen);
"""
"""What is seen, or will be once it is scrolled to: a browser needn't have laid that out by itself."""

COLOURS = (
    SEEN
    + """
const parts = (text) => text.match(/[\\d.]+/g).map(Number);
const ground = (element) => {
  for (let at = element; at; at = at.parentElement) {
    const [r, g, b, a = 1] = parts(getComputedStyle(at).backgroundColor);
    if (a === 1) return [r, g, b];
  }
  return [255, 255, 255];
};
const linear = (n) => (n <= .04045 ? n / 12.92 : ((n + .055) / 1.055) ** 2.4);
const light = (colour) => colour.slice(0, 3).map((n) => linear(n / 255))
  .reduce((sum, n, at) => sum + n * [.2126, .7152, .0722][at], 0);
const contrast = (one, other) => {
  const [a, b] = [light(one), light(other)].sort((x, y) => y - x);
  return (a + .05) / (b + .05);
};
const found = [];
"""
)
"""What the scripts below count with: `ground(element)` is the colour that something is drawn on, and `contrast` is that
of two colours by WCAG 2.2."""

CONTRASTS = (
    COLOURS
    + """
for (const element of all("body *")) {
  const own = [...element.childNodes].filter((node) => node.nodeType === 3).map((node) => node.data.trim()).join("");
  const text = own || element.value || element.placeholder;
  if (!text || element.closest("option, noscript, title, progress, .unseen")) continue;
  const style = getComputedStyle(element, own || element.value ? null : "::placeholder");
  const ink = parts(element instanceof SVGElement ? style.fill : style.color);
  const has = contrast(ink, ground(element));
  if (has < 4.5) found.push(`${text.slice(0, 30)}: contrast ${has.toFixed(2)}`);
}
return found;
"""
)

EDGES = (
    COLOURS
    + """
for (const element of all("button, a.button, input:not([type=file]), select, textarea")) {
  const style = getComputedStyle(element), around = ground(element.parentElement);
  const isDrawn = style.borderStyle !== "none" && style.borderWidth !== "0px";
  if (element.disabled || !isDrawn || ["checkbox", "radio"].includes(element.type)) continue;
  const has = Math.max(contrast(parts(style.borderTopColor), around), contrast(ground(element), around));
  if (has < 3) found.push(`edge ${has.toFixed(2)}: ${element.outerHTML.slice(0, 100)}`);
}
return found;
"""
)
"""Fields and buttons whose edge, or whose own ground, is hardly seen. What the browser draws itself is left to it."""

NAMELESS = (
    SEEN
    + """
const isNamed = (element) => element.labels?.length || element.getAttribute("aria-label") || element.textContent.trim();
return all("input, select, textarea, button, a, svg[role=img]").filter((element) => !isNamed(element))
  .map((element) => `no name: ${element.outerHTML.slice(0, 100)}`);
"""
)

SMALL = (
    SEEN
    + """
const isSmall = ({ width, height }) => height < arguments[0] || width < arguments[0];
return all("input:not([type=checkbox], [type=radio]), select, textarea, button, summary, a.button, "
  + "label:has([type=checkbox], [type=radio])")
  .filter((element) => isSmall(element.getBoundingClientRect()))
  .map((element) => `small: ${element.outerHTML.slice(0, 100)}`);
"""
)

WIDE = (
    "const { scrollWidth } = document.documentElement; return scrollWidth > innerWidth ? [`${scrollWidth} wide`] : [];"
)


MARKS = (
    COLOURS
    + """
for (const element of document.querySelectorAll(arguments[0])) {
  const { stroke, fill } = getComputedStyle(element);
  const has = contrast(parts(stroke === "none" ? fill : stroke), ground(element));
  if (has < 3) found.push(`mark ${has.toFixed(2)}: ${element.outerHTML.slice(0, 60)}`);
}
return found;
"""
)
"""Lines and dots of a picture, by a selector, that are hardly seen."""

FOCUS = (
    COLOURS
    + """
if (!document.hasFocus()) return ["the page has no focus"];
for (const element of all("input, select, textarea, button, a, summary, [tabindex]")) {
  if (element.disabled) continue;
  const marked = element.closest(".choice label") ?? element;
  const told = () => { const style = getComputedStyle(marked); return `${style.outlineStyle} ${style.outlineWidth}`; };
  element.blur();
  const before = told();
  element.focus({ focusVisible: true });
  if (document.activeElement !== element) found.push(`no focus: ${element.outerHTML.slice(0, 100)}`);
  else if (told() === before || !told().startsWith("solid")) found.push(`not seen: ${element.outerHTML.slice(0, 100)}`);
  const style = getComputedStyle(marked);
  const on = style.outlineOffset.startsWith("-") ? marked : marked.parentElement;
  const has = contrast(parts(style.outlineColor), ground(on));
  if (has < 3) found.push(`ring ${has.toFixed(2)}: ${element.outerHTML.slice(0, 100)}`);
}
document.activeElement.blur();
return found;
"""
)
"""What a keyboard can't reach, what isn't marked when it does, and each ring with a contrast below 3 to the ground that it
is drawn on: that of the parent, or of the element itself if the ring is drawn within it."""


TURNED = (
    SEEN
    + """
const found = [], range = document.createRange();
const boxOf = (node, at) => {
  range.setStart(node, at);
  range.setEnd(node, at + 1);
  return [...range.getClientRects()].find(({ width }) => width > 0);
};
const isOfOneLine = (one, other) => Math.abs(one.top - other.top) < Math.min(one.height, other.height) / 2;
const walker = document.createTreeWalker(document.body, NodeFilter.SHOW_TEXT);
for (let node = walker.nextNode(); node; node = walker.nextNode()) {
  const holder = node.parentElement, other = node.previousSibling;
  if (!isSeen(holder) || holder.closest("bdi, option, textarea, script, style, noscript, .unseen, .hidden")) continue;
  let before = other?.nodeName === "BDI" ? { right: [...other.getClientRects()].at(-1) } : {};
  for (let at = 0, deep = 0; at < node.data.length; at += 1) {
    deep += { "\u2068": 1, "\u2069": -1 }[node.data[at]] ?? 0;
    const box = deep ? null : boxOf(node, at);
    if (!box) continue;
    const { left, right } = before;
    if (left && isOfOneLine(left, box) && box.left < left.left) { found.push(`turned: ${node.data}`); break; }
    if (right && isOfOneLine(right, box) && box.left < right.right - 1) { found.push(`before: ${node.data}`); break; }
    before = { left: box };
  }
}
return found;
"""
)
"""Our own texts that are drawn from right to left, or to the left of the text of others that they follow. All pages are
in English."""

BARE = """
const found = [], [texts] = arguments;
const isBare = (text) => {
  const left = text.replace(/\u2068[^\u2069]*\u2069/g, "");
  return texts.some((one) => left.includes(one.slice(0, 4)));
};
const walker = document.createTreeWalker(document, NodeFilter.SHOW_TEXT);
for (let node = walker.nextNode(); node; node = walker.nextNode()) {
  if (isBare(node.data) && !node.parentElement.closest("bdi, script, style, textarea")) found.push(`bare: ${node.data}`);
}
for (const element of document.querySelectorAll("*")) {
  for (const { name, value } of element.attributes) if (isBare(value)) found.push(`bare ${name}: ${value}`);
}
return found;
"""
"""Each place at which one of some texts of others is neither in an element of its own nor between isolates."""


def faults_of_texts(browser: Browser, texts: Sequence[str]) -> list[str]:
    """What is wrong with a page that has texts of others: each has to be isolated, and none turns our own."""
    faults: list[str] = [*browser.run(TURNED), *browser.run(BARE, texts)]
    return faults


def faults_for_keys(browser: Browser) -> list[str]:
    """What is wrong with a page for a person who uses only a keyboard."""
    browser.in_front()
    faults: list[str] = browser.run(FOCUS)
    return faults


def faults_enlarged(browser: Browser) -> list[str]:
    """What is wrong with a page whose letters are twice as large."""
    browser.run("document.documentElement.style.fontSize = '200%'")
    found: list[str] = [*browser.run(WIDE), *browser.run(CUT)]
    browser.run("document.documentElement.style.fontSize = ''")
    return found


CUT = (
    SEEN
    + """
const isCut = (element) => getComputedStyle(element).overflowX !== "visible" ? false
  : element.scrollWidth > element.clientWidth + 1 && element.clientWidth > 0;
return all("button, h1, h2, h3, p, label, legend, dd").filter(isCut)
  .map((element) => `cut: ${element.outerHTML.slice(0, 100)}`);
"""
)
"""Texts that are wider than their box."""


SHORTENED = (
    SEEN
    + """
const found = [];
for (const list of all("select")) {
  const copy = list.cloneNode(false);
  copy.append(...[...list.selectedOptions].map((it) => it.cloneNode(true)));
  copy.style.cssText = "position: absolute; width: max-content; max-width: none; min-width: 0;";
  list.after(copy);
  if (copy.offsetWidth > list.offsetWidth + 1) found.push(`shortened: ${list.selectedOptions[0].textContent}`);
  copy.remove();
}
return found;
"""
)
"""What is chosen in a list, where the list is too narrow to show it whole."""

BROKEN = (
    SEEN
    + r"""
const found = [], range = document.createRange();
for (const element of all(arguments[0])) {
  const walker = document.createTreeWalker(element, NodeFilter.SHOW_TEXT);
  for (let node = walker.nextNode(); node; node = walker.nextNode()) {
    for (const { 0: word, index } of node.data.matchAll(/[\p{L}\p{M}\p{N}]+/gu)) {
      range.setStart(node, index);
      range.setEnd(node, index + word.length);
      const tops = new Set([...range.getClientRects()].map((it) => Math.round(it.top)));
      if (tops.size > 1) found.push(`broken: ${word}`);
    }
  }
}
return found;
"""
)
"""Words of some elements that go on in the next line."""


def faults_of_page(browser: Browser) -> list[str]:
    """What is wrong with what is seen of a page, each in a line, and what the page said against itself."""
    faults: list[str] = [*browser.run(CONTRASTS), *browser.run(EDGES), *browser.run(NAMELESS)]
    return [*faults, *browser.run(SMALL, LEAST_PIXELS), *browser.run(WIDE), *browser.faults()]


def faults_at_sizes(browser: Browser, texts: Sequence[str]) -> list[str]:
    """What is wrong with a page, wide and narrow, light and dark, for a keyboard, and with its texts of others."""
    faults = list[str]()
    for width in (360, 1280):
        browser.size(width, 900)
        for scheme in ("light", "dark"):
            browser.shown_as(scheme)
            faults += [f"at {width}, {scheme}: {fault}" for fault in faults_of_page(browser)]
    browser.shown_as("light")
    return [*faults, *faults_for_keys(browser), *faults_of_texts(browser, texts)]
