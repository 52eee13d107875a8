"""A walk over a page in another language, at 360 pixels: nothing is cut, covered or left in English."""

from __future__ import annotations

import os
from pathlib import Path

from .browser import Browser
from .readable import CUT, SEEN, faults_enlarged, faults_for_keys, faults_of_page

PICTURES = os.environ.get("CPI_PICTURES")
"""A folder for pictures of each step, if somebody wants to look."""

LEFT = (
    SEEN
    + """
const found = [], isEnglish = (text) => /[A-Za-z]{2,}/.test(text);
const walker = document.createTreeWalker(document, NodeFilter.SHOW_TEXT);
for (let node = walker.nextNode(); node; node = walker.nextNode()) {
  const holder = node.parentElement;
  if (holder.closest("bdi, script, style, noscript, [data-language], #language")) continue;
  if (isEnglish(node.data)) found.push(`left: ${node.data}`);
}
for (const element of document.querySelectorAll("[aria-label], [placeholder], [title], [alt]")) {
  for (const name of ["aria-label", "placeholder", "title", "alt"]) {
    if (isEnglish(element.getAttribute(name) ?? "")) found.push(`left in ${name}: ${element.getAttribute(name)}`);
  }
}
return found;
"""
)
"""Texts in Latin letters, seen or not; those of the office are in elements of their own."""

COVERED = (
    SEEN
    + """
const found = [], range = document.createRange(), texts = [];
const walker = document.createTreeWalker(open ?? document.body, NodeFilter.SHOW_TEXT);
for (let node = walker.nextNode(); node; node = walker.nextNode()) {
  const holder = node.parentElement;
  if (!node.data.trim() || !isSeen(holder) || holder.closest("#notice, #head, .price-row, noscript, .before")) continue;
  range.selectNodeContents(node);
  const shown = holder.closest(".saved, #entry-outlet, #entry-item")?.getBoundingClientRect();
  for (const box of range.getClientRects()) {
    if (!box.width || (shown && box.bottom > shown.bottom + 1)) continue;
    texts.push({ node, box });
    const framed = holder.closest("button, .chip, label, .notice, .card, summary, dialog"), frame = framed?.getBoundingClientRect();
    const isScrolled = framed && ["auto", "scroll"].includes(getComputedStyle(framed).overflowY);
    if (box.left < -1 || box.right > innerWidth + 1) found.push(`outside: ${node.data}`);
    if (frame && (box.left < frame.left - 1 || box.right > frame.right + 1 || (!isScrolled && box.bottom > frame.bottom + 4))) {
      found.push(`over its edge: ${node.data}`);
    }
  }
}
const isOver = ({ node }) => node.parentElement.closest("#storage") !== null; // (it lies over the page until it was read)
for (const [n, one] of texts.entries()) {
  for (const other of texts.slice(n + 1)) {
    if (one.node === other.node || isOver(one) !== isOver(other)) continue;
    const wide = Math.min(one.box.right, other.box.right) - Math.max(one.box.left, other.box.left);
    const high = Math.min(one.box.bottom, other.box.bottom) - Math.max(one.box.top, other.box.top);
    if (wide > 1 && high > 5) found.push(`covered: ${one.node.data} / ${other.node.data}`);
  }
}
return found;
"""
)
"""Texts outside the window or their frame, and those that lie over each other by more than the air between lines."""


HIDDEN = (
    SEEN
    + """
const pen = document.createElement("canvas").getContext("2d");
return all("input[placeholder]").filter((field) => {
  const { font, paddingInlineStart, paddingInlineEnd } = getComputedStyle(field);
  pen.font = font;
  return pen.measureText(field.placeholder).width > field.clientWidth - parseFloat(paddingInlineStart) - parseFloat(paddingInlineEnd);
}).map((field) => `cut: ${field.placeholder}`);
"""
)
"""Placeholders that are longer than their field; those of several lines are wrapped."""


CLIPPED = (
    SEEN
    + """
const hides = (way) => way === "hidden" || way === "clip";
return all("body *").filter((element) => {
  const { overflowX, overflowY } = getComputedStyle(element), { scrollWidth, clientWidth, scrollHeight, clientHeight } = element;
  return !["INPUT", "PROGRESS"].includes(element.nodeName) && clientWidth > 0
    && ((hides(overflowX) && scrollWidth > clientWidth + 1) || (hides(overflowY) && scrollHeight > clientHeight + 1));
}).map((element) => `clipped: ${element.outerHTML.slice(0, 200)}`);
"""
)
"""Elements that hide a part of what is in them, and have no bar to scroll it by."""

UNDER = (
    SEEN
    + """
const fields = all("input, select, textarea, button, a, summary").filter((it) => !it.disabled);
const inWindow = (n, most) => Math.min(Math.max(n, 1), most - 1);
const before = document.activeElement;
before.blur();
const found = [...fields, ...fields.toReversed()].filter((it) => {
  it.focus();
  const { left, top, width, height } = it.getBoundingClientRect(), marked = it.closest("label") ?? it;
  return !marked.contains(document.elementFromPoint(inWindow(left + width / 2, innerWidth), top + height / 2));
});
before.focus({ preventScroll: true });
return found.map((it) => `under something: ${it.outerHTML.slice(0, 200)}`);
"""
)
"""Fields and buttons that something covers as they have the focus, from the first to the last and back."""


class Walk:
    """What is looked at on the way: `faults` is what was found wrong, each with the step at which it was."""

    def __init__(self, browser: Browser, language: str):
        self.browser, self.language, self.count = browser, language, 0
        self.faults: list[str] = []

    def look(self, name: str) -> None:
        """What is wrong with what is seen now."""
        self.count += 1
        browser = self.browser
        browser.run("if (!document.querySelector('dialog[open]')) scrollTo(0, 0)")
        if PICTURES:
            file = f"{self.language}-{browser.run('return innerWidth')}-{self.count:02}-{name}.png"
            browser.picture(Path(PICTURES) / file, not browser.all("dialog[open]"))
        self.found(
            name, *faults_of_page(browser), *(it for each in (CUT, LEFT, COVERED, HIDDEN) for it in browser.run(each))
        )
        assert browser.run("return document.documentElement.lang") == self.language

    def look_at_form(self, name: str) -> None:
        """The same, with the focus of each part, and twice the size."""
        self.look(name)
        self.found(name, *faults_for_keys(self.browser), *faults_enlarged(self.browser))

    def found(self, name: str, *faults: str) -> None:
        """Notes what is wrong at a step."""
        self.faults += [f"{name}: {fault}" for fault in faults]


class Enlarged(Walk):
    """What is looked at where a text needs much room: it is twice the size, or the window is small."""

    def look(self, name: str) -> None:
        """The same; nothing is hidden either, and nothing lies over what has the focus."""
        super().look(name)
        self.found(name, *self.browser.run(CLIPPED), *self.browser.run(UNDER))

    def look_at_form(self, name: str) -> None:
        """The same, with the focus of each part."""
        self.look(name)
        self.found(name, *faults_for_keys(self.browser))
