// The search in the head of each page: it leads to the list of all items, which finds by codes, words and slips.
// A page that is opened from a disk can't load modules, so this is a plain script; without it a link leads to that list.
"use strict";

for (const form of document.querySelectorAll("header form[role=search]")) {
  form.hidden = false;
  form.addEventListener("submit", (event) => {
    event.preventDefault();
    location.href = `${form.dataset.to}#${new URLSearchParams({ seek: form.elements.seek.value.trim() })}`;
  });
}
