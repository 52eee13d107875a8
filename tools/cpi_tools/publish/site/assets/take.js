// A PNG of each picture that a page offers as SVG: drawn by the browser from that file, three times its size.
// A page that is opened from a disk can't load modules, so this is a plain script; the page for choosing takes its first
// part.
"use strict";

/** How many times as large as the SVG a PNG is. */
const SCALE = 3;

/** The picture of an SVG as PNG. Rejects if the browser doesn't read it, or doesn't give out what it has drawn. */
async function png(address) {
  const image = new Image();
  image.src = address;
  await image.decode();
  const canvas = document.createElement("canvas");
  canvas.width = image.naturalWidth * SCALE;
  canvas.height = image.naturalHeight * SCALE;
  canvas.getContext("2d").drawImage(image, 0, 0, canvas.width, canvas.height);
  return new Promise((made, failed) => canvas.toBlob((blob) => (blob ? made(blob) : failed(new Error("no PNG"))), "image/png"));
}

/** Saves a file under a name. */
function save(blob, name) {
  const link = document.createElement("a");
  link.href = URL.createObjectURL(blob);
  link.download = name;
  link.click();
  setTimeout(() => URL.revokeObjectURL(link.href), 60_000);
}

if (typeof module !== "undefined") module.exports = { png, save };

// ---- the pictures of a page

/** What is said if there is none. */
const NOT_MADE = document.currentScript?.dataset.fault ?? "";

for (const link of document.querySelectorAll(".take a[download]")) {
  const button = document.createElement("button");
  button.type = "button";
  button.textContent = "PNG";
  button.setAttribute("aria-label", link.getAttribute("aria-label").replace("SVG", "PNG"));
  const said = document.createElement("span");
  said.setAttribute("role", "status");
  button.addEventListener("click", async () => {
    said.textContent = "";
    try {
      save(await png(link.href), link.href.split("/").pop().replace(/svg$/, "png"));
    } catch {
      said.textContent = NOT_MADE;
    }
  });
  link.after(" ", button);
  link.parentElement.append(" ", said);
}
