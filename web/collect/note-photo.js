// A photograph is drawn anew from its pixels before it is kept, so nothing is left of what a camera adds: the place, the
// moment and the device.
import { MOST_PHOTO_BYTES, MOST_PHOTO_SIDE } from "./note-limits.js";

const QUALITIES = [0.82, 0.7, 0.55, 0.4]; // of JPEG, the best first

/** A JPEG of a picture's pixels, upright, as small as is wanted; null if the browser sees no picture in the file. */
export async function drawnAnew(file) {
  const picture = await createImageBitmap(file).catch(() => null);
  if (!picture) return null;
  for (let side = MOST_PHOTO_SIDE; ; side *= 0.75) {
    const canvas = drawn(document.createElement("canvas"), picture, side);
    for (const quality of QUALITIES) {
      const made = await new Promise((end) => { canvas.toBlob(end, "image/jpeg", quality); });
      if (!made || made.size <= MOST_PHOTO_BYTES) return made;
    }
  }
}

/** Draws a picture into a canvas, as large as it is, or with so many pixels on its longer side at most. */
function drawn(canvas, picture, side) {
  const scale = Math.min(1, side / Math.max(picture.width, picture.height));
  canvas.width = Math.max(1, Math.round(picture.width * scale));
  canvas.height = Math.max(1, Math.round(picture.height * scale));
  const pen = canvas.getContext("2d");
  pen.fillStyle = "#fff"; // (of a picture that one sees through)
  pen.fillRect(0, 0, canvas.width, canvas.height);
  pen.drawImage(picture, 0, 0, canvas.width, canvas.height);
  return canvas;
}

/** Shows a photograph in a canvas; none hides it. */
export async function showIn(canvas, photo) {
  canvas.hidden = !photo;
  if (photo) drawn(canvas, await createImageBitmap(photo), 320);
}
