// The month of a picture that is pointed at: by a pointer, by a finger, or by the arrow keys.
import { made } from "./elements.js";

const within = (n, least, most) => Math.min(most, Math.max(least, n));

/**
 * Lets a picture of `count` months be pointed at: a line is drawn at the month from `top` to `foot`, and `told` is called
 * with the month, counted from 0, or with null. `x(n)` is where a month is in the picture, which is `width` wide. What a
 * finger has pointed at stays until the picture loses the focus.
 */
export function listenTo(svg, count, { width, top, foot, x }, told) {
  const cursor = made("svg:line", { class: "cursor", y1: top, y2: foot, visibility: "hidden" });
  let at = null;
  const to = (n) => {
    if (n === at) return;
    at = n;
    cursor.setAttribute("visibility", n === null ? "hidden" : "visible");
    if (n !== null) for (const end of ["x1", "x2"]) cursor.setAttribute(end, x(n));
    told(n);
  };
  const monthAt = ({ clientX }) => {
    const box = svg.getBoundingClientRect(), across = (clientX - box.left) * (width / box.width);
    const span = x(count - 1) - x(0);
    return span ? within(Math.round((across - x(0)) / span * (count - 1)), 0, count - 1) : 0;
  };
  svg.append(cursor);
  for (const kind of ["pointermove", "pointerdown"]) svg.addEventListener(kind, (event) => to(monthAt(event)));
  svg.addEventListener("pointerleave", ({ pointerType }) => { if (pointerType !== "touch") to(null); });
  svg.addEventListener("blur", () => to(null));
  svg.addEventListener("keydown", (event) => {
    const by = { ArrowLeft: -1, ArrowRight: 1 }[event.key];
    const end = { Home: 0, End: count - 1 }[event.key];
    if (by === undefined && end === undefined) return;
    event.preventDefault();
    to(end ?? within((at ?? (by < 0 ? count : -1)) + by, 0, count - 1));
  });
}
