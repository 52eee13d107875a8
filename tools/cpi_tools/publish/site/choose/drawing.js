// A picture of the page as a file, for a report or another site: SVG for white paper, with its title, its unit, its key and
// its source in it. Its colours are attributes, in the light colours of choose.css, since not each program reads a style
// sheet. What is too long for a line is broken by the usual width of letters.
import { made, isolated } from "./elements.js";
import { MOST_LINES, pictureOfMeasure, unitOf } from "./shown.js";

const WIDE = 640, EDGE = 12; // the picture, and what is left free round the whole
const LETTER = 0.55; // the width of a letter, in sizes of its font
const FONT = "system-ui, 'Segoe UI', Roboto, Arial, sans-serif";

const INK = "#17222d", SOFT = "#526170", RULE = "#d9e0e6";
export const COLOURS = ["#0a5c7d", "#b1521d", "#17713f", "#7a3b9a", "#80620a", "#b81f5b"];
export const DASHES = ["", "7 4", "3 3", "12 4 2 4", "14 5", "4 2 1 2"];

/** What an element of a class looks like. */
const LOOKS = {
  grid: { stroke: RULE, fill: "none" }, zero: { stroke: SOFT, fill: "none" },
  break: { stroke: SOFT, "stroke-width": 1.5, "stroke-dasharray": "2 3", fill: "none" },
  end: { "text-anchor": "end" }, middle: { "text-anchor": "middle" },
};

/** The attributes of a line, or of a dot at its end. */
export const lookOf = (n) => ({ fill: "none", stroke: COLOURS[n], "stroke-width": [0, 2].includes(n) ? 3 : 2.2, "stroke-linejoin": "round",
  ...(DASHES[n] ? { "stroke-dasharray": DASHES[n] } : {}) });

/** A measure as a file: a text of SVG; `source` are the lines at its foot. Raises Error if it has no figure in these months. */
export function fileOf(measure, months, source) {
  const picture = pictureOfMeasure(measure, months, WIDE, () => {});
  if (!picture) throw new Error("no figure");
  const { name, lines } = measure, few = lines.slice(0, MOST_LINES);
  const [, , , high] = picture.getAttribute("viewBox").split(" ").map(Number), label = picture.getAttribute("aria-label");
  const parts = [], add = (...more) => parts.push(...more);
  let top = EDGE;
  const write = (text, size, looks = {}, before = 0) => {
    for (const line of broken(text, (WIDE - before) / (LETTER * size))) {
      top += size * 1.3;
      add(made("svg:text", { x: EDGE + before, y: top - size * 0.3, "font-size": size, ...looks }, line));
    }
  };
  write(name, 14, { "font-weight": 650, fill: INK });
  write(unitOf(measure), 11.5);
  add(made("svg:g", { transform: `translate(${EDGE} ${top})` }, ...withLooks(picture)));
  top += high;
  few.forEach(({ title, hundred }, n) => {
    add(made("svg:path", { d: `M${EDGE} ${top + 9}h32`, ...lookOf(n) }));
    write(isolated(title) + (hundred ? ` (${hundred})` : ""), 11.5, {}, 42);
  });
  top += 6;
  source.forEach((line) => write(line, 10.5));
  const size = { width: WIDE + 2 * EDGE, height: Math.ceil(top + EDGE) };
  const whole = made("svg:svg", { ...size, viewBox: `0 0 ${size.width} ${size.height}`, role: "img", "font-size": 12.5,
    fill: SOFT, "font-family": FONT }, made("svg:title", {}, label),
  made("svg:rect", { width: "100%", height: "100%", fill: "#ffffff" }), ...parts);
  return new XMLSerializer().serializeToString(whole);
}

/** The elements of a picture with attributes in place of classes, without the line at the month that is pointed at. */
function withLooks(picture) {
  picture.querySelector(".cursor").remove();
  for (const element of picture.querySelectorAll("[class]")) {
    const name = element.getAttribute("class"), line = /^curve curve-(\d)$/.exec(name), dot = /^curve-dot-(\d)$/.exec(name);
    const looks = line ? lookOf(Number(line[1])) : dot ? { fill: COLOURS[Number(dot[1])] } : LOOKS[name] ?? {};
    element.removeAttribute("class");
    for (const [word, value] of Object.entries(looks)) element.setAttribute(word, String(value));
  }
  return [...picture.children];
}

/** The lines of a text, each at most so many letters long; a longer word is cut. */
export function broken(text, most) {
  const lines = [""];
  for (const word of text.split(/\s+/).flatMap((it) => it.match(new RegExp(`.{1,${Math.floor(most)}}`, "gsu")) ?? [])) {
    const longer = lines.at(-1) ? `${lines.at(-1)} ${word}` : word;
    if ([...longer].length <= most) lines[lines.length - 1] = longer;
    else lines.push(word);
  }
  return lines;
}
