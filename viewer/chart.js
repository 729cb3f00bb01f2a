// A line chart of values over time or over distance, with gaps where values are missing, and the value under the pointer.

import { make, makeSvg, onWidth } from "./dom.js";
import { nearest } from "./nearest.js";
import { numberTicks } from "./ticks.js";

const MARGINS = { left: 52, right: 16, top: 26, bottom: 46 };
const HEIGHT = 248;
const DOTS = 60; // values up to which each has a dot

export class Chart {
  /**
   * `told(place)` hears of the value that is pointed at, by its place or null; `chosen(place)` of a click or Enter on it.
   * The chart is drawn into `host`.
   */
  constructor(host, told, chosen) {
    Object.assign(this, { host, told, chosen, content: null, place: null });
    host.addEventListener("pointermove", (event) => this.#point(this.#placeAt(event)));
    host.addEventListener("pointerleave", () => this.#point(null));
    host.addEventListener("blur", () => this.#point(null));
    host.addEventListener("click", (event) => this.content && this.chosen(this.#placeAt(event)));
    host.addEventListener("keydown", (event) => this.#key(event));
    onWidth(host, () => this.#draw());
  }

  /**
   * Shows `points`, a list of `at` (ascending) and `sample`, NaN where it is missing. `ticks(low, high, most)` marks the axis,
   * `xTitle` and `yTitle` name both; `mark` is a place on the axis that is marked, or null; `isJoined` says whether lines join them.
   */
  show(content) {
    this.content = content;
    this.place = null;
    this.#draw();
  }

  /** Moves the mark alone. */
  mark(at) {
    if (!this.content) return;
    this.content.mark = at;
    this.#draw();
  }

  clear() {
    this.content = null;
    this.host.replaceChildren();
  }

  #draw() {
    const width = this.host.clientWidth;
    if (!this.content || !width) return;
    this.#measure(width);
    const svg = makeSvg("svg", { width, height: HEIGHT, viewBox: `0 0 ${width} ${HEIGHT}`, "aria-hidden": "true" });
    svg.append(...this.#axes(), ...this.#line(), ...this.#missing(), this.#markLine(), (this.cursor = makeSvg("g", { class: "chart-cursor" })));
    this.host.replaceChildren(svg);
    this.#showCursor();
  }

  /** The ranges of both axes, and their scales. */
  #measure(width) {
    const { points } = this.content;
    const samples = points.map(({ sample }) => sample).filter((sample) => !Number.isNaN(sample));
    this.isEmpty = !samples.length;
    const [least, most] = samples.length ? [samples.reduce((a, b) => Math.min(a, b)), samples.reduce((a, b) => Math.max(a, b))] : [0, 1];
    const room = Math.max((most - least) * 0.08, most === least ? 1 : 0);
    [this.low, this.high] = [least - room, most + room];
    [this.first, this.last] = this.content.span ?? [points[0].at, points.at(-1).at];
    if (this.first === this.last) [this.first, this.last] = [this.first - 1, this.last + 1];
    const [wide, high] = [width - MARGINS.left - MARGINS.right, HEIGHT - MARGINS.top - MARGINS.bottom];
    this.right = MARGINS.left + wide;
    this.bottom = MARGINS.top + high;
    this.toX = (at) => MARGINS.left + ((at - this.first) / (this.last - this.first)) * wide;
    this.toY = (sample) => this.bottom - ((sample - this.low) / (this.high - this.low)) * high;
  }

  #axes() {
    const { ticks, xTitle, yTitle } = this.content;
    const parts = [];
    for (const { at, text } of this.isEmpty ? [] : numberTicks(this.low, this.high, 6, 1)) {
      parts.push(lineOf("chart-grid", MARGINS.left, this.toY(at), this.right, this.toY(at)));
      parts.push(textOf(MARGINS.left - 8, this.toY(at) + 4, "end", text));
    }
    for (const { at, text } of ticks(this.first, this.last, Math.max(2, Math.floor((this.right - MARGINS.left) / 74)))) {
      const x = this.toX(at);
      parts.push(lineOf("chart-tick", x, this.bottom, x, this.bottom + 5));
      parts.push(textOf(x, this.bottom + 18, "middle", text));
    }
    parts.push(lineOf("chart-axis", MARGINS.left, this.bottom, this.right, this.bottom));
    parts.push(textOf(this.right, this.bottom + 37, "end", xTitle), textOf(4, 13, "start", yTitle));
    return parts;
  }

  /** The line, with a gap at each missing value; dots where there are few values, or one that stands alone. */
  #line() {
    const { points, isJoined } = this.content;
    const many = Math.max(1, Math.ceil(points.length / (2 * (this.right - MARGINS.left))));
    const shown = many > 1 ? thinned(points, many) : points;
    const isPresent = (place) => shown[place] && !Number.isNaN(shown[place].sample);
    let path = "";
    const dots = [];
    shown.forEach(({ at, sample }, place) => {
      if (!isPresent(place)) return;
      const [x, y] = [this.toX(at).toFixed(1), this.toY(sample).toFixed(1)];
      path += `${isJoined && isPresent(place - 1) ? "L" : "M"}${x} ${y}`;
      const isAlone = !isPresent(place - 1) && !isPresent(place + 1);
      if (!isJoined || isAlone || points.length <= DOTS) dots.push(makeSvg("circle", { class: "chart-dot", cx: x, cy: y, r: 3 }));
    });
    return [makeSvg("path", { class: "chart-line", d: path }), ...dots];
  }

  /** A small cross at the bottom for each missing value. */
  #missing() {
    const missing = this.content.points.filter(({ sample }) => Number.isNaN(sample));
    const seen = new Set(missing.map(({ at }) => Math.round(this.toX(at))));
    const y = this.bottom - 6;
    return [...seen].map((x) => makeSvg("path", { class: "chart-missing", d: `M${x - 3} ${y - 3}l6 6m0-6l-6 6` }));
  }

  #markLine() {
    const { mark } = this.content;
    if (mark === null || mark === undefined || mark < this.first || mark > this.last) return makeSvg("g");
    return lineOf("chart-mark", this.toX(mark), MARGINS.top, this.toX(mark), this.bottom);
  }

  #placeAt(event) {
    if (!this.content) return null;
    const x = event.clientX - this.host.getBoundingClientRect().left;
    const at = this.first + ((x - MARGINS.left) / (this.right - MARGINS.left)) * (this.last - this.first);
    return nearest(this.content.points.map((point) => point.at), at);
  }

  #key(event) {
    if (!this.content) return;
    const last = this.content.points.length - 1;
    const step = { ArrowLeft: -1, ArrowRight: 1, PageDown: -10, PageUp: 10, Home: -Infinity, End: Infinity }[event.key];
    if (step) this.#point(this.place === null ? this.#marked() : Math.min(last, Math.max(0, this.place + step)));
    else if (event.key === "Enter" && this.place !== null) this.chosen(this.place);
    else return;
    event.preventDefault();
  }

  /** The place of the mark, where the keys begin. */
  #marked() {
    const { mark, points } = this.content;
    return nearest(points.map((point) => point.at), mark ?? points[0].at);
  }

  #point(place) {
    if (place === this.place || !this.content) return;
    this.place = place;
    this.#showCursor();
    this.told(place);
  }

  #showCursor() {
    this.cursor.replaceChildren();
    if (this.place === null) return;
    const { at, sample } = this.content.points[this.place];
    this.cursor.append(lineOf("", this.toX(at), MARGINS.top, this.toX(at), this.bottom));
    if (!Number.isNaN(sample)) this.cursor.append(makeSvg("circle", { cx: this.toX(at), cy: this.toY(sample), r: 5 }));
  }
}

/** Of each so many neighbours the least and the greatest, in their order, and a missing one where there is one. */
function thinned(points, many) {
  const kept = [];
  for (let first = 0; first < points.length; first += many) {
    const part = points.slice(first, first + many);
    const present = part.filter(({ sample }) => !Number.isNaN(sample)).sort((one, other) => one.sample - other.sample);
    const ends = new Set([present[0], present.at(-1), part.find(({ sample }) => Number.isNaN(sample))]);
    kept.push(...part.filter((point) => ends.has(point)));
  }
  return kept;
}

const lineOf = (name, x1, y1, x2, y2) => makeSvg("line", { class: name, x1, y1, x2, y2 });
const textOf = (x, y, anchor, text) => makeSvg("text", { x, y, "text-anchor": anchor }, text);

/** A table of pairs, the first thousand of them, behind a line that opens it. */
export function tableOf(heads, rows) {
  const shown = rows.slice(0, 1000);
  const table = make("table", {}, make("thead", {}, make("tr", {}, ...heads.map((head) => make("th", { scope: "col" }, head)))));
  table.append(make("tbody", {}, ...shown.map((cells) => make("tr", {}, ...cells.map((cell) => make("td", {}, cell))))));
  const parts = [make("summary", {}, "Values as a table"), make("div", { class: "table-host", tabindex: "0" }, table)];
  if (shown.length < rows.length) parts.push(make("p", { class: "muted" }, `The first ${shown.length} of ${rows.length} values.`));
  return make("details", { class: "table" }, ...parts);
}
