// What hands do on the map: the pointer and the keys, by the tool that is chosen.

import { simplified } from "./geometry.js";

const CLOSE = 5; // pixels within which two places are one
const FREEHAND = 8; // pixels between the positions of a line that is drawn with the button held
const LOOSE = 2; // pixels by which such a line may be made straight
const LEAST = { box: 2, area: 3, line: 2 };
const ARROWS = { ArrowLeft: [-1, 0], ArrowRight: [1, 0], ArrowDown: [0, -1], ArrowUp: [0, 1] };

export class MapInput {
  /** `told` has `hover(point)`, `choose(point)`, `drawn(tool, points)` and `changed(points)`, of the draft. */
  constructor(map, told) {
    Object.assign(this, { map, told, tool: "point", draft: [], isHeld: false, isFreehand: false });
    const above = map.above;
    above.addEventListener("pointerdown", (event) => this.#down(event));
    above.addEventListener("pointermove", (event) => this.#move(event));
    above.addEventListener("pointerup", (event) => this.#up(event));
    above.addEventListener("pointercancel", () => this.cancel());
    above.addEventListener("pointerleave", (event) => this.isHeld || event.pointerType === "touch" || told.hover(null));
    above.addEventListener("dblclick", () => this.tool !== "box" && this.finish());
    above.addEventListener("keydown", (event) => this.#key(event));
    above.addEventListener("blur", () => this.#moveCursor(null));
  }

  choose(tool) {
    this.tool = tool;
    this.cancel();
  }

  /** Gives up what is being drawn. */
  cancel() {
    this.isHeld = false;
    this.#set([]);
  }

  /** Takes the last position back. */
  undo() {
    this.#set(this.draft.slice(0, -1));
  }

  /** Ends what is being drawn, where it has enough positions. */
  finish() {
    const points = this.draft;
    if (points.length < LEAST[this.tool]) return;
    this.#set([]);
    this.told.drawn(this.tool, points);
  }

  get canFinish() {
    return this.draft.length >= (LEAST[this.tool] ?? Infinity);
  }

  #set(points) {
    this.draft = points;
    this.told.changed(points);
  }

  #pointOf(event) {
    const { left, top } = this.map.above.getBoundingClientRect();
    return this.map.pointAt(event.clientX - left, event.clientY - top);
  }

  #away(one, other) {
    const [[fromX, fromY], [toX, toY]] = [this.map.pixelOf(one), this.map.pixelOf(other)];
    return Math.hypot(toX - fromX, toY - fromY);
  }

  #isNew(point, reach = CLOSE) {
    return !this.draft.length || this.#away(this.draft.at(-1), point) > reach;
  }

  #down(event) {
    const point = this.#pointOf(event);
    if (!point || event.button !== 0 || this.tool === "point") return;
    this.map.above.setPointerCapture(event.pointerId);
    this.isHeld = true;
    this.isFreehand = false;
    if (this.tool === "box" && this.draft.length) return;
    if (this.#isNew(point)) this.#set([...this.draft, point]);
  }

  #move(event) {
    const point = this.#pointOf(event);
    if (point && this.isHeld && this.tool !== "box" && this.#isNew(point, FREEHAND)) {
      this.isFreehand = true;
      this.#set([...this.draft, point]);
    }
    this.told.hover(point);
  }

  #up(event) {
    const point = this.#pointOf(event);
    if (this.tool === "point" && point && event.button === 0) this.told.choose(point);
    if (!this.isHeld) return;
    this.isHeld = false;
    if (this.tool === "box") this.#corner(point);
    else if (this.isFreehand) this.#endFreehand();
  }

  /** The second corner of a box, where it is apart from the first. */
  #corner(point) {
    if (!point || !this.#isNew(point)) return;
    this.#set([...this.draft, point]);
    this.finish();
  }

  #endFreehand() {
    const [one, other] = [this.map.plot.fromX(0), this.map.plot.fromX(LOOSE)];
    this.draft = simplified(this.draft, other - one);
    this.finish();
  }

  #key(event) {
    if (!this.map.picture) return;
    if (ARROWS[event.key]) this.#step(ARROWS[event.key], event.shiftKey ? 10 : 1);
    else if (event.key === "Enter") this.#enter();
    else if (event.key === "Backspace") this.undo();
    else if (event.key === "Escape") this.cancel();
    else return;
    event.preventDefault();
  }

  #enter() {
    const point = this.map.marks.cursor ?? this.#start();
    this.#moveCursor(point);
    if (this.tool === "point") this.told.choose(point);
    else if (!this.draft.length || this.#away(this.draft.at(-1), point) > 0) this.#set([...this.draft, point]);
    else this.finish();
    if (this.tool === "box" && this.canFinish) this.finish();
  }

  /** Where the cursor begins: at the place that is chosen, or in the middle. */
  #start() {
    const [left, bottom, right, top] = this.map.window;
    const middle = [Math.round((left + right) / 2), Math.round((bottom + top) / 2)];
    return this.#onNode(this.map.marks.point ?? middle);
  }

  #onNode(point) {
    return this.map.picture.kind === "grid" ? this.map.nodeUnder(point).point : point;
  }

  /** Moves the cursor by nodes of a grid, or else by a fortieth of the map. */
  #step([right, up], many) {
    const from = this.map.marks.cursor;
    if (!from) return this.#moveCursor(this.#start());
    const isGrid = this.map.picture.kind === "grid";
    return this.#moveCursor(this[isGrid ? "nodeBeside" : "placeBeside"](from, right * many, up * many));
  }

  nodeBeside(from, right, up) {
    const { column, row } = this.map.nodeUnder(from);
    const { x, y } = this.map.picture;
    return [x[within(column + right, 0, x.length - 1)], y[within(row + up, 0, y.length - 1)]];
  }

  placeBeside([x, y], right, up) {
    const [west, south, east, north] = this.map.window;
    const step = Math.max(1, Math.round(Math.max(east - west, north - south) / 40));
    return [within(x + right * step, Math.ceil(west), Math.floor(east)), within(y + up * step, Math.ceil(south), Math.floor(north))];
  }

  #moveCursor(point) {
    if (!point && !this.map.marks.cursor) return;
    this.map.marks.cursor = point;
    this.told.hover(point);
  }
}

const within = (value, low, high) => Math.min(high, Math.max(low, value));
