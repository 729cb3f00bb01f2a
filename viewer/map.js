// The map: a picture of values over x and y, or of stations, with axes, and the marks above it.

import { sizeCanvas, themeColours } from "./dom.js";
import { drawMarks } from "./marks.js";
import { cellBorders, greatestGap, nearest } from "./nearest.js";
import { Plot } from "./plot.js";
import { paint } from "./raster.js";
import { lengthUnit } from "./text.js";
import { numberTicks } from "./ticks.js";

const MARGINS = { left: 58, right: 12, top: 8, bottom: 30 };
const LEAST_HEIGHT = 180;
const ROOM = 36; // pixels round a box of stations
const STATION_REACH = 16; // pixels from a station within which it is meant

export class MapView {
  /** `base` holds the picture and the axes, `above` the marks; both fill `host`. */
  constructor(host, base, above) {
    Object.assign(this, { host, base, above });
    this.picture = null;
    this.scale = null;
    this.plot = null;
    /** What is marked: `point`, `station`, `line`, `width`, `area`, `draft`, `tool`, `pointer`, `cursor`. */
    this.marks = {};
  }

  /** Shows a picture; `box` is what it shows of stations. */
  show(picture, box, scale) {
    Object.assign(this, { picture, scale, box: picture.kind === "station" ? box : null });
    if (picture.kind === "grid") this.window = MapView.gridWindow(picture);
    this.repaint();
  }

  /** The window of a picture of a grid: the borders of its cells. */
  static gridWindow({ x, y }) {
    const across = cellBorders(x, greatestGap(x, y));
    const up = cellBorders(y, greatestGap(y, x));
    return [across[0], up[0], across.at(-1), up.at(-1)];
  }

  /** The window round a box, with room for points and letters at its border. */
  windowRound([left, bottom, right, top]) {
    const share = ROOM / Math.max(1, this.host.clientWidth - MARGINS.left - MARGINS.right - 2 * ROOM);
    const room = Math.max((right - left) * share, (top - bottom) * share, 10);
    return [left - room, bottom - room, right + room, top + room];
  }

  /** Takes the picture away. */
  clear() {
    this.picture = this.plot = null;
    for (const canvas of [this.base, this.above]) sizeCanvas(canvas, this.host.clientWidth, LEAST_HEIGHT);
  }

  repaint() {
    if (!this.picture) {
      this.clear();
      return;
    }
    const width = this.host.clientWidth;
    if (this.box) this.window = this.windowRound(this.box);
    const height = this.#height(width);
    const context = sizeCanvas(this.base, width, height);
    const colours = themeColours();
    this.plot = Plot.even(this.window, MARGINS, width, height);
    this.#tell();
    if (this.picture.kind === "grid") this.#paintGrid(context, colours);
    this.#drawAxes(context, colours);
    this.redraw();
  }

  /** Tells scripts where the picture stands in the page and on the plane. */
  #tell() {
    const { left, top, width, height } = this.plot.area;
    this.host.dataset.plot = [left, top, width, height].join(" ");
    this.host.dataset.window = this.window.join(" ");
  }

  #height(width) {
    const [left, bottom, right, top] = this.window;
    const wanted = ((width - MARGINS.left - MARGINS.right) * (top - bottom)) / (right - left) + MARGINS.top + MARGINS.bottom;
    return Math.round(Math.max(LEAST_HEIGHT, Math.min(wanted, Math.max(320, window.innerHeight * 0.6))));
  }

  #paintGrid(context, colours) {
    const { x, y, values, inside } = this.picture;
    const columnAt = (at) => nearest(x, this.plot.fromX(at));
    const rowAt = (at) => nearest(y, this.plot.fromY(at));
    paint(context, this.plot, { columnAt, rowAt, values, many: x.length, inside }, this.scale, colours);
  }

  #drawAxes(context, colours) {
    const [left, bottom, right, top] = this.window;
    const { width, height } = this.plot.area;
    const unit = lengthUnit(Math.max(Math.abs(right), Math.abs(left), Math.abs(top), Math.abs(bottom)));
    const ticks = (low, high, about) =>
      numberTicks(low / unit.metres, high / unit.metres, about).map(({ at, text }) => ({ at: at * unit.metres, text }));
    this.plot.drawAxes(context, colours, {
      xTicks: ticks(left, right, width / 70),
      yTicks: ticks(bottom, top, height / 50),
      xTitle: `x, ${unit.symbol}`,
      yTitle: `y, ${unit.symbol}`,
    });
  }

  /** Draws the marks again, without the picture. */
  redraw() {
    if (!this.plot) return;
    const context = sizeCanvas(this.above, this.host.clientWidth, this.base.clientHeight);
    drawMarks(context, this, themeColours());
  }

  /** The point of the plane at a place in pixels, in whole metres; null beside the plot. */
  pointAt(x, y) {
    if (!this.plot?.holds(x, y)) return null;
    return [Math.round(this.plot.fromX(x)), Math.round(this.plot.fromY(y))];
  }

  /** The place in pixels of a point. */
  pixelOf([x, y]) {
    return [this.plot.toX(x), this.plot.toY(y)];
  }

  /** What is under a point of a grid: the node nearest to it, its sample, and whether it was asked for. */
  nodeUnder([x, y]) {
    const { x: xs, y: ys, values, inside } = this.picture;
    const [column, row] = [nearest(xs, x), nearest(ys, y)];
    const place = row * xs.length + column;
    return { column, row, point: [xs[column], ys[row]], sample: values[place], isAsked: !inside || Boolean(inside[place]) };
  }

  /** The station that is meant by a point, or null. */
  stationUnder(point, reach = STATION_REACH) {
    const [atX, atY] = this.pixelOf(point);
    const away = (station) => Math.hypot(this.plot.toX(station.place[0]) - atX, this.plot.toY(station.place[1]) - atY);
    const near = this.picture.points.filter((station) => away(station) <= reach);
    return near.length ? near.reduce((best, station) => (away(station) < away(best) ? station : best)) : null;
  }
}
