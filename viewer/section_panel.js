// The section along a line: a picture of distance and level, or of distance and time, or a chart of values along the line.

import { Chart } from "./chart.js";
import { byId, onWidth, sizeCanvas, themeColours } from "./dom.js";
import { showLegend } from "./legend.js";
import { askedLink, Message } from "./message.js";
import { cellBorders, greatestGap, nearest } from "./nearest.js";
import { Plot } from "./plot.js";
import { paint } from "./raster.js";
import { Scale } from "./scale.js";
import { length, lengthUnit, number, seconds, time, unit, value } from "./text.js";
import { clockText, numberTicks, timeTicks } from "./ticks.js";

const MARGINS = { left: 58, right: 14, top: 10, bottom: 32 };
const HEIGHT = 240;
const FEW = 10; // rows up to which each has a tick

export class SectionPanel {
  /** `pointed(point)` hears of the node of the map under the pointer, or null. */
  constructor(pointed) {
    this.pointed = pointed;
    this.message = new Message(byId("section-message"));
    this.section = null;
    this.cursor = null;
    this.canvas = byId("section-canvas");
    this.chart = new Chart(byId("section-chart"), (place) => this.#readPoint(place), () => {});
    this.canvas.addEventListener("pointermove", (event) => this.#point(this.#under(event)));
    this.canvas.addEventListener("pointerleave", () => this.#point(null));
    this.canvas.addEventListener("blur", () => this.#point(null));
    this.canvas.addEventListener("keydown", (event) => this.#key(event));
    onWidth(byId("section-panel"), () => this.repaint());
  }

  empty(text) {
    this.#clear();
    this.message.hint(text);
    byId("section-close").hidden = true;
    byId("width-field").hidden = true;
  }

  /** Shows the line and the width; the values come later. */
  loading(width) {
    byId("section-close").hidden = false;
    byId("width-field").hidden = false;
    byId("width").value = String(width);
    this.message.loading("Loading the section …");
  }

  fault(error, again) {
    this.#clear();
    this.message.fault(error, again);
  }

  /** Shows a section; `range` is the range of colours where one is chosen. */
  show(section, parameter, range) {
    this.#clear();
    this.message.clear();
    Object.assign(this, { section, parameter });
    const long = section.along.at(-1);
    this.unit = lengthUnit(long);
    byId("section-asked").replaceChildren(...askedLink(section.targets));
    byId("section-place").textContent = [`From A to B, ${length(Math.round(long / this.unit.metres * 10) / 10 * this.unit.metres, this.unit)}`, this.#rowsText(), section.note].filter(Boolean).join(". ");
    if (section.kind === "points") this.#showPoints(section.points, false);
    else if (!section.present) this.message.hint("No node of the grid lies along this line.");
    else if (section.rowsAre === "one") this.#showPoints(this.#alongRow(), true);
    else this.#showRaster(range);
  }

  #rowsText() {
    const { kind, rowsAre } = this.section;
    if (kind === "points") return "Stations in the corridor, at the time of the map";
    return { z: "All levels at the time of the map", t: "All times", one: "" }[rowsAre];
  }

  #clear() {
    this.section = this.cursor = null;
    this.chart.clear();
    byId("section-chart").hidden = byId("section-raster").hidden = true;
    for (const id of ["section-place", "section-readout"]) byId(id).textContent = "";
    for (const id of ["section-asked", "section-legend"]) byId(id).replaceChildren();
  }

  /** The values of the one row, at their distances. */
  #alongRow() {
    const { values, nodes, inside, along } = this.section;
    const step = along.at(-1) / nodes.length;
    return Array.from(values, (sample, place) => ({ at: (place + 0.5) * step, sample, node: nodes[place], isAsked: inside[place] })).filter(({ isAsked }) => isAsked);
  }

  #showPoints(points, isJoined) {
    this.points = points.map((point) => ({ ...point, sample: point.sample ?? NaN }));
    const symbol = unit(this.parameter.unit);
    byId("section-chart").hidden = false;
    this.chart.show({
      points: this.points, isJoined, mark: null, span: [0, this.section.along.at(-1)], ticks: (...range) => this.#distanceTicks(...range),
      xTitle: `from A, ${this.unit.symbol}`, yTitle: symbol ? `${this.parameter.label}, ${symbol}` : this.parameter.label,
    });
  }

  #distanceTicks(low, high, most) {
    const { metres } = this.unit;
    return numberTicks(low / metres, high / metres, most).map(({ at, text }) => ({ at: at * metres, text }));
  }

  #readPoint(place) {
    const point = place === null ? null : this.points[place];
    byId("section-readout").textContent = point ? [point.label, length(Math.round(point.at), this.unit), value(point.sample, this.parameter.unit)].filter(Boolean).join(": ") : "";
    this.pointed(point?.node ?? null);
  }

  #showRaster(range) {
    const { values, inside } = this.section;
    const [low, high] = range ?? extremes(values);
    this.scale = low <= high ? new Scale(low, high) : null;
    byId("section-raster").hidden = false;
    const hasMissing = values.some((sample, place) => Number.isNaN(sample) && inside[place]);
    showLegend(byId("section-legend"), this.parameter, this.scale, hasMissing ? [["hatch", "missing"]] : []);
    this.repaint();
  }

  repaint() {
    if (!this.section || byId("section-raster").hidden) return;
    const width = byId("section-raster").clientWidth;
    const context = sizeCanvas(this.canvas, width, HEIGHT);
    const colours = themeColours();
    this.rowsAt = this.section.rowsAre === "t" ? this.section.rows.map(seconds) : this.section.rows;
    const borders = cellBorders(this.rowsAt, greatestGap(this.rowsAt));
    const area = { left: MARGINS.left, top: MARGINS.top, width: width - MARGINS.left - MARGINS.right, height: HEIGHT - MARGINS.top - MARGINS.bottom };
    this.plot = new Plot(area, [0, borders[0], this.section.along.at(-1), borders.at(-1)]);
    const { values, inside, nodes } = this.section;
    const rowAt = (at) => nearest(this.rowsAt, this.plot.fromY(at));
    paint(context, this.plot, { columnAt: (at) => this.#columnAt(at), rowAt, values, many: nodes.length, inside }, this.scale ?? new Scale(0, 1), colours);
    this.#drawTurns(context, colours);
    this.#drawAxes(context, colours, borders);
    this.#drawCursor(context, colours);
  }

  #columnAt(at) {
    const { nodes, along } = this.section;
    return Math.min(nodes.length - 1, Math.max(0, Math.floor((this.plot.fromX(at) / along.at(-1)) * nodes.length)));
  }

  /** A line at each place where the way turns. */
  #drawTurns(context, colours) {
    const { top, height } = this.plot.area;
    context.strokeStyle = colours.halo;
    context.setLineDash([2, 4]);
    for (const at of this.section.along.slice(1, -1)) {
      context.beginPath();
      context.moveTo(this.plot.toX(at), top);
      context.lineTo(this.plot.toX(at), top + height);
      context.stroke();
    }
    context.setLineDash([]);
  }

  #drawAxes(context, colours, borders) {
    const { width, height } = this.plot.area;
    const isTime = this.section.rowsAre === "t";
    const [low, high] = [borders[0], borders.at(-1)];
    const round = isTime ? timeTicks(low, high, height / 30) : numberTicks(low, high, height / 40);
    this.plot.drawAxes(context, colours, {
      xTicks: this.#distanceTicks(0, this.section.along.at(-1), width / 70),
      yTicks: this.rowsAt.length <= FEW ? this.#rowTicks(isTime) : round,
      xTitle: `from A, ${this.unit.symbol}`,
      yTitle: isTime ? "UTC" : "level, m",
    });
  }

  /** A tick at each row, with its text where there is room for it. */
  #rowTicks(isTime) {
    let last = Infinity;
    return this.rowsAt.map((at) => {
      const y = this.plot.toY(at);
      if (last - y < 13) return { at, text: "" };
      last = y;
      return { at, text: isTime ? clockText(at) : number(at) };
    });
  }

  #drawCursor(context, colours) {
    if (!this.cursor) return;
    const { left, top, width, height } = this.plot.area;
    const { nodes, along } = this.section;
    const x = this.plot.toX(((this.cursor.column + 0.5) / nodes.length) * along.at(-1));
    const y = this.plot.toY(this.rowsAt[this.cursor.row]);
    context.strokeStyle = colours.halo;
    for (const [fromX, fromY, toX, toY] of [[x, top, x, top + height], [left, y, left + width, y]]) {
      context.beginPath();
      context.moveTo(fromX, fromY);
      context.lineTo(toX, toY);
      context.stroke();
    }
  }

  #under(event) {
    const { left, top } = this.canvas.getBoundingClientRect();
    const [x, y] = [event.clientX - left, event.clientY - top];
    if (!this.section || !this.plot?.holds(x, y)) return null;
    return { column: this.#columnAt(x), row: nearest(this.rowsAt, this.plot.fromY(y)) };
  }

  #key(event) {
    const step = { ArrowLeft: [-1, 0], ArrowRight: [1, 0], ArrowUp: [0, 1], ArrowDown: [0, -1] }[event.key];
    if (!step || !this.section) return;
    event.preventDefault();
    const many = event.shiftKey ? 10 : 1;
    const { column, row } = this.cursor ?? { column: 0, row: 0 };
    const within = (place, length) => Math.min(length - 1, Math.max(0, place));
    this.#point({ column: within(column + step[0] * many, this.section.nodes.length), row: within(row + step[1] * many, this.section.rows.length) });
  }

  #point(cursor) {
    if (!this.section || (!cursor && !this.cursor)) return;
    this.cursor = cursor;
    byId("section-readout").textContent = cursor ? this.#textOf(cursor) : "";
    this.pointed(cursor ? this.section.nodes[cursor.column] : null);
    this.repaint();
  }

  #textOf({ column, row }) {
    const { nodes, along, rows, rowsAre, values, inside } = this.section;
    const place = row * nodes.length + column;
    const at = rowsAre === "t" ? time(rows[row]) : `${number(rows[row])} m`;
    const sample = inside[place] ? value(values[place], this.parameter.unit) : "not in the corridor";
    return `${length(Math.round(((column + 0.5) / nodes.length) * along.at(-1)), this.unit)} from A, ${at}: ${sample}`;
  }
}

function extremes(values) {
  let [low, high] = [Infinity, -Infinity];
  for (const sample of values) {
    if (sample < low) low = sample;
    if (sample > high) high = sample;
  }
  return [low, high];
}
