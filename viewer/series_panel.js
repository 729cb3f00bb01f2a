// The series at a node or a station, as a chart and a table.

import { Chart, tableOf } from "./chart.js";
import { byId } from "./dom.js";
import { askedLink, Message } from "./message.js";
import { length, lengthUnit, seconds, time, unit, value } from "./text.js";
import { timeTicks } from "./ticks.js";

const HOUR = 3600; // seconds beside a single value

export class SeriesPanel {
  /** `chosen(time)` hears of a time that is chosen on the chart. */
  constructor(chosen) {
    this.message = new Message(byId("series-message"));
    this.series = null;
    this.chart = new Chart(byId("series-chart"), (place) => this.#read(place), (place) => chosen(this.series.times[place]));
  }

  /** Nothing is chosen. */
  empty(text) {
    this.#fill("", []);
    this.message.hint(text);
    byId("series-close").hidden = true;
  }

  loading() {
    byId("series-close").hidden = false;
    this.message.loading("Loading the series …");
  }

  fault(error, again) {
    this.#fill("", []);
    this.message.fault(error, again);
  }

  show(series, parameter, now) {
    this.message.clear();
    this.#fill(whereOf(series), askedLink([series.target]));
    Object.assign(this, { series, parameter });
    const points = series.times.map((text, place) => ({ at: seconds(text), sample: series.values[place] }));
    const day = series.times[0].slice(0, 10);
    byId("series-chart").hidden = false;
    const isOne = points.length === 1;
    this.chart.show({
      points, span: isOne ? [points[0].at - HOUR, points[0].at + HOUR] : null, ticks: timeTicks, isJoined: true, mark: seconds(now), xTitle: `UTC, from ${day}`, yTitle: titleOf(parameter),
    });
    const rows = series.times.map((text, place) => [time(text), value(series.values[place], parameter.unit)]);
    byId("series-table").replaceChildren(tableOf(["Time", titleOf(parameter)], rows));
    this.#read(null, now);
  }

  mark(now) {
    if (!this.series) return;
    this.chart.mark(seconds(now));
    this.#read(null, now);
  }

  #fill(where, asked) {
    this.series = null;
    this.chart.clear();
    byId("series-chart").hidden = true;
    byId("series-place").textContent = where;
    byId("series-asked").replaceChildren(...asked);
    byId("series-readout").textContent = "";
    byId("series-table").replaceChildren();
  }

  /** Tells the value that is pointed at, or else that of the time of the map. */
  #read(place, now = this.now) {
    this.now = now;
    const output = byId("series-readout");
    const at = place ?? this.series.times.indexOf(now);
    output.textContent = at < 0 ? "No value at the time of the map" : `${time(this.series.times[at])}: ${value(this.series.values[at], this.parameter.unit)}`;
  }
}

const titleOf = ({ label, unit: code }) => (unit(code) ? `${label}, ${unit(code)}` : label);

function whereOf({ station, place }) {
  const of = lengthUnit(Math.max(...place.map(Math.abs)));
  const where = `x ${length(place[0], of)}, y ${length(place[1], of)}`;
  if (!station) return `Node at ${where}`;
  return `${station.label === station.id ? station.id : `${station.label} (${station.id})`}, ${where}`;
}
