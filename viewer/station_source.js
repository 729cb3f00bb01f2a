// A collection of stations: where they stand, their series, and what is seen of them.

import { coveragesOf, parametersOf } from "./coverage.js";
import { distancesAlong, nearestAlong } from "./geometry.js";
import { ask } from "./service.js";
import { areaTarget, corridorTarget, cubeTarget, stationTarget } from "./targets.js";

const WIDTH_SHARE = 0.1; // a corridor is as wide as this part of the longer side of the extent, where no width is chosen

export class StationSource {
  kind = "station";
  times = [];
  levels = null;
  note = "";
  loaded = new Map();
  loadedOf = null;

  constructor(description, path, features) {
    this.path = path;
    this.parameters = parametersOf(description);
    this.interval = description.extent.temporal.interval[0];
    this.box = description.extent.spatial.bbox[0];
    this.stations = features.map(({ id, geometry, properties }) => ({ id, label: properties.label || id, place: geometry.coordinates }));
  }

  /** Asks for the stations, and for all their series, as far as a reply may go. */
  static async open(description, path, signal) {
    const locations = await ask(`${path}/locations`, signal);
    const source = new StationSource(description, path, locations.features);
    await source.#load({ box: null, area: null }, signal);
    return source;
  }

  regionBox(view) {
    return view.box ?? this.box;
  }

  /** The series of all stations of a region, kept until another region is seen. */
  async #load({ box, area }, signal) {
    const key = JSON.stringify([box, area]);
    if (key === this.loadedOf) return;
    this.target = area ? areaTarget(this.path, area, {}) : cubeTarget(this.path, box ?? this.box, {});
    const coverages = await this.#coverages(signal);
    this.loaded = new Map(coverages.map((coverage) => [coverage.id, coverage]));
    this.times = distinct(coverages.flatMap((coverage) => coverage.axes.t));
    if (!this.times.length) this.times = distinct(this.interval);
    const levels = coverages.flatMap((coverage) => coverage.axes.z ?? []);
    this.levels = levels.length ? distinct(levels) : null;
    this.loadedOf = key;
  }

  async #coverages(signal) {
    this.note = "";
    try {
      return coveragesOf(await ask(this.target, signal));
    } catch (error) {
      if (error.code !== "TooLarge") throw error;
      this.note = `All series together are more than a reply may have (${error.told}); each station shows its own.`;
      return [];
    }
  }

  /** What the map shows: each station with its sample at the chosen time, null where it is missing, undefined where none is. */
  async picture(view, signal) {
    await this.#load(view, signal);
    const points = this.stations.map((station) => ({ ...station, sample: this.#sample(station.id, view) }));
    return { kind: "station", points, target: this.target, note: this.note, ...this.#range(view.parameter) };
  }

  #sample(id, { parameter, time, level }) {
    const coverage = this.loaded.get(id);
    const at = coverage ? placeOf(coverage.axes.t, time) : -1;
    const up = level === null || !coverage?.axes.z ? 0 : coverage.axes.z.indexOf(level);
    if (at < 0 || up < 0) return undefined;
    const sample = coverage.at(parameter, at, up, 0, 0);
    return Number.isNaN(sample) ? null : sample;
  }

  /** The least and the greatest value of all series that were loaded. */
  #range(parameter) {
    let [low, high] = [Infinity, -Infinity];
    for (const coverage of this.loaded.values()) {
      for (const sample of coverage.values(parameter)) {
        if (sample < low) low = sample;
        if (sample > high) high = sample;
      }
    }
    return { low, high };
  }

  /** The station nearest to a point. */
  nearestStation([x, y]) {
    const away = ({ place }) => Math.hypot(place[0] - x, place[1] - y);
    return this.stations.reduce((best, station) => (away(station) < away(best) ? station : best));
  }

  stationOf(id) {
    return this.stations.find((station) => station.id === id) ?? null;
  }

  /** The values of the chosen station over its times. */
  async series(view, signal) {
    const target = stationTarget(this.path, view.station, { parameter: view.parameter, level: view.level });
    const [found] = coveragesOf(await ask(target, signal));
    const station = this.stationOf(view.station);
    return { target, station, place: station.place, times: found.axes.t, values: found.values(view.parameter) };
  }

  /** The stations in a corridor: how far along the line each stands, and its sample at the chosen time. */
  async section(view, signal) {
    const width = view.width ?? this.usualWidth();
    const choice = { parameter: view.parameter, time: view.time, level: view.level };
    const target = corridorTarget(this.path, view.line, width, choice);
    const along = distancesAlong(view.line);
    const points = coveragesOf(await ask(target, signal)).map((coverage) => {
      const { label, place } = this.stationOf(coverage.id);
      return { label, at: nearestAlong(view.line, along, place), sample: coverage.values(view.parameter)[0] };
    });
    points.sort((one, other) => one.at - other.at);
    return { kind: "points", points, along, width, note: "", targets: [target] };
  }

  usualWidth() {
    const [left, bottom, right, top] = this.box;
    return Math.max(2, Math.round(Math.max(right - left, top - bottom) * WIDTH_SHARE));
  }
}

const distinct = (list) => [...new Set(list)].sort((one, other) => (one < other ? -1 : 1));

/** The place of a time in an axis, or -1. */
function placeOf(times, time) {
  let [low, high] = [0, times.length - 1];
  while (low <= high) {
    const middle = (low + high) >> 1;
    if (times[middle] === time) return middle;
    if (times[middle] < time) low = middle + 1;
    else high = middle - 1;
  }
  return -1;
}
