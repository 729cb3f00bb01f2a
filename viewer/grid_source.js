// A collection of grids: its axes, and what is seen of it.

import { Coverage, parametersOf } from "./coverage.js";
import { Frames } from "./frames.js";
import { boxOf, isInRing } from "./geometry.js";
import { countBetween, nearest } from "./nearest.js";
import { gridSection, leastWidth } from "./grid_section.js";
import { ask } from "./service.js";
import { areaTarget, cubeTarget, positionTarget } from "./targets.js";

const VALUES_OF_REPLY = 2000000;

export class GridSource {
  kind = "grid";

  constructor(description, path, axes) {
    this.path = path;
    this.parameters = parametersOf(description);
    this.times = axes.t;
    this.levels = axes.z ?? null;
    this.x = axes.x;
    this.y = axes.y;
    this.frames = null;
    this.framesOf = null;
  }

  /** Asks for the axes: times and levels at one corner, then one row and one column at one time and level. */
  static async open(description, path, signal) {
    const [left, bottom, right, top] = description.extent.spatial.bbox[0];
    const parameter = parametersOf(description)[0].id;
    const corner = await coverage(positionTarget(path, [left, bottom], { parameter }), signal);
    const choice = { parameter, time: corner.axes.t[0], level: corner.axes.z?.[0] };
    const [row, column] = await Promise.all([
      coverage(cubeTarget(path, [left, bottom, right, bottom], choice), signal),
      coverage(cubeTarget(path, [left, bottom, left, top], choice), signal),
    ]);
    return new GridSource(description, path, { ...corner.axes, x: row.axes.x, y: column.axes.y });
  }

  get box() {
    return [this.x[0], this.y[0], this.x.at(-1), this.y.at(-1)];
  }

  /** The node nearest to a point. */
  nodeAt([x, y]) {
    return [this.x[nearest(this.x, x)], this.y[nearest(this.y, y)]];
  }

  /** The box of what is seen: the one that is chosen, that round the area, or all, as far as a reply may go. */
  regionBox(view) {
    if (view.area) return boxOf(view.area);
    return view.box ?? this.#middle();
  }

  /** How many nodes a box has. */
  nodesIn([left, bottom, right, top]) {
    return countBetween(this.x, left, right) * countBetween(this.y, bottom, top);
  }

  usualWidth() {
    return leastWidth(this);
  }

  /** The whole box, or its middle where the whole has more nodes than a reply may have. */
  #middle() {
    const share = Math.sqrt(VALUES_OF_REPLY / (this.x.length * this.y.length));
    if (share >= 1) return this.box;
    const [[left, right], [bottom, top]] = [this.x, this.y].map((axis) => middleOf(axis, Math.floor(axis.length * share)));
    return [left, bottom, right, top];
  }

  /** What the map shows: values over x and y at the chosen time, and the nodes that were not asked for. */
  async picture(view, signal) {
    const key = JSON.stringify([view.parameter, view.level, view.box, view.area]);
    if (key !== this.framesOf) [this.frames, this.framesOf] = [this.#newFrames(view), key];
    const frames = this.frames;
    const { coverage: of, inside, target, place } = await frames.frame(this.times.indexOf(view.time), signal);
    const values = of.layer(view.parameter, place);
    return { kind: "grid", x: of.axes.x, y: of.axes.y, values, inside, target, low: frames.low, high: frames.high, note: this.#note(view) };
  }

  #newFrames(view) {
    const box = this.regionBox(view);
    const { parameter, area } = view;
    const load = async (first, last, signal) => {
      const choice = { parameter, level: view.level, time: first === last ? first : `${first}/${last}` };
      const target = area ? areaTarget(this.path, area, choice) : cubeTarget(this.path, box, choice);
      const found = await coverage(target, signal);
      return { coverage: found, target, inside: area ? insideOf(area, found.axes) : null };
    };
    return new Frames({ load, times: this.times, nodes: this.nodesIn(box), parameter });
  }

  #note(view) {
    if (view.box || view.area || this.x.length * this.y.length <= VALUES_OF_REPLY) return "";
    return "The whole has more nodes than a reply may have; this is its middle. Choose a box to see another part.";
  }

  /** The values at the chosen node over all times. */
  async series(view, signal) {
    const target = positionTarget(this.path, view.point, { parameter: view.parameter, level: view.level });
    const found = await coverage(target, signal);
    return { target, place: [found.axes.x[0], found.axes.y[0]], times: found.axes.t, values: found.values(view.parameter) };
  }

  section(view, signal) {
    return gridSection(this, view, signal);
  }
}

async function coverage(target, signal) {
  return new Coverage(await ask(target, signal));
}

function middleOf(axis, many) {
  const first = Math.floor((axis.length - many) / 2);
  return [axis[first], axis[first + many - 1]];
}

/** For each node, in the order y, x, whether it lies in the ring. */
function insideOf(ring, axes) {
  return Uint8Array.from(axes.y.flatMap((y) => axes.x.map((x) => Number(isInRing(ring, [x, y])))));
}
