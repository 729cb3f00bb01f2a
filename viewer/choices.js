// The choices beside the map: instance, parameter, level, station, the range of colours, and the box by its numbers.

import { byId, fillSelect } from "./dom.js";
import { number, unit } from "./text.js";

const SIDES = ["left", "bottom", "right", "top"];
const RANGE = ["low", "high"];

export class Choices {
  /** `changed(changes)` hears of each choice, as changes of the view; `box()` gives the box that is seen. */
  constructor(changed, box) {
    this.changed = changed;
    this.box = box;
    byId("choices").addEventListener("submit", (event) => event.preventDefault());
    for (const name of ["instance", "parameter", "station"]) this.#onChange(name, (value) => ({ [name]: value || null }));
    this.#onChange("level", (value) => ({ level: Number(value) }));
    for (const end of RANGE) byId(`range-${end}`).addEventListener("change", () => this.#range());
    byId("range-automatic").addEventListener("click", () => this.changed({ range: null }));
    byId("box-show").addEventListener("click", () => this.#showBox());
    for (const [id, right, up] of [["left", -1, 0], ["right", 1, 0], ["down", 0, -1], ["up", 0, 1]]) {
      byId(`pan-${id}`).addEventListener("click", () => this.#pan(right, up));
    }
  }

  #onChange(id, changes) {
    byId(id).addEventListener("change", () => this.changed(changes(byId(id).value)));
  }

  /** Fills all choices of a source. */
  show(source, instances, view) {
    const newest = instances.at(-1);
    const offered = [["", `newest (${newest})`], ...instances.slice(0, -1).reverse().map((id) => [id, id])];
    this.#select("instance", instances.length > 1 ? offered : [], view.instance ?? "");
    this.#select("parameter", source.parameters.map(({ id, label }) => [id, label]), view.parameter);
    this.#select("level", (source.levels ?? []).map((level) => [String(level), `${number(level)} m`]), String(view.level));
    const stations = (source.stations ?? []).map(({ id, label }) => [id, label === id ? id : `${label} (${id})`]);
    this.#select("station", stations.length ? [["", "none"], ...stations] : [], view.station ?? "");
  }

  #select(id, options, chosen) {
    byId(`${id}-field`).hidden = !options.length;
    fillSelect(byId(id), options, chosen);
  }

  /** Shows what else is chosen: the station, the range of colours and the box. */
  mark(view, parameter, scale) {
    byId("station").value = view.station ?? "";
    if (scale) {
      byId("range-low").value = String(scale.low);
      byId("range-high").value = String(scale.high);
      byId("range-now").textContent = `${number(scale.low)} to ${number(scale.high)} ${unit(parameter.unit)}${view.range ? "" : ", automatic"}`;
    }
    byId("range-automatic").disabled = !view.range;
    this.box().forEach((value, place) => (byId(`box-${SIDES[place]}`).value = String(value)));
  }

  #range() {
    const range = RANGE.map((end) => byId(`range-${end}`).valueAsNumber);
    const isRange = range.every(Number.isSafeInteger) && range[0] < range[1];
    byId("range-high").setCustomValidity(isRange ? "" : "Whole numbers, the first below the second");
    if (isRange) this.changed({ range });
    else byId("range-high").reportValidity();
  }

  #showBox() {
    const box = SIDES.map((side) => byId(`box-${side}`).valueAsNumber);
    const isBox = box.every(Number.isSafeInteger) && box[0] <= box[2] && box[1] <= box[3];
    byId("box-top").setCustomValidity(isBox ? "" : "Whole metres, each least one at most the greatest one");
    if (isBox) this.changed({ box, area: null });
    else byId("box-top").reportValidity();
  }

  /** Moves the box by half of itself. */
  #pan(right, up) {
    const [west, south, east, north] = this.box();
    const [stepX, stepY] = [Math.ceil((east - west) / 2) * right, Math.ceil((north - south) / 2) * up];
    this.changed({ box: [west + stepX, south + stepY, east + stepX, north + stepY], area: null });
  }
}
