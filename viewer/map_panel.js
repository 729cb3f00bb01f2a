// The map with its tools, its legend, and the value under the pointer.

import { byId, make, onWidth } from "./dom.js";
import { showLegend } from "./legend.js";
import { MapView } from "./map.js";
import { MapInput } from "./map_input.js";
import { askedLink, Message } from "./message.js";
import { Scale } from "./scale.js";
import { length, lengthUnit, value } from "./text.js";

const HINTS = {
  grid: "Click a node for its series.",
  station: "Click a station for its series.",
  box: "Drag from corner to corner, or click both, to see what lies between.",
  area: "Click corner by corner, or draw with the button held; double-click or Done ends.",
  line: "Click from A to B, or draw with the button held, for the section along the way; double-click or Done ends.",
};

export class MapPanel {
  /** `told` has `choose(point)` of a click with the tool of points, and `drawn(tool, points)`. */
  constructor(told) {
    this.message = new Message(byId("map-message"));
    this.map = new MapView(byId("map"), byId("map-base"), byId("map-above"));
    this.input = new MapInput(this.map, {
      hover: (point) => this.#hover(point),
      choose: (point) => this.map.picture && told.choose(point),
      drawn: (tool, points) => this.#drawn(tool, points, told),
      changed: (points) => this.#draft(points),
    });
    this.#wire();
    onWidth(byId("map"), () => this.map.repaint());
  }

  #wire() {
    for (const tool of document.querySelectorAll("input[name=tool]")) tool.addEventListener("change", () => this.choose(tool.value));
    for (const [id, action] of [["done", "finish"], ["undo", "undo"], ["cancel", "cancel"]]) {
      byId(`draft-${id}`).addEventListener("click", () => {
        this.input[action]();
        if (!this.input.draft.length) byId("map-above").focus(); // the buttons are gone
      });
    }
  }

  /** Chooses a tool. */
  choose(tool) {
    document.querySelector(`input[name=tool][value=${tool}]`).checked = true;
    this.input.choose(tool);
    this.map.marks.tool = tool;
    byId("map-above").dataset.tool = tool;
    this.#hint();
  }

  #hint() {
    const kind = this.map.picture?.kind ?? "grid";
    byId("tool-hint").textContent = HINTS[this.input.tool] ?? HINTS[kind];
  }

  #drawn(tool, points, told) {
    if (tool !== "line") this.choose("point");
    told.drawn(tool, points);
  }

  loading(text) {
    byId("map").setAttribute("aria-busy", "true");
    this.message.loading(text);
  }

  fault(error, again) {
    byId("map").setAttribute("aria-busy", "false");
    this.message.fault(error, again);
  }

  /** Takes the picture away, with all that belongs to one, and says something in its place. */
  blank(text) {
    byId("map").setAttribute("aria-busy", "false");
    this.#parts(true);
    this.map.clear();
    this.message.hint(text);
  }

  #parts(isBlank) {
    for (const id of ["tools", "tool-hint", "time-panel", "under", "map-asked"]) byId(id).hidden = isBlank;
    if (isBlank) for (const id of ["whole", "map-note"]) byId(id).hidden = true;
  }

  /** Shows a picture of a parameter; `range` is the range of colours where one is chosen, `box` the region of stations. */
  show(picture, parameter, { range, box }) {
    Object.assign(this, { parameter });
    byId("map").setAttribute("aria-busy", "false");
    this.message.clear();
    this.#parts(false);
    const [low, high] = range ?? [picture.low, picture.high];
    this.scale = low <= high ? new Scale(low, high) : null;
    this.map.show(picture, box, this.scale ?? new Scale(0, 1));
    showLegend(byId("legend"), parameter, this.scale, marksOf(picture));
    byId("map-note").hidden = !picture.note;
    byId("map-note").replaceChildren(picture.note ?? "");
    byId("map-asked").replaceChildren(...askedLink([picture.target]));
    this.#hint();
    this.#hover(this.map.marks.pointer ?? null);
  }

  /** Marks what is chosen: point, station, line, width, area. */
  mark(marks) {
    Object.assign(this.map.marks, marks);
    this.map.redraw();
  }

  repaint() {
    this.map.repaint();
  }

  #draft(points) {
    this.map.marks.draft = points;
    byId("draft").hidden = !points.length;
    byId("draft-done").disabled = !this.input?.canFinish;
    this.map.redraw();
  }

  #hover(point) {
    this.map.marks.pointer = point;
    this.map.redraw();
    const output = byId("readout");
    const found = point && this.map.picture ? this.#found(point) : null;
    const hint = make("span", { class: "muted" }, "Point at the map for the value there.");
    output.replaceChildren(...(found ? [make("span", {}, found.where), make("strong", {}, found.sample)] : [hint]));
  }

  /** Where the pointer is, and the value there. */
  #found(point) {
    if (this.map.picture.kind === "station") return this.#station(point);
    const node = this.map.nodeUnder(point);
    return { where: this.#where(node.point), sample: node.isAsked ? value(node.sample, this.parameter.unit) : "outside the area" };
  }

  #station(point) {
    const station = this.map.stationUnder(point);
    if (!station) return { where: this.#where(point), sample: "" };
    const sample = station.sample === undefined ? whyNone(this.map.picture.note) : value(station.sample, this.parameter.unit);
    return { where: `${station.label}, ${this.#where(station.place)}`, sample };
  }

  #where([x, y]) {
    const unit = lengthUnit(Math.max(...this.map.window.map(Math.abs)));
    return `x ${length(x, unit)}, y ${length(y, unit)}`;
  }
}

/** Why a station has no value: its series wasn't loaded, of which a note tells, or has none at the time. */
const whyNone = (note) => (note ? "value not loaded" : "no value at this time");

/** How a picture shows values that are missing, and stations without one at its time. */
function marksOf({ kind, values, inside, points, note }) {
  if (kind === "grid") return values.some((sample, place) => Number.isNaN(sample) && (!inside || inside[place])) ? [["hatch", "missing"]] : [];
  const marks = [];
  if (points.some(({ sample }) => sample === null)) marks.push(["crossed", "missing"]);
  if (points.some(({ sample }) => sample === undefined)) marks.push(["hollow", whyNone(note)]);
  return marks;
}
