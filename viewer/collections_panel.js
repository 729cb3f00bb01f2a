// The list of collections, and what each has: its extent, its times, its levels, its parameters.

import { make } from "./dom.js";
import { parametersOf } from "./coverage.js";
import { length, lengthUnit, number, time } from "./text.js";

/** Whether a collection is of stations; else it is of grids. */
export const isOfStations = (description) => "locations" in description.data_queries;

/** Fills the list, and calls back with the id of a collection that is chosen, perhaps again. */
export function showCollections(host, descriptions, chosen, onChoose) {
  host.replaceChildren(...descriptions.map((description) => card(description, description.id === chosen, onChoose)));
}

/** Marks the collection that is shown. */
export function markCollection(host, id) {
  for (const input of host.querySelectorAll("input")) input.checked = input.value === id;
}

function card(description, isChosen, onChoose) {
  const input = make("input", { type: "radio", name: "collection", value: description.id });
  input.checked = isChosen;
  input.addEventListener("click", () => onChoose(description.id));
  const kind = make("span", { class: "muted" }, isOfStations(description) ? "stations" : "grids");
  const head = make("span", { class: "card-head" }, make("strong", {}, description.title || description.id), kind);
  return make("label", { class: "card" }, input, make("span", { class: "card-body" }, head, factsOf(description)));
}

function factsOf(description) {
  const list = make("span", { class: "facts" });
  for (const [name, ...texts] of facts(description)) list.append(make("span", { class: "muted" }, name), make("span", {}, ...texts));
  return list;
}

function facts(description) {
  const { extent } = description;
  if (!extent) return [["Data", "none yet"]];
  const [left, bottom, right, top] = extent.spatial.bbox[0];
  const unit = lengthUnit(Math.max(...extent.spatial.bbox[0].map(Math.abs)));
  const from = (low, high) => (low === high ? length(low, unit) : `${number(low / unit.metres)} to ${length(high, unit)}`);
  const found = [["x", from(left, right)], ["y", from(bottom, top)], ["Times, UTC", ...interval(extent.temporal.interval[0])]];
  if (extent.vertical) found.push(["Levels", levels(extent.vertical.interval[0])]);
  found.push(["Parameters", parametersOf(description).map(({ label }) => label).join(", ")]);
  found.push(["System", systemName(description.crs[0])]);
  return found.filter(([, text]) => text);
}

/** From the first to the last time, of which none is broken between lines; of one day the day stands once. */
function interval([first, last]) {
  const whole = (text) => make("span", { class: "whole" }, text);
  const [from, to] = [first, last].map((text) => time(text).replace(" UTC", ""));
  if (first === last) return [whole(from)];
  return [whole(from), " ", whole(`to ${from.slice(0, 10) === to.slice(0, 10) ? to.slice(11) : to}`)];
}

const levels = ([low, high]) => (low === high ? `${number(low)} m` : `${number(low)} to ${number(high)} m`);

/** The short name of a system of the EPSG register, or the text itself. */
const systemName = (text) => (text ?? "").replace(/^https?:\/\/www\.opengis\.net\/def\/crs\/EPSG\/[^/]*\/(\d+)$/, "EPSG $1");
