// The page: what is seen, what is asked for when that changes, and which panel shows it.

import { Choices } from "./choices.js";
import { isOfStations, markCollection, showCollections } from "./collections_panel.js";
import { byId } from "./dom.js";
import { boxOf } from "./geometry.js";
import { GridSource } from "./grid_source.js";
import { emptyView, readLink, writeLink } from "./link.js";
import { MapPanel } from "./map_panel.js";
import { Message } from "./message.js";
import { SectionPanel } from "./section_panel.js";
import { SeriesPanel } from "./series_panel.js";
import { ask, Fault, Latest, listen, watchEdition } from "./service.js";
import { StationSource } from "./station_source.js";
import { pathOf } from "./targets.js";
import { TimePanel } from "./time_panel.js";

const LISTEN_EVERY = 60000; // milliseconds between looks for a new edition
const RELOAD_EVERY = 5000; // milliseconds at least between reloads for another edition
const LINK_AFTER = 200; // milliseconds until the address tells a change

// What is shown anew when a member of the view changes.
const SHOWN_BY = {
  collection: ["source"], instance: ["source"], parameter: ["picture", "series", "section"], level: ["picture", "series", "section"],
  time: ["picture", "timed"], box: ["picture"], area: ["picture"], range: ["picture", "section"], point: ["series"], station: ["series"],
  line: ["section"], width: ["section"],
};

const work = Object.fromEntries(["list", "source", "picture", "series", "section"].map((name) => [name, new Latest()]));
const listMessage = new Message(byId("collections-message"));
let view = readLink(location.hash.slice(1));
let descriptions = [];
let source = null;
let linkLater = null;
let reloaded = 0;

const mapPanel = new MapPanel({ choose: choosePlace, drawn });
const series = new SeriesPanel((time) => change({ time }));
const section = new SectionPanel((point) => mapPanel.mark({ pointer: point }));
const times = new TimePanel((time) => change({ time }));
const choices = new Choices(change, () => source?.regionBox(view) ?? [0, 0, 0, 0]);

/** Changes the view, and shows what hangs on it. The promise tells whether the picture came to be shown. */
function change(changes) {
  view = { ...view, ...changes };
  tellLink();
  const shown = new Set(Object.keys(changes).flatMap((name) => SHOWN_BY[name]));
  if (shown.has("source")) return showSource();
  if (shown.has("series")) showSeries();
  if (shown.has("section") || (shown.has("timed") && isSectionTimed())) showSection();
  if (shown.has("timed")) markTime();
  mark();
  return shown.has("picture") ? showPicture() : Promise.resolve(true);
}

/** Tells the view in the page's address, a moment later: browsers refuse many changes of it in a short time. */
function tellLink() {
  clearTimeout(linkLater);
  linkLater = setTimeout(writeAddress, LINK_AFTER);
}

const writeAddress = () => history.replaceState(null, "", `#${writeLink(view)}`);

/** What a fault means for a panel; a fault of the page itself is told to the console too. */
function told(error) {
  if (!(error instanceof Fault)) console.error(error);
  return error;
}

// The list of collections

function showList() {
  return work.list.run(async (signal) => {
    listMessage.loading("Loading the collections …");
    ({ collections: descriptions } = await ask("/collections", signal));
    listMessage.clear();
    showCollections(byId("collections"), descriptions, view.collection, (id) => change({ ...emptyView(), collection: id }));
    if (!descriptions.length) return mapPanel.blank("The service has no collections.");
    await showSource();
  }, (error) => listMessage.fault(told(error), showList));
}

// The collection that is chosen

function showSource() {
  const description = descriptions.find(({ id }) => id === view.collection) ?? (view.collection ? null : descriptions[0]);
  stopAll();
  source = null;
  if (!description) return unknownCollection();
  view.collection = description.id;
  markCollection(byId("collections"), description.id);
  return work.source.run((signal) => openSource(description, signal), (error) => noSource(error, showSource));
}

function stopAll() {
  times.stop();
  for (const name of ["source", "picture", "series", "section"]) work[name].stop();
}

/** Lets the service say what it has to say of a collection that isn't listed. */
function unknownCollection() {
  markCollection(byId("collections"), null);
  byId("map-title").textContent = view.collection;
  return work.source.run((signal) => ask(pathOf(view.collection), signal), (error) => noSource(error, showSource));
}

/** There is nothing to show but what went wrong. */
function noSource(error, again) {
  noData("");
  mapPanel.fault(told(error), again);
}

function noData(text = "This collection has no data yet.") {
  showParts(false);
  mapPanel.blank(text);
}

/** What belongs to a source: the choices, the series and the section. */
function showParts(isThere) {
  for (const id of ["choices", "series-panel", "section-panel"]) byId(id).hidden = !isThere;
}

async function openSource(description, signal) {
  mapPanel.loading(`Loading ${description.title || description.id} …`);
  byId("map-title").textContent = description.title || description.id;
  if (!description.extent) return noData();
  const isGrid = !isOfStations(description);
  const path = pathOf(description.id, isGrid ? view.instance : null);
  const instances = isGrid ? (await ask(`${pathOf(description.id)}/instances`, signal)).instances.map(({ id }) => id) : [];
  const of = isGrid && view.instance ? await ask(path, signal) : description;
  const opened = await (isGrid ? GridSource : StationSource).open(of, path, signal);
  if (signal.aborted) return;
  source = opened;
  showParts(true);
  settle();
  choices.show(source, instances, view);
  times.show(source.times, view.time);
  mapPanel.choose("point");
  await Promise.all([showPicture(), showSeries(), showSection()]);
}

/** Chooses what the view leaves open, or what the source doesn't have. */
function settle() {
  const offered = (value, list) => (list.includes(value) ? value : list[0]);
  view.parameter = offered(view.parameter, source.parameters.map(({ id }) => id));
  view.time = offered(view.time, source.times);
  view.level = source.levels ? offered(view.level, source.levels) : null;
  if (source.kind === "grid") view.station = null;
  else view.point = null;
  tellLink();
}

const parameter = () => source.parameters.find(({ id }) => id === view.parameter);

// The panels

function showPicture() {
  if (!source) return Promise.resolve(false);
  const of = source;
  return work.picture.run(async (signal) => {
    mapPanel.loading("Loading the map …");
    const picture = await of.picture(view, signal);
    if (signal.aborted) return;
    if (of.kind === "station") timesOfStations();
    mapPanel.show(picture, parameter(), { range: view.range, box: view.area ? boxOf(view.area) : of.regionBox(view) });
    mark();
  }, (error) => mapPanel.fault(told(error), showPicture));
}

/** The times of stations are those of the region that is seen. */
function timesOfStations() {
  if (!source.times.includes(view.time)) {
    view.time = source.times[0];
    tellLink();
    queueMicrotask(showPicture);
  }
  if (times.times !== source.times) times.show(source.times, view.time);
}

function showSeries() {
  work.series.stop();
  if (!source) return null;
  const isGrid = source.kind === "grid";
  if (!(isGrid ? view.point : view.station)) return series.empty(`Choose a ${isGrid ? "node" : "station"} on the map for its values over time.`);
  series.loading();
  return work.series.run(async (signal) => {
    const found = await source.series(view, signal);
    if (!signal.aborted) series.show(found, parameter(), view.time);
  }, (error) => series.fault(told(error), showSeries));
}

function showSection() {
  work.section.stop();
  if (!source) return null;
  if (!view.line) return section.empty("Draw a line on the map, with the tool Line, for the values along it.");
  section.loading(view.width ?? source.usualWidth());
  return work.section.run(async (signal) => {
    const found = await source.section(view, signal);
    if (!signal.aborted) section.show(found, parameter(), view.range);
  }, (error) => section.fault(told(error), showSection));
}

/** Whether the section is one of the time of the map. */
const isSectionTimed = () => view.line && section.section?.rowsAre !== "t";

function markTime() {
  times.mark(view.time);
  series.mark(view.time);
}

/** Marks what is chosen on the map and beside it. */
function mark() {
  const { point, station, line, area, box } = view;
  byId("whole").hidden = !box && !area;
  mapPanel.mark({ point, station, line, area, width: line && source ? (view.width ?? source.usualWidth()) : 0 });
  if (source && mapPanel.parameter) choices.mark(view, mapPanel.parameter, mapPanel.scale);
}

// What is done on the map

function choosePlace(point) {
  if (source.kind === "grid") return change({ point: source.nodeAt(point) });
  return change({ station: (mapPanel.map.stationUnder(point) ?? source.nearestStation(point)).id });
}

function drawn(tool, points) {
  if (tool === "line") return change({ line: points });
  if (tool === "area") return change({ area: points, box: null });
  return change({ box: boxOf(points), area: null });
}

function wire() {
  const buttons = { whole: { box: null, area: null }, "series-close": { point: null, station: null }, "section-close": { line: null, width: null } };
  for (const [id, changes] of Object.entries(buttons)) {
    byId(id).addEventListener("click", () => {
      change(changes);
      byId("map-above").focus(); // the button is gone
    });
  }
  byId("width").addEventListener("change", () => byId("width").reportValidity() && change({ width: byId("width").valueAsNumber }));
  byId("copy-link").addEventListener("click", copyLink);
  document.querySelector(".skip").addEventListener("click", (event) => {
    event.preventDefault(); // the address is the link to what is seen
    byId("map-above").focus();
  });
  window.addEventListener("hashchange", () => {
    view = readLink(location.hash.slice(1));
    showSource();
  });
  matchMedia("(prefers-color-scheme: dark)").addEventListener("change", () => {
    mapPanel.repaint();
    section.repaint();
  });
}

async function copyLink() {
  const button = byId("copy-link");
  writeAddress();
  try {
    await navigator.clipboard.writeText(location.href);
    button.textContent = "Copied";
  } catch {
    button.textContent = "Copy it from the address";
  }
  setTimeout(() => (button.textContent = "Copy link"), 2000);
}

watchEdition((edition, before) => {
  byId("edition").textContent = `Edition ${edition}`;
  if (before === null || Date.now() - reloaded < RELOAD_EVERY) return;
  reloaded = Date.now();
  showList();
});

setInterval(() => document.hidden || listen().catch(() => {}), LISTEN_EVERY);
wire();
series.empty("Choose a node on the map for its values over time.");
section.empty("Draw a line on the map, with the tool Line, for the values along it.");
showList();
