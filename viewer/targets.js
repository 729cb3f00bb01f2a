// Targets as the profile writes them: where a collection's data are, and what is asked of them.

/** The path of a collection, or of one of its instances. */
export function pathOf(collection, instance) {
  const path = `/collections/${encodeURIComponent(collection)}`;
  return instance ? `${path}/instances/${encodeURIComponent(instance)}` : path;
}

/** What is chosen of times, levels and parameters: `time` is an instant or an interval. Pairs of the query. */
function chosen({ time, level, parameter }) {
  return [["datetime", time], ["z", level], ["parameter-name", parameter]].filter(([, value]) => value !== undefined && value !== null);
}

const target = (path, query, pairs, choice) => `${path}/${query}?${new URLSearchParams([...pairs, ...chosen(choice)])}`;

const positions = (points) => points.map(([x, y]) => `${x} ${y}`).join(",");

export const positionTarget = (path, [x, y], choice) => target(path, "position", [["coords", `POINT(${x} ${y})`]], choice);

export const cubeTarget = (path, box, choice) => target(path, "cube", [["bbox", box.join(",")]], choice);

/** The area inside a ring, which is closed here. */
export const areaTarget = (path, ring, choice) => target(path, "area", [["coords", `POLYGON((${positions([...ring, ring[0]])}))`]], choice);

/** What lies at most half a width, in metres, from a line. */
export function corridorTarget(path, line, width, choice) {
  const pairs = [["coords", `LINESTRING(${positions(line)})`], ["corridor-width", width], ["width-units", "m"]];
  return target(path, "corridor", pairs, choice);
}

export const stationTarget = (path, station, choice) => target(path, `locations/${encodeURIComponent(station)}`, [], choice);
