// Polygons and lines on the plane, in metres. Points are lists of x and y.

/** Whether a point lies inside a ring or on its border, by the rule of the service, in whole numbers. */
export function isInRing(ring, [x, y]) {
  let inside = false;
  for (let place = 0; place < ring.length; place += 1) {
    const [a, b] = [ring[place], ring[(place + 1) % ring.length]];
    const turn = (b[0] - a[0]) * (y - a[1]) - (x - a[0]) * (b[1] - a[1]);
    if (turn === 0 && isWithin(a, b, x, y)) return true;
    if (a[1] <= y !== b[1] <= y && turn > 0 === b[1] > a[1]) inside = !inside;
  }
  return inside;
}

const isBetween = (value, one, other) => Math.min(one, other) <= value && value <= Math.max(one, other);
const isWithin = (a, b, x, y) => isBetween(x, a[0], b[0]) && isBetween(y, a[1], b[1]);

/** The least x and y, and the greatest, of some points. */
export function boxOf(points) {
  const [xs, ys] = [0, 1].map((of) => points.map((point) => point[of]));
  return [Math.min(...xs), Math.min(...ys), Math.max(...xs), Math.max(...ys)];
}

const distance = (a, b) => Math.hypot(b[0] - a[0], b[1] - a[1]);

/** How far each position of a line lies from its first one, along it. */
export function distancesAlong(line) {
  const found = [0];
  for (let place = 1; place < line.length; place += 1) found.push(found[place - 1] + distance(line[place - 1], line[place]));
  return found;
}

/** The point at a distance along a line. */
export function pointAlong(line, along, at) {
  let place = 1;
  while (place < line.length - 1 && along[place] < at) place += 1;
  const [a, b] = [line[place - 1], line[place]];
  const share = (at - along[place - 1]) / (along[place] - along[place - 1] || 1);
  return [a[0] + share * (b[0] - a[0]), a[1] + share * (b[1] - a[1])];
}

/** How far along a line the point of it is that is nearest to a place. */
export function nearestAlong(line, along, [x, y]) {
  let best = { away: Infinity, at: 0 };
  for (let place = 1; place < line.length; place += 1) {
    const [a, b] = [line[place - 1], line[place]];
    const long = along[place] - along[place - 1];
    const share = long ? ((x - a[0]) * (b[0] - a[0]) + (y - a[1]) * (b[1] - a[1])) / long ** 2 : 0;
    const at = along[place - 1] + Math.min(1, Math.max(0, share)) * long;
    const away = distance(pointAlong(line, along, at), [x, y]);
    if (away < best.away) best = { away, at };
  }
  return best.at;
}

/** A line cut in two at half its length, at whole metres; null where it is too short for that. */
export function halves(line) {
  const along = distancesAlong(line);
  const middle = along.at(-1) / 2;
  const cut = pointAlong(line, along, middle).map(Math.round);
  const isApart = (point) => distance(point, cut) > 1;
  const before = line.filter((point, place) => along[place] < middle && isApart(point));
  const after = line.filter((point, place) => along[place] > middle && isApart(point));
  return before.length && after.length ? [[...before, cut], [cut, ...after]] : null;
}

/** A line without the positions that lie within a distance of the chord between those that are kept. */
export function simplified(line, tolerance) {
  if (line.length < 3) return line;
  const [first, last] = [line[0], line.at(-1)];
  const away = line.map((point) => distance(point, pointOnChord(first, last, point)));
  const farthest = away.indexOf(Math.max(...away));
  if (away[farthest] <= tolerance) return [first, last];
  return [...simplified(line.slice(0, farthest + 1), tolerance).slice(0, -1), ...simplified(line.slice(farthest), tolerance)];
}

function pointOnChord(first, last, point) {
  const along = distancesAlong([first, last]);
  return pointAlong([first, last], along, nearestAlong([first, last], along, point));
}
