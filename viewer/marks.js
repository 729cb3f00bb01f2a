// What is marked on the map: stations, the place that is chosen, the line with its corridor, the area, and what is being drawn.

import { cellBorders, greatestGap } from "./nearest.js";

const SIZES = [[60, 7], [400, 5], [Infinity, 3]]; // up to how many stations a point of which radius, in pixels
const CHOSEN = 7; // the radius of the one that is chosen or pointed at
const LETTER = 9; // the radius of the letters' discs
const LABELS = 40; // stations up to which all have their labels, where there is room
const CROWD = 200; // stations up to which labels keep off all of them

export function drawMarks(context, map, colours) {
  map.plot.clipped(context, () => {
    const { marks } = map;
    if (marks.area) ring(context, map, marks.area, colours);
    if (marks.line) corridor(context, map, marks.line, marks.width, colours);
    if (map.picture.kind === "station") stations(context, map, colours);
    else nodes(context, map, colours);
    if (marks.line) ends(context, map, marks.line, colours);
    draft(context, map, colours);
    if (marks.cursor) cross(context, map.pixelOf(marks.cursor), colours);
  });
}

/** Strokes a path twice, so that it is seen on light and on dark. */
function stroke(context, colour, colours, width = 2) {
  context.lineJoin = "round";
  context.lineCap = "round";
  context.strokeStyle = colours.halo;
  context.lineWidth = width + 3;
  context.stroke();
  context.strokeStyle = colour;
  context.lineWidth = width;
  context.stroke();
}

function path(context, map, points, isClosed) {
  context.beginPath();
  points.forEach((point, place) => context[place ? "lineTo" : "moveTo"](...map.pixelOf(point)));
  if (isClosed) context.closePath();
}

function ring(context, map, points, colours) {
  path(context, map, points, true);
  stroke(context, colours.accent, colours);
}

/** The line, and round it the border of what lies at most half the width away: no shade, which would turn the colours of values. */
function corridor(context, map, line, width, colours) {
  const wide = map.plot.toX(width) - map.plot.toX(0);
  path(context, map, line, false);
  if (wide > 8) border(context, wide, colours);
  stroke(context, colours.accent, colours);
}

function border(context, wide, colours) {
  context.lineJoin = context.lineCap = "round";
  for (const [colour, width, how] of [[colours.halo, wide + 4, "source-over"], [colours.accent, wide + 1, "source-over"], ["#000", wide - 1, "destination-out"]]) {
    context.globalCompositeOperation = how;
    context.strokeStyle = colour;
    context.lineWidth = width;
    context.stroke();
  }
  context.globalCompositeOperation = "source-over";
}

/** Letters at both ends, which stand at the section too; where there are stations they stand beside the ends, in the plot. */
function ends(context, map, line, colours) {
  context.font = `600 13px ${fontFamily()}`;
  context.textAlign = "center";
  context.textBaseline = "middle";
  const out = map.picture.kind === "station" ? 18 : 0;
  for (const [point, from, letter] of [[line[0], line[1], "A"], [line.at(-1), line.at(-2), "B"]]) {
    const [x, y] = beside(map, map.pixelOf(from), map.pixelOf(point), out);
    disc(context, x, y, LETTER, colours.accent, colours);
    context.fillStyle = colours.panel;
    context.fillText(letter, x, y + 0.5);
  }
}

/** A place so far from the end of a line: outward, or else to one of its sides, where that lies in the plot. */
function beside(map, [fromX, fromY], [toX, toY], far) {
  const long = Math.hypot(toX - fromX, toY - fromY) || 1;
  const [right, down] = [((toX - fromX) / long) * far, ((toY - fromY) / long) * far];
  const places = [[toX + right, toY + down], [toX + down, toY - right], [toX - down, toY + right]];
  const isIn = ([x, y]) => map.plot.holds(x - LETTER, y - LETTER) && map.plot.holds(x + LETTER, y + LETTER);
  return places.find(isIn) ?? [toX, toY];
}

const fontFamily = () => getComputedStyle(document.body).fontFamily;

function disc(context, x, y, radius, fill, colours) {
  context.beginPath();
  context.arc(x, y, radius, 0, 2 * Math.PI);
  context.strokeStyle = colours.halo;
  context.lineWidth = 3;
  context.stroke();
  context.fillStyle = fill;
  context.fill();
}

/** The cell under the pointer, and a circle round the node that is chosen. */
function nodes(context, map, colours) {
  const { pointer, point, tool } = map.marks;
  if (pointer && tool === "point") cell(context, map, pointer, colours);
  if (!point) return;
  const [x, y] = map.pixelOf(point);
  context.beginPath();
  context.arc(x, y, 8, 0, 2 * Math.PI);
  stroke(context, colours.accent, colours, 2.5);
}

function cell(context, map, pointer, colours) {
  const { column, row } = map.nodeUnder(pointer);
  const { x, y } = map.picture;
  const [left, right] = sides(cellBorders(x, greatestGap(x, y)), column).map(map.plot.toX);
  const [bottom, top] = sides(cellBorders(y, greatestGap(y, x)), row).map(map.plot.toY);
  if (right - left < 5) return;
  context.beginPath();
  context.rect(left, top, right - left, bottom - top);
  stroke(context, colours.text, colours, 1.5);
}

const sides = (borders, place) => [borders[place], borders[place + 1]];

function stations(context, map, colours) {
  const { points } = map.picture;
  const hovered = map.marks.pointer ? map.stationUnder(map.marks.pointer) : null;
  const isMeant = (station) => station === hovered || station.id === map.marks.station;
  const radius = SIZES.find(([many]) => points.length <= many)[1];
  for (const station of points) if (!isMeant(station)) drawStation(context, map, station, radius, colours);
  for (const station of points) if (isMeant(station)) drawStation(context, map, station, CHOSEN, colours);
  const named = points.filter((station) => points.length <= LABELS || isMeant(station));
  named.sort((one, other) => isMeant(other) - isMeant(one));
  context.font = `12px ${fontFamily()}`;
  const taken = points.length <= CROWD ? points.map(({ place }) => boxRound(map.pixelOf(place), radius)) : [];
  for (const station of named) label(context, map, station, taken, colours);
}

const boxRound = ([x, y], reach) => [x - reach, y - reach, x + reach, y + reach];
const overlap = (one, other) => one[0] < other[2] && other[0] < one[2] && one[1] < other[3] && other[1] < one[3];

function drawStation(context, map, station, radius, colours) {
  const [x, y] = map.pixelOf(station.place);
  const isChosen = station.id === map.marks.station;
  if (isChosen) disc(context, x, y, radius + 4, colours.accent, colours);
  const hasSample = station.sample !== undefined && station.sample !== null;
  disc(context, x, y, radius, hasSample ? map.scale.colour(station.sample) : colours.panel, colours);
  context.beginPath();
  context.arc(x, y, radius, 0, 2 * Math.PI);
  context.strokeStyle = station.sample === undefined ? colours.muted : colours.text;
  context.lineWidth = radius > 4 ? 1.5 : 1;
  context.setLineDash(station.sample === undefined && radius > 4 ? [3, 3] : []);
  context.stroke();
  context.setLineDash([]);
  if (station.sample === null) strike(context, x, y, radius * 0.5);
}

/** A cross in a station whose sample is missing. */
function strike(context, x, y, reach) {
  context.beginPath();
  context.moveTo(x - reach, y - reach);
  context.lineTo(x + reach, y + reach);
  context.moveTo(x - reach, y + reach);
  context.lineTo(x + reach, y - reach);
  context.stroke();
}

/** The label of a station, on the first side of it that is free; none where none is. */
function label(context, map, station, taken, colours) {
  const [x, y] = map.pixelOf(station.place);
  const wide = context.measureText(station.label).width;
  const away = CHOSEN + 6;
  const starts = [[x + away, y], [x - away - wide, y], [x - wide / 2, y - away - 6], [x - wide / 2, y + away + 6]];
  const { left, top, width, height } = map.plot.area;
  const isFree = ([fromX, fromY]) => {
    const box = [fromX, fromY - 7, fromX + wide, fromY + 7];
    return left < box[0] && box[2] < left + width && top < box[1] && box[3] < top + height && !taken.some((other) => overlap(box, other));
  };
  const start = starts.find(isFree);
  if (!start) return;
  taken.push([start[0], start[1] - 7, start[0] + wide, start[1] + 7]);
  context.textAlign = "left";
  context.textBaseline = "middle";
  context.lineJoin = "round";
  context.strokeStyle = colours.halo;
  context.lineWidth = 4;
  context.strokeText(station.label, ...start);
  context.fillStyle = colours.text;
  context.fillText(station.label, ...start);
}

/** What is being drawn, up to the pointer. */
function draft(context, map, colours) {
  const { draft: points, tool, pointer } = map.marks;
  if (!points?.length) return;
  const all = pointer ? [...points, pointer] : points;
  if (tool === "box") boxPath(context, map, all[0], all.at(-1));
  else path(context, map, all, tool === "area" && all.length > 2);
  context.setLineDash([6, 5]);
  stroke(context, colours.accent, colours);
  context.setLineDash([]);
  for (const point of points) disc(context, ...map.pixelOf(point), 4, colours.accent, colours);
}

function boxPath(context, map, one, other) {
  const [fromX, fromY] = map.pixelOf(one);
  const [toX, toY] = map.pixelOf(other);
  context.beginPath();
  context.rect(fromX, fromY, toX - fromX, toY - fromY);
}

/** The cursor that the keys move. */
function cross(context, [x, y], colours) {
  context.beginPath();
  for (const [fromX, fromY, toX, toY] of [[-12, 0, -4, 0], [4, 0, 12, 0], [0, -12, 0, -4], [0, 4, 0, 12]]) {
    context.moveTo(x + fromX, y + fromY);
    context.lineTo(x + toX, y + toY);
  }
  stroke(context, colours.text, colours, 2);
}
