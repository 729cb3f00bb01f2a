// A section through a grid: along a line, the value at the node nearest to each step of the way, as a corridor has it.
// It goes up through the levels at the chosen time; without levels it goes through the times.

import { Coverage } from "./coverage.js";
import { boxOf, distancesAlong, halves, pointAlong } from "./geometry.js";
import { countBetween, greatestGap, nearest } from "./nearest.js";
import { ask } from "./service.js";
import { corridorTarget } from "./targets.js";

const VALUES_OF_REPLY = 1500000;
const STEPS = 800;
const REPLIES = 16;

/** The least width with which a corridor holds the node nearest to each point of its line. */
export function leastWidth(source) {
  return Math.ceil(Math.hypot(greatestGap(source.x, source.y), greatestGap(source.y, source.x)));
}

/** What the section shows: `values` by rows, from the lowest level or the first time up; `at` the distances. */
export async function gridSection(source, view, signal) {
  const width = view.width ?? leastWidth(source);
  const plan = planOf(source, view.line, width);
  const choice = { parameter: view.parameter, time: plan.rows === "t" ? undefined : view.time };
  const parts = [];
  for (const line of plan.pieces) {
    const target = corridorTarget(source.path, line, width, choice);
    parts.push({ line, target, coverage: await found(target, signal) });
  }
  const rows = plan.rows === "z" ? source.levels : plan.rows === "t" ? source.times : [view.time];
  return { kind: "section", rowsAre: plan.rows, rows, note: plan.note, width, ...sampled(source, view, parts, plan.rows, rows) };
}

/** A part of the line may lie beside the grid, or hold nothing. */
async function found(target, signal) {
  try {
    return new Coverage(await ask(target, signal));
  } catch (error) {
    if (error.code === "NoSamples") return null;
    throw error;
  }
}

/** The pieces of the line of which each is small enough for a reply, and what the rows are: levels, times or one row. */
function planOf(source, line, width) {
  if (source.levels?.length > 1) return { rows: "z", pieces: piecesOf(source, line, width, source.levels.length), note: "" };
  if (source.times.length === 1) return { rows: "one", pieces: piecesOf(source, line, width, 1), note: "" };
  const pieces = piecesOf(source, line, width, source.times.length);
  if (pieces.length <= REPLIES) return { rows: "t", pieces, note: "" };
  const note = "At the chosen time: all times along this line are more than can be asked for.";
  return { rows: "one", pieces: piecesOf(source, line, width, 1), note };
}

function piecesOf(source, line, width, layers) {
  if (nodesRound(source, line, width) * layers <= VALUES_OF_REPLY) return [line];
  const two = halves(line);
  return two ? two.flatMap((half) => piecesOf(source, half, width, layers)) : [line];
}

function nodesRound(source, line, width) {
  const [left, bottom, right, top] = boxOf(line);
  return countBetween(source.x, left - width / 2, right + width / 2) * countBetween(source.y, bottom - width / 2, top + width / 2);
}

/** The values at the steps of all pieces, one behind the other. */
function sampled(source, view, parts, rowsAre, rows) {
  const along = distancesAlong(view.line);
  const step = stepOf(source, along.at(-1));
  const columns = parts.flatMap((part) => columnsOf(source, part, step));
  const values = new Float64Array(rows.length * columns.length).fill(NaN);
  const inside = new Uint8Array(values.length);
  columns.forEach((column, at) => fillColumn(column, view.parameter, rowsAre, rows, { at, many: columns.length, values, inside }));
  const present = columns.some((column) => column.node);
  return { along, nodes: columns.map((column) => column.place), values, inside, present, targets: parts.map((part) => part.target) };
}

/** A step is half of the least distance between nodes, or more where the line is long. */
function stepOf(source, long) {
  const gap = Math.min(...[source.x, source.y].map((axis) => (axis.length > 1 ? axis[1] - axis[0] : Infinity)));
  return Math.max(long / STEPS, Math.min(gap, long) / 2, 1e-9);
}

/** The steps of a piece of the line, in its middle each: the nearest node, and where the reply has it. */
function columnsOf(source, { line, coverage }, step) {
  const along = distancesAlong(line);
  const many = Math.max(1, Math.round(along.at(-1) / step));
  return Array.from({ length: many }, (_, column) => {
    const point = pointAlong(line, along, ((column + 0.5) * along.at(-1)) / many);
    const place = isInBox(source.box, point) ? source.nodeAt(point) : null;
    return { coverage, place, node: place && coverage ? nodeOf(coverage, place) : null };
  });
}

const isInBox = ([left, bottom, right, top], [x, y]) => left <= x && x <= right && bottom <= y && y <= top;

/** The places of a node on the axes of a reply, where it is there. */
function nodeOf(coverage, place) {
  const found = ["x", "y"].map((name, of) => {
    const axis = coverage.axes[name];
    const at = nearest(axis, place[of]);
    return axis[at] === place[of] ? at : -1;
  });
  return found.includes(-1) ? null : found;
}

function fillColumn({ coverage, node }, parameter, rowsAre, rows, { at, many, values, inside }) {
  if (!node) return;
  const [x, y] = node;
  rows.forEach((row, place) => {
    const of = rowsAre === "one" ? 0 : coverage.axes[rowsAre].indexOf(row);
    if (of < 0) return;
    values[place * many + at] = rowsAre === "z" ? coverage.at(parameter, 0, of, y, x) : coverage.at(parameter, of, 0, y, x);
    inside[place * many + at] = 1;
  });
}
