// Values painted into the pixels of a plot: in each the value of its column and row, and hatching where one is missing.

import { PIXELS } from "./scale.js";

const HATCH = 8; // pixels from line to line
const HATCH_LINE = 2;

/**
 * Paints a plot. `columnAt` and `rowAt` give the place of a value for a place in pixels, or -1. `values` stand in rows of `many`;
 * `inside`, where it is given, tells with 0 which values were not asked for: these are left out.
 */
export function paint(context, plot, { columnAt, rowAt, values, many, inside }, scale, colours) {
  const ratio = context.getTransform().a;
  const { left, top, width, height } = plot.area;
  const [fromX, fromY] = [Math.round(left * ratio), Math.round(top * ratio)];
  const [wide, high] = [Math.max(1, Math.round(width * ratio)), Math.max(1, Math.round(height * ratio))];
  const columns = Int32Array.from({ length: wide }, (_, x) => columnAt((fromX + x + 0.5) / ratio));
  const image = context.createImageData(wide, high);
  const pixels = new Uint32Array(image.data.buffer);
  const missing = [pixelOf(colours.missing), pixelOf(colours["missing-line"])];
  for (let y = 0; y < high; y += 1) {
    const row = rowAt((fromY + y + 0.5) / ratio);
    if (row >= 0) paintRow(pixels, y, columns, { values, inside, first: row * many }, scale, missing);
  }
  context.putImageData(image, fromX, fromY);
}

function paintRow(pixels, y, columns, { values, inside, first }, scale, missing) {
  const start = y * columns.length;
  for (let x = 0; x < columns.length; x += 1) {
    if (columns[x] < 0) continue;
    const place = first + columns[x];
    const sample = values[place];
    if (sample === sample) pixels[start + x] = PIXELS[scale.place(sample)]; // all but NaN
    else if (!inside || inside[place]) pixels[start + x] = missing[Number((x + y) % HATCH < HATCH_LINE)];
  }
}

/** A colour like #rrggbb as a canvas holds it. */
function pixelOf(hex) {
  const [red, green, blue] = [1, 3, 5].map((from) => parseInt(hex.slice(from, from + 2), 16));
  return ((255 << 24) | (blue << 16) | (green << 8) | red) >>> 0;
}
