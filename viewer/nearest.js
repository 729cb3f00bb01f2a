// Places on an axis, whose values ascend.

/** The place of the value nearest to a number; of two equally near the lower one, as the service has it. */
export function nearest(values, at) {
  const above = firstFrom(values, at);
  if (above === 0) return 0;
  if (above === values.length) return above - 1;
  return at - values[above - 1] <= values[above] - at ? above - 1 : above;
}

/** The place of the first value that isn't below a number, or how many values there are. */
export function firstFrom(values, at) {
  let low = 0;
  let high = values.length;
  while (low < high) {
    const middle = (low + high) >> 1;
    if (values[middle] < at) low = middle + 1;
    else high = middle;
  }
  return low;
}

/** How many values lie between two numbers, both included. */
export const countBetween = (values, low, high) => Math.max(0, firstFrom(values, high + 0.5) - firstFrom(values, low));

/** The greatest distance between neighbours, or that of another axis where there is one value. */
export function greatestGap(values, other) {
  const gaps = values.slice(1).map((value, place) => value - values[place]);
  if (gaps.length) return gaps.reduce((most, gap) => Math.max(most, gap));
  return other ? greatestGap(other) : 100;
}

/** The borders of the cells round the values: half-way to each neighbour, and as far out at the ends. */
export function cellBorders(values, gapOfOne) {
  const last = values.length - 1;
  if (last === 0) return [values[0] - gapOfOne / 2, values[0] + gapOfOne / 2];
  const between = values.slice(1).map((value, place) => (value + values[place]) / 2);
  return [values[0] - (values[1] - values[0]) / 2, ...between, values[last] + (values[last] - values[last - 1]) / 2];
}
