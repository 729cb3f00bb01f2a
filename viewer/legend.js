// The legend of a scale: a strip of its colours with numbers and the unit, and what other marks mean.

import { make } from "./dom.js";
import { GRADIENT } from "./scale.js";
import { number, unit } from "./text.js";
import { numberTicks } from "./ticks.js";

/** Fills an element with the legend of a parameter; without a scale it says so. `marks` are pairs of a mark's class and its meaning. */
export function showLegend(host, parameter, scale, marks) {
  const symbol = unit(parameter.unit);
  const title = make("span", { class: "legend-title" }, symbol ? `${parameter.label}, ${symbol}` : parameter.label);
  const children = scale ? [title, strip(scale)] : [title, make("span", { class: "muted" }, "no values")];
  for (const [name, meaning] of marks) children.push(make("span", { class: "legend-mark" }, make("i", { class: name }), meaning));
  host.replaceChildren(...children);
}

function strip(scale) {
  const colours = make("span", { class: "legend-colours" });
  colours.style.background = GRADIENT;
  const texts = ticksOf(scale).map(({ at, text }) => {
    const tick = make("span", { class: "legend-tick" }, text);
    tick.style.left = `${(100 * (at - scale.low)) / (scale.high - scale.low)}%`;
    return tick;
  });
  return make("span", { class: "legend-strip" }, colours, ...texts);
}

/** Both ends, and round numbers between that stand apart from them. */
function ticksOf({ low, high }) {
  const apart = (high - low) * 0.16;
  const between = numberTicks(low, high, 4, 1).filter(({ at }) => at - low > apart && high - at > apart);
  return [{ at: low, text: number(low) }, ...between, { at: high, text: number(high) }];
}
