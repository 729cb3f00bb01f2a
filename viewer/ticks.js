// Where an axis is marked: at round numbers, and at round times of the calendar.

import { number } from "./text.js";

const MINUTE = 60;
const HOUR = 3600;
const DAY = 86400;
const STEPS = [
  1, 5, 15, 30, MINUTE, 5 * MINUTE, 15 * MINUTE, 30 * MINUTE, HOUR, 3 * HOUR, 6 * HOUR, 12 * HOUR, DAY, 2 * DAY, 5 * DAY, 10 * DAY,
];
const MONTHS = ["Jan", "Feb", "Mar", "Apr", "May", "Jun", "Jul", "Aug", "Sep", "Oct", "Nov", "Dec"];
const MONTH_STEPS = [1, 3, 6, 12, 24, 60, 120, 240, 600, 1200, 2400, 6000, 12000, 24000, 60000];

/** Round numbers from low to high, about so many, with a step of at least `least`: a list of `at` and `text`. */
export function numberTicks(low, high, about, least = 0) {
  const step = Math.max(roundStep((high - low) / Math.max(1, about)), least);
  if (!(step > 0)) return [{ at: low, text: number(low) }];
  const ticks = [];
  for (let place = Math.ceil(low / step - 1e-9); place * step <= high + step * 1e-9; place += 1) {
    ticks.push({ at: place * step, text: number(Number((place * step).toPrecision(12))) });
  }
  return ticks;
}

function roundStep(rough) {
  if (!(rough > 0)) return 0;
  const power = 10 ** Math.floor(Math.log10(rough));
  return [1, 2, 5, 10].map((factor) => factor * power).find((step) => step >= rough * 0.999);
}

/** Round times between two numbers of seconds since 1970, at most so many: a list of `at` and `text`. */
export function timeTicks(low, high, most) {
  const step = STEPS.find((seconds) => (high - low) / seconds <= most);
  return step ? stepTicks(low, high, step) : monthTicks(low, high, most);
}

function stepTicks(low, high, step) {
  const ticks = [];
  for (let at = Math.ceil(low / step) * step; at <= high; at += step) ticks.push({ at, text: clockText(at, step) });
  return ticks;
}

/** The clock, with seconds where a step is less than a minute, or the day at midnight. */
export function clockText(at, step = MINUTE) {
  const date = new Date(at * 1000);
  if (at % DAY === 0) return `${date.getUTCDate()} ${MONTHS[date.getUTCMonth()]}`;
  return date.toISOString().slice(11, step < MINUTE ? 19 : 16);
}

function monthTicks(low, high, most) {
  const first = monthOf(low);
  const step = MONTH_STEPS.find((months) => (monthOf(high) - first) / months <= most) ?? MONTH_STEPS.at(-1);
  const ticks = [];
  for (let month = Math.ceil(first / step) * step; secondsOf(month) <= high; month += step) {
    const year = Math.floor(month / 12);
    const text = step < 12 ? `${MONTHS[month % 12]} ${year}` : String(year);
    if (secondsOf(month) >= low) ticks.push({ at: secondsOf(month), text });
  }
  return ticks;
}

/** Months are counted from the year 0. */
function monthOf(seconds) {
  const date = new Date(seconds * 1000);
  return date.getUTCFullYear() * 12 + date.getUTCMonth();
}

function secondsOf(month) {
  return new Date(0).setUTCFullYear(Math.floor(month / 12), month % 12, 1) / 1000;
}
