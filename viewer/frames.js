// The pictures of a grid, a frame for each time: asked for some times at once, as many as are soon there, and kept.

const VALUES_AT_ONCE = 600000;
const VALUES_KEPT = 6000000;
const TIMES_AT_ONCE = 256;

export class Frames {
  /** `load(first, last)` gives the coverage of the times from one place of the axis to another. */
  constructor({ load, times, nodes, parameter }) {
    Object.assign(this, { load, times, nodes, parameter });
    this.size = Math.min(TIMES_AT_ONCE, Math.max(1, Math.floor(VALUES_AT_ONCE / Math.max(1, nodes))));
    this.runs = new Map();
    this.low = Infinity;
    this.high = -Infinity;
  }

  /** The frame of a time: its coverage, and the place of the time in that. */
  async frame(place, signal) {
    const run = Math.floor(place / this.size);
    const held = this.runs.get(run) ?? (await this.#loaded(run, signal));
    this.runs.delete(run); // so the one that was used last stands last
    this.runs.set(run, held);
    return { ...held, place: place - run * this.size };
  }

  async #loaded(run, signal) {
    const first = run * this.size;
    const last = Math.min(first + this.size, this.times.length) - 1;
    const loaded = await this.load(this.times[first], this.times[last], signal);
    this.#measure(loaded.coverage);
    if ((this.runs.size + 1) * this.size * this.nodes > VALUES_KEPT) this.runs.delete(this.runs.keys().next().value);
    return loaded;
  }

  /** The least and the greatest value of all that was loaded. */
  #measure(coverage) {
    for (const sample of coverage.values(this.parameter)) {
      if (sample < this.low) this.low = sample;
      if (sample > this.high) this.high = sample;
    }
  }
}
