// The time slider, with play: a step at a time, each when the picture of the one before is there.

import { byId } from "./dom.js";
import { time } from "./text.js";

const PAUSE = 600; // milliseconds that a picture stays while it plays

export class TimePanel {
  #timer = null;

  /** `chosen(time)` gives a promise that ends when the time is shown. */
  constructor(chosen) {
    this.chosen = chosen;
    this.times = [];
    this.slider = byId("time");
    this.button = byId("play");
    this.slider.addEventListener("input", () => {
      this.stop();
      this.#choose(Number(this.slider.value));
    });
    this.button.addEventListener("click", () => (this.isPlaying ? this.stop() : this.play()));
  }

  get isPlaying() {
    return this.#timer !== null;
  }

  show(times, now) {
    this.times = times;
    byId("time-panel").classList.toggle("single", times.length < 2);
    this.slider.max = String(times.length - 1);
    this.slider.disabled = this.button.disabled = times.length < 2;
    byId("time-first").textContent = time(times[0]).replace(" UTC", "");
    byId("time-last").textContent = times.length < 2 ? "" : time(times.at(-1)).replace(" UTC", "");
    this.mark(now);
  }

  /** Moves the slider to a time. */
  mark(now) {
    const place = this.times.indexOf(now);
    this.slider.value = String(place);
    this.slider.setAttribute("aria-valuetext", time(now));
    byId("time-now").textContent = time(now);
    byId("time-now").value = time(now);
  }

  play() {
    this.#told(true);
    this.#timer = setTimeout(() => this.#step(), 0);
  }

  stop() {
    clearTimeout(this.#timer);
    this.#timer = null;
    this.#told(false);
  }

  #told(isPlaying) {
    this.button.setAttribute("aria-pressed", String(isPlaying));
    this.button.setAttribute("aria-label", isPlaying ? "Pause" : "Play");
  }

  async #step() {
    const mine = this.#timer;
    const isShown = await this.#choose((Number(this.slider.value) + 1) % this.times.length);
    if (this.#timer !== mine) return; // it was stopped meanwhile
    if (!isShown) this.stop();
    else this.#timer = setTimeout(() => this.#step(), PAUSE);
  }

  #choose(place) {
    this.mark(this.times[place]);
    return this.chosen(this.times[place]);
  }
}
