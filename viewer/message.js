// What a panel says in place of its picture: that it loads, what went wrong in the service's own words, or what to do.

import { make } from "./dom.js";

const SOON = 250; // milliseconds before a panel says that it loads

export class Message {
  constructor(host) {
    this.host = host;
    this.later = null;
    host.setAttribute("role", "status");
  }

  clear() {
    clearTimeout(this.later);
    this.#fill("", []);
  }

  /** Says that something loads, if it takes longer than a moment. */
  loading(text) {
    clearTimeout(this.later);
    if (this.host.dataset.kind === "fault") this.clear();
    this.later = setTimeout(() => this.#fill("loading", [make("span", { class: "spinner" }), make("span", {}, text)]), SOON);
  }

  /** Says what there is to do or to know. */
  hint(text) {
    clearTimeout(this.later);
    this.#fill("hint", [make("p", {}, text)]);
  }

  /** Says what went wrong, and what was asked; `again` tries again. */
  fault(error, again) {
    clearTimeout(this.later);
    const parts = [make("p", { class: "message-title" }, error.message)];
    if (error.told) parts.push(make("p", {}, error.code ? "The service says: " : "Got: ", make("code", {}, error.told)));
    if (error.target) parts.push(make("p", {}, "Asked: ", make("code", {}, readable(error.target))));
    if (again && !error.code) parts.push(againButton(again)); // a refusal would come again
    this.#fill(error.code === "NoSamples" ? "empty" : "fault", parts);
  }

  #fill(kind, parts) {
    this.host.dataset.kind = kind;
    this.host.hidden = !kind;
    this.host.replaceChildren(...parts);
  }
}

function againButton(again) {
  const button = make("button", { type: "button" }, "Try again");
  button.addEventListener("click", again);
  return button;
}

/** A target without its escapes, cut where it is long. */
export function readable(target) {
  const text = decodeURIComponent(target.replaceAll("+", " "));
  return text.length > 200 ? `${text.slice(0, 200)}…` : text;
}

/** A link to what was asked, and how many other requests there were beside it. */
export function askedLink(targets) {
  const link = make("a", { href: targets[0], class: "asked", target: "_blank", rel: "noopener" }, "CoverageJSON");
  link.title = readable(targets[0]);
  return targets.length > 1 ? [link, make("span", { class: "muted" }, ` and ${targets.length - 1} more`)] : [link];
}
