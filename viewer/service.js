// The service: what is asked of it, its refusals in its own words, and the edition that it answers from.

/** Something went wrong between the page and the service; `told` is what the service said itself, where it did. */
export class Fault extends Error {
  constructor(message, target, told = null, code = null) {
    super(message);
    this.target = target;
    this.told = told;
    this.code = code;
  }
}

const TARGET_LENGTH = 15000; // bytes: a head of a request has at most 16,384, and holds more than the target

let edition = null;
let onEdition = () => {};

/** Calls back with the number of each edition that takes the place of another. */
export function watchEdition(call) {
  onEdition = call;
}

/** The reply to a target, as JSON. Throws a Fault, or an AbortError where the signal says so. */
export async function ask(target, signal) {
  if (target.length > TARGET_LENGTH) throw new Fault("What is drawn has too many corners for one request.", target);
  const reply = await fetched(target, { signal });
  const body = await bodyOf(reply, target);
  if (!reply.ok) throw refusal(reply, body, target);
  noteEdition(reply);
  return body;
}

/** Asks for the head of a small page alone, to hear of a new edition. */
export async function listen() {
  const reply = await fetched("/conformance", { method: "HEAD" });
  if (reply.ok) noteEdition(reply);
}

async function fetched(target, options) {
  try {
    return await fetch(target, options);
  } catch (error) {
    if (error.name === "AbortError") throw error;
    throw new Fault("The service can’t be reached.", target);
  }
}

async function bodyOf(reply, target) {
  try {
    return await reply.json();
  } catch (error) {
    if (error.name === "AbortError") throw error;
    const status = `${reply.status} ${reply.statusText}`.trim();
    throw new Fault(reply.ok ? "The reply broke off or isn’t JSON." : "The service doesn’t answer.", target, status);
  }
}

/** A refusal: its code, its number, its description where it has one, and the status. */
function refusal(reply, body, target) {
  const code = body?.code ?? "no code";
  const words = [code, body?.number === undefined ? "" : `(${body.number})`, body?.description ?? ""];
  const told = `${words.filter(Boolean).join(" ")}, status ${reply.status}`;
  return new Fault(code === "NoSamples" ? "Nothing lies there." : "The service refuses this.", target, told, code);
}

function noteEdition(reply) {
  const found = Number(reply.headers.get("X-Edr-Edition"));
  if (!found || found === edition) return;
  const before = edition;
  edition = found;
  onEdition(found, before);
}

/** Runs one piece of work at a time: a new one gives up the one before. */
export class Latest {
  #controller = null;

  /** Whether the work came to its end without a fault, and no other took its place. */
  async run(work, onFault) {
    this.stop();
    const { signal } = (this.#controller = new AbortController());
    try {
      await work(signal);
      return !signal.aborted;
    } catch (error) {
      if (!signal.aborted) onFault(error);
      return false;
    }
  }

  stop() {
    this.#controller?.abort();
  }
}
