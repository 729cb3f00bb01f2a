// What is seen, as the part of the page's address behind the `#`, and back. What can't be read there is left out.

const TEXTS = ["collection", "instance", "parameter", "time", "station"];
const NUMBERS = { level: 1, width: 1, box: 4, point: 2, range: 2 };
const LINES = { area: 3, line: 2 };
const LIMIT = 9007199254740991;

/** What is seen when the page opens: each member is null where nothing is chosen. */
export function emptyView() {
  return Object.fromEntries([...TEXTS, ...Object.keys(NUMBERS), ...Object.keys(LINES)].map((name) => [name, null]));
}

/** The text that stands for a view; points are lists of x and y. */
export function writeLink(view) {
  const told = Object.entries(view).filter(([, value]) => value !== null);
  return told.map(([name, value]) => `${name}=${escaped([value].flat(2).join(","))}`).join("&");
}

const escaped = (text) => encodeURIComponent(text).replaceAll("%2C", ",").replaceAll("%3A", ":").replaceAll("%20", "+");

/** The view that a text stands for. */
export function readLink(text) {
  const pairs = new URLSearchParams(text);
  const view = emptyView();
  for (const name of TEXTS) view[name] = pairs.get(name) || null;
  for (const [name, many] of Object.entries(NUMBERS)) view[name] = readNumbers(pairs.get(name), many);
  for (const [name, least] of Object.entries(LINES)) view[name] = readLine(pairs.get(name), least);
  return view;
}

function wholes(text) {
  const numbers = (text ?? "").split(",").map((part) => (/^-?\d{1,16}$/.test(part) ? Number(part) : NaN));
  return numbers.every((number) => Math.abs(number) <= LIMIT) ? numbers : null;
}

function readNumbers(text, many) {
  const numbers = wholes(text);
  if (numbers?.length !== many) return null;
  return many === 1 ? numbers[0] : numbers;
}

function readLine(text, least) {
  const numbers = wholes(text);
  if (!numbers || numbers.length % 2 || numbers.length < 2 * least) return null;
  return Array.from({ length: numbers.length / 2 }, (_, place) => numbers.slice(2 * place, 2 * place + 2));
}
