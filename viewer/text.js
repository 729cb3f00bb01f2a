// Numbers, units and times as people read them.

// What UCUM prints for some of its codes; any other unit is shown as the service gives it.
const PRINTED = {
  Cel: "°C", "[degF]": "°F", deg: "°", um: "µm", "ug/m3": "µg/m³", m2: "m²", m3: "m³", "m3/s": "m³/s", "J/m2": "J/m²", "W/m2": "W/m²", Ohm: "Ω",
};

const WHOLE = new Intl.NumberFormat("en", { maximumFractionDigits: 3 });

/** A number with commas between its thousands; a minus sign in place of a hyphen. */
export const number = (value) => WHOLE.format(value).replace("-", "−");

/** The printed symbol of a unit, empty where there is none. */
export const unit = (code) => PRINTED[code] ?? code ?? "";

/** A value with its unit, or that it is missing. */
export function value(sample, code) {
  if (sample === null || Number.isNaN(sample)) return "missing";
  return unit(code) ? `${number(sample)} ${unit(code)}` : number(sample);
}

/** Lengths of up to a span are told in kilometres or in metres: how many metres one is, and its symbol. */
export const lengthUnit = (span) => (span >= 10000 ? { metres: 1000, symbol: "km" } : { metres: 1, symbol: "m" });

/** A length in a unit of lengths. */
export const length = (metres, of) => `${number(metres / of.metres)} ${of.symbol}`;

/** A time of the service, as 2024-01-01 06:00 UTC, with its seconds where it has some. */
export function time(text) {
  const end = text.endsWith(":00Z") ? 16 : 19;
  return `${text.slice(0, 10)} ${text.slice(11, end)} UTC`;
}

/** The seconds since 1970 of a time of the service. */
export const seconds = (text) => Date.parse(text) / 1000;
