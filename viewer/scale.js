// The colours of values: viridis, whose steps look even to the eye, also without red or green and in grey.

const VIRIDIS = (
  "440154 481568 482677 453781 3f4788 39558c 32648e 2d718e 287d8e 238a8d 1f968b 20a386 29af7f 3cbc75 56c667 74d055 94d840 b8de29 dce318 fde725"
).split(" ");
const STEPS = 256;

const part = (hex, place) => parseInt(hex.slice(2 * place, 2 * place + 2), 16);

/** Red, green and blue at a place of the table, from 0 to 255, between its colours in equal steps. */
function colourAt(place) {
  const along = (place / (STEPS - 1)) * (VIRIDIS.length - 1);
  const lower = Math.min(Math.floor(along), VIRIDIS.length - 2);
  const share = along - lower;
  return [0, 1, 2].map((of) => Math.round(part(VIRIDIS[lower], of) * (1 - share) + part(VIRIDIS[lower + 1], of) * share));
}

const TABLE = Array.from({ length: STEPS }, (_, place) => colourAt(place));

/** The colours as numbers that a canvas holds, for machines whose lowest byte comes first. */
export const PIXELS = Uint32Array.from(TABLE, ([red, green, blue]) => ((255 << 24) | (blue << 16) | (green << 8) | red) >>> 0);

/** The whole table as a gradient of the style sheet. */
export const GRADIENT = `linear-gradient(to right, ${VIRIDIS.map((hex) => `#${hex}`).join(", ")})`;

/** Values from low to high, in colours; values beyond take those at the ends. */
export class Scale {
  constructor(low, high) {
    this.low = low;
    this.high = high > low ? high : low + 1;
    this.factor = (STEPS - 1) / (this.high - this.low);
  }

  /** The place of a value in the table. */
  place(value) {
    const place = Math.round((value - this.low) * this.factor);
    return place < 0 ? 0 : place > STEPS - 1 ? STEPS - 1 : place;
  }

  /** The colour of a value, for the style sheet. */
  colour(value) {
    return `rgb(${TABLE[this.place(value)].join(" ")})`;
  }
}
