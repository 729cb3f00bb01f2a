// A plot: where the numbers of two axes stand in a rectangle of pixels, and how its axes are drawn.

const TICK = 5;
const LEAST = 40; // pixels that a side of a plot has at least

export class Plot {
  /** `area` has left, top, width and height in pixels; `window` is least x and y, greatest x and y, in units of the axes. */
  constructor(area, window) {
    this.area = area;
    this.window = window;
  }

  /** The plot of a window at equal scales on both axes, as large as fits in so many pixels, in the middle; a very flat one is stretched. */
  static even(window, margins, width, height) {
    const [wide, high] = [window[2] - window[0], window[3] - window[1]];
    const [roomX, roomY] = [width - margins.left - margins.right, height - margins.top - margins.bottom];
    const scale = Math.min(roomX / wide, roomY / high);
    const size = { width: Math.max(LEAST, wide * scale), height: Math.max(LEAST, high * scale) };
    const left = margins.left + (roomX - size.width) / 2;
    return new Plot({ left, top: margins.top, ...size }, window);
  }

  toX = (x) => this.area.left + ((x - this.window[0]) / (this.window[2] - this.window[0])) * this.area.width;
  toY = (y) => this.area.top + ((this.window[3] - y) / (this.window[3] - this.window[1])) * this.area.height;
  fromX = (at) => this.window[0] + ((at - this.area.left) / this.area.width) * (this.window[2] - this.window[0]);
  fromY = (at) => this.window[3] - ((at - this.area.top) / this.area.height) * (this.window[3] - this.window[1]);

  /** Whether a place in pixels lies inside. */
  holds(x, y) {
    const { left, top, width, height } = this.area;
    return left <= x && x <= left + width && top <= y && y <= top + height;
  }

  /** Makes what is drawn by `draw` stay inside. */
  clipped(context, draw) {
    const { left, top, width, height } = this.area;
    context.save();
    context.beginPath();
    context.rect(left, top, width, height);
    context.clip();
    draw();
    context.restore();
  }

  /** Draws the border, the ticks of both axes with their texts, and the titles of the axes. */
  drawAxes(context, colours, { xTicks, yTicks, xTitle, yTitle }) {
    const { left, top, width, height } = this.area;
    context.font = `12px ${getComputedStyle(document.body).fontFamily}`;
    context.lineWidth = 1;
    context.strokeStyle = colours.line;
    context.strokeRect(left - 0.5, top - 0.5, width + 1, height + 1);
    context.fillStyle = colours.muted;
    this.#drawX(context, xTicks, xTitle);
    this.#drawY(context, yTicks, yTitle);
  }

  #drawX(context, ticks, title) {
    const { left, top, width, height } = this.area;
    const right = left + width - context.measureText(title).width - 10;
    context.textBaseline = "top";
    context.textAlign = "center";
    for (const { at, text } of ticks) {
      const x = this.toX(at);
      mark(context, x, top + height, x, top + height + TICK);
      if (x + context.measureText(text).width / 2 < right) context.fillText(text, x, top + height + TICK + 3);
    }
    context.textAlign = "right";
    context.fillText(title, left + width, top + height + TICK + 3);
  }

  #drawY(context, ticks, title) {
    const { left, top } = this.area;
    context.textAlign = "right";
    context.textBaseline = "middle";
    for (const { at, text } of ticks) {
      const y = this.toY(at);
      mark(context, left - TICK, y, left, y);
      if (y > top + 16) context.fillText(text, left - TICK - 4, y);
    }
    context.textBaseline = "top";
    context.fillText(title, left - TICK - 4, top - 2);
  }
}

function mark(context, ...[fromX, fromY, toX, toY]) {
  context.beginPath();
  context.moveTo(Math.round(fromX) + 0.5, Math.round(fromY) + 0.5);
  context.lineTo(Math.round(toX) + 0.5, Math.round(toY) + 0.5);
  context.stroke();
}
