// Small marks in great number. Each mark is drawn once at some parts of a pixel, and then copied, pixel by pixel, to
// where places lie. A pen takes five times as long for twenty thousand marks.
//
// A pixel is a number as `ImageData` has it: from the highest byte on alpha, blue, green and red.

import { paintSmall } from "./marks.js";

const PARTS = 4; // of a pixel, across and down, at which stamps are drawn: a mark is off by at most an eighth
const STAMP = 8; // pixels that a mark may reach from its middle
const PAIRS = 1 << 16; // of two alphas
/** What becomes of a pixel over another one, by their alphas: the alpha of both, and how many of 256 parts of their
 * colour are of the upper one.
 */
const laid = { alphas: new Uint8Array(PAIRS), parts: new Int32Array(PAIRS) };

for (let pair = 0; pair < PAIRS; pair++) {
  const above = pair >>> 8, alpha = above + ((pair & 255) * (255 - above)) / 255;
  laid.alphas[pair] = Math.round(alpha);
  laid.parts[pair] = alpha === 0 ? 0 : Math.round((256 * above) / alpha);
}

function laidOver(above, below) {
  const pair = ((above >>> 24) << 8) | (below >>> 24), part = laid.parts[pair], rest = 256 - part;
  const mixed = (Math.imul(above & 0xff00ff, part) + Math.imul(below & 0xff00ff, rest) + 0x800080) >>> 8;
  const green = ((above >>> 8) & 255) * part + ((below >>> 8) & 255) * rest + 0x80;
  return (laid.alphas[pair] << 24) | (mixed & 0xff00ff) | (green & 0xff00);
}

/** Lays a stamp over pixels, its middle over one of them. */
function lay(pixels, { away, colours }, middle) {
  for (let at = 0; at < away.length; at++) {
    const pixel = middle + away[at], below = pixels[pixel];
    pixels[pixel] = below === 0 ? colours[at] : laidOver(colours[at], below);
  }
}

/** A picture of stamps, a little larger than the canvas on each side. */
class Stamps {
  constructor() {
    this.canvas = document.createElement("canvas");
    this.sheet = document.createElement("canvas").getContext("2d", { willReadFrequently: true });
    this.kept = new Map(); // stamps by what they look like
    this.fine = 0; // pixels of the canvas for each pixel of the page
    this.reach = 0; // pixels of the canvas that a stamp reaches from its middle
    this.west = this.east = this.north = this.south = 0; // the middles of stamps that were pressed
  }

  /** Whether marks are small enough, of which an ordinary one has a radius. */
  takes(radius) {
    return 2 * radius <= STAMP;
  }

  /** Begins an empty picture for a pen. */
  begin(pen) {
    const { width, height } = pen.canvas, { a: fine } = pen.getTransform();
    if (this.canvas.width === width && this.canvas.height === height && this.fine === fine) {
      this.pixels.fill(0, (this.north - this.reach) * this.width, (this.south + this.reach + 1) * this.width);
    } else {
      Object.assign(this.canvas, { width, height });
      Object.assign(this, { fine, reach: Math.ceil(STAMP * fine) });
      this.image = new ImageData(width + 4 * this.reach, height + 4 * this.reach);
      this.pixels = new Int32Array(this.image.data.buffer);
      this.width = this.image.width;
      this.kept.clear();
    }
    Object.assign(this, { west: this.width, east: -1, north: this.image.height, south: -1 }); // of stamps' middles
  }

  /** The stamps of a mark, one for each part of a pixel. */
  of(mark, radius) {
    const look = [mark.colour, mark.shape, mark.size, mark.edge, radius].join();
    if (!this.kept.has(look)) {
      this.kept.set(look, this.drawn(mark, radius));
    }
    return this.kept.get(look);
  }

  drawn(mark, radius) {
    const { sheet, fine, reach } = this, side = 2 * reach + 1;
    Object.assign(sheet.canvas, { width: PARTS * side, height: PARTS * side });
    const parts = Array.from({ length: PARTS * PARTS }, (_, part) => [part % PARTS, Math.floor(part / PARTS)]);
    for (const part of parts) {
      const [x, y] = part.map((it) => it * side + reach + (it + 0.5) / PARTS);
      sheet.setTransform(fine, 0, 0, fine, x, y);
      paintSmall(sheet, mark, 0, 0, radius);
    }
    return parts.map(([across, down]) => this.cut(sheet.getImageData(across * side, down * side, side, side)));
  }

  /** The pixels of a stamp that have a colour, and how far each is from the middle, by pixels of the picture. */
  cut({ width, data }) {
    const all = new Int32Array(data.buffer), places = Array.from(all.keys()).filter((place) => all[place] >>> 24);
    const away = (place) => (Math.floor(place / width) - this.reach) * this.width + (place % width) - this.reach;
    return { away: Int32Array.from(places, away), colours: Int32Array.from(places, (place) => all[place]) };
  }

  /** Stamps a mark at some places. */
  press(stamps, some, points, view) {
    const { fine, reach, width, image: { height }, pixels } = this;
    let { west, east, north, south } = this;
    for (const place of some) {
      const x = (points[2 * place] * view.scale - view.x) * fine + 2 * reach;
      const y = (points[2 * place + 1] * view.scale - view.y) * fine + 2 * reach;
      if (x >= reach && y >= reach && x < width - reach && y < height - reach) { // else it isn't on the canvas
        const left = Math.floor(x), top = Math.floor(y);
        const part = Math.floor((y - top) * PARTS) * PARTS + Math.floor((x - left) * PARTS);
        lay(pixels, stamps[part], top * width + left);
        [west, east] = [Math.min(west, left), Math.max(east, left)];
        [north, south] = [Math.min(north, top), Math.max(south, top)];
      }
    }
    Object.assign(this, { west, east, north, south });
  }

  /** Paints the part of the picture that has stamps, pixel for pixel. */
  paint(pen) {
    const { canvas, image, reach } = this, aside = 2 * reach;
    const left = Math.max(0, this.west - reach - aside), top = Math.max(0, this.north - reach - aside);
    const wide = Math.min(canvas.width, this.east + reach + 1 - aside) - left;
    const high = Math.min(canvas.height, this.south + reach + 1 - aside) - top;
    if (wide > 0 && high > 0) {
      canvas.getContext("2d").putImageData(image, -aside, -aside, left + aside, top + aside, wide, high);
      pen.save();
      pen.resetTransform();
      pen.drawImage(canvas, left, top, wide, high, left, top, wide, high);
      pen.restore();
    }
  }
}

export const stamps = new Stamps(); // of all maps, one after another
