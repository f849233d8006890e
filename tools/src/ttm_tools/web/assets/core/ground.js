// The ground of a map, as `ttm-tools ground` packs it: shapes by kind and names.

/** Points of each shape, where they are, the box around each, and how a ring turns: above 0 round an area, below 0 round
 * a hole.
 * @typedef {{ counts: Int32Array, ends: Float64Array, boxes: Float64Array, turns: Float64Array }} GroundShapes
 */
/** @typedef {{ kind: string, text: string, x: number, y: number }} GroundName */

const SIDE = 256; // of the world on the map of zoom 0

/** Where degrees lie on the map of zoom 0 (Web Mercator). @returns {[number, number]} */
export function worldOf(latitude, longitude) {
  const sine = Math.sin((latitude * Math.PI) / 180);
  return [SIDE * (0.5 + longitude / 360), SIDE * (0.5 - Math.log((1 + sine) / (1 - sine)) / (4 * Math.PI))];
}

/** Numbers of seven bits a byte, the lowest first, from a place of some bytes to another. */
export function numbersOf(bytes, begin, end) {
  const found = [];
  for (let at = begin; at < end;) {
    let number = 0, factor = 1, byte;
    do {
      byte = bytes[at++];
      number += (byte & 127) * factor;
      factor *= 128;
    } while (byte > 127);
    found.push(number);
  }
  return found;
}

/** The ground of unpacked bytes, on the map of zoom 0. */
export function groundOf(buffer) {
  const bytes = new Uint8Array(buffer), length = new DataView(buffer).getUint32(0, true);
  const head = JSON.parse(new TextDecoder().decode(bytes.subarray(4, 4 + length)));
  const shapes = /** @type {Record<string, GroundShapes>} */ ({});
  let begin = 4 + length;
  for (const [kind, count, size] of head.kinds) {
    shapes[kind] = shapesOf(numbersOf(bytes, begin, begin + size), count, head.unit);
    begin += size;
  }
  const names = head.names.map(([kind, text, north, east]) => {
    const [x, y] = worldOf(north / head.unit, east / head.unit);
    return { kind, text, x, y };
  });
  return { shapes, names: /** @type {GroundName[]} */ (names) };
}

/** Shapes with the box around each: west, north, east and south. @returns {GroundShapes} */
function shapesOf(numbers, count, unit) {
  const counts = Int32Array.from(numbers.slice(0, count)), ends = new Float64Array(numbers.length - count);
  const boxes = new Float64Array(4 * count), turns = new Float64Array(count);
  let north = 0, east = 0, from = 0;
  const stepAt = (place) => (numbers[place] % 2 ? -(numbers[place] + 1) / 2 : numbers[place] / 2);
  counts.forEach((points, shape) => {
    const box = [Infinity, Infinity, -Infinity, -Infinity];
    for (let place = from; place < from + points; place++) {
      north += stepAt(count + 2 * place);
      east += stepAt(count + 2 * place + 1);
      const [x, y] = worldOf(north / unit, east / unit);
      ends[2 * place] = x;
      ends[2 * place + 1] = y;
      box[0] = Math.min(box[0], x);
      box[1] = Math.min(box[1], y);
      box[2] = Math.max(box[2], x);
      box[3] = Math.max(box[3], y);
      if (place > from) {
        turns[shape] += ends[2 * place - 2] * -y + x * ends[2 * place - 1];
      }
    }
    boxes.set(box, 4 * shape);
    from += points;
  });
  return { counts, ends, boxes, turns };
}
