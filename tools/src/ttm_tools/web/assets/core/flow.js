// Items in rows, and round lengths for a scale.

/** Places items of some widths in rows, one after the other.
 * @template {{ wide: number }} T
 * @param {T[]} items
 */
export function flowed(items, wide, gap) {
  let x = 0, row = 0;
  const placed = items.map((item) => {
    if (x > 0 && x + item.wide > wide) {
      [x, row] = [0, row + 1];
    }
    const at = { item, x, row };
    x += item.wide + gap;
    return at;
  });
  return { placed, rows: items.length ? row + 1 : 0 };
}

/** The greatest round length of at most some pixels, in metres, with its label. */
export function scaleOf(metresOfPixel, most) {
  const whole = metresOfPixel * most, power = 10 ** Math.floor(Math.log10(whole));
  const length = [5, 2, 1].map((digit) => digit * power).find((it) => it <= whole);
  return { length, label: length >= 1000 ? `${length / 1000} km` : `${length} m` };
}
