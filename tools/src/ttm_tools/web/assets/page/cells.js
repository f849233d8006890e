// Travel times out of the page: its parts of cells, inflated when they are needed.

import { setSource } from "../core/source.js";
import { head, inflated, numbers } from "./data.js";

const BLOCKS_KEPT = 400; // blocks of cells that are kept inflated
const blocks = new Map(); // inflated blocks of cells by their names, the most recent one at the end
/** The cells of a block, as minutes. */
async function readBlock(scenario, share, number) {
  const name = `cells-${scenario}-${share}-${number}`;
  let cells = blocks.get(name);
  blocks.delete(name);
  if (cells === undefined) {
    cells = new Uint8Array(await inflated(name));
    for (let place = head.columns; place < cells.length; place++) {
      cells[place] += cells[place - head.columns];
    }
    if (scenario > 0) {
      const below = await readBlock(0, share, number);
      for (let place = 0; place < cells.length; place++) {
        cells[place] += below[place];
      }
    }
  }
  blocks.set(name, cells);
  if (blocks.size > BLOCKS_KEPT) {
    blocks.delete(blocks.keys().next().value);
  }
  return cells;
}

/** Travel times from a place in minutes, for each column; null where the page hasn't them. */
async function minutesInPage(place, scenario, share) {
  const row = numbers.rowsAt[place];
  if (row < 0) {
    return null;
  }
  const block = Math.floor(row / head.rowsInBlock);
  const begin = (row - block * head.rowsInBlock) * head.columns;
  return (await readBlock(scenario, share, block)).subarray(begin, begin + head.columns);
}

setSource(minutesInPage);
