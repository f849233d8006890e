// A picture of the map to send: its title, conditions, key, scale, north and source, at double size.

import { flowed, scaleOf } from "../core/flow.js";
import { table } from "../core/table.js";
import { metresOf } from "../map/ground.js";
import { head } from "../page/data.js";
import { element, made } from "./elements.js";

const DOUBLE = 2; // pixels of the picture for one of the page
const MARGIN = 16, TITLE_HIGH = 28, TEXT_LINE = 20, KEY_ROW = 24; // pixels
const MARK_WIDE = 18, LINE_WIDE = 34, KEY_GAP = 18;
const letters = (size, weight) => `${weight} ${size}px Inter, sans-serif`;

/** The map as it is shown, below a title and what holds for it, and above its key. */
export function pictureOf(page, conditions) {
  const box = page.map.getContainer().getBoundingClientRect(), sheet = document.createElement("canvas");
  const pen = sheet.getContext("2d"), texts = titles(conditions);
  pen.font = letters(14, 400);
  const key = flowed(keyItems(pen), box.width - 2 * MARGIN, KEY_GAP);
  const below = MARGIN + KEY_ROW * (key.rows + 1) + TEXT_LINE;
  const above = MARGIN + TITLE_HIGH + TEXT_LINE * (texts.length - 1) + 8;
  sheet.width = Math.round(DOUBLE * box.width);
  sheet.height = Math.round(DOUBLE * (above + box.height + below));
  pen.scale(DOUBLE, DOUBLE);
  pen.fillStyle = table.tokens.panel;
  pen.fillRect(0, 0, box.width, above + box.height + below);
  paintTitles(pen, texts, box.width - 2 * MARGIN);
  pen.save();
  pen.translate(0, above);
  paintMap(pen, page, box);
  paintScale(pen, page, box);
  pen.restore();
  pen.save();
  pen.translate(MARGIN, above + box.height + MARGIN);
  paintKey(pen, key, box.width - 2 * MARGIN);
  pen.restore();
  return new Promise((resolve) => sheet.toBlob(resolve, "image/png"));
}

/** Has the browser keep a file. */
export function download(name, blob) {
  const link = made("a", "", { download: name, href: URL.createObjectURL(blob) });
  link.click();
  setTimeout(() => URL.revokeObjectURL(link.href), 10000);
}

/** The answer, the sentence on what is shown, and the conditions. */
function titles(conditions) {
  const text = (name) => element(name).textContent.trim();
  const answer = [text("headline"), text("headline-of")].filter(Boolean).join(" ");
  const drawn = text("heading"), more = [text("headline-from"), text("told")].filter(Boolean).join(" · ");
  const lines = [[answer ? drawn : "", more].filter(Boolean).join(" · "), conditions];
  return [answer || drawn, ...lines.filter(Boolean)];
}

function paintTitles(pen, texts, wide) {
  const [title, ...lines] = texts;
  pen.textBaseline = "top";
  pen.fillStyle = table.tokens.ink;
  pen.font = letters(20, 700);
  pen.fillText(title, MARGIN, MARGIN, wide);
  pen.fillStyle = table.tokens.soft;
  pen.font = letters(14, 400);
  lines.forEach((line, place) => pen.fillText(line, MARGIN, MARGIN + TITLE_HIGH + TEXT_LINE * place, wide));
}

/** The canvases of the map, painted anew for this size. Tiles are left out: a browser gives none to a picture. */
function paintMap(pen, page, box) {
  const paint = (finest) => {
    page.map.options.finest = finest;
    page.lower.draw();
    page.drawing.draw();
  };
  pen.save();
  pen.beginPath();
  pen.rect(0, 0, box.width, box.height);
  pen.clip();
  pen.fillStyle = table.tokens.land;
  pen.fillRect(0, 0, box.width, box.height);
  paint(DOUBLE);
  for (const canvas of page.map.getContainer().querySelectorAll("canvas")) {
    const own = canvas.getBoundingClientRect();
    pen.drawImage(canvas, own.left - box.left, own.top - box.top, own.width, own.height);
  }
  paint(1);
  pen.restore();
  pen.lineWidth = 1;
  pen.strokeStyle = table.tokens.edge;
  pen.strokeRect(0.5, 0.5, box.width - 1, box.height - 1);
}

/** A bar of a round length at the lower right, and where north is at the upper right. */
function paintScale(pen, page, box) {
  const metres = metresOf({ ...page.worldAt({ x: 0, y: 0 }), ...pixelsOf(page), height: box.height });
  const { length, label } = scaleOf(metres, 120), wide = length / metres;
  const right = box.width - MARGIN, low = box.height - MARGIN;
  Object.assign(pen, { lineWidth: 1.6, strokeStyle: table.tokens.ink, fillStyle: table.tokens.ink });
  pen.beginPath();
  pen.moveTo(right - wide, low - 6);
  pen.lineTo(right - wide, low);
  pen.lineTo(right, low);
  pen.lineTo(right, low - 6);
  pen.stroke();
  Object.assign(pen, { font: letters(12, 600), textAlign: "center", textBaseline: "bottom" });
  haloed(pen, label, right - wide / 2, low - 5);
  pen.textBaseline = "top";
  haloed(pen, "N", right - 8, MARGIN + 14);
  pen.beginPath();
  pen.moveTo(right - 8, MARGIN);
  pen.lineTo(right - 13, MARGIN + 12);
  pen.lineTo(right - 3, MARGIN + 12);
  pen.fill();
  Object.assign(pen, { textAlign: "start", textBaseline: "alphabetic" });
}

/** Where the view begins, in pixels of the whole world. */
function pixelsOf(page) {
  const { x, y, scale } = page.worldAt({ x: 0, y: 0 });
  return { x: x * scale, y: y * scale };
}

function haloed(pen, text, x, y) {
  pen.save();
  Object.assign(pen, { lineWidth: 3, lineJoin: "round", strokeStyle: table.tokens.land });
  pen.strokeText(text, x, y);
  pen.restore();
  pen.fillText(text, x, y);
}

/** The classes with their counts and the lines, as the key of the page shows them, with the pixels that each takes. */
function keyItems(pen) {
  const items = /** @type {HTMLElement[]} */ ([...document.querySelectorAll("#key li, #lines-key li:not(.source)")]);
  return items.map((it) => {
    const mark = it.querySelector("canvas"), text = [...it.querySelectorAll("span")].map((one) => one.textContent);
    const swatch = mark.classList.contains("line") ? LINE_WIDE : MARK_WIDE;
    return { mark, swatch, text: text.join("  "), wide: swatch + 8 + pen.measureText(text.join("  ")).width };
  });
}

function paintKey(pen, key, wide) {
  Object.assign(pen, { textBaseline: "middle", fillStyle: table.tokens.ink, font: letters(14, 700) });
  const heading = ["key-title", "key-pairs"].map((name) => element(name).textContent).filter(Boolean).join(" · ");
  pen.fillText(heading, 0, KEY_ROW / 2 - 6, wide);
  pen.font = letters(14, 400);
  for (const { item, x, row } of key.placed) {
    const y = KEY_ROW * (row + 1) + KEY_ROW / 2 - 6, high = (item.swatch * item.mark.height) / item.mark.width;
    pen.drawImage(item.mark, x, y - high / 2, item.swatch, high);
    pen.fillText(item.text, x + item.swatch + 8, y);
  }
  const source = document.querySelector("#lines-key .source")?.textContent ?? "";
  const all = [head.title, source].filter(Boolean).join(" · ");
  Object.assign(pen, { font: letters(12, 400), fillStyle: table.tokens.soft });
  pen.fillText(all, 0, KEY_ROW * (key.rows + 1) + TEXT_LINE / 2, wide);
}
