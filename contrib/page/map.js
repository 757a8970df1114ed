'use strict';

// The map of a file: its regions, as a picture.

// In units of the picture.
const MAP = { width: 1000, least: 60, row: 30, gap: 4, rows: 4, digit: 6.5, margin: 12 };

/** A text for a box of this width, cut if it is longer. */
function labelFor(name, width) {
  const room = Math.floor((width - 6) / MAP.digit);
  return name.length <= room ? name : room > 2 ? `${name.slice(0, room - 1)}\u2026` : '';
}

function box({ name, kind, start, end }, scale, y) {
  const x = scale(start);
  const width = Math.max(scale(end) - x, 3);
  return shape('g', {},
    shape('rect', { class: kind, x, y, width, height: MAP.row, rx: 2 },
      shape('title', {}, `${name}: ${inWords(end - start, 'byte')} at ${start}`)),
    shape('text', { x: x + width / 2, y: y + MAP.row / 2 + 4, 'text-anchor': 'middle' }, labelFor(name, width)));
}

/** The offsets at which regions begin, as long as there is room for their digits, and the end of the file. */
function offsetsBelow(regions, length, scale, y) {
  const labels = [];
  let free = -MAP.margin;
  const last = MAP.width - MAP.digit * String(length).length;
  for (const { start } of [...regions, { start: length }]) {
    const x = scale(start);
    const needed = MAP.digit * String(start).length;
    if (x >= free && (start === length || x + needed < last - MAP.margin)) {
      labels.push(shape('line', { class: 'tick', x1: x, x2: x, y1: y - 14, y2: y - 10 }),
        shape('text', { class: 'offset', x, y, 'text-anchor': start === length ? 'end' : 'start' }, String(start)));
      free = x + needed + MAP.margin;
    }
  }
  return labels;
}

/** A file as a picture with this name: its blocks, and below them its payloads, by their offsets. */
function mapOf(title, regions, length) {
  const scale = scaleOf(regions, length, MAP.width, MAP.least);
  const step = MAP.row + MAP.gap;
  const boxes = [];
  let rows = 0;
  for (const group of [regions.filter(({ kind }) => kind !== 'payload'), regions.filter(({ kind }) => kind === 'payload')]) {
    const places = rowsOf(group, MAP.rows);
    boxes.push(...group.map((region, at) => box(region, scale, 1 + (rows + places[at]) * step)));
    rows += Math.max(0, ...places.map((row) => row + 1));
  }
  const height = rows * step + 20;
  return shape('svg', { viewBox: `-2 0 ${MAP.width + 4} ${height}`, role: 'img', 'aria-label': title },
    shape('rect', { class: 'file', x: 0, y: 1, width: MAP.width, height: MAP.row, rx: 2 }),
    ...boxes,
    ...offsetsBelow(regions, length, scale, height - 4));
}
