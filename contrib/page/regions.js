'use strict';

// Where each region of a file is, by its listing and by the fields of its header (docs/FORMATS.md). Only a file that the library accepts
// is looked at here, so these fields are right.

const LEGACY_HEADER = 64;
const LEGACY_DATA_SIZE = 12;
const BLOB = { totalSize: 4, structure: 8, strings: 12, reservations: 16, version: 20, stringsSize: 32, structureSize: 36 };
const RESERVATION = 16;

function region(name, kind, start, end) {
  return { name, kind, start, end };
}

function payloadRegions(contents) {
  return contents
    .filter(({ size }) => size !== undefined)
    .map(({ kind, name, size, offset }) => region(kind === 'part' ? `part ${name}` : name, 'payload', offset, offset + size));
}

/** The end of the region that ends last. */
function endOf(regions) {
  return regions.reduce((end, each) => Math.max(end, each.end), 0);
}

/** The regions of a legacy image: the header, the part table, the parts, and what has no meaning. */
function legacyRegions(file, lines) {
  const header = new DataView(file.buffer, file.byteOffset, LEGACY_HEADER);
  const dataEnd = LEGACY_HEADER + header.getUint32(LEGACY_DATA_SIZE);
  const parts = payloadRegions(contentsOf(lines));
  const used = file.length - Number(fieldOf(lines, 'unused'));
  const table = parts.length > 0 ? parts[0].start : used;
  return [
    region('header', 'block', 0, LEGACY_HEADER),
    region('part table', 'block', LEGACY_HEADER, table),
    ...parts,
    region('unused data', 'unused', used, dataEnd),
    region('trailing bytes', 'unused', Math.max(used, dataEnd), file.length),
  ];
}

/** The regions of a flattened image tree: the blocks of its blob, the payloads, and the bytes after both. */
function fitRegions(file, lines) {
  const view = new DataView(file.buffer, file.byteOffset, file.length);
  const cell = (offset) => view.getUint32(offset);
  const hasStructureSize = cell(BLOB.version) >= 17;
  const totalSize = cell(BLOB.totalSize);
  const reservations = 1 + lines.filter((line) => line[0] === 'reservation').length;
  const block = (name, offset, size) => region(name, 'block', cell(offset), cell(offset) + size);
  const payloads = payloadRegions(contentsOf(lines));
  return [
    region('header', 'block', 0, hasStructureSize ? 40 : 36),
    block('reservations', BLOB.reservations, RESERVATION * reservations),
    block('structure', BLOB.structure, hasStructureSize ? cell(BLOB.structureSize) : totalSize - cell(BLOB.structure)),
    block('strings', BLOB.strings, cell(BLOB.stringsSize)),
    ...payloads,
    region('trailing bytes', 'unused', Math.max(totalSize, endOf(payloads)), file.length),
  ];
}

/** The regions of an accepted file by their offsets. Of those that are not in the format of every file, the empty ones are left out. */
function regionsOf(file, lines) {
  const regions = fieldOf(lines, 'kind') === 'fit' ? fitRegions(file, lines) : legacyRegions(file, lines);
  return regions
    .filter(({ kind, start, end }) => kind === 'payload' || start < end)
    .sort((one, other) => one.start - other.start || other.end - one.end);
}

/**
 * A scale from the offsets at which regions begin and end to 0 up to `width`. Each segment between two neighbours has at least some
 * width, so that a header of 40 bytes can be seen beside a kernel; the rest of the width is shared in proportion to the bytes.
 */
function scaleOf(regions, length, width, least) {
  const offsets = [...new Set([0, length, ...regions.flatMap(({ start, end }) => [start, end])])].sort((one, other) => one - other);
  const segments = Math.max(1, offsets.length - 1);
  const floor = Math.min(least, width / segments / 2);
  const share = (width - floor * segments) / Math.max(1, length);
  const places = new Map(offsets.map((offset, index) => [offset, index * floor + offset * share]));
  return (offset) => places.get(offset);
}

/** Gives each region a row, such that no two of a row overlap, as long as there are at most `most` rows. */
function rowsOf(regions, most) {
  const ends = [];
  return regions.map(({ start, end }) => {
    let row = ends.findIndex((last) => last <= start);
    if (row < 0) {
      row = Math.min(ends.length, most - 1);
    }
    ends[row] = Math.max(ends[row] ?? 0, end);
    return row;
  });
}
