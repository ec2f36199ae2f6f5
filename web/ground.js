// Ground files (docs/FORMAT.md), by the proved loader: the bytes come in pieces, as the disk or the network has them.
import { Refused, WANT_DONE } from '../bindings/js/terrain.mjs';

const MOST_HEIGHTS = 2 ** 27; // more than a page can draw

export function isGround(bytes) {
  return [0x89, 0x47, 0x4e, 0x44].every((b, i) => bytes[i] === b);
}

// What is wrong, and where: the number is the library's.
function damage({ question, message }, at) {
  if (question === 22) return `it is no ground file or a damaged one: no file has the byte at place ${at} (22)`;
  if (question === 7) return `it is damaged: a coefficient before byte ${at + 1} is outside its level's range (7)`;
  if (question === 14) return `it is damaged: no map has the coefficients before byte ${at + 1} (14)`;
  return message;
}

function joined(rows, width) {
  const heights = new Uint16Array(rows.length * width);
  rows.forEach((row, i) => heights.set(row, i * width));
  return heights;
}

// The first 24 bytes of the pieces, in one, and the iterator with the others.
async function begun(pieces) {
  const iterator = pieces[Symbol.asyncIterator]();
  let first = new Uint8Array(0);
  while (first.length < 24) {
    const { value, done } = await iterator.next();
    if (done) throw new Error(`it has ${first.length} bytes, and the header of a ground file 24`);
    const both = new Uint8Array(first.length + value.length);
    both.set(first);
    both.set(value, first.length);
    first = both;
  }
  return { first, iterator };
}

// A map as readMap gives it, with shape and step of the file and its length. `pieces` gives the bytes, `progress` is told the share of the rows drawn.
export async function readGround(terrain, pieces, progress = () => {}) {
  const { first, iterator } = await begun(pieces);
  let at = 0, loader = null;
  try {
    const { shape, step } = terrain.fileHeader(first), rows = [], { width, height } = shape;
    if (width * height > MOST_HEIGHTS) throw new Error(`${width} × ${height} heights are too many for a page`);
    loader = terrain.loader(shape, step);
    for (let piece = first; piece;) {
      for (const row of loader.rows(piece, (taken) => { at += taken; })) rows.push(row);
      progress(rows.length / height);
      const { value, done } = await iterator.next();
      piece = done ? null : value;
    }
    if (loader.want() !== WANT_DONE) throw new Error(`the file ends early, after ${at} bytes and ${rows.length} of ${height} rows`);
    return { width, height, heights: joined(rows, width), shape, step, bytes: at };
  } catch (error) {
    throw error instanceof Refused ? new Error(damage(error, at)) : error;
  } finally {
    if (loader) loader.close();
  }
}

// Bytes that are here already, in pieces between which the page can be drawn.
export async function* inPieces(bytes, length = 65536) {
  for (let at = 0; at < bytes.length; at += length) {
    yield bytes.subarray(at, at + length);
    await new Promise((next) => setTimeout(next));
  }
}
