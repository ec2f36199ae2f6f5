// node test.mjs [FILE.wasm]: the page's readers of files, on a PNG of each filter, headers as paint tools write them, and files that are turned away; with the
// library also ground files, in pieces cut anywhere.
import assert from 'node:assert/strict';
import { readFileSync } from 'node:fs';
import { deflateSync } from 'node:zlib';
import { load } from '../bindings/js/terrain.mjs';
import { inPieces, isGround, readGround } from './ground.js';
import { fixedForm, readMap } from './maps.js';
import { sha256 } from './sha256.js';

const bytes = (text) => Uint8Array.from(text, (c) => c.charCodeAt(0));

function chunk(kind, data) {
  const out = Buffer.alloc(12 + data.length);
  out.writeUInt32BE(data.length);
  out.write(kind, 4, 'latin1');
  Buffer.from(data).copy(out, 8);
  return out; // the checksum is not read
}

const paeth = (a, b, c) => [a, b, c].map((v) => [Math.abs(a + b - c - v), v]).sort((x, y) => x[0] - y[0])[0][1];

// width x height heights of 16 bits, row r by filter r mod 5
function png(width, height, heights) {
  const stride = 2 * width, rows = Buffer.alloc(height * (stride + 1)), raw = Buffer.alloc(height * stride);
  heights.forEach((h, i) => raw.writeUInt16BE(h, 2 * i));
  for (let r = 0; r < height; r++) {
    rows[r * (stride + 1)] = r % 5;
    for (let i = 0; i < stride; i++) {
      const at = (row, place) => (row < 0 || place < 0 ? 0 : raw[row * stride + place]), a = at(r, i - 2), b = at(r - 1, i), c = at(r - 1, i - 2);
      rows[r * (stride + 1) + 1 + i] = at(r, i) - [0, a, b, (a + b) >> 1, paeth(a, b, c)][r % 5];
    }
  }
  const header = Buffer.alloc(13);
  header.writeUInt32BE(width);
  header.writeUInt32BE(height, 4);
  header[8] = 16;
  const parts = [Buffer.from([0x89, 0x50, 0x4e, 0x47, 13, 10, 26, 10]), chunk('IHDR', header), chunk('IDAT', deflateSync(rows)), chunk('IEND', [])];
  return new Uint8Array(Buffer.concat(parts));
}

const heights = Uint16Array.from({ length: 7 * 11 }, (_, i) => (i * 7919) % 65536);
const map = { width: 7, height: 11, heights };
assert.deepEqual(await readMap('a.png', png(7, 11, heights)), map);
assert.deepEqual(await readMap('a.pgm', fixedForm(map)), map);
assert.deepEqual(await readMap('a.pgm', bytes('P5#c\n3 #d\r1\t255#e\n\x01\x02\x03')), { width: 3, height: 1, heights: Uint16Array.of(1, 2, 3) });
assert.deepEqual(await readMap('a.r16', bytes('\x01\x02')), { width: 1, height: 1, heights: Uint16Array.of(513) });
for (const wrong of ['P53 1 255 abc', 'P5 3 1 255 ab', 'P5 3 1 2 abc', 'P5 0 1 255 ', 'P5 1 1 65536 ab', 'GIF']) {
  await assert.rejects(readMap('a.pgm', bytes(wrong)), Error, wrong);
}
assert.equal(sha256(bytes('abc')), 'ba7816bf8f01cfea414140de5dae2223b00361a396177a9cb410ff61f20015ad');
assert.equal(sha256(new Uint8Array(119)).length, 64);

async function groundFiles(terrain) {
  const shape = { width: 7, height: 11, levels: 2, x: 0, y: 0, filter: 0 }, file = terrain.pack(heights, shape);
  const read = (bytes, length, progress) => readGround(terrain, inPieces(bytes, length), progress);
  const changed = (place, by) => file.map((b, i) => (i === place ? b ^ by : b));
  assert.ok(isGround(file) && !isGround(fixedForm(map)));
  for (let length = 1; length <= file.length; length += 5) {
    const shares = [];
    assert.deepEqual(await read(file, length, (share) => shares.push(share)), { ...map, shape, step: 1, bytes: file.length });
    assert.ok(shares.at(-1) === 1 && shares.every((share, i) => !i || share >= shares[i - 1]));
  }
  const last = file.length - 1, none = 'it is no ground file or a damaged one: no file has the byte at place';
  await assert.rejects(read(changed(last, 1), 9), { message: `${none} ${last} (22)` });
  await assert.rejects(read(changed(8, 2), 9), { message: `${none} 0 (22)` });
  await assert.rejects(read(file.subarray(0, 20)), { message: 'it has 20 bytes, and the header of a ground file 24' });
  await assert.rejects(read(file.subarray(0, last)), { message: `the file ends early, after ${last} bytes and 11 of 11 rows` });
  await assert.rejects(read(Uint8Array.from([...file, 0])), { message: `${none} ${file.length} (22)` });
  for (let place = 0; place < file.length; place++) await assert.rejects(read(changed(place, 0x40), 30), Error, `byte ${place}`);
}
if (process.argv[2]) await groundFiles(await load(readFileSync(process.argv[2])));
