// What happens when a map is dropped on the page.
import { load, WANT_DRAW, WANT_ROW } from '../bindings/js/terrain.mjs';
import { bands, difference, range, shade } from './draw.js';
import { inPieces, isGround, readGround } from './ground.js';
import { fixedForm, readMap } from './maps.js';
import { sha256 } from './sha256.js';

const element = (id) => document.getElementById(id);
const MOST_WIDTH = 2049;
let terrain = null, first = null;

const sized = (n) => n.toLocaleString('en');
const levelsOf = ({ width, height }) => Math.max(1, Math.min(5, Math.floor(Math.log2(Math.min(width, height)))));

// W(k) or H(k) of a map at origin 0: each half of the one before, rounded up
const sides = (n, levels) => Array.from({ length: levels + 1 }, (_, k) => Math.ceil(n / 2 ** k));

// Through the writer in runs cut anywhere, its rows put where they stand in a plane; and through the reader, in the order that it wants.
function roundTrip({ width, height, heights }, levels, plane) {
  const shape = { width, height, levels }, writer = terrain.writer(shape), made = new Int32Array(plane.length);
  let cuts = 0, rows = 0;
  const draw = () => {
    for (let row = writer.draw(); row; row = writer.draw(), rows++) {
      const { start } = terrain.bandRow(plane.length, shape, row.level, row.band, row.row);
      made.set(row.values, start);
    }
  };
  for (let at = 0; at < heights.length; cuts++) {
    at += writer.offer(heights.subarray(at, at + 1 + Math.floor(Math.random() * 3 * width)));
    draw();
  }
  writer.finish();
  draw();
  writer.close();
  const same = made.every((v, i) => v === plane[i]);
  return { cuts, rows, same, back: readBack(shape, made, heights) };
}

function readBack(shape, plane, heights) {
  const reader = terrain.reader(shape);
  let at = 0, same = true;
  for (;;) {
    const want = reader.want();
    if (want.kind === WANT_ROW) {
      const { start, length } = terrain.bandRow(plane.length, shape, want.level, want.band, want.row);
      reader.feed(plane.subarray(start, start + length));
    } else if (want.kind === WANT_DRAW) {
      const row = reader.draw();
      same = same && row.every((h, i) => h === heights[at + i]);
      at += row.length;
    } else {
      reader.close();
      return same && at === heights.length;
    }
  }
}

// What a ground file says of itself; its checksum is right, or it would not be shown.
function groundFacts({ shape, step, bytes, heights }) {
  const { levels, filter, x, y } = shape, bits = (8 * bytes / heights.length).toFixed(2), by = `${filter ? '9/7' : '5/3'}, ${levels} levels`;
  const exact = step > 1 ? `rounded by ${step}, no height off by more than ${sized(terrain.errorBound(levels, step))}` : 'exact';
  return `${sized(bytes)} bytes, ${bits} bits a height; ${by}, from column ${x} and row ${y} on; ${exact}; checksum right`;
}

function facts(map, levels, trip) {
  const { low, high } = range(map.heights);
  const cut = `in ${sized(trip.cuts)} runs cut at random, ${sized(trip.rows)} band rows`;
  return [
    ['Size', `${sized(map.width)} × ${sized(map.height)}`],
    ['Heights', `${sized(low)} to ${sized(high)}`],
    ['Sum', sha256(fixedForm(map))],
    ...(map.shape ? [['Ground file', groundFacts(map)]] : []),
    ['Round trip', trip.same && trip.back ? `identical, through writer and reader at ${levels} levels, ${cut}` : 'NOT identical: please report this map'],
  ];
}

function table(rows) {
  element('facts').replaceChildren(...rows.map(([name, value]) => {
    const row = document.createElement('tr');
    row.append(Object.assign(document.createElement('th'), { textContent: name }), Object.assign(document.createElement('td'), { textContent: value }));
    return row;
  }));
}

function show(name, map) {
  const levels = levelsOf(map), plane = terrain.mapForward(map.heights, { width: map.width, height: map.height, levels });
  table([['File', name], ...facts(map, levels, roundTrip(map, levels, plane))]);
  shade(element('ground'), map);
  bands(element('bands'), plane, { width: map.width, height: map.height, levels }, sides(map.width, levels), sides(map.height, levels));
  element('pictures').hidden = false;
  element('compared').hidden = true;
}

function compare(name, map) {
  element('compared').hidden = false;
  const said = element('difference');
  if (map.width !== first.map.width || map.height !== first.map.height) {
    const size = (of) => `${sized(of.width)} × ${sized(of.height)}`;
    said.textContent = `${name} is ${size(map)}, ${first.name} is ${size(first.map)}: two different grounds.`;
    element('where').hidden = true;
    return;
  }
  element('where').hidden = false;
  const found = difference(element('where'), first.map, map);
  const share = `${sized(found.count)} of ${sized(map.heights.length)} heights differ, by at most ${sized(found.largest)}`;
  said.textContent = found.count
    ? `${share}; the first at row ${found.row}, column ${found.column} (from 0). Red: higher in ${name}; blue: lower.`
    : `${name} is the same ground: every height is equal.`;
}

function progress(share) {
  element('progress').hidden = share >= 1;
  element('progress').value = share;
}

// `pieces` gives a file's bytes as they come; without it they are all here
export async function take(name, bytes, pieces = inPieces(bytes)) {
  element('said').textContent = '';
  try {
    const map = isGround(bytes) ? await readGround(terrain, pieces, progress) : await readMap(name, bytes);
    if (map.width > MOST_WIDTH) throw new Error(`${sized(map.width)} columns; at most ${sized(MOST_WIDTH)} are taken`);
    if (first && element('second').checked) compare(name, map);
    else {
      show(name, map);
      first = { name, map };
      element('second').disabled = false;
    }
  } catch (error) {
    element('said').textContent = `${name}: ${error.message}`;
  } finally {
    progress(1);
  }
}

async function* streamed(file) {
  const reader = file.stream().getReader();
  for (let { value, done } = await reader.read(); !done; { value, done } = await reader.read()) yield value;
}

async function files(list) {
  for (const file of list) {
    const first = new Uint8Array(await file.slice(0, 24).arrayBuffer());
    // a ground file is read as its bytes come
    if (isGround(first)) await take(file.name, first, streamed(file));
    else await take(file.name, new Uint8Array(await file.arrayBuffer()));
  }
}

export async function start(base64) {
  terrain = await load(Uint8Array.from(atob(base64), (c) => c.charCodeAt(0)));
  document.addEventListener('dragover', (event) => event.preventDefault());
  document.addEventListener('drop', (event) => {
    event.preventDefault();
    files(event.dataTransfer.files);
  });
  element('file').addEventListener('change', (event) => files(event.target.files));
  const version = terrain.version;
  element('version').textContent = `${Math.floor(version / 10000)}.${Math.floor(version / 100) % 100}.${version % 100}`;
  document.body.dataset.ready = 'yes';
}
