// Height maps to wavelet coefficients and back, exactly: JavaScript over the proved library as WebAssembly (terrain.wasm or terrain-simd.wasm).
//
//     const terrain = await load(bytes);
//     const plane = terrain.mapForward(heights, { width: 257, height: 257, levels: 5 });
//     const file = terrain.pack(heights, { width: 257, height: 257, levels: 5 }); // the bytes of a ground file (docs/FORMAT.md)
//     const ground = terrain.unpack(file); // { shape, step, heights }
//
// Areas are typed arrays; what a call needs of them is copied into the module's memory and back. A call that is turned away throws Refused, which has the
// question's number; it has changed nothing, but for 14, which ends a reader or a loader.

export const FIVE_THREE = 0, NINE_SEVEN = 1;
export const WANT_ROW = 0, WANT_DRAW = 1, WANT_DONE = 2, WANT_ENDED = 3;
export const WANT_BYTES = 0; // of a loader

// terrain_sentence of include/terrain.h
const SENTENCES = [
  'nothing is wrong',
  'the state is none that its calls made: a count is outside its range',
  'the width is not 1 to 2,049',
  'the height is not 1 to 4,294,967,295',
  'the number of levels is not 1 to 5, by the 9/7 1 to 4',
  'an area that was lent is too short',
  'there is no such band row, or no such cell',
  "a coefficient is outside its level's range",
  "it is not this call's turn: draw the rows that wait first, or none is wanted",
  'it is over: the writer is finished, or the reader ended after 14',
  'the map already has 4,294,967,295 rows',
  'the map has no row yet, or its last row is not complete',
  'the output area is too short for the row',
  'the run has not the length of the band row that is wanted',
  'no map has these coefficients',
  'the input is not in the form that the listing reads',
  "a sample exceeds the largest value that the picture's header names",
  "the level or the stop is not one of the map's levels",
  'there is no such filter',
  'the rectangle is empty or leaves the map',
  'the step is not 1 to 64',
  "the reader's number is not 0 to 15",
  'no file has this here',
];

export class Refused extends Error {
  constructor(question, sentence = SENTENCES[question]) {
    super(`${sentence} (${question})`);
    this.question = question;
  }
}

export async function load(bytes) {
  const { instance } = await WebAssembly.instantiate(bytes, {});
  return new Terrain(instance.exports);
}

function passed(answer) {
  if (answer) throw new Refused(answer >>> 0);
}

// The module's memory, lent area by area. A mark is taken before a call's own areas and given back after it; what a stream keeps stays below the mark.
class Memory {
  constructor(exports) {
    this.exports = exports;
    this.top = (exports.__heap_base.value + 7) & ~7;
    this.free = [];
  }

  area(bytes) {
    const at = this.top;
    this.top = (this.top + bytes + 7) & ~7;
    const missing = this.top - this.exports.memory.buffer.byteLength;
    if (missing > 0) this.exports.memory.grow(Math.ceil(missing / 65536));
    return at;
  }

  kept(bytes) {
    const at = this.free.findIndex((hole) => hole.bytes === bytes);
    return at < 0 ? this.area(bytes) : this.free.splice(at, 1)[0].at;
  }

  give(at, bytes) {
    this.free.push({ at, bytes });
  }

  view(Type, at, length) {
    return new Type(this.exports.memory.buffer, at, length);
  }

  // the area of a typed array, with its numbers
  lent(numbers) {
    const at = this.area(numbers.byteLength || 8);
    this.view(numbers.constructor, at, numbers.length).set(numbers);
    return at;
  }

  // a terrain_shape with sizes of 32 bits, which is passed by its address
  shape({ width, height = 1, levels, x = 0, y = 0, filter = 0 }) {
    const at = this.area(20);
    const view = new DataView(this.exports.memory.buffer, at, 20);
    [width, height, levels].forEach((size, i) => view.setUint32(4 * i, size, true));
    view.setUint16(12, x, true);
    view.setUint16(14, y, true);
    view.setUint32(16, filter, true);
    return at;
  }

  // runs a call; the areas that it took are free again afterwards
  during(call) {
    const top = this.top;
    try {
      return call();
    } finally {
      this.top = top;
    }
  }
}

class Terrain {
  constructor(exports) {
    this.exports = exports;
    this.memory = new Memory(exports);
  }

  get version() {
    return this.exports.terrain_version();
  }

  storeLength(shape) {
    return this.memory.during(() => this.exports.terrain_store_length(this.memory.shape(shape)) >>> 0);
  }

  mapForward(heights, shape) {
    const { memory, exports } = this, n = shape.width * shape.height;
    return memory.during(() => {
      const from = memory.lent(heights), plane = memory.area(4 * n), work = memory.area(4 * n), of = memory.shape(shape);
      passed(exports.terrain_map_forward(from, heights.length, of, plane, n, work, n));
      return memory.view(Int32Array, plane, n).slice();
    });
  }

  mapBackward(plane, shape) {
    const { memory, exports } = this, n = shape.width * shape.height;
    return memory.during(() => {
      const from = memory.lent(plane), heights = memory.area(2 * n), work = memory.area(4 * n), of = memory.shape(shape);
      passed(exports.terrain_map_backward(from, plane.length, of, heights, n, work, n));
      return memory.view(Uint16Array, heights, n).slice();
    });
  }

  // where a band row stands in a plane
  bandRow(planeLength, shape, level, band, row) {
    const { memory, exports } = this;
    return memory.during(() => {
      const start = memory.area(4), length = memory.area(4), of = memory.shape(shape);
      passed(exports.terrain_band_row(planeLength, of, level, band, row, start, length));
      return { start: memory.view(Uint32Array, start, 1)[0], length: memory.view(Uint32Array, length, 1)[0] };
    });
  }

  // the columns and rows of a level's LL
  levelSize(shape, level) {
    const { memory, exports } = this;
    return memory.during(() => {
      const columns = memory.area(4), rows = memory.area(4);
      passed(exports.terrain_level_size(memory.shape(shape), level, columns, rows));
      return { columns: memory.view(Uint32Array, columns, 1)[0], rows: memory.view(Uint32Array, rows, 1)[0] };
    });
  }

  // a plane of the 5/3, from the origin, rounded by a step for a smaller download: another one
  round(plane, { width, height, levels }, step) {
    const { memory, exports } = this;
    return memory.during(() => {
      const at = memory.lent(plane);
      passed(exports.terrain_round(at, plane.length, width, height, levels, step));
      return memory.view(Int32Array, at, plane.length).slice();
    });
  }

  // by how much a height can be off that a tolerant reader rebuilds from a plane rounded so
  errorBound(levels, step) {
    const { memory, exports } = this;
    return memory.during(() => {
      const bound = memory.area(4);
      passed(exports.terrain_error_bound(levels, step, bound));
      return memory.view(Uint32Array, bound, 1)[0];
    });
  }

  profile(row) {
    const { memory, exports } = this;
    return memory.during(() => {
      const from = memory.lent(row), out = memory.area(4 * row.length);
      passed(exports.terrain_profile(from, row.length, out, row.length));
      return memory.view(Float32Array, out, row.length).slice();
    });
  }

  writer(shape) {
    return new Writer(this, shape);
  }

  // with a stop it hands out that level's LL as heights, without the finer rows
  reader(shape, stop) {
    return new Reader(this, shape, stop);
  }

  // for a rounded plane, of the 5/3, from the origin: each value that it rebuilds is limited to its level's range, and nothing is refused by 14
  tolerantReader({ width, height, levels }) {
    const { terrain_tolerant_set_up } = this.exports;
    const setUp = (state, of, store, room) => terrain_tolerant_set_up(state, width, height, levels, store, room);
    return new Reader(this, { width, height, levels }, undefined, setUp);
  }

  // what the first 24 bytes of a ground file say
  fileHeader(bytes) {
    const { memory, exports } = this;
    return memory.during(() => {
      const first = bytes.subarray(0, 24), header = memory.area(56);
      passed(exports.terrain_file_header(memory.lent(first), first.length, header));
      const [width, height, levels, x, y, filter, step] = [...memory.view(BigUint64Array, header, 7)].map(Number);
      return { shape: { width, height, levels, x, y, filter }, step };
    });
  }

  // the bytes of a plane's ground file; the step is 1, or that of round
  saver(plane, shape, step = 1) {
    return new Saver(this, plane, shape, step);
  }

  loader(shape, step = 1) {
    return new Loader(this, shape, step);
  }

  // a map as a ground file; with a step above 1 (the 5/3, from the origin) a smaller one, rounded
  pack(heights, shape, step = 1) {
    const plane = this.mapForward(heights, shape), saver = this.saver(step > 1 ? this.round(plane, shape, step) : plane, shape, step);
    try {
      const parts = [];
      for (let part = saver.save(); part.length; part = saver.save()) parts.push(part);
      const file = new Uint8Array(parts.reduce((sum, part) => sum + part.length, 0));
      parts.reduce((at, part) => (file.set(part, at), at + part.length), 0);
      return file;
    } finally {
      saver.close();
    }
  }

  // the map of a whole ground file; 22: it is none, or damaged, or cut short, or something follows it
  unpack(bytes) {
    const { shape, step } = this.fileHeader(bytes), loader = this.loader(shape, step), rows = [];
    try {
      for (const row of loader.rows(bytes)) rows.push(row);
      loader.end();
    } finally {
      loader.close();
    }
    const heights = new Uint16Array(rows.length * shape.width);
    rows.forEach((row, i) => heights.set(row, i * shape.width));
    return { shape, step, heights };
  }
}

// State and line store of a stream stand in the module's memory until it is closed.
class Stream {
  constructor(terrain, shape, setUp) {
    Object.assign(this, { terrain, shape, memory: terrain.memory, exports: terrain.exports, room: terrain.storeLength(shape) });
    this.bytes = 128 + 40 + 4 * this.room + 8;
    this.at = this.memory.kept(this.bytes);
    this.named = this.at + 128;
    this.store = this.named + 40;
    const answer = this.memory.during(() => setUp(this.at, this.memory.shape(shape), this.store, this.room));
    if (answer) this.close();
    passed(answer);
  }

  close() {
    this.memory.give(this.at, this.bytes);
  }

  numbers(length) {
    return [...this.memory.view(BigUint64Array, this.named, length)].map(Number);
  }
}

class Writer extends Stream {
  constructor(terrain, shape) {
    super(terrain, shape, terrain.exports.terrain_writer_set_up);
  }

  // how many heights were taken: draw what waits and offer the others again
  offer(run) {
    return this.memory.during(() => {
      const taken = this.memory.area(4), from = this.memory.lent(run);
      passed(this.exports.terrain_writer_offer(this.at, this.store, this.room, from, run.length, taken));
      return this.memory.view(Uint32Array, taken, 1)[0];
    });
  }

  // the band row that waits, or null
  draw() {
    return this.memory.during(() => {
      const out = this.memory.area(4 * this.shape.width);
      passed(this.exports.terrain_writer_draw(this.at, this.store, this.room, out, this.shape.width, this.named));
      const [level, band, row, length] = this.numbers(4);
      return level ? { level, band, row, values: this.memory.view(Int32Array, out, length).slice() } : null;
    });
  }

  // many rows at once: how many heights were taken, and the rows that they made, as far as there is room for so many numbers and rows
  run(heights, numbers = 1 << 16, rows = 1 << 10) {
    const { memory } = this;
    return memory.during(() => {
      const counts = memory.area(24), from = memory.lent(heights), out = memory.area(4 * numbers), names = memory.area(32 * rows);
      passed(this.exports.terrain_writer_run(this.at, this.store, this.room, from, heights.length, out, numbers, names, 4 * rows, counts));
      const [taken, made] = [...memory.view(BigUint64Array, counts, 2)].map(Number);
      let at = out;
      const row = (i) => {
        const [level, band, number, length] = [...memory.view(BigUint64Array, names + 32 * i, 4)].map(Number);
        at += 4 * length;
        return { level, band, row: number, values: memory.view(Int32Array, at - 4 * length, length).slice() };
      };
      return { taken, rows: Array.from({ length: made }, (_, i) => row(i)) };
    });
  }

  finish() {
    passed(this.exports.terrain_writer_finish(this.at, this.store, this.room));
  }
}

class Reader extends Stream {
  constructor(terrain, shape, stop, setUp = terrain.exports.terrain_reader_set_up) {
    const atStop = (state, of, store, room) => terrain.exports.terrain_reader_set_up_at(state, of, stop, store, room);
    super(terrain, shape, stop === undefined ? setUp : atStop);
    this.columns = stop === undefined ? shape.width : terrain.levelSize(shape, stop).columns; // of a height row
  }

  want() {
    passed(this.exports.terrain_reader_want(this.at, this.named));
    const [kind, level, band, row, length] = this.numbers(5);
    return { kind, level, band, row, length };
  }

  feed(values) {
    this.memory.during(() => passed(this.exports.terrain_reader_feed(this.at, this.store, this.room, this.memory.lent(values), values.length)));
  }

  // the next height row; empty where none can be drawn
  draw() {
    return this.memory.during(() => {
      const out = this.memory.area(2 * this.shape.width), drawn = this.memory.area(4);
      passed(this.exports.terrain_reader_draw(this.at, this.store, this.room, out, this.shape.width, drawn));
      return this.memory.view(Uint16Array, out, this.memory.view(Uint32Array, drawn, 1)[0]).slice();
    });
  }

  // many rows at once, of band rows in the order that it wants them: how many numbers were used, and the heights of at most so many rows
  run(values, rows = 64) {
    const { memory } = this, room = rows * this.columns;
    return memory.during(() => {
      const counts = memory.area(16), from = memory.lent(values), out = memory.area(2 * room);
      passed(this.exports.terrain_reader_run(this.at, this.store, this.room, from, values.length, out, room, counts));
      const [used, drawn] = [...memory.view(BigUint64Array, counts, 2)].map(Number);
      return { used, rows: drawn, heights: memory.view(Uint16Array, out, drawn * this.columns).slice() };
    });
  }
}

// A saver's numbers and its plane stand in the module's memory until it is closed.
class Saver {
  constructor(terrain, plane, shape, step) {
    Object.assign(this, { memory: terrain.memory, exports: terrain.exports, length: plane.length, bytes: 256 + 4 * plane.length + 8 });
    this.at = this.memory.kept(this.bytes);
    this.memory.view(Int32Array, this.at + 256, plane.length).set(plane);
    const answer = this.memory.during(() => this.exports.terrain_save_set_up(this.at, this.memory.shape(shape), step));
    if (answer) this.close();
    passed(answer);
  }

  close() {
    this.memory.give(this.at, this.bytes);
  }

  // at most so many bytes more of the file; none where it is complete
  save(length = 1 << 16) {
    return this.memory.during(() => {
      const written = this.memory.area(4), out = this.memory.area(length);
      passed(this.exports.terrain_save(this.at, this.at + 256, this.length, out, length, written));
      return this.memory.view(Uint8Array, out, this.memory.view(Uint32Array, written, 1)[0]).slice();
    });
  }
}

// A file's bytes in, from its first on, in runs cut anywhere; height rows out. Those drawn before WANT_DONE come from a file whose checksum is still
// to be read.
class Loader {
  constructor(terrain, shape, step) {
    Object.assign(this, { memory: terrain.memory, exports: terrain.exports, width: shape.width, across: (shape.width >> 1) + 1 });
    this.room = this.memory.during(() => this.exports.terrain_reader_store_length(this.memory.shape(shape)) >>> 0);
    if (!this.room) this.across = 1; // the set-up says why
    this.bytes = 256 + 4 * this.room + 4 * this.across + 8;
    this.at = this.memory.kept(this.bytes);
    this.store = this.at + 256;
    this.row = this.store + 4 * this.room;
    const answer = this.memory.during(() => this.exports.terrain_load_set_up(this.at, this.memory.shape(shape), step, this.store, this.room));
    if (answer) this.close();
    passed(answer);
  }

  close() {
    this.memory.give(this.at, this.bytes);
  }

  // WANT_BYTES, WANT_DRAW, WANT_DONE or WANT_ENDED
  want() {
    return this.memory.during(() => {
      const want = this.memory.area(4);
      passed(this.exports.terrain_load_want(this.at, want));
      return this.memory.view(Uint32Array, want, 1)[0];
    });
  }

  // how many bytes of the run were taken: draw, where a row can be drawn, and offer the others again
  take(run) {
    const { memory } = this;
    return memory.during(() => {
      const taken = memory.area(4), from = memory.lent(run);
      passed(this.exports.terrain_load_take(this.at, this.store, this.room, this.row, this.across, from, run.length, taken));
      return memory.view(Uint32Array, taken, 1)[0];
    });
  }

  // the next height row; empty where none can be drawn
  draw() {
    return this.memory.during(() => {
      const out = this.memory.area(2 * this.width), drawn = this.memory.area(4);
      passed(this.exports.terrain_load_draw(this.at, this.store, this.room, out, this.width, drawn));
      return this.memory.view(Uint16Array, out, this.memory.view(Uint32Array, drawn, 1)[0]).slice();
    });
  }

  // takes a whole run of bytes and yields the height rows that come of it; `told` is told of the bytes taken
  *rows(run, told = () => {}) {
    for (let at = 0;;) {
      const want = this.want();
      if (want === WANT_DRAW) yield this.draw();
      else if (at === run.length) return;
      else if (want === WANT_DONE) throw new Refused(22, "there are bytes after the file's end");
      else {
        const taken = this.take(run.subarray(at, at + 4096)); // what is offered is copied each time
        at += taken;
        told(taken);
      }
    }
  }

  // after the last byte: refused where the file is not over
  end() {
    if (this.want() !== WANT_DONE) throw new Refused(22, 'the file ends early');
  }
}
