// node check.mjs FILE.wasm: the check of bindings/check/check.c through terrain.mjs; it prints the same hash. check(bytes) does it for a page.
import { load, Refused, WANT_BYTES, WANT_DRAW, WANT_ROW } from './terrain.mjs';

const ALL = (1n << 64n) - 1n;

class Check {
  constructor(terrain) {
    Object.assign(this, { terrain, seed: 7n, hash: 0xcbf29ce484222325n });
  }

  below(n) {
    let z = this.seed = (this.seed + 0x9e3779b97f4a7c15n) & ALL;
    z = ((z ^ (z >> 30n)) * 0xbf58476d1ce4e5b9n) & ALL;
    z = ((z ^ (z >> 27n)) * 0x94d049bb133111ebn) & ALL;
    return Number((((z ^ (z >> 31n)) >> 32n) * BigInt(n)) >> 32n);
  }

  add(...values) {
    for (const value of values) this.hash = ((this.hash ^ BigInt(value < 0 ? value >>> 0 : value)) * 0x100000001b3n) & ALL;
  }

  someShape() {
    const width = 1 + this.below(40), height = 1 + this.below(30), filter = this.below(2), levels = 1 + this.below(5 - filter);
    return { width, height, levels, x: this.below(65536), y: this.below(65536), filter };
  }

  wholeMap(shape) {
    const heights = Uint16Array.from({ length: shape.width * shape.height }, () => this.below(65536));
    const plane = this.terrain.mapForward(heights, shape);
    this.add(...plane);
    this.add(...this.terrain.mapBackward(plane, shape));
    this.add(...new Uint32Array(this.terrain.profile(heights.subarray(0, shape.width)).buffer));
    return { heights, plane };
  }

  drawn(writer) {
    for (let row = writer.draw(); row; row = writer.draw()) this.add(row.level, row.band, row.row, ...row.values);
  }

  written(shape, heights) {
    const writer = this.terrain.writer(shape);
    for (let at = 0; at < heights.length;) {
      const taken = writer.offer(heights.subarray(at, at + 1 + this.below(heights.length - at)));
      this.add(taken);
      at += taken;
      this.drawn(writer);
    }
    writer.finish();
    this.drawn(writer);
    writer.close();
  }

  // what it was fed, in that order
  readBack(reader, shape, plane) {
    for (const fed = [];;) {
      const want = reader.want();
      this.add(want.kind);
      if (want.kind === WANT_ROW) {
        const { start, length } = this.terrain.bandRow(plane.length, shape, want.level, want.band, want.row);
        reader.feed(plane.subarray(start, start + length));
        fed.push(...plane.subarray(start, start + length));
      } else if (want.kind === WANT_DRAW) this.add(...reader.draw());
      else {
        reader.close();
        return Int32Array.from(fed);
      }
    }
  }

  runOn(writer, heights, from) {
    let at = from, rows = [null];
    while (at < heights.length || rows.length) {
      const run = at < heights.length ? 1 + this.below(heights.length - at) : 0, did = writer.run(heights.subarray(at, at + run), 64, 1 + this.below(8));
      rows = did.rows;
      at += did.taken;
      this.add(did.taken, rows.length, rows.reduce((sum, row) => sum + row.values.length, 0));
      for (const { level, band, row, values } of rows) this.add(level, band, row, values.length);
      for (const { values } of rows) this.add(...values);
    }
    return at;
  }

  writtenByRuns(shape, heights) {
    const writer = this.terrain.writer(shape), at = this.runOn(writer, heights, 0);
    writer.finish();
    this.runOn(writer, heights, at);
    writer.close();
  }

  readByRuns(shape, values) {
    const reader = this.terrain.reader(shape);
    for (let at = 0, drawn = 0; drawn < shape.height;) {
      const did = reader.run(values.subarray(at), 1 + this.below(3));
      at += did.used;
      drawn += did.rows;
      this.add(did.used, did.rows, ...did.heights);
    }
    reader.close();
  }

  saved(shape, plane, step) {
    const saver = this.terrain.saver(plane, shape, step), file = [];
    for (let part = [0]; part.length;) {
      part = saver.save(1 + this.below(40));
      this.add(...part);
      file.push(...part);
    }
    saver.close();
    return Uint8Array.from(file);
  }

  loadOn(loader, file) {
    for (let at = 0;;) {
      const want = loader.want();
      this.add(want);
      if (want === WANT_DRAW) this.add(...loader.draw());
      else if (want === WANT_BYTES && at < file.length) {
        const taken = loader.take(file.subarray(at, at + 1 + this.below(file.length - at)));
        at += taken;
        this.add(taken);
      } else return;
    }
  }

  refusal(call) {
    try {
      call();
      return 0;
    } catch (refused) {
      if (!(refused instanceof Refused)) throw refused;
      return refused.question;
    }
  }

  loaded(file) {
    return this.refusal(() => {
      const { shape, step } = this.terrain.fileHeader(file), { width, height, levels, x, y, filter } = shape;
      this.add(width, height, levels, x, y, filter, step);
      const loader = this.terrain.loader(shape, step);
      try {
        this.loadOn(loader, file);
      } finally {
        loader.close();
      }
    });
  }

  // pack and unpack say what the calls below them do
  packed(shape, heights, step, file, loads) {
    const same = (a, b) => a.length === b.length && a.every((v, i) => v === b[i]), longer = Uint8Array.from([...file, 0]);
    if (!same(this.terrain.pack(heights, shape, step), file)) throw new Error('pack');
    if (loads && step === 1 && !same(this.terrain.unpack(file).heights, heights)) throw new Error('unpack');
    for (const other of [file.subarray(0, file.length - 1), longer]) {
      if (this.refusal(() => this.terrain.unpack(other)) !== 22) throw new Error('unpack, of another length');
    }
  }

  groundFile(shape, heights, plane, step) {
    const file = this.saved(shape, plane, step), answer = this.loaded(file);
    this.add(answer);
    this.packed(shape, heights, step, file, !answer);
    const place = 24 + this.below(file.length - 24);
    file[place] ^= 1 + this.below(255);
    this.add(this.loaded(file));
    return file;
  }

  readRounded({ width, height, levels }, heights, step) {
    const shape = { width, height, levels }, plane = this.terrain.round(this.terrain.mapForward(heights, shape), shape, step);
    this.add(...plane, this.terrain.errorBound(levels, step));
    this.readBack(this.terrain.tolerantReader(shape), shape, plane);
    return this.groundFile(shape, heights, plane, step);
  }
}

export async function check(bytes) {
  const run = new Check(await load(bytes));
  let file = null;
  for (let i = 0; i < 60; i++) {
    const shape = run.someShape(), { heights, plane } = run.wholeMap(shape);
    run.written(shape, heights);
    const fed = run.readBack(run.terrain.reader(shape), shape, plane);
    run.writtenByRuns(shape, heights);
    run.readByRuns(shape, fed);
    run.groundFile(shape, heights, plane, 1);
    const stop = 1 + run.below(shape.levels), { columns, rows } = run.terrain.levelSize(shape, stop);
    run.add(columns, rows);
    run.readBack(run.terrain.reader(shape, stop), shape, plane);
    file = run.readRounded(shape, heights, 1 + run.below(64));
  }
  file[0]++;
  run.add(run.loaded(file));
  run.add(run.refusal(() => run.terrain.mapForward(new Uint16Array(1), { width: 2050, height: 1, levels: 1 })));
  return run.hash.toString(16).padStart(16, '0');
}

if (typeof process !== 'undefined') {
  const { readFileSync } = await import('node:fs');
  console.log(await check(readFileSync(process.argv[2])));
}
