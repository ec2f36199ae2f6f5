// Types of terrain.mjs.
export const FIVE_THREE: 0, NINE_SEVEN: 1;
export const WANT_ROW: 0, WANT_DRAW: 1, WANT_DONE: 2, WANT_ENDED: 3;
export const WANT_BYTES: 0;

export interface Shape { width: number; height?: number; levels: number; x?: number; y?: number; filter?: number }
export interface BandRow { level: number; band: number; row: number; values: Int32Array }
export interface Want { kind: number; level: number; band: number; row: number; length: number }

export class Refused extends Error { readonly question: number }

export interface Writer {
  offer(run: Uint16Array): number;
  draw(): BandRow | null;
  run(heights: Uint16Array, numbers?: number, rows?: number): { taken: number; rows: BandRow[] };
  finish(): void;
  close(): void;
}

export interface Reader {
  want(): Want;
  feed(values: Int32Array): void;
  draw(): Uint16Array;
  run(values: Int32Array, rows?: number): { used: number; rows: number; heights: Uint16Array };
  close(): void;
}

export interface Saver {
  save(length?: number): Uint8Array;
  close(): void;
}

export interface Loader {
  want(): number;
  take(run: Uint8Array): number;
  draw(): Uint16Array;
  rows(run: Uint8Array, told?: (taken: number) => void): Generator<Uint16Array, void>;
  end(): void;
  close(): void;
}

export interface Terrain {
  readonly version: number;
  storeLength(shape: Shape): number;
  mapForward(heights: Uint16Array, shape: Shape): Int32Array;
  mapBackward(plane: Int32Array, shape: Shape): Uint16Array;
  bandRow(planeLength: number, shape: Shape, level: number, band: number, row: number): { start: number; length: number };
  levelSize(shape: Shape, level: number): { columns: number; rows: number };
  round(plane: Int32Array, shape: Shape, step: number): Int32Array;
  errorBound(levels: number, step: number): number;
  profile(row: Uint16Array): Float32Array;
  writer(shape: Shape): Writer;
  reader(shape: Shape, stop?: number): Reader;
  tolerantReader(shape: Shape): Reader;
  fileHeader(bytes: Uint8Array): { shape: Required<Shape>; step: number };
  saver(plane: Int32Array, shape: Shape, step?: number): Saver;
  loader(shape: Shape, step?: number): Loader;
  pack(heights: Uint16Array, shape: Shape, step?: number): Uint8Array;
  unpack(bytes: Uint8Array): { shape: Required<Shape>; step: number; heights: Uint16Array };
}

export function load(bytes: BufferSource): Promise<Terrain>;
