// Height maps from files: PGM by Netpbm's rules, PNG of 8 or 16 bits grey, RAW 16-bit squares. A map is { width, height, heights }.

export async function readMap(name, bytes) {
  if (bytes[0] === 0x50 && bytes[1] === 0x35) return readPgm(bytes);
  if (bytes[0] === 0x89 && bytes[1] === 0x50) return readPng(bytes);
  if (/\.(r16|raw)$/i.test(name)) return readRaw(bytes);
  throw new Error('neither PGM (P5), PNG, RAW (.r16, .raw) nor a ground file');
}

// The header's numbers, each parted by white space or comments; one such byte, or a comment to its end, after the last.
function readPgm(bytes) {
  let at = 2;
  const gap = () => {
    if (bytes[at] === 0x23) while (at < bytes.length && bytes[at] !== 10 && bytes[at] !== 13) at++;
    else if (![9, 10, 13, 32].includes(bytes[at])) return false;
    at++;
    return true;
  };
  const number = (most) => {
    let value = 0, digits = 0;
    for (; bytes[at] >= 48 && bytes[at] <= 57; at++, digits++) value = Math.min(value * 10 + bytes[at] - 48, 2 ** 33);
    if (!digits || value < 1 || value > most) throw new Error(`the header's number at byte ${at} is missing or out of its range`);
    return value;
  };
  const numbers = [2 ** 32, 2 ** 32, 65535].map((most) => {
    if (!gap()) throw new Error(`white space is missing at byte ${at}`);
    while (gap());
    return number(most);
  });
  if (!gap()) throw new Error(`white space is missing at byte ${at}`);
  const [width, height, largest] = numbers, each = largest < 256 ? 1 : 2, n = width * height;
  if (bytes.length - at !== n * each) throw new Error(`${bytes.length - at} bytes of samples, and ${n * each} were announced`);
  const heights = new Uint16Array(n);
  for (let i = 0; i < n; i++) heights[i] = each === 1 ? bytes[at + i] : 256 * bytes[at + 2 * i] + bytes[at + 2 * i + 1];
  const wrong = heights.findIndex((h) => h > largest);
  if (wrong >= 0) throw new Error(`sample ${wrong} exceeds the largest value`);
  return { width, height, heights };
}

// Numbers of 16 bits, the least significant byte first, as many rows as columns.
function readRaw(bytes) {
  const side = Math.sqrt(bytes.length / 2);
  if (!Number.isInteger(side) || !side) throw new Error(`${bytes.length} bytes are no square of 16-bit heights`);
  const view = new DataView(bytes.buffer, bytes.byteOffset), heights = Uint16Array.from({ length: side * side }, (_, i) => view.getUint16(2 * i, true));
  return { width: side, height: side, heights };
}

// A browser's own decoder keeps 8 bits of a sample, so the chunks are read here.
async function readPng(bytes) {
  const view = new DataView(bytes.buffer, bytes.byteOffset), parts = [];
  let header = null;
  for (let at = 8; at + 12 <= bytes.length;) {
    const length = view.getUint32(at), kind = String.fromCharCode(...bytes.subarray(at + 4, at + 8)), data = bytes.subarray(at + 8, at + 8 + length);
    if (kind === 'IHDR') header = { width: view.getUint32(at + 8), height: view.getUint32(at + 12), bits: data[8], colour: data[9], interlaced: data[12] };
    if (kind === 'IDAT') parts.push(data);
    at += 12 + length;
  }
  const known = header && header.colour === 0 && [8, 16].includes(header.bits) && !header.interlaced;
  if (!known) throw new Error('a PNG of 8 or 16 bits grey, not interlaced, is wanted');
  const stream = new Blob(parts).stream().pipeThrough(new DecompressionStream('deflate'));
  return unfiltered(new Uint8Array(await new Response(stream).arrayBuffer()), header);
}

function unfiltered(data, { width, height, bits }) {
  const each = bits / 8, stride = width * each, heights = new Uint16Array(width * height);
  let above = new Uint8Array(stride);
  if (data.length < (stride + 1) * height) throw new Error('the picture ends early');
  for (let r = 0; r < height; r++) {
    const kind = data[r * (stride + 1)], row = data.slice(r * (stride + 1) + 1, (r + 1) * (stride + 1));
    for (let i = 0; i < stride; i++) row[i] += predicted(kind, i < each ? 0 : row[i - each], above[i], i < each ? 0 : above[i - each]);
    for (let c = 0; c < width; c++) heights[r * width + c] = each === 1 ? row[c] : 256 * row[2 * c] + row[2 * c + 1];
    above = row;
  }
  return { width, height, heights };
}

function predicted(kind, left, up, corner) {
  if (kind === 4) {
    const p = left + up - corner, a = Math.abs(p - left), b = Math.abs(p - up), c = Math.abs(p - corner);
    return a <= b && a <= c ? left : b <= c ? up : corner;
  }
  return [0, left, up, (left + up) >> 1][kind] ?? 0;
}

// The fixed form, whose bytes are equal exactly when size and heights are: what the command `terrain sum` hashes.
export function fixedForm({ width, height, heights }) {
  const head = new TextEncoder().encode(`P5\n${width} ${height}\n65535\n`), form = new Uint8Array(head.length + 2 * heights.length);
  form.set(head);
  heights.forEach((h, i) => { form[head.length + 2 * i] = h >> 8; form[head.length + 2 * i + 1] = h & 255; });
  return form;
}
