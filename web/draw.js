// Pictures of a map on a canvas: hill shading, the bands of its plane, where two maps differ. Each pixel is one height.

function paint(canvas, width, height, colour) {
  canvas.width = width;
  canvas.height = height;
  const context = canvas.getContext('2d'), image = context.createImageData(width, height);
  for (let i = 0; i < width * height; i++) {
    const [r, g, b] = colour(i);
    image.data.set([r, g, b, 255], 4 * i);
  }
  context.putImageData(image, 0, 0);
}

export function range(heights) {
  let low = 65535, high = 0;
  for (const h of heights) {
    if (h < low) low = h;
    if (h > high) high = h;
  }
  return { low, high };
}

// Light from the north-west; slopes are drawn steep enough that the whole range shows, whatever it is.
export function shade(canvas, { width, height, heights }) {
  const { low, high } = range(heights), steep = (0.35 * Math.min(width, height) ** 0.85) / Math.max(high - low, 1);
  const at = (r, c) => heights[Math.min(Math.max(r, 0), height - 1) * width + Math.min(Math.max(c, 0), width - 1)];
  paint(canvas, width, height, (i) => {
    const r = Math.floor(i / width), c = i % width;
    const dx = (at(r, c + 1) - at(r, c - 1)) * steep, dy = (at(r + 1, c) - at(r - 1, c)) * steep;
    const light = Math.max(0, (dx + dy + 1.4) / Math.hypot(dx, dy, 1) / 2.0), t = (heights[i] - low) / Math.max(high - low, 1);
    return [[60, 96, 62], [202, 190, 150]].reduce((a, b) => a.map((v, k) => v + (b[k] - v) * t)).map((v) => Math.min(255, v * (0.35 + light)));
  });
}

// The plane as it stands in memory, each band by a scale of its own: LL by its range, the others about grey by their tenth largest share.
export function bands(canvas, plane, shape, widths, heightsOf) {
  const { width, height, levels } = shape, scales = [];
  const band = (r, c) => {
    for (let k = 1; k <= levels; k++) {
      const across = c >= widths[k], down = r >= heightsOf[k];
      if (across || down) return 3 * k + (across ? 1 : 0) + (down ? 2 : 0) - 1;
    }
    return 0;
  };
  const members = new Map();
  for (let i = 0; i < plane.length; i++) {
    const b = band(Math.floor(i / width), i % width);
    if (!members.has(b)) members.set(b, []);
    members.get(b).push(b ? Math.abs(plane[i]) : plane[i]);
  }
  for (const [b, values] of members) {
    values.sort((x, y) => x - y);
    const last = values[values.length - 1], most = values[Math.floor(values.length * 0.98)];
    scales[b] = b ? { from: 0, span: Math.max(1, most) } : { from: values[0], span: Math.max(1, last - values[0]) };
  }
  paint(canvas, width, height, (i) => {
    const b = band(Math.floor(i / width), i % width), { from, span } = scales[b];
    const v = b ? 128 + (127 * plane[i]) / span : (255 * (plane[i] - from)) / span;
    return [v, v, v].map((x) => Math.min(255, Math.max(0, x)));
  });
}

// So that a single height is found by the eye.
function ring(canvas, row, column, radius) {
  const context = canvas.getContext('2d');
  context.strokeStyle = '#fc3';
  context.lineWidth = Math.max(1, radius / 5);
  context.beginPath();
  context.arc(column + 0.5, row + 0.5, radius, 0, 2 * Math.PI);
  context.stroke();
}

// Grey where equal, red where the second is higher, blue where it is lower.
export function difference(canvas, a, b) {
  let count = 0, first = -1, largest = 0;
  a.heights.forEach((h, i) => {
    const d = Math.abs(b.heights[i] - h);
    if (!d) return;
    count++;
    if (first < 0) first = i;
    largest = Math.max(largest, d);
  });
  paint(canvas, a.width, a.height, (i) => {
    const d = b.heights[i] - a.heights[i], grey = 40 + 120 * (a.heights[i] / 65535);
    const strength = 110 + (145 * Math.abs(d)) / Math.max(largest, 1);
    return !d ? [grey, grey, grey] : d > 0 ? [strength, 30, 30] : [30, 60, strength];
  });
  const row = Math.floor(first / a.width), column = first % a.width;
  if (count) ring(canvas, row, column, Math.max(a.width, a.height) / 25);
  return { count, row, column, largest };
}
