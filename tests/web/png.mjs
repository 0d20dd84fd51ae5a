// Makes a PNG of a browser smaller: the 256 colours that come most often, and for any other the nearest of these.

import { deflateSync, inflateSync } from "node:zlib";

const HEAD = Buffer.from([137, 80, 78, 71, 13, 10, 26, 10]);
const MOST = 256;

/** The chunks of a PNG: kind and data. */
function* chunks(png) {
  for (let at = HEAD.length; at < png.length;) {
    const size = png.readUInt32BE(at);
    yield [png.toString("latin1", at + 4, at + 8), png.subarray(at + 8, at + 8 + size)];
    at += size + 12;
  }
}

/** What a filter of PNG predicts of a byte, by those left of it, above, and above left. */
function predicted(filter, left, above, corner) {
  if (filter === 1) return left;
  if (filter === 2) return above;
  if (filter === 3) return (left + above) >> 1;
  if (filter !== 4) return 0;
  const sum = left + above - corner, [a, b, c] = [left, above, corner].map((it) => Math.abs(sum - it));
  return a <= b && a <= c ? left : b <= c ? above : corner;
}

/** The bytes of the pixels, without filters. */
function unfiltered(data, height, row, pixel) {
  const bytes = Buffer.alloc(height * row);
  for (let y = 0; y < height; y++) {
    const filter = data[y * (row + 1)], to = y * row;
    for (let x = 0; x < row; x++) {
      const left = x >= pixel ? bytes[to + x - pixel] : 0, above = y ? bytes[to + x - row] : 0;
      const corner = y && x >= pixel ? bytes[to + x - row - pixel] : 0;
      bytes[to + x] = data[y * (row + 1) + 1 + x] + predicted(filter, left, above, corner);
    }
  }
  return bytes;
}

/** The colours that come most often, and for each colour the number of the nearest of them. */
function palette(colours) {
  const count = new Map();
  for (const it of colours) count.set(it, (count.get(it) || 0) + 1);
  const kept = [...count].sort((a, b) => b[1] - a[1]).slice(0, MOST).map(([it]) => it), number = new Map();
  const apart = (one, other) => [16, 8, 0].reduce((sum, shift) => sum + (((one >> shift) & 255) - ((other >> shift) & 255)) ** 2, 0);
  for (const it of count.keys()) {
    let nearest = 0;
    for (let n = 1; n < kept.length; n++) if (apart(it, kept[n]) < apart(it, kept[nearest])) nearest = n;
    number.set(it, nearest);
  }
  return { kept, number };
}

/** The check of a chunk: the CRC-32 of PNG. */
function crc32(bytes) {
  let sum = 0xffffffff;
  for (const byte of bytes) {
    sum ^= byte;
    for (let bit = 0; bit < 8; bit++) sum = (sum >>> 1) ^ (sum & 1 ? 0xedb88320 : 0);
  }
  return ~sum >>> 0;
}

function chunk(kind, data) {
  const it = Buffer.concat([Buffer.alloc(4), Buffer.from(kind, "latin1"), data, Buffer.alloc(4)]);
  it.writeUInt32BE(data.length);
  it.writeUInt32BE(crc32(it.subarray(4, -4)), it.length - 4);
  return it;
}

/** The same picture in 256 colours. It has to be of 8 bits a channel, RGB with or without a channel for what shines through. */
export function smaller(png) {
  const parts = [...chunks(png)], [, head] = parts[0], width = head.readUInt32BE(0), height = head.readUInt32BE(4);
  const pixel = { 2: 3, 6: 4 }[head[9]];
  const data = inflateSync(Buffer.concat(parts.filter(([kind]) => kind === "IDAT").map(([, it]) => it)));
  const bytes = unfiltered(data, height, width * pixel, pixel);
  const colours = Array.from({ length: width * height }, (_, n) => bytes.readUIntBE(n * pixel, 3)), { kept, number } = palette(colours);
  const rows = Buffer.alloc(height * (width + 1));
  colours.forEach((it, n) => { rows[n + Math.floor(n / width) + 1] = number.get(it); });
  const newHead = Buffer.from(head);
  newHead[9] = 3;
  const entries = Buffer.from(kept.flatMap((it) => [it >> 16, (it >> 8) & 255, it & 255]));
  return Buffer.concat([HEAD, chunk("IHDR", newHead), chunk("PLTE", entries), chunk("IDAT", deflateSync(rows, { level: 9 })),
    chunk("IEND", Buffer.alloc(0))]);
}
