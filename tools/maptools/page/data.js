// The map that the page carries: mappings and the positions of their rings.
//
// Packed, it is the length of a JSON text in four bytes (the lowest first), that text, and the positions of all rings one
// after another: the lowest bytes of the steps from latitude to latitude, their next bytes, and so on; then the longitudes.
"use strict";

/** The bytes of a base64 text. */
function bytesOf(text) {
  const letters = atob(text);
  const bytes = new Uint8Array(letters.length);
  for (let at = 0; at < letters.length; at += 1) {
    bytes[at] = letters.charCodeAt(at);
  }
  return bytes;
}

/** What gzip made smaller, as it was. */
async function unzipped(bytes) {
  const stream = new Blob([bytes]).stream().pipeThrough(new DecompressionStream("gzip"));
  return new Uint8Array(await new Response(stream).arrayBuffer());
}

/** So many numbers of 32 bits, each the sum of the steps up to it, from the four planes of bytes that begin at a place. */
function numbersOf(bytes, from, count) {
  const numbers = new Int32Array(count);
  let sum = 0;
  for (let at = 0, place = from; at < count; at += 1, place += 1) {
    const step =
      bytes[place] | (bytes[place + count] << 8) | (bytes[place + 2 * count] << 16) | (bytes[place + 3 * count] << 24);
    sum = (sum + step) | 0;
    numbers[at] = sum;
  }
  return numbers;
}

/** The map that bytes hold. Each mapping has `rings` (how many positions each has), and gets `first`, its first ring. */
function unpacked(bytes) {
  const length = new DataView(bytes.buffer, bytes.byteOffset).getUint32(0, true);
  const map = JSON.parse(new TextDecoder().decode(bytes.subarray(4, 4 + length)));
  const sizes = map.mappings.flatMap((mapping) => mapping.rings);
  map.rings = sizes.length;
  map.starts = new Uint32Array(map.rings + 1);
  sizes.forEach((size, ring) => {
    map.starts[ring + 1] = map.starts[ring] + size;
  });
  const count = map.starts[map.rings];
  map.latitudes = numbersOf(bytes, 4 + length, count);
  map.longitudes = numbersOf(bytes, 4 + length + 4 * count, count);
  map.owners = new Uint32Array(map.rings);
  map.defaults = [];
  let ring = 0;
  map.mappings.forEach((mapping, number) => {
    mapping.first = ring;
    map.owners.fill(number, ring, ring + mapping.rings.length);
    ring += mapping.rings.length;
    if (mapping.isDefault) {
      map.defaults.push(number);
    }
  });
  map.boxes = boxesOf(map);
  return map;
}

/** For each ring the least and the greatest latitude, and the least and the greatest longitude. */
function boxesOf(map) {
  const boxes = new Int32Array(4 * map.rings);
  for (let ring = 0; ring < map.rings; ring += 1) {
    let [south, north, west, east] = [GREATEST_LATITUDE, -GREATEST_LATITUDE, GREATEST_LONGITUDE, -GREATEST_LONGITUDE];
    for (let at = map.starts[ring]; at < map.starts[ring + 1]; at += 1) {
      const latitude = map.latitudes[at];
      const longitude = map.longitudes[at];
      south = latitude < south ? latitude : south;
      north = latitude > north ? latitude : north;
      west = longitude < west ? longitude : west;
      east = longitude > east ? longitude : east;
    }
    boxes.set([south, north, west, east], 4 * ring);
  }
  return boxes;
}

/** The box around some rings, from one up to before another; null where there is none. */
function boxAround(map, first, end) {
  if (first === end) {
    return null;
  }
  const box = { south: GREATEST_LATITUDE, north: -GREATEST_LATITUDE, west: GREATEST_LONGITUDE, east: -GREATEST_LONGITUDE };
  for (let ring = first; ring < end; ring += 1) {
    box.south = Math.min(box.south, map.boxes[4 * ring]);
    box.north = Math.max(box.north, map.boxes[4 * ring + 1]);
    box.west = Math.min(box.west, map.boxes[4 * ring + 2]);
    box.east = Math.max(box.east, map.boxes[4 * ring + 3]);
  }
  return box;
}

/** The box around a mapping; null where it has no boundary to draw. */
function boxOf(map, number) {
  const mapping = map.mappings[number];
  return boxAround(map, mapping.first, mapping.first + mapping.rings.length);
}

/** The services that have mappings, in ascending order, each with how many. */
function servicesOf(map) {
  const counts = new Map();
  for (const mapping of map.mappings) {
    counts.set(mapping.service, (counts.get(mapping.service) || 0) + 1);
  }
  return [...counts].sort(([one], [other]) => (one < other ? -1 : 1));
}

/** A name for people: the first display name, or else the sourceId. */
function nameOf(mapping) {
  const shown = (mapping.displayName || []).find((name) => name.text.trim());
  return shown ? shown.text : mapping.sourceId;
}
