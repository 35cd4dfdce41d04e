// Which edges of a boundary belong to it: lower and left ones do, upper and right ones do not.
"use strict";

/** The edges that a ring runs along an odd number of times, by the numbers of their ends: not the ways to its holes and back. */
function edgesOf(map, ring) {
  const seen = new Map();
  for (let end = map.starts[ring] + 1; end < map.starts[ring + 1]; end += 1) {
    const names = [end - 1, end].map((at) => `${map.latitudes[at]} ${map.longitudes[at]}`);
    const name = names.sort().join(" ");
    if (names[0] !== names[1] && !seen.delete(name)) {
      seen.set(name, end);
    }
  }
  return [...seen.values()];
}

/** How many edges of a ring have a length. */
function longEdges(map, ring) {
  let count = 0;
  for (let end = map.starts[ring] + 1; end < map.starts[ring + 1]; end += 1) {
    const isPoint = map.latitudes[end - 1] === map.latitudes[end] && map.longitudes[end - 1] === map.longitudes[end];
    count += isPoint ? 0 : 1;
  }
  return count;
}

/** The edges of a mapping in two lists, as pairs of [latitude, longitude] in degrees: those that belong to it, and the others. */
function edgesByBelonging(map, number) {
  const { first, rings } = map.mappings[number];
  const sorted = [[], []];
  for (let ring = first; ring < first + rings.length; ring += 1) {
    const doubled = doubledRing(map, ring);
    const strips = stripsOf(doubled);
    for (const end of edgesOf(map, ring)) {
      const ends = [end - 1, end].map((at) => [map.latitudes[at] / 1e7, map.longitudes[at] / 1e7]);
      const latitude = map.latitudes[end - 1] + map.latitudes[end];
      const longitude = map.longitudes[end - 1] + map.longitudes[end];
      const crossing = strips.at(latitude).filter((other) => crosses(doubled, other, latitude, longitude));
      sorted[crossing.length % 2 ? 0 : 1].push(ends);
    }
  }
  return sorted;
}

/** A ring in units of half the size, so that the middle of an edge has whole units. */
function doubledRing(map, ring) {
  const doubled = (units) => Float64Array.from(units.subarray(map.starts[ring], map.starts[ring + 1]), (unit) => 2 * unit);
  return { latitudes: doubled(map.latitudes), longitudes: doubled(map.longitudes) };
}

/** The edges of a ring in strips of latitude, so that few have to be looked at. */
function stripsOf(doubled) {
  const { latitudes } = doubled;
  const low = latitudes.reduce((least, latitude) => Math.min(least, latitude));
  const height = latitudes.reduce((most, latitude) => Math.max(most, latitude)) - low + 1;
  const strips = Array.from({ length: Math.ceil(latitudes.length / 4) }, () => []);
  const stripOf = (latitude) => Math.floor(((latitude - low) * strips.length) / height);
  for (let end = 1; end < latitudes.length; end += 1) {
    const [one, other] = [stripOf(latitudes[end - 1]), stripOf(latitudes[end])];
    for (let strip = Math.min(one, other); strip <= Math.max(one, other); strip += 1) {
      strips[strip].push(end);
    }
  }
  return { at: (latitude) => strips[stripOf(latitude)] };
}
