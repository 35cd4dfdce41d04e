// Draws boundaries onto a canvas, a little at a time, with no more detail than the picture can show.
//
// A frame is { north, west, latitudeStep, longitudeStep, width, height }: its corner in units of 1e-7 degrees, the units of a
// step to the next pixel, and its size in pixels.
"use strict";

const POSITIONS_AT_ONCE = 4000;
// A ring that reaches farther beyond the frame than this is cut first: canvases are not exact far outside.
const FAR = 2000;
const NEAR = 64;
const FONT = "12px system-ui, sans-serif";

/** The colors of the mapping of a number; those of numbers that follow one another differ most. */
function fillColor(number) {
  return `hsl(${((number * 137.50776) % 360).toFixed(1)} 65% ${[78, 68, 85][number % 3]}% / 0.7)`;
}

/** The color of the edges of a mapping. */
function lineColor(number) {
  return `hsl(${((number * 137.50776) % 360).toFixed(1)} 75% ${[30, 22, 36][number % 3]}%)`;
}

/** Where a ring lies in a frame, in pixels. */
function placeOf(map, ring, frame) {
  const at = 4 * ring;
  return {
    left: (map.boxes[at + 2] - frame.west) / frame.longitudeStep,
    right: (map.boxes[at + 3] - frame.west) / frame.longitudeStep,
    top: (frame.north - map.boxes[at + 1]) / frame.latitudeStep,
    bottom: (frame.north - map.boxes[at]) / frame.latitudeStep,
  };
}

/** Whether a place has something in a frame. */
function isSeen(place, frame) {
  return place.right >= -1 && place.bottom >= -1 && place.left <= frame.width + 1 && place.top <= frame.height + 1;
}

/** The corners of a ring in a frame, one after another; those that lie on the pixel of the one before are left out. */
function cornersOf(map, ring, frame) {
  const corners = [];
  let lastX = NaN;
  let lastY = NaN;
  for (let at = map.starts[ring]; at < map.starts[ring + 1]; at += 1) {
    const x = (map.longitudes[at] - frame.west) / frame.longitudeStep;
    const y = (frame.north - map.latitudes[at]) / frame.latitudeStep;
    if (!(Math.abs(x - lastX) + Math.abs(y - lastY) < 0.7)) {
      corners.push(x, y);
      lastX = x;
      lastY = y;
    }
  }
  return corners;
}

/** The part of a ring's corners on one side of a line: `axis` 0 for x and 1 for y, `sign` 1 below the limit and -1 above. */
function cutAt(corners, axis, sign, limit) {
  const kept = [];
  const count = corners.length;
  for (let at = 0; at < count; at += 2) {
    const before = (at + count - 2) % count;
    const excess = sign * (corners[at + axis] - limit);
    const excessBefore = sign * (corners[before + axis] - limit);
    if (excess > 0 !== excessBefore > 0) {
      const share = excessBefore / (excessBefore - excess);
      const crossing = corners[before + 1 - axis] + share * (corners[at + 1 - axis] - corners[before + 1 - axis]);
      kept.push(...(axis ? [crossing, limit] : [limit, crossing]));
    }
    if (excess <= 0) {
      kept.push(corners[at], corners[at + 1]);
    }
  }
  return kept;
}

/** The corners of a ring, cut to what is near the frame where it reaches far out. */
function nearCorners(map, ring, frame, place) {
  const corners = cornersOf(map, ring, frame);
  const isFar =
    place.left < -FAR || place.top < -FAR || place.right > frame.width + FAR || place.bottom > frame.height + FAR;
  if (!isFar) {
    return corners;
  }
  const inEast = cutAt(cutAt(corners, 0, -1, -NEAR), 0, 1, frame.width + NEAR);
  return cutAt(cutAt(inEast, 1, -1, -NEAR), 1, 1, frame.height + NEAR);
}

/** Draws one ring. */
function drawRing(context, map, ring, frame, place) {
  const number = map.owners[ring];
  context.fillStyle = fillColor(number);
  if (place.right - place.left < 1.5 && place.bottom - place.top < 1.5) {
    context.fillRect(place.left, place.top, 1, 1);
    return;
  }
  const corners = nearCorners(map, ring, frame, place);
  context.beginPath();
  for (let at = 0; at < corners.length; at += 2) {
    context.lineTo(corners[at], corners[at + 1]);
  }
  context.closePath();
  context.fill("evenodd");
  if (place.right - place.left > 4 || place.bottom - place.top > 4) {
    context.strokeStyle = lineColor(number);
    if (isLarge(place) && hasSeams(map, ring)) {
      traceEdges(context, map, ring, frame);
    }
    context.stroke();
  }
}

/** Whether a ring is so large in the picture that ways to its holes would show. */
function isLarge(place) {
  return place.right - place.left > 40 || place.bottom - place.top > 40;
}

/** Whether a ring runs along an edge more than once; it is looked up once for each ring. */
function hasSeams(map, ring) {
  map.seams ||= new Map();
  if (!map.seams.has(ring)) {
    map.seams.set(ring, edgesOf(map, ring).length < longEdges(map, ring));
  }
  return map.seams.get(ring);
}

/** Begins a path of the edges of a ring that are no ways to its holes, as far as they are near the frame. */
function traceEdges(context, map, ring, frame) {
  const x = (at) => (map.longitudes[at] - frame.west) / frame.longitudeStep;
  const y = (at) => (frame.north - map.latitudes[at]) / frame.latitudeStep;
  context.beginPath();
  for (const end of edgesOf(map, ring)) {
    const part = cutLine([x(end - 1), y(end - 1)], [x(end), y(end)], frame);
    if (part) {
      context.moveTo(...part[0]);
      context.lineTo(...part[1]);
    }
  }
}

/** The part of a line that is near a frame, by its ends; null where there is none. */
function cutLine(from, to, frame) {
  let [first, last] = [0, 1];
  for (const [axis, size] of [[0, frame.width], [1, frame.height]]) {
    const way = to[axis] - from[axis];
    const shares = [-NEAR, size + NEAR].map((limit) => (limit - from[axis]) / way).sort((one, other) => one - other);
    if (way === 0 && (from[axis] < -NEAR || from[axis] > size + NEAR)) {
      return null;
    }
    [first, last] = way === 0 ? [first, last] : [Math.max(first, shares[0]), Math.min(last, shares[1])];
  }
  const at = (share) => [from[0] + share * (to[0] - from[0]), from[1] + share * (to[1] - from[1])];
  return first < last ? [at(first), at(last)] : null;
}

/** Writes the name of a mapping in the middle of a ring that has the room for it. */
function drawName(context, map, ring, place) {
  if (place.right - place.left < 40 || place.bottom - place.top < 16) {
    return;
  }
  const name = nameOf(map.mappings[map.owners[ring]]);
  if (context.measureText(name).width < place.right - place.left - 4) {
    const [x, y] = [(place.left + place.right) / 2, (place.top + place.bottom) / 2];
    context.strokeText(name, x, y);
    context.fillText(name, x, y);
  }
}

/** Draws what a frame shows of the mappings that are shown; it stops after each few thousand positions. */
function* drawFrame(context, map, frame, isShown) {
  const named = [];
  let drawn = 0;
  context.lineWidth = 1;
  for (let ring = 0; ring < map.rings; ring += 1) {
    const place = placeOf(map, ring, frame);
    if (isSeen(place, frame) && isShown(map.owners[ring])) {
      drawRing(context, map, ring, frame, place);
      named.push(ring, place);
      drawn += map.starts[ring + 1] - map.starts[ring];
    }
    if (drawn > POSITIONS_AT_ONCE) {
      drawn = 0;
      yield;
    }
  }
  Object.assign(context, { font: FONT, textAlign: "center", textBaseline: "middle", strokeStyle: "#fff", fillStyle: "#111", lineWidth: 3 });
  for (let at = 0; at < named.length; at += 2) {
    drawName(context, map, named[at], named[at + 1]);
  }
}
