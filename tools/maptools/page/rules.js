// What the server answers at a point, by its own rules. Nothing here knows of a browser.
//
// Points are { latitude, longitude } in whole units of 1e-7 degrees. A map is what `unpacked` of data.js gives. Moments are
// milliseconds from 1970-01-01, as Date.now() gives them.
"use strict";

const GREATEST_LATITUDE = 900000000;
const GREATEST_LONGITUDE = 1800000000;
const SERVICE_PREFIX = "urn:service:";
const LABEL = /^[a-z0-9]([a-z0-9-]{0,61}[a-z0-9])?$/;
// The difference of two products below 2^65 is off by less than this in floating point.
const ROUNDING = 16384;

/** The point at which a question is asked: longitude 180 is -180, and latitude 90 lies just below it. */
function normalPoint(point) {
  return {
    latitude: point.latitude === GREATEST_LATITUDE ? GREATEST_LATITUDE - 1 : point.latitude,
    longitude: point.longitude === GREATEST_LONGITUDE ? -GREATEST_LONGITUDE : point.longitude,
  };
}

/** Whether a point is a place on the globe. */
function isOnGlobe(point) {
  return Math.abs(point.latitude) <= GREATEST_LATITUDE && Math.abs(point.longitude) <= GREATEST_LONGITUDE;
}

/** Below zero where a point is west of the line from a low end to a high one, above where east, zero on it; exact in its sign. */
function sideOf(lowLatitude, lowLongitude, highLatitude, highLongitude, latitude, longitude) {
  const rough =
    (longitude - lowLongitude) * (highLatitude - lowLatitude) - (highLongitude - lowLongitude) * (latitude - lowLatitude);
  if (Math.abs(rough) > ROUNDING) {
    return rough;
  }
  const along = BigInt(longitude - lowLongitude) * BigInt(highLatitude - lowLatitude);
  return Number(along - BigInt(highLongitude - lowLongitude) * BigInt(latitude - lowLatitude));
}

/** On which side of an edge, given by the number of its end in the ring, a point is; see sideOf. */
function sideOfEdge(map, end, latitude, longitude) {
  const low = map.latitudes[end - 1] <= map.latitudes[end] ? end - 1 : end;
  const high = low === end ? end - 1 : end;
  const { latitudes, longitudes } = map;
  return sideOf(latitudes[low], longitudes[low], latitudes[high], longitudes[high], latitude, longitude);
}

/** Whether an edge crosses at a point: it spans the latitude, without its high end, and the point is west of it. */
function crosses(map, end, latitude, longitude) {
  const spans = latitude < map.latitudes[end - 1] !== latitude < map.latitudes[end];
  return spans && sideOfEdge(map, end, latitude, longitude) < 0;
}

/** Whether a point is on an edge. */
function isOnEdge(map, end, latitude, longitude) {
  const { latitudes, longitudes } = map;
  return (
    isBetween(latitudes[end - 1], latitudes[end], latitude) &&
    isBetween(longitudes[end - 1], longitudes[end], longitude) &&
    sideOfEdge(map, end, latitude, longitude) === 0
  );
}

/** How a ring lies about a point: whether it holds it (an odd number of edges cross), and whether the point is on an edge. */
function ringAt(map, ring, latitude, longitude) {
  const about = { isHeld: false, isOnEdge: false };
  for (let end = map.starts[ring] + 1; end < map.starts[ring + 1]; end += 1) {
    if (crosses(map, end, latitude, longitude)) {
      about.isHeld = !about.isHeld;
    }
    about.isOnEdge ||= isOnEdge(map, end, latitude, longitude);
  }
  return about;
}

/** Whether a number is one of two, or lies between them. */
function isBetween(one, other, number) {
  return (one <= number && number <= other) || (other <= number && number <= one);
}

/** Whether the box around a ring has a point. */
function isInBox(boxes, ring, latitude, longitude) {
  const at = 4 * ring;
  return boxes[at] <= latitude && latitude <= boxes[at + 1] && boxes[at + 2] <= longitude && longitude <= boxes[at + 3];
}

/** The mappings that hold a point, in the order of the list, each with its ring; and those on whose edges it is. */
function lookUp(map, at) {
  const held = new Map();
  const onEdge = new Set();
  for (let ring = 0; ring < map.rings; ring += 1) {
    if (isInBox(map.boxes, ring, at.latitude, at.longitude)) {
      const about = ringAt(map, ring, at.latitude, at.longitude);
      const owner = map.owners[ring];
      if (about.isHeld && !held.has(owner)) {
        held.set(owner, ring);
      }
      if (about.isOnEdge) {
        onEdge.add(owner);
      }
    }
  }
  return { held, onEdge };
}

/** A service URN in lower case; null where a text is none. */
function serviceOf(text) {
  const low = text.replace(/[A-Z]/g, (letter) => letter.toLowerCase());
  const labels = low.slice(SERVICE_PREFIX.length).split(".");
  return low.startsWith(SERVICE_PREFIX) && labels.length <= 8 && labels.every((label) => LABEL.test(label)) ? low : null;
}

/** A service and those above it, which drop the last label one after another. */
function chainOf(service) {
  const labels = service.slice(SERVICE_PREFIX.length).split(".");
  return labels.map((_, dropped) => SERVICE_PREFIX + labels.slice(0, labels.length - dropped).join("."));
}

/** Whether a mapping has not expired: its `expires` is a word without an end, or a stamp after the moment. */
function isLive(mapping, now) {
  if (mapping.expires === "NO-CACHE" || mapping.expires === "NO-EXPIRATION") {
    return true;
  }
  const digits = mapping.expires.slice(20, -1).padEnd(9, "0");
  const end = Date.parse(`${mapping.expires.slice(0, 19)}Z`) + Number(digits.slice(0, 3));
  return end > now || (end === now && Number(digits.slice(3)) > 0);
}

/** The first service of a chain that has some of the mappings, with those; null where none has. */
function firstOf(map, chain, numbers) {
  for (const service of chain) {
    const found = numbers.filter((number) => map.mappings[number].service === service);
    if (found.length) {
      return { service, found };
    }
  }
  return null;
}

/**
 * What findService finds for a service (a URN in lower case) at a point: the numbers of mappings, or the name of an error.
 * `held`, `onEdge` and `expired` say why: what holds the point, on whose edges it is, and what would hold it were it live.
 */
function answerAt(map, point, service, now) {
  const at = normalPoint(point);
  const chain = chainOf(service);
  const { held, onEdge } = lookUp(map, at);
  const isOfChain = (number) => chain.includes(map.mappings[number].service);
  const holders = [...held.keys()].sort((one, other) => one - other).filter(isOfChain);
  const live = holders.filter((number) => isLive(map.mappings[number], now));
  const here = firstOf(map, chain, live);
  const first = here || firstOf(map, chain, map.defaults.filter((number) => isLive(map.mappings[number], now)));
  const isDefault = !here && first !== null;
  const warnings = [];
  if (first && first.service !== service) {
    warnings.push("serviceSubstitution");
  }
  if (isDefault) {
    warnings.push("defaultMappingReturned");
  }
  return {
    point, at, service, warnings, isDefault, held,
    found: first ? first.found : [],
    serviceFound: first ? first.service : null,
    error: first ? null : errorOf(map, chain, now),
    onEdge: [...onEdge].filter(isOfChain).sort((one, other) => one - other),
    expired: holders.filter((number) => !live.includes(number)),
  };
}

/** Which error it is that nothing is found. */
function errorOf(map, chain, now) {
  const isKnown = map.mappings.some((mapping) => chain.includes(mapping.service) && isLive(mapping, now));
  return isKnown ? "notFound" : "serviceNotImplemented";
}

/** The point that two texts of degrees spell, to the nearest whole unit; null where they spell none on the globe. */
function pointOf(latitude, longitude) {
  const [one, other] = [latitude, longitude].map(unitsOf);
  const point = { latitude: one, longitude: other };
  return one === null || other === null || !isOnGlobe(point) ? null : point;
}

/** A text of degrees in whole units; null where it is no number. */
function unitsOf(text) {
  const parts = /^([-+]?)([0-9]{1,3})(?:\.([0-9]{0,7})[0-9]*)?$/.exec(text.trim().replace("−", "-"));
  if (!parts) {
    return null;
  }
  const units = Number(parts[2] + (parts[3] || "").padEnd(7, "0"));
  return parts[1] === "-" && units ? -units : units;
}

/** Whole units as degrees, exactly. */
function degreesOf(units) {
  const digits = String(Math.abs(units)).padStart(8, "0");
  const text = `${digits.slice(0, -7)}.${digits.slice(-7)}`.replace(/\.?0+$/, "");
  return units < 0 ? `-${text}` : text;
}
