// Answers in words. Nothing here knows of a browser.
"use strict";

const EXPIRY = { "NO-EXPIRATION": "never", "NO-CACHE": "ask each time: do not keep it" };
const MOST_NAMED = 6;

/** A point in degrees. */
function pointText(point) {
  return `${degreesOf(point.latitude)}, ${degreesOf(point.longitude)}`;
}

/** A name with the identity behind it, where they differ. */
function fullName(mapping) {
  const name = nameOf(mapping);
  return name === mapping.sourceId ? name : `${name} (${mapping.source} ${mapping.sourceId})`;
}

/** Things one after another, with "and" before the last; many are cut short. */
function listed(names) {
  const shown = names.length > MOST_NAMED ? [...names.slice(0, MOST_NAMED), `${names.length - MOST_NAMED} more`] : names;
  return shown.length < 2 ? shown.join("") : `${shown.slice(0, -1).join(", ")} and ${shown[shown.length - 1]}`;
}

/** A count with its noun. */
function counted(count, noun) {
  return `${count.toLocaleString("en")} ${noun}${count === 1 ? "" : "s"}`;
}

/** Who answers, in one sentence. */
function headline(mappings, error) {
  if (error) {
    return `Nobody answers: ${error}.`;
  }
  const names = mappings.map(nameOf);
  return names.length === 1 ? `${names[0]} answers.` : `${names.length} centres answer: ${listed(names)}.`;
}

/** What a mapping says, as rows of a word and a text. */
function rowsOf(mapping) {
  const names = (mapping.displayName || []).map((name) => ["name", `${name.text} (${name.lang})`]);
  const also = [];
  if (mapping.patterns) {
    also.push(counted(mapping.patterns, "address pattern"));
  }
  if (mapping.tokenSets) {
    also.push(counted(mapping.tokenSets, "token set"));
  }
  return [
    ...names,
    ["mapping", `${mapping.source} ${mapping.sourceId}`],
    ...mapping.uri.map((uri) => ["call", uri]),
    ...(mapping.serviceNumber ? [["dial", mapping.serviceNumber]] : []),
    ["service", mapping.service],
    ["boundary", mapping.key ? `key ${mapping.key}` : "none: it is a default"],
    ...(also.length ? [["serves also", also.join(", ")]] : []),
    ["expires", EXPIRY[mapping.expires] || mapping.expires],
    ["updated", mapping.lastUpdated],
  ];
}

/** Why the answer is what it is, in sentences. */
function reasonsFor(map, answer) {
  const named = (numbers) => listed(numbers.map((number) => fullName(map.mappings[number])));
  return [
    ...pointReasons(answer),
    ...foundReasons(map, answer),
    ...answer.onEdge.map((number) => edgeReason(map.mappings[number], answer.held.has(number))),
    ...(answer.expired.length ? [`${named(answer.expired)} would hold this point too, but expired.`] : []),
  ];
}

/** What the server makes of a point at the edge of the globe. */
function pointReasons({ point, at }) {
  const reasons = [];
  if (point.longitude !== at.longitude) {
    reasons.push("Longitude 180 is the same meridian as -180, and is answered as at -180.");
  }
  if (point.latitude !== at.latitude) {
    reasons.push("The pole is answered as at latitude 89.9999999, just below it.");
  }
  return reasons;
}

/** Which rule chose the mappings, or that none did. */
function foundReasons(map, answer) {
  if (answer.error === "serviceNotImplemented") {
    return [`No live mapping has ${answer.service} or a service above it.`];
  }
  if (answer.error) {
    return [`No boundary for ${answer.service} or a service above it holds this point, and there is no default.`];
  }
  const reasons = [];
  if (answer.isDefault) {
    reasons.push(`No boundary for ${answer.service} or a service above it holds this point: a default stands in (defaultMappingReturned).`);
  } else if (answer.serviceFound !== answer.service) {
    reasons.push(`No boundary for ${answer.service} itself holds this point.`);
  }
  if (answer.serviceFound !== answer.service) {
    reasons.push(`The answer is that of the service above it, ${answer.serviceFound} (serviceSubstitution).`);
  }
  if (!answer.isDefault) {
    reasons.push(...answer.found.map((number) => insideReason(map, number, answer.held.get(number))));
  }
  if (answer.found.length > 1) {
    reasons.push(answer.isDefault ? "All defaults of that service answer." : "These boundaries overlap here: a client takes the first, or chooses.");
  }
  return reasons;
}

/** That a point is inside a ring of a mapping. */
function insideReason(map, number, ring) {
  const mapping = map.mappings[number];
  const which = mapping.rings.length > 1 ? `polygon ${ring - mapping.first + 1} of ${mapping.rings.length} of ` : "";
  return `The point is inside ${which}the boundary of ${fullName(mapping)}.`;
}

/** Whose a point on an edge is. */
function edgeReason(mapping, isHeld) {
  const whose = isHeld ? "It is a lower or left edge, which belongs to it" : "It is an upper or right edge, which does not belong to it";
  return `The point is on an edge of ${fullName(mapping)} (${mapping.service}). ${whose}.`;
}

/** A reply of the server as the mappings found, their identities, and the name of an error. */
function replyParts(reply) {
  const found = reply.findServiceResponse;
  if (!found) {
    const { error, edition } = reply.errors;
    return { mappings: [], error, edition, warnings: [] };
  }
  const mappings = found.mapping.map((mapping) => ({ ...mapping, key: (mapping.serviceBoundaryReference || {}).key }));
  return { mappings, error: null, edition: found.edition, warnings: found.warnings || [] };
}

/** Whether the server found the same mappings, for the same reason, as the page's own map. */
function agrees(map, answer, parts) {
  const one = answer.found.map((number) => identityOf(map.mappings[number]));
  const other = parts.mappings.map(identityOf);
  return (
    answer.error === parts.error && one.join("\n") === other.join("\n") && answer.warnings.join() === parts.warnings.join()
  );
}

/** The source and the sourceId of a mapping, and when it was updated last. */
function identityOf(mapping) {
  return `${mapping.source} ${mapping.sourceId} ${mapping.lastUpdated}`;
}

/** The reasons of an answer of the server that the page's map does not give. */
function strangeReasons(map, answer, parts) {
  const names = answer.found.map((number) => map.mappings[number]);
  return [
    ...parts.warnings.map((warning) => `The server warns: ${warning}.`),
    `The server's map is not that of the file. By the file: ${headline(names, answer.error)}`,
  ];
}
