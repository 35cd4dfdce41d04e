// What stands beside the map. All texts of the map go in as texts, never as HTML.
"use strict";

const MOST_RESULTS = 50;
const MORE_FINDINGS = 100;
const SEVERITY_COLORS = { error: "#c01818", warning: "#b86e00", note: "#1f5fbf" };

/** The element of an id. */
function byId(id) {
  return document.getElementById(id);
}

/** A new element with properties and children; a text becomes a text. */
function element(name, properties, ...children) {
  const made = Object.assign(document.createElement(name), properties);
  made.append(...children);
  return made;
}

/** A list of sentences. */
function sentences(texts) {
  return element("ul", {}, ...texts.map((text) => element("li", {}, text)));
}

/** What a mapping says. */
function rowsElement(mapping) {
  const rows = rowsOf(mapping).flatMap(([word, text]) => [element("dt", {}, word), element("dd", {}, text)]);
  return element("dl", {}, ...rows);
}

/** A button that shows where a mapping is. */
function showButton(page, number) {
  return element("button", { type: "button", onclick: () => page.select(number) }, `Show ${nameOf(page.view.map.mappings[number])}`);
}

/**
 * Shows an answer. `parts` is what the server replied, and null where the page's own map answers; `fault` says why the server
 * gave no reply.
 */
function showAnswer(page, answer, parts, fault) {
  const { map } = page.view;
  const own = answer.found.map((number) => map.mappings[number]);
  const isSame = !parts || agrees(map, answer, parts);
  const mappings = parts ? parts.mappings : own;
  const error = parts ? parts.error : answer.error;
  const from = parts ? [`From the server, edition ${parts.edition ?? "unknown"}.`] : [];
  byId("answer").replaceChildren(
    ...(fault ? [element("p", { className: "fault" }, `The server gave no answer (${fault}). By the file:`)] : []),
    element("h3", { id: "headline", className: error ? "error" : "" }, headline(mappings, error)),
    element("p", { id: "asked", className: "small" }, `${answer.service} at ${pointText(answer.point)}. ${from.join("")}`),
    sentences(isSame ? reasonsFor(map, answer) : strangeReasons(map, answer, parts)),
    ...mappings.map(rowsElement),
    element("p", {}, ...(isSame ? answer.found.filter((number) => map.mappings[number].rings.length).map((number) => showButton(page, number)) : [])),
  );
}

/** Shows a mapping that was chosen in the search. */
function showMapping(page, number) {
  const mapping = page.view.map.mappings[number];
  const where = mapping.rings.length ? [] : [element("p", {}, "It has no boundary to draw.")];
  const ended = isLive(mapping, Date.now()) ? [] : [element("p", { className: "error" }, "It has expired.")];
  byId("answer").replaceChildren(element("h3", { id: "headline" }, nameOf(mapping)), ...ended, ...where, rowsElement(mapping));
}

/** Says what is wrong with a question. */
function showFault(text) {
  byId("answer").replaceChildren(element("p", { id: "headline", className: "fault" }, text));
}

/** All texts by which a mapping is found, in lower case. */
function wordsOf(mapping) {
  const names = (mapping.displayName || []).map((name) => name.text);
  return [nameOf(mapping), mapping.sourceId, ...names, mapping.key || "", ...mapping.uri, mapping.source].join("\n").toLowerCase();
}

/** The numbers of the mappings that have a text, those whose name begins with it first. */
function searched(map, text) {
  const wanted = text.trim().toLowerCase();
  if (!wanted) {
    return [];
  }
  map.words ||= map.mappings.map(wordsOf);
  const found = [...map.words.keys()].filter((number) => map.words[number].includes(wanted));
  const isFirst = (number) => map.words[number].startsWith(wanted);
  return [...found.filter(isFirst), ...found.filter((number) => !isFirst(number))];
}

/** Shows what a search finds. */
function showResults(page, text) {
  const { map } = page.view;
  const found = searched(map, text);
  const more = found.length > MOST_RESULTS ? `, the first ${MOST_RESULTS} shown` : "";
  byId("found").textContent = text.trim() ? `${counted(found.length, "mapping")} found${more}` : "";
  const buttons = found.slice(0, MOST_RESULTS).map((number) => {
    const mapping = map.mappings[number];
    const service = element("span", { className: "small" }, ` ${mapping.service.slice(SERVICE_PREFIX.length)}`);
    return element("button", { type: "button", onclick: () => page.select(number) }, fullName(mapping), service);
  });
  byId("results").replaceChildren(...buttons.map((button) => element("li", {}, button)));
}

/** Lists the services, each with a box that says whether its boundaries are drawn. */
function showServices(page) {
  const services = servicesOf(page.view.map);
  byId("services").replaceChildren(...services.map(([service]) => element("option", { value: service })));
  const rows = services.map(([service, count]) => {
    const box = element("input", { type: "checkbox", checked: page.view.services.has(service) });
    box.onchange = () => page.draw(service, box.checked);
    return element("li", {}, element("label", {}, box, ` ${service.slice(SERVICE_PREFIX.length)} `, element("span", { className: "small" }, counted(count, "mapping"))));
  });
  byId("drawn").replaceChildren(...rows);
}

/** The button of a finding. */
function findingButton(page, finding) {
  const severity = element("span", { className: finding.severity }, `${finding.severity}: `);
  const answer = finding.answer ? [element("span", { className: "small" }, ` ${finding.answer}`)] : [];
  const button = element("button", { type: "button", onclick: () => page.visit(finding) }, severity, finding.text, ...answer);
  button.disabled = !finding.point && !finding.identities.length;
  return button;
}

/** Lists findings, some at first. */
function showFindings(page) {
  const { findings, findingsNote } = page.view.map;
  byId("findings-note").textContent = findingsNote;
  byId("findings").replaceChildren();
  byId("more-findings").onclick = () => addFindings(page);
  addFindings(page);
  byId("findings-part").hidden = findings === null;
}

/** Lists some more findings. */
function addFindings(page) {
  const findings = page.view.map.findings || [];
  const shown = byId("findings").children.length;
  const next = findings.slice(shown, shown + MORE_FINDINGS);
  byId("findings").append(...next.map((finding) => element("li", {}, findingButton(page, finding))));
  byId("more-findings").hidden = shown + next.length >= findings.length;
}
