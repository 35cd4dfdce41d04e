// Puts the page together, and asks the server where it is served by one.
"use strict";

const LOOK_AGAIN = 2000;
const CLOSE_ZOOM = 14;
const GREATEST_FIT = 18;

/** The box around some units as Leaflet's bounds. */
function boundsOf(box) {
  return L.latLngBounds([box.south / 1e7, box.west / 1e7], [box.north / 1e7, box.east / 1e7]);
}

/** A single point of a finding's geometry: a small dot, since Leaflet's own marker is a picture that the page does not have. */
function dot(_feature, place) {
  return L.circleMarker(place, { radius: 3 });
}

/** What is fetched from the server behind the page; an Error with its text where it gives none. */
async function fetched(path) {
  const reply = await fetch(path, { cache: "no-store" });
  if (!reply.ok) {
    throw new Error((await reply.text()).trim() || `status ${reply.status}`);
  }
  return reply;
}

/** The page: the map on it, and what was asked last. */
class Page {
  constructor(map) {
    const box = boxAround(map, 0, map.rings) || { south: -GREATEST_LATITUDE, north: GREATEST_LATITUDE, west: -GREATEST_LONGITUDE, east: GREATEST_LONGITUDE };
    const { plane, narrowing } = planeAt((box.south + box.north) / 2e7);
    this.view = { map, narrowing, services: new Set(), isShown: (number) => this.view.services.has(this.view.map.mappings[number].service) };
    this.asked = null;
    this.edition = null;
    this.digest = null;
    this.turn = 0;
    this.leaflet = this.newLeaflet(plane, boundsOf(box));
    this.boundaries = new Boundaries(this.view).addTo(this.leaflet);
    this.chosen = L.layerGroup().addTo(this.leaflet);
    this.faults = L.layerGroup().addTo(this.leaflet);
    this.marks = L.layerGroup().addTo(this.leaflet);
    byId("service").value = this.firstService();
    this.view.services.add(this.firstService());
    this.takeMap(map);
    this.listen();
  }

  /** Leaflet in its place, showing some bounds. */
  newLeaflet(plane, bounds) {
    const isStill = window.matchMedia("(prefers-reduced-motion: reduce)").matches;
    const animation = { zoomAnimation: !isStill, fadeAnimation: false, inertia: !isStill, markerZoomAnimation: !isStill };
    const leaflet = L.map("map", {
      crs: plane, maxZoom: MOST_ZOOM, zoomSnap: 0.5, preferCanvas: true, attributionControl: false, keyboardPanDelta: 120, ...animation,
    });
    leaflet.fitBounds(bounds, { animate: false, maxZoom: GREATEST_FIT });
    L.control.scale({ maxWidth: 160 }).addTo(leaflet);
    byId("map").append(element("div", { className: "cross" }));
    return leaflet;
  }

  /** The service that has most boundaries. */
  firstService() {
    const counts = new Map();
    this.view.map.mappings.forEach(({ service, rings }) => counts.set(service, (counts.get(service) || 0) + rings.length));
    return [...counts].reduce((most, next) => (next[1] > most[1] ? next : most), ["urn:service:sos", -1])[0];
  }

  /** Shows a map: the first one, or a newer one. */
  takeMap(map) {
    this.view.map = map;
    const rings = `${counted(map.rings, "polygon")}, ${counted(map.starts[map.rings], "position")}`;
    const parts = [`${map.file}: ${counted(map.mappings.length, "mapping")}, ${rings}`, ...map.notes, `Digest ${map.digest}`];
    byId("about").textContent = `${parts.join(". ")}.`;
    showServices(this);
    showFindings(this);
    showResults(this, byId("search").value);
    this.drawFindings();
    this.chosen.clearLayers();
    this.boundaries.redraw();
  }

  /** Listens to the mouse, the keys, the forms and the printer. */
  listen() {
    this.leaflet.on("click", ({ latlng }) => this.askAt(latlng));
    byId("map").addEventListener("keydown", (event) => {
      if (event.key === "Enter" && event.target === byId("map")) {
        this.askAt(this.leaflet.getCenter());
      }
    });
    byId("ask").addEventListener("submit", (event) => {
      event.preventDefault();
      this.askTyped();
    });
    byId("service").addEventListener("change", () => this.asked && this.ask(this.asked));
    byId("search").addEventListener("input", () => showResults(this, byId("search").value));
    document.addEventListener("keydown", () => document.body.classList.add("keys"));
    document.addEventListener("pointerdown", () => document.body.classList.remove("keys"));
    window.addEventListener("beforeprint", () => this.drawPrint());
    new ResizeObserver(() => this.leaflet.invalidateSize()).observe(byId("sight"));
  }

  /** Asks at a place that Leaflet names. */
  askAt({ lat, lng }) {
    const point = { latitude: Math.round(lat * 1e7), longitude: Math.round(lng * 1e7) };
    if (!isOnGlobe(point)) {
      return showFault("This is beyond the edge of the globe: latitudes go to 90, longitudes to 180.");
    }
    byId("point").value = pointText(point);
    return this.ask(point);
  }

  /** Asks at the point that was typed, and shows it. */
  askTyped() {
    const parts = byId("point").value.split(/\s*[,;]\s*|\s+/).filter(Boolean);
    const point = parts.length === 2 ? pointOf(...parts) : null;
    if (!point) {
      return showFault("Give a latitude and a longitude in degrees, such as 46.948, 7.4474.");
    }
    const place = [point.latitude / 1e7, point.longitude / 1e7];
    if (!this.leaflet.getBounds().contains(place)) {
      this.leaflet.setView(place, this.leaflet.getZoom(), { animate: false });
    }
    return this.ask(point);
  }

  /** Asks at a point, and shows who answers. */
  async ask(point) {
    const service = serviceOf(byId("service").value.trim());
    if (!service) {
      return showFault("The service is no service URN, such as urn:service:sos.police.");
    }
    this.asked = point;
    const turn = ++this.turn;
    const answer = answerAt(this.view.map, point, service, Date.now());
    const { parts, fault } = this.view.map.server ? await this.serverAnswer(point, service) : {};
    if (turn === this.turn) {
      showAnswer(this, answer, parts, fault);
      this.mark(point, byId("headline").textContent);
      this.outline(answer.found);
    }
    return undefined;
  }

  /** What the server replies, or why it does not. */
  async serverAnswer(point, service) {
    try {
      const words = new URLSearchParams({ latitude: point.latitude, longitude: point.longitude, service });
      const parts = replyParts(await (await fetched(`answer?${words}`)).json());
      this.showEdition(parts.edition);
      return { parts };
    } catch (error) {
      return { fault: error.message };
    }
  }

  /** Marks the point that was asked. */
  mark(point, text) {
    const place = [point.latitude / 1e7, point.longitude / 1e7];
    this.marks.clearLayers();
    L.circleMarker(place, { radius: 6, color: "#fff", weight: 2, fillColor: "#111", fillOpacity: 1, interactive: false })
      .bindTooltip(element("span", {}, text), { permanent: true, direction: "top", offset: [0, -8] })
      .addTo(this.marks);
  }

  /** Outlines mappings: edges that belong to them are solid, others dashed. */
  outline(numbers) {
    this.chosen.clearLayers();
    for (const number of numbers) {
      const [belonging, others] = edgesByBelonging(this.view.map, number);
      const look = { color: "#111", weight: 3, interactive: false, smoothFactor: 0.5 };
      L.polyline(belonging, look).addTo(this.chosen);
      L.polyline(others, { ...look, dashArray: "6 5", lineCap: "butt" }).addTo(this.chosen);
    }
  }

  /** Goes to a mapping, and shows what it says. */
  select(number) {
    const { service } = this.view.map.mappings[number];
    const box = boxOf(this.view.map, number);
    this.marks.clearLayers();
    this.asked = null;
    this.turn += 1;
    if (!this.view.services.has(service)) {
      this.draw(service, true);
      showServices(this);
    }
    if (box) {
      this.leaflet.fitBounds(boundsOf(box), { padding: [30, 30], animate: false, maxZoom: GREATEST_FIT });
    }
    this.outline([number]);
    showMapping(this, number);
  }

  /** Draws the boundaries of a service, or leaves them out. */
  draw(service, isDrawn) {
    this.view.services[isDrawn ? "add" : "delete"](service);
    this.boundaries.redraw();
  }

  /** Draws the findings: their areas, and a dot at each place. */
  drawFindings() {
    this.faults.clearLayers();
    for (const finding of this.view.map.findings || []) {
      const color = SEVERITY_COLORS[finding.severity] || SEVERITY_COLORS.note;
      if (finding.geometry) {
        L.geoJSON(finding.geometry, { interactive: false, style: { color, weight: 2, fillOpacity: 0.5 }, pointToLayer: dot }).addTo(this.faults);
      }
      if (finding.point) {
        L.circleMarker(finding.point, { radius: 7, color, weight: 3, fillColor: "#fff", fillOpacity: 0.8, bubblingMouseEvents: true })
          .bindTooltip(element("span", {}, finding.text))
          .addTo(this.faults);
      }
    }
  }

  /** Goes to a finding, and asks there. */
  visit(finding) {
    const service = finding.asked || finding.service;
    if (service && serviceOf(service)) {
      byId("service").value = service;
      this.draw(service, true);
      showServices(this);
    }
    if (!finding.point) {
      return this.visitMapping(finding.identities[0]);
    }
    const [latitude, longitude] = finding.point.map((degrees) => Math.round(degrees * 1e7));
    const bounds = finding.geometry ? L.geoJSON(finding.geometry, { pointToLayer: dot }).getBounds() : L.latLngBounds([finding.point]);
    const zoom = finding.geometry ? Math.min(this.leaflet.getBoundsZoom(bounds) - 1, MOST_ZOOM) : CLOSE_ZOOM;
    this.leaflet.setView(finding.point, zoom, { animate: false });
    return this.askAt({ lat: latitude / 1e7, lng: longitude / 1e7 });
  }

  /** Goes to the mapping of an identity. */
  visitMapping({ source, sourceId }) {
    const number = this.view.map.mappings.findIndex((mapping) => mapping.source === source && mapping.sourceId === sourceId);
    if (number >= 0) {
      this.select(number);
    }
  }

  /** Draws what the map shows for the printer. */
  drawPrint() {
    const { canvas, context } = pictureOf(this.leaflet, this.view);
    if (this.asked) {
      const { x, y } = this.leaflet.latLngToContainerPoint([this.asked.latitude / 1e7, this.asked.longitude / 1e7]);
      Object.assign(context, { fillStyle: "#111", strokeStyle: "#fff", lineWidth: 2 });
      context.beginPath();
      context.arc(x, y, 6, 0, 2 * Math.PI);
      context.fill();
      context.stroke();
    }
    byId("print").replaceChildren(canvas);
  }

  /** Shows which edition the server answered from, and the digest of its map where that is known. */
  showEdition(edition, digest) {
    this.digest = digest ?? (edition === this.edition ? this.digest : null);
    this.edition = edition;
    const { server, digest: own } = this.view.map;
    const tail = this.digest ? `, digest ${this.digest}${this.digest === own ? "" : ": not the map of this page"}` : "";
    byId("edition").textContent = `Server ${server}, edition ${edition ?? "unknown"}${tail}`;
  }

  /** Looks again and again whether the file or the server's map has changed. */
  async watch() {
    for (;;) {
      await new Promise((resolve) => setTimeout(resolve, LOOK_AGAIN));
      try {
        await this.lookAgain();
      } catch (error) {
        byId("edition").textContent = `Server ${this.view.map.server}: ${error.message}`;
      }
    }
  }

  /** Takes a newer map, and asks again where something has changed. */
  async lookAgain() {
    const state = await (await fetched("state")).json();
    const isOtherFile = state.version !== this.view.map.version;
    const isOtherMap = state.edition !== this.edition || (this.digest !== null && state.digest !== this.digest);
    const isOtherEdition = state.edition !== null && this.edition !== null && isOtherMap;
    if (isOtherFile) {
      this.takeMap(unpacked(await unzipped(new Uint8Array(await (await fetched("map")).arrayBuffer()))));
    }
    if (state.edition === null) {
      byId("edition").textContent = `Server ${this.view.map.server}: ${state.fault}`;
    } else {
      this.showEdition(state.edition, state.digest);
    }
    if ((isOtherFile || isOtherEdition) && this.asked) {
      await this.ask(this.asked);
    }
  }
}

/** Reads the map that the page carries, and begins. */
async function begin() {
  if (typeof DecompressionStream === "undefined") {
    byId("about").textContent = "This browser is too old for this page: it cannot unpack gzip. Use one from 2023 or later.";
    return;
  }
  const page = new Page(unpacked(await unzipped(bytesOf(byId("data").textContent))));
  if (page.view.map.server) {
    page.watch();
  }
}

begin();
