// The map on the page: Leaflet, with tiles that are drawn here.
"use strict";

const TILE = 512;
const MOST_ZOOM = 26;
const MILLISECONDS_A_FRAME = 10;

/** A flat plane, as the server's is; a degree of longitude is as wide as at a latitude (in degrees), but never too narrow. */
function planeAt(latitude) {
  const narrowing = Math.max(0.2, Math.cos((latitude * Math.PI) / 180));
  const plane = L.extend({}, L.CRS.EPSG4326, {
    transformation: new L.Transformation(narrowing / 180, narrowing, -1 / 180, 0.5),
  });
  delete plane.wrapLng;
  return { plane, narrowing };
}

/** The frame of a piece of the plane, from its corner at a zoom, in pixels. */
function frameAt(corner, zoom, narrowing, width, height) {
  const world = 256 * 2 ** zoom;
  const latitudeStep = (2 * GREATEST_LATITUDE) / world;
  const longitudeStep = GREATEST_LONGITUDE / world / narrowing;
  return {
    north: GREATEST_LATITUDE - corner.y * latitudeStep,
    west: corner.x * longitudeStep - GREATEST_LONGITUDE,
    latitudeStep, longitudeStep, width, height,
  };
}

/** Does work a little at a time, so that the page stays at hand; a job is a generator. */
class Painter {
  constructor() {
    this.jobs = [];
    this.isRunning = false;
  }

  /** Adds a job, with what is to be called when it is done. */
  add(job, whenDone) {
    this.jobs.push({ job, whenDone });
    if (!this.isRunning) {
      this.isRunning = true;
      requestAnimationFrame(() => this.run());
    }
  }

  /** Drops a job. */
  drop(job) {
    this.jobs = this.jobs.filter((entry) => entry.job !== job);
  }

  /** Works for some milliseconds. */
  run() {
    const end = performance.now() + MILLISECONDS_A_FRAME;
    while (this.jobs.length && performance.now() < end) {
      const entry = this.jobs[0];
      if (entry.job.next().done) {
        this.drop(entry.job);
        entry.whenDone();
      }
    }
    this.isRunning = this.jobs.length > 0;
    if (this.isRunning) {
      requestAnimationFrame(() => this.run());
    }
  }
}

/** A canvas of so many pixels of the page, which may have several dots each. */
function canvasOf(width, height) {
  const dots = window.devicePixelRatio || 1;
  const canvas = document.createElement("canvas");
  canvas.width = Math.round(width * dots);
  canvas.height = Math.round(height * dots);
  canvas.style.width = `${width}px`;
  canvas.style.height = `${height}px`;
  const context = canvas.getContext("2d");
  context.scale(dots, dots);
  return { canvas, context };
}

/** The boundaries as a layer. `view` has the map that is drawn, its narrowing, and which mappings are shown. */
const Boundaries = L.GridLayer.extend({
  initialize(view) {
    L.GridLayer.prototype.initialize.call(this, { tileSize: TILE, noWrap: true, updateWhenZooming: false, keepBuffer: 1, maxZoom: MOST_ZOOM });
    this.view = view;
    this.painter = new Painter();
    this.on("tileunload", ({ tile }) => this.painter.drop(tile.job));
  },

  createTile({ x, y, z }, done) {
    const { canvas, context } = canvasOf(TILE, TILE);
    const frame = frameAt({ x: x * TILE, y: y * TILE }, z, this.view.narrowing, TILE, TILE);
    canvas.job = drawFrame(context, this.view.map, frame, this.view.isShown);
    this.painter.add(canvas.job, () => done(null, canvas));
    return canvas;
  },
});

/** The whole of what the map shows now on one canvas, at once: for printing. */
function pictureOf(leaflet, view) {
  const { x: width, y: height } = leaflet.getSize();
  const { canvas, context } = canvasOf(width, height);
  const frame = frameAt(leaflet.getPixelBounds().min, leaflet.getZoom(), view.narrowing, width, height);
  const job = drawFrame(context, view.map, frame, view.isShown);
  while (!job.next().done) {
    // (each step draws a part)
  }
  return { canvas, context };
}
