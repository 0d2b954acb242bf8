// The map's own background: roads, water and woods on canvases, and names that fit.

const WATER = 100, WOOD = 101, STREAM = 102;
const STYLES = {  // by class of road: colour, and width on a small and on a large map
  0: ["#a9a9a9", 2.2, 6], 1: ["#adadad", 2, 5.5], 2: ["#b3b3b3", 1.8, 5], 3: ["#bcbcbc", 1.5, 4.5], 4: ["#c4c4c4", 1.2, 4],
  5: ["#8fb0c4", 1, 2],
};
const MINOR = ["#d2d2d2", 0.8, 3];

export function makeRoadTiles(deepest, bounds) {
  const Tiles = L.GridLayer.extend({
    createTile(coords, done) {
      const tile = document.createElement("canvas"), ratio = window.devicePixelRatio || 1;
      const more = Math.max(0, coords.z - deepest), side = 256;
      tile.width = tile.height = side * ratio;
      const [x, y, z] = [coords.x >> more, coords.y >> more, coords.z - more];
      fetch(`/tile/${z}/${x}/${y}`).then((reply) => reply.ok ? reply.arrayBuffer() : new ArrayBuffer(0)).then((buffer) => {
        const pen = tile.getContext("2d"), scale = 2 ** more;
        pen.setTransform(ratio * scale / 4, 0, 0, ratio * scale / 4,
          -(coords.x - (x << more)) * side * ratio, -(coords.y - (y << more)) * side * ratio);
        drawLines(pen, new Int32Array(buffer), coords.z, 4 / scale);
        done(null, tile);
      }, (fault) => done(fault, tile));
      return tile;
    },
  });
  return new Tiles({maxZoom: 19, updateWhenZooming: false, keepBuffer: 1, bounds});
}

// Areas first, then minor roads below greater ones.
function drawLines(pen, numbers, zoom, unit) {
  const lines = [];
  for (let at = 0; at < numbers.length; at += 2 + 2 * numbers[at + 1]) lines.push(at);
  const rank = (at) => (numbers[at] >= WATER ? -1000 + (numbers[at] === WOOD ? 0 : 1) : -numbers[at]);
  lines.sort((a, b) => rank(a) - rank(b));
  pen.lineCap = pen.lineJoin = "round";
  for (const at of lines) {
    const cls = numbers[at];
    pen.beginPath();
    for (let point = 0; point < numbers[at + 1]; point++) {
      pen.lineTo(numbers[at + 2 + 2 * point], numbers[at + 3 + 2 * point]);
    }
    if (cls === WATER || cls === WOOD) {
      pen.fillStyle = cls === WATER ? "#d3e5f1" : "#e6f0e0";
      pen.fill();
    } else {
      const [colour, small, large] = cls === STREAM ? ["#c3dbec", 0.8, 2] : STYLES[cls] || MINOR;
      pen.strokeStyle = colour;
      pen.lineWidth = unit * (small + (large - small) * Math.min(1, Math.max(0, (zoom - 10) / 7)));
      pen.stroke();
    }
  }
}

// Names on one canvas above the map: places beside the routes, main roads along their lines, none over another.
export const Names = L.Layer.extend({
  initialize(ask) { this._ask = ask; this._obstacles = () => []; this._named = []; },
  onAdd(map) {
    this._canvas = L.DomUtil.create("canvas", "names leaflet-zoom-hide");
    map.getPane("names").append(this._canvas);
    map.on("moveend zoomend resize", this.refresh, this);
    this.refresh();
  },
  onRemove(map) {
    this._canvas.remove();
    map.off("moveend zoomend resize", this.refresh, this);
  },
  // What must stay free, and names that stand there already.
  avoid(obstacles, named) { this._obstacles = obstacles; this._named = named; this.draw(); },
  async refresh() {
    const mine = (this._turn = (this._turn || 0) + 1);
    const bounds = this._map.getBounds();
    const box = [bounds.getWest(), bounds.getSouth(), bounds.getEast(), bounds.getNorth()].map((one) => one.toFixed(6));
    this.draw();
    const told = await this._ask(box.join(","), Math.round(this._map.getZoom())).catch(() => null);
    if (told && mine === this._turn) { this._told = told; this.draw(); }
  },
  draw() {
    if (!this._map) return;
    const size = this._map.getSize(), ratio = window.devicePixelRatio || 1;
    this._canvas.width = size.x * ratio;
    this._canvas.height = size.y * ratio;
    this._canvas.style.width = `${size.x}px`;
    this._canvas.style.height = `${size.y}px`;
    L.DomUtil.setPosition(this._canvas, this._map.containerPointToLayerPoint([0, 0]));
    if (!this._told) return;
    const pen = this._canvas.getContext("2d");
    pen.scale(ratio, ratio);
    pen.lineJoin = "round";
    pen.textAlign = "center";
    pen.textBaseline = "middle";
    this._drawNames(pen, size);
  },
  _drawNames(pen, size) {
    const taken = this._obstacles();
    this._shown = [];
    for (const place of this._told.places) {
      if (this._named.includes(place.name) || this._shown.includes(place.name)) continue;
      const large = place.kind === "city" || place.kind === "town";
      pen.font = `${large ? 600 : 500} ${large ? 14 : place.kind === "village" ? 12.5 : 11.5}px system-ui, sans-serif`;
      const at = this._map.latLngToContainerPoint([place.lat, place.lon]);
      const box = freeBox(at, pen.measureText(place.name).width + 6, 16, taken, size);
      if (!box) continue;
      taken.push(box);
      this._shown.push(place.name);
      write(pen, place.name, box.x, box.y, 0, large ? "#222" : "#444");
    }
    pen.font = "italic 11px system-ui, sans-serif";
    for (const road of this._told.roads) {
      const at = this._map.latLngToContainerPoint([road.lat, road.lon]);
      const wide = pen.measureText(road.name).width + 6, turn = road.slope * Math.PI / 180;
      const box = {x: at.x, y: at.y, width: Math.abs(wide * Math.cos(turn)) + 12, height: Math.abs(wide * Math.sin(turn)) + 12};
      if (!isFree(box, taken, size)) continue;
      taken.push(box);
      this._shown.push(road.name);
      write(pen, road.name, at.x, at.y, turn, "#666");
    }
  },
});

const SHIFTS = [[0, 0], [0.6, 0], [-0.6, 0], [0, 1.2], [0, -1.2], [0.7, 1], [-0.7, 1], [0.7, -1], [-0.7, -1], [0.9, 0], [-0.9, 0]];

function freeBox(at, width, height, taken, size) {
  for (const [right, down] of SHIFTS) {
    const box = {x: at.x + right * width, y: at.y + down * height, width, height};
    if (isFree(box, taken, size)) return box;
  }
  return null;
}

const isFree = (box, taken, size) =>
  box.x - box.width / 2 > 0 && box.x + box.width / 2 < size.x && box.y - box.height / 2 > 0 && box.y + box.height / 2 < size.y &&
  !taken.some((other) => Math.abs(box.x - other.x) < (box.width + other.width) / 2 &&
    Math.abs(box.y - other.y) < (box.height + other.height) / 2);

function write(pen, text, x, y, turn, colour) {
  pen.save();
  pen.translate(x, y);
  pen.rotate(turn);
  pen.strokeStyle = "rgba(255,255,255,0.9)";
  pen.lineWidth = 3;
  pen.strokeText(text, 0, 0);
  pen.fillStyle = colour;
  pen.fillText(text, 0, 0);
  pen.restore();
}
