// The page: two ends, their alternatives on the map, in the table and in the plot, limits, closures, print.
import {clock, fillTexts, number, say} from "./texts.js";
import {byId, element, fetchJson, guarded, labelOf, map, shown, tell} from "./common.js";
import {Names, makeRoadTiles} from "./layers.js";
import {EDGE, LANE, freePlace, laneRuns, letterPlaces} from "./lanes.js";
import {drawPlot} from "./plot.js";
import {beginClosures, chosenByClick, drawClosures, onChange} from "./closures.js";

// What is shown lies beside the buttons of the zoom, so that each place can be clicked.
const BESIDE_CONTROLS = {paddingTopLeft: [110, 60], paddingBottomRight: [100, 35]};
const EPSILONS = [0, 0.001, 0.005, 0.01, 0.02, 0.05];
const lanes = L.layerGroup().addTo(map);
const pins = {from: null, to: null};
const ends = {from: null, to: null};
let network = null;
let answer = null, limits = [], chosen = null, waiting = 0, state = null, names = null, extra = {};
window.page = {map, ends, get answer() { return answer; }, get names() { return names; }, get state() { return state; }};

// The network: background, names, controls.

async function begin() {
  fillTexts();
  tell(say("choose"));
  network = await fetchJson("/api/network");
  showTitle();
  showProof();
  const [west, south, east, north] = network.bounds;
  map.fitBounds([[south, west], [north, east]], BESIDE_CONTROLS);
  map.attributionControl.setPrefix(false).addAttribution(escaped(network.attribution));
  if (network.tiles) L.tileLayer(network.tiles, {maxZoom: 19, attribution: escaped(network.tiles_attribution)}).addTo(map);
  window.page.roads = makeRoadTiles(network.deepest, [[south, west], [north, east]]).addTo(map);
  names = new Names((box, zoom) => fetchJson(`/api/labels?box=${box}&zoom=${zoom}`)).addTo(map);
  L.control.scale({imperial: false}).addTo(map);
  fillChoices();
  beginClosures(network);
  watch();
}

const escaped = (text) => element("i", {}, text).innerHTML;

function fillChoices() {
  for (const [axis, first] of [["x", 0], ["y", 1]]) {
    network.criteria.forEach((criterion, place) => byId(axis).append(element("option", {value: place}, labelOf(criterion))));
    byId(axis).value = first;
    byId(axis).onchange = plot;
  }
  for (const share of EPSILONS) {
    byId("epsilon").append(element("option", {value: share}, share ? `${number(share * 100, share < 0.01 ? 1 : 0)} %` : say("epsilon_none")));
  }
  byId("epsilon").onchange = () => guarded(() => ask(false));
}

function showTitle() {
  const text = ends.from && ends.to ? say("trip", {from: ends.from.name, to: ends.to.name})
    : say("roads_around", {names: network.around.join(", ") || network.title});
  byId("title").textContent = document.title = text;
}

function showProof() {
  const known = network.proved === null ? "proof_unknown" : network.proved ? "proved" : "unproved";
  byId("proof").textContent = say(known);
  byId("proof").className = known;
}

// The state of the roads: closures, and the epoch that answers are of. When it changes, the answer is asked anew.

async function watch() {
  try {
    const told = await fetchJson("/api/state");
    await showState(told);
  } catch { byId("stand").textContent = say("out_of_touch"); }
  setTimeout(watch, 1500);
}

async function showState(told) {
  const before = state;
  state = told;
  showStand();
  if (!before || JSON.stringify(before.closures) !== JSON.stringify(told.closures)) {
    drawClosures(told.closures);
    keepFree();
  }
  const hasChanged = before && before.epoch !== null && told.epoch !== before.epoch;
  if (hasChanged && answer && answer.epoch !== told.epoch) {
    await guarded(async () => { await ask(false); tell(`${say("someone")} ${byId("status").textContent}`); });
  }
}

function showStand() {
  if (!state.ready) {
    byId("stand").textContent = say("starting", {seconds: Math.round(state.waited)});
    return;
  }
  const active = state.closures.filter((one) => one.state === "active").length;
  const time = clock(answer ? answer.time : new Date(state.time * 1000));
  byId("stand").textContent = say("as_of", {time, count: active}) +
    (state.unknown ? say("unknown_changes", {count: state.unknown}) : "");
}

// The two ends: names with suggestions, clicks, pins that can be dragged.

let suggesting = 0;
for (const id of ["from", "to", "road"]) {
  byId(id).addEventListener("input", () => {
    const mine = ++suggesting;
    setTimeout(async () => {
      if (mine !== suggesting) return;
      const told = await fetchJson(`/api/suggest?text=${encodeURIComponent(byId(id).value)}`).catch(() => ({names: []}));
      byId("suggested").replaceChildren(...told.names.map((name) => element("option", {value: name})));
    }, 120);
  });
}

async function setEnd(which, path) {
  const end = await fetchJson(path);
  ends[which] = end;
  byId(which).value = end.name.startsWith("node ") ? `${end.lon.toFixed(5)},${end.lat.toFixed(5)}` : end.name;
  if (end.name.startsWith("node ")) end.name = byId(which).value;
  showPins();
  showTitle();
}

const farOf = (end) => (end.metres >= 25 ? say("snapped", {metres: Math.round(end.metres)}) : "");

const PIN = {
  from: `<svg width="30" height="40" viewBox="0 0 30 40"><path d="M15 39C8 28 2 22 2 14a13 13 0 0 1 26 0c0 8-6 14-13 25z"
    fill="#fff" stroke="#111" stroke-width="2.5"/><circle cx="15" cy="14" r="5.5" fill="#111"/></svg>`,
  to: `<svg width="30" height="40" viewBox="0 0 30 40"><path d="M15 39C8 28 2 22 2 14a13 13 0 0 1 26 0c0 8-6 14-13 25z"
    fill="#111" stroke="#fff" stroke-width="2"/><rect x="9.5" y="8.5" width="11" height="11" fill="#fff"/></svg>`,
};

function showPins() {
  for (const which of ["from", "to"]) {
    pins[which]?.remove();
    pins[which] = null;
    if (!ends[which]) continue;
    const icon = L.divIcon({className: "pin", html: PIN[which], iconSize: [30, 40], iconAnchor: [15, 39]});
    const pin = L.marker([ends[which].lat, ends[which].lon], {icon, draggable: true, zIndexOffset: 1000, keyboard: true,
      alt: `${say(which)} ${ends[which].name}`});
    const side = which === "from" ? "left" : "right";
    pin.bindTooltip(element("span", {}, ends[which].name), {permanent: true, direction: side,
      offset: [side === "left" ? -14 : 14, -24], className: "pin-name"}).addTo(map);
    pin.on("dragend", () => guarded(() => moveEnd(which, pin.getLatLng())));
    pins[which] = pin;
  }
}

async function moveEnd(which, place) {
  try {
    await setEnd(which, `/api/nearest?lon=${place.lng}&lat=${place.lat}`);
  } catch (fault) { showPins(); throw fault; }
  if (ends.from && ends.to) await ask(true, false);
}

map.on("click", (event) => guarded(async () => {
  if (await chosenByClick(event.latlng)) return;
  const which = ends.from && !ends.to ? "to" : "from";
  const end = `/api/nearest?lon=${event.latlng.lng}&lat=${event.latlng.lat}`;
  if (which === "from" && ends.to) { ends.to = null; byId("to").value = ""; clear(); }
  await setEnd(which, end);
  if (ends.to) await ask(true); else tell(say("from_set", {name: ends.from.name, far: farOf(ends.from)}));
}));

byId("ends").onsubmit = (event) => {
  event.preventDefault();
  guarded(async () => {
    for (const which of ["from", "to"]) {
      const stays = ends[which] && byId(which).value === ends[which].name;
      if (!stays) await setEnd(which, `/api/find?text=${encodeURIComponent(byId(which).value)}`);
    }
    await ask(true);
  });
};

byId("turn").onclick = () => guarded(async () => {
  [ends.from, ends.to] = [ends.to, ends.from];
  [byId("from").value, byId("to").value] = [byId("to").value, byId("from").value];
  showPins();
  showTitle();
  if (ends.from && ends.to) await ask(true);
});

// The answer.

function query() {
  const words = {from: ends.from.node, to: ends.to.node, limits: limits.map((most) => most ?? "").join(","),
    epsilon: byId("epsilon").value, ...extra};
  return new URLSearchParams(words).toString();
}

async function ask(isFresh, isFitted = isFresh, more = {}) {
  const mine = ++waiting, begun = Date.now();
  extra = isFresh ? more : extra;
  if (isFresh) {
    const count = extra.criteria ? extra.criteria.split(",").length : network.criteria.length;
    limits = Array(count).fill(null);
    clear();
    tell(say("searching"));
  }
  byId("offers").hidden = true;
  const timer = setInterval(() => {
    const seconds = Math.round((Date.now() - begun) / 1000);
    if (mine !== waiting) clearInterval(timer);
    else if (seconds >= 2) {
      tell(state && !state.ready ? say("starting", {seconds: Math.round(state.waited)})
        : say("searching_long", {seconds, slow: network.proved === false ? say("slow_program") : ""}));
    }
  }, 500);
  try {
    const told = await fetchJson(`/api/ask?${query()}`);
    if (mine !== waiting) return;
    clearInterval(timer);
    take(told, isFresh, isFitted);
  } catch (fault) {
    if (fault.told?.offers && mine === waiting) showOffers(fault.told);
    throw fault;
  } finally { clearInterval(timer); }
}

function take(told, isFresh, isFitted) {
  answer = told;
  answer.time = new Date(told.time * 1000);
  for (const option of answer.options) {
    option.texts = criteria().map((criterion, at) => shown(criterion, answer.costs[option.index][at], option.digits[at]));
  }
  if (!answer.options.some((option) => option.letter === chosen)) chosen = null;
  if (isFresh) { chosen = null; makeLimits(); }
  byId("alternatives").hidden = answer.costs.length === 0;
  byId("export").href = `/api/geojson?${query()}`;
  if (state) showStand();
  drawRoutes();
  drawTable();
  plot();
  const [count, within, few] = [answer.costs, answer.within, answer.options].map((list) => list.length);
  const far = [ends.from, ends.to].filter((end) => end.metres >= 25).map((end) => ` ${end.name}${farOf(end)}.`).join("");
  tell((count === 0 ? say("no_way") : say("found", {count, within, few})) + (answer.coarser > 1 ? say("coarser_told") : "") + far);
  if (isFitted && few) fitAll();
}

const fitAll = (options = {}) => map.fitBounds(answer.options.flatMap((option) => option.roads.flatMap(([road]) => answer.roads[road])),
  {...BESIDE_CONTROLS, ...options});

function showOffers(told) {
  const buttons = told.offers.map((offer) => {
    const values = {...offer, criteria: (offer.criteria || []).map((place) => labelOf(network.criteria[place])).join(", ")};
    const button = element("button", {type: "button"}, say(`offer_${offer.kind}`, values));
    button.onclick = () => guarded(() => offer.kind === "limits" ? offerLimits() : ask(true, true, offer.words));
    return button;
  });
  byId("offers").replaceChildren(...buttons);
  byId("offers").hidden = false;
}

// Limits before there is an answer: the least costs are unknown, so these are typed.
function offerLimits() {
  const box = element("div", {class: "line"});
  const inputs = network.criteria.map((criterion) => {
    const input = element("input", {type: "number", min: 0, step: "any", size: 6, "aria-label": labelOf(criterion)});
    box.append(element("label", {}, `${labelOf(criterion)} ≤`), input, element("span", {}, criterion.unit));
    return input;
  });
  const button = element("button", {type: "button"}, say("show"));
  button.onclick = () => guarded(() => {
    const bounds = inputs.map((input, at) => (input.value === "" ? "" : Math.round(input.value * network.criteria[at].scale)));
    return ask(true, true, {bounds: bounds.join(",")});
  });
  box.append(button);
  byId("offers").replaceChildren(box);
}

function clear() {
  answer = null;
  chosen = null;
  lanes.clearLayers();
  keepFree();
  byId("alternatives").hidden = true;
}

function makeLimits() {
  byId("limits").replaceChildren(element("legend", {}, say("limits")));
  criteria().forEach((criterion, place) => {
    const column = answer.costs.map((cost) => cost[place]);
    const [least, most] = [Math.min(...column), Math.max(...column)];
    const id = `limit-${criterion.name}`;
    const step = Math.max(1, Math.floor((most - least) / 200));
    const slider = element("input", {type: "range", id, min: least, max: most, step});
    const output = element("output", {for: id}, say("no_limit"));
    slider.value = most;
    slider.disabled = least === most;
    slider.oninput = () => {
      limits[place] = Number(slider.value) > most - step ? null : Number(slider.value);
      output.textContent = limits[place] === null ? say("no_limit") : `≤ ${shown(criterion, limits[place])}`;
      slider.setAttribute("aria-valuetext", output.textContent);
      clearTimeout(slider.timer);
      slider.timer = setTimeout(() => guarded(() => ask(false)), 120);
    };
    byId("limits").append(element("label", {for: id}, labelOf(criterion)), slider, output);
  });
}

// The criteria that the answer weighs: all, or those of an offer.
const criteria = () => (answer?.criteria ?? network.criteria.map((_, place) => place)).map((place) => network.criteria[place]);

// Routes that share a road lie on it side by side, always in the order of their letters; the chosen one above the others.

function drawRoutes() {
  lanes.clearLayers();
  if (!answer) return;
  const zoom = map.getZoom();
  const project = ([lat, lon]) => { const {x, y} = map.project([lat, lon], zoom); return [x, y]; };
  const runs = laneRuns(answer.options, answer.roads, project);
  const back = ([x, y]) => map.unproject([x, y], zoom);
  answer.options.forEach((option, at) => {
    const line = runs[at].flatMap((run) => run.line).map(back);
    option.edge = L.polyline(line, {color: "#fff", weight: LANE + 2 * EDGE, interactive: false, smoothFactor: 0}).addTo(lanes);
    option.edge.bringToBack();
    option.shape = L.polyline(line, {color: network.colours[option.letter], weight: LANE, smoothFactor: 0}).addTo(lanes);
    option.shape.on("mouseover", () => light(option.letter)).on("mouseout", () => light(null)).on("click", (event) => {
      L.DomEvent.stopPropagation(event);
      choose(option.letter);
    });
    option.shape.bindTooltip(element("span", {}, `${option.letter}: ${option.texts.join(", ")}`), {sticky: true});
  });
  placeLetters(runs, project, back);
  keepFree();
  light(null);
}

// Letters stand on their own lines, and neither on another letter nor on a pin or its name.
function placeLetters(runs, project, back) {
  const taken = Object.values(ends).filter(Boolean).flatMap((end, at) => {
    const [x, y] = project([end.lat, end.lon]);
    const side = at === 0 ? -1 : 1;
    return [[x, y - 5], [x, y - 27], ...[20, 40, 60, 80].map((step) => [x + side * step, y - 24])];
  });
  answer.options.forEach((option, at) => {
    const place = freePlace(letterPlaces(runs[at]), taken, 27);
    taken.push(place);
    const badge = element("div", {class: "badge", "data-badge": option.letter,
      style: `background:${network.colours[option.letter]}`}, option.letter);
    const icon = L.divIcon({className: "", html: badge, iconSize: [24, 24]});
    option.badge = badge;
    L.marker(back(place), {icon, keyboard: false, interactive: false, pane: "badges"}).addTo(lanes);
  });
}

// Names leave free what stands on the map: routes, closures, pins and their names.
function keepFree() {
  const routes = (answer?.options ?? []).map((option) => option.shape.getLatLngs());
  const closed = (state?.closures ?? []).flatMap((closure) => closure.lines);
  names?.avoid(() => [...routes, ...closed].flatMap(boxesAlong).concat(boxesOfPins()),
    Object.values(ends).filter(Boolean).map((end) => end.name));
}

// Boxes along a line, in points of the map's window.
function boxesAlong(line) {
  const boxes = [];
  let last = null;
  for (const point of line) {
    const {x, y} = map.latLngToContainerPoint(point);
    const steps = last ? Math.min(40, Math.floor(Math.hypot(x - last.x, y - last.y) / 8)) : 0;
    for (let step = 1; step <= steps; step++) {
      const share = step / (steps + 1);
      boxes.push({x: last.x + (x - last.x) * share, y: last.y + (y - last.y) * share, width: 6, height: 6});
    }
    boxes.push({x, y, width: 6, height: 6});
    last = {x, y};
  }
  const size = map.getSize();
  return boxes.filter(({x, y}) => x > -20 && y > -20 && x < size.x + 20 && y < size.y + 20);
}

function boxesOfPins() {
  return ["from", "to"].filter((which) => ends[which]).flatMap((which) => {
    const {x, y} = map.latLngToContainerPoint([ends[which].lat, ends[which].lon]);
    return [{x, y: y - 20, width: 30, height: 40}, {x: x + (which === "from" ? -65 : 65), y: y - 24, width: 105, height: 22}];
  });
}

map.on("zoomend", drawRoutes);

// The table.

const whyOf = (option) => option.why.split(", ").map((reason) => {
  const least = reason.match(/^least (.*)$/);
  if (!least) return say(reason);
  const criterion = network.criteria.find((one) => one.label === least[1]);
  return say("least", {name: criterion?.name, label: criterion ? labelOf(criterion) : least[1]});
}).join(", ");

function drawTable() {
  const heads = ["", ...criteria().map(labelOf), `${say("why")}, ${say("via")}`];
  byId("alternatives").style.setProperty("--criteria", criteria().length);
  byId("heads").replaceChildren(...heads.map((text) => element("th", {scope: "col"}, text)));
  const base = answer.options.find((option) => option.letter === chosen);
  byId("rows").replaceChildren(...answer.options.map((option) => rowOf(option, base)));
  byId("comparison").textContent = base ? say("compared", {letter: chosen}) : answer.options.length > 1 ? say("choose_letter") : "";
}

function rowOf(option, base) {
  const row = element("tr", {"data-letter": option.letter});
  const button = element("button", {class: "letter", type: "button", style: `background:${network.colours[option.letter]}`,
    "aria-label": `${option.letter}, ${whyOf(option)}`, "aria-pressed": String(option.letter === chosen)}, option.letter);
  const cell = element("td"), told = element("td");
  cell.append(button);
  told.append(element("span", {class: "why"}, whyOf(option)), option.via);
  if (option.alike) told.append(" ", element("span", {class: "alike"}, `(${say("alike", {count: option.alike})})`));
  row.append(cell, ...option.texts.map((text, at) => costCell(text, option, base, at)), told);
  row.classList.toggle("chosen", option.letter === chosen);
  row.onmouseenter = button.onfocus = () => light(option.letter);
  row.onmouseleave = button.onblur = () => light(null);
  button.onclick = () => choose(option.letter);
  return row;
}

function costCell(text, option, base, at) {
  const cell = element("td", {class: "cost"}, text);
  if (base && base !== option) cell.append(element("small", {}, difference(option, base, at)));
  return cell;
}

function difference(option, base, at) {
  const criterion = criteria()[at], more = answer.costs[option.index][at] - answer.costs[base.index][at];
  const sign = more > 0 ? "+" : more < 0 ? "−" : "±";
  return `${sign}${shown(criterion, Math.abs(more), option.digits[at])}`;
}

function choose(letter) {
  chosen = chosen === letter ? null : letter;
  drawTable();
  plot();
  light(null);
  document.querySelector(`#rows tr[data-letter="${letter}"] button`)?.focus({preventScroll: true});
}

function plot() {
  if (!answer || !answer.costs.length) return;
  drawPlot(byId("plot"), {answer, criteria: criteria(), colours: network.colours, labelOf, light, choose,
    x: Math.min(Number(byId("x").value), criteria().length - 1), y: Math.min(Number(byId("y").value), criteria().length - 1)});
}

// One alternative lights up wherever it is shown, for as long as it is pointed at, or chosen.
function light(letter) {
  for (const one of document.querySelectorAll("[data-letter]")) {
    one.classList.toggle("lit", one.dataset.letter === letter);
    one.classList.toggle("chosen", one.dataset.letter === chosen);
  }
  const bright = letter ?? chosen;
  for (const option of answer ? answer.options : []) {
    const isDim = bright !== null && option.letter !== bright;
    option.shape.setStyle({opacity: isDim ? 0.25 : 1, weight: option.letter === bright ? LANE + 2 : LANE});
    option.edge.setStyle({opacity: isDim ? 0.4 : 1});
    option.badge.classList.toggle("dim", isDim);
    if (option.letter === bright) { option.edge.bringToFront(); option.shape.bringToFront(); }
  }
}

// Print: the whole map, the table, the plot, the closures.

const rested = () => new Promise((done) => {
  const tiles = window.page.roads;
  const end = () => requestAnimationFrame(() => setTimeout(done, 150));
  if (tiles.isLoading()) { tiles.once("load", end); setTimeout(done, 3000); } else end();
});

window.page.lay_out = async () => {
  byId("printed").textContent = [say("printed", {time: clock(new Date(), true)}),
    say("weighted", {criteria: criteria().map(labelOf).join(", ")}), network.attribution].join(" · ");
  document.body.classList.add("printing");
  map.invalidateSize({animate: false});
  if (answer?.options.length) fitAll({animate: false});
  await rested();
  await names.refresh();
};

byId("print").onclick = () => guarded(async () => { await window.page.lay_out(); window.print(); });
window.onafterprint = () => { document.body.classList.remove("printing"); map.invalidateSize(); };
window.onbeforeprint = () => { if (!document.body.classList.contains("printing")) window.page.lay_out(); };

onChange(showState);
guarded(begin);
