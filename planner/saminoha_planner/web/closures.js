// Closures: the list of what is closed or changed, on the map too; a preview before a road is closed; undo.
import {clock, number, say} from "./texts.js";
import {byId, element, guarded, map, post, tell, token} from "./common.js";

const marks = L.layerGroup();
const drafts = L.layerGroup();
let draft = null, firstClick = null, showState = async () => {};

// Who is told the state that a change leaves.
export const onChange = (work) => { showState = work; };

export function beginClosures(network) {
  marks.addTo(map);
  drafts.addTo(map);
  byId("closing").hidden = !network.can_close;
  for (const measure of network.measures) byId("measure").append(element("option", {value: measure}, measureText(measure)));
  byId("author").value = localStorage.getItem("author") || "";
  byId("with_token").hidden = !network.wants_token;
  byId("with_author").hidden = network.wants_token;
  byId("token").value = token.get();
  byId("token").onchange = () => token.set(byId("token").value.trim());
}

function measureText(measure) {
  if (measure === "shut") return say("shut");
  const [kind, amount] = measure.split("=");
  return kind === "slow" ? say("slow", {factor: amount}) : kind === "surcharge" ? say("surcharge", {what: amount}) : say("changed", {what: measure});
}

// What stands.

export function drawClosures(closures) {
  marks.clearLayers();
  const shown = closures.filter((one) => one.state !== "ended");
  byId("closures").replaceChildren(...(shown.length ? shown.map(itemOf) : [element("li", {}, say("none_closed"))]));
  for (const closure of shown) drawMark(closure);
}

function drawMark(closure) {
  const color = closure.state === "planned" ? "#d9a400" : "#c00000";
  const tip = () => element("span", {}, `${closure.road}: ${measureText(closure.measure)}`);
  for (const line of closure.lines) {
    L.polyline(line, {color, weight: 7, opacity: 0.75, dashArray: closure.state === "planned" ? "3 9" : null, pane: "marks"})
      .bindTooltip(tip, {sticky: true}).addTo(marks);
  }
  if (closure.measure !== "shut" || !closure.middle) return;
  const icon = L.divIcon({className: "cross", html: element("span", {"aria-hidden": "true"}, "✕"), iconSize: [18, 18]});
  L.marker(closure.middle, {icon, interactive: false, keyboard: false, pane: "badges"}).addTo(marks);
}

function itemOf(closure) {
  const item = element("li", {class: closure.state, "data-closure": closure.id});
  const told = element("div", {class: "told"});
  const times = `${closure.from ? clock(new Date(closure.from), true) : say("now")} – ` +
    `${closure.until ? clock(new Date(closure.until), true) : say("open_end")}`;
  told.append(element("strong", {}, closure.road || say("nameless")), `: ${measureText(closure.measure)}`,
    element("span", {}, pieceText(closure)), element("span", {}, [closure.reason, closure.author || say("no_author")].filter(Boolean).join(" · ")),
    element("span", {}, `${say(closure.state)}: ${times}`));
  item.append(element("span", {class: "sign"}), told);
  const show = element("button", {type: "button", "aria-label": `${say("show_on_map")}: ${closure.road}`}, "⌖");
  show.onclick = () => map.fitBounds(closure.lines.flat(), {padding: [60, 60], maxZoom: 16});
  if (closure.lines.length) item.append(show);
  if (closure.can_undo) {
    const undo = element("button", {type: "button", "aria-label": `${say("undo")}: ${closure.road}`}, say("undo"));
    undo.onclick = () => guarded(() => undone(closure));
    item.append(undo);
  }
  return item;
}

const kilometres = (metres) => number(metres / 1000, metres < 1000 ? 2 : 1);

function pieceText({piece, arcs, metres}) {
  const between = (piece.text || "").match(/^from (.*) to (.*)$/);
  const what = between ? say("between", {from: between[1], to: between[2]}) : piece.text === "the whole road" ? say("whole_road") : piece.text;
  return [what, `${kilometres(metres)} km`, say("arcs", {arcs})].filter(Boolean).join(", ");
}

async function undone(closure) {
  const told = await post("/api/undo", {id: closure.id});
  await showState(told.state);
  tell(`${say("is_undone", {road: closure.road || say("nameless")})} ${byId("status").textContent}`);
}

// A preview before anything is closed.

byId("mode").onchange = () => { if (byId("mode").checked) start("mode", "click_road"); else reset(); };
byId("stretch").onchange = () => { if (byId("stretch").checked) start("stretch", "first_click"); else reset(); };
byId("preview").onclick = () => guarded(() => preview({road: byId("road").value}));
byId("cancel").onclick = () => reset();
byId("close").onclick = () => guarded(close);

function start(mode, text) {
  reset();
  byId(mode).checked = true;
  byId("map").classList.add("choosing");
  tell(say(text));
}

function reset() {
  draft = firstClick = null;
  drafts.clearLayers();
  byId("previewed").hidden = true;
  byId("mode").checked = byId("stretch").checked = false;
  byId("map").classList.remove("choosing");
}

// Whether a click on the map was meant for a closure.
export async function chosenByClick({lng, lat}) {
  const point = [lng, lat];
  if (byId("mode").checked) { await preview({points: [point]}); return true; }
  if (!byId("stretch").checked) return false;
  if (!firstClick) {
    firstClick = point;
    L.circleMarker([lat, lng], {radius: 6, color: "#d9541a", fillOpacity: 0.8, pane: "drafts"}).addTo(drafts);
    tell(say("second_click"));
  } else {
    const points = [firstClick, point];
    firstClick = null;
    await preview({points});
  }
  return true;
}

async function preview(what) {
  draft = null;
  byId("previewed").hidden = true;
  const metres = 15 * 40075016 * Math.cos(map.getCenter().lat * Math.PI / 180) / 2 ** (map.getZoom() + 8);
  const told = await post("/api/preview", {...what, metres});
  draft = told;
  drafts.clearLayers();
  for (const line of told.lines) L.polyline(line, {color: "#d9541a", weight: 9, opacity: 0.85, dashArray: "10 12", pane: "drafts"}).addTo(drafts);
  const where = told.piece.from ? ` ${say("between", told.piece)}` : told.piece.whole ? ` (${say("whole_road")})` : "";
  byId("told").textContent = say("preview_told", {title: (told.road || say("nameless")) + where, arcs: told.arcs,
    km: kilometres(told.metres), parts: told.parts});
  byId("previewed").hidden = false;
  if (!map.getBounds().contains(L.latLngBounds(told.lines.flat()))) map.fitBounds(told.lines.flat(), {padding: [40, 40]});
  byId("previewed").scrollIntoView({block: "nearest"});
}

async function close() {
  if (!draft) return;
  const time = (id) => (byId(id).value ? new Date(byId(id).value).toISOString() : null);
  localStorage.setItem("author", byId("author").value);
  const told = await post("/api/close", {roads: draft.roads, road: draft.road, piece: draft.piece, measure: byId("measure").value,
    reason: byId("reason").value, author: byId("author").value, from: time("since"), until: time("until")});
  const road = draft.road || say("nameless");
  reset();
  for (const id of ["reason", "since", "until", "road"]) byId(id).value = "";
  await showState(told.state);
  tell(`${say(told.closure_state === "planned" ? "is_planned" : "is_closed", {road})} ${byId("status").textContent}`);
}
