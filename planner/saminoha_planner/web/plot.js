// The plot of all trade-offs and the few, of two criteria.
import {number} from "./texts.js";

const SVG = "http://www.w3.org/2000/svg";

function drawn(name, attributes, text = "") {
  const made = document.createElementNS(SVG, name);
  for (const [key, value] of Object.entries(attributes)) made.setAttribute(key, value);
  if (text) made.textContent = text;
  return made;
}

export function drawPlot(plot, shown) {
  const {answer, criteria, x, y, labelOf} = shown;
  const across = scale(column(answer, x), 52, 368), up = scale(column(answer, y), 212, 22);
  const within = new Set(answer.within);
  const label = (criterion) => labelOf(criterion) + (criterion.unit ? ` (${criterion.unit})` : "");
  const plain = (place, weight) => number(weight / criteria[place].scale, criteria[place].digits);
  plot.replaceChildren(
    drawn("path", {d: "M52 22V212H368", fill: "none", class: "axis"}),
    drawn("text", {x: 368, y: 244, "text-anchor": "end"}, label(criteria[x])),
    drawn("text", {x: 2, y: 11}, label(criteria[y])),
    ...ticks(answer, x).map((one) => drawn("text", {x: across(one), y: 227, "text-anchor": "middle"}, plain(x, one))),
    ...ticks(answer, y).map((one) => drawn("text", {x: 48, y: up(one) + 4, "text-anchor": "end"}, plain(y, one))),
    ...answer.costs.map((cost, at) =>
      drawn("circle", {cx: across(cost[x]), cy: up(cost[y]), r: 3, class: within.has(at) ? "other" : "out"})));
  const taken = [], places = answer.options.map((option) => {
    const cost = answer.costs[option.index], point = [across(cost[x]), up(cost[y])];
    const disc = free(point, taken);
    taken.push(disc);
    return {option, point, disc};
  });
  for (const {option, point, disc} of places) {
    if (disc !== point) plot.append(...leaderOf(point, disc, shown.colours[option.letter]));
  }
  for (const {option, disc} of places) plot.append(markOf(option, disc, shown));
}

function leaderOf([x1, y1], [x2, y2], colour) {
  return [drawn("line", {x1, y1, x2, y2, stroke: colour, "stroke-width": 1.5}),
    drawn("circle", {cx: x1, cy: y1, r: 3.5, fill: colour, stroke: "#fff", class: "leader"})];
}

// A letter's disc stands beside its point, with a line to it, where another one's disc is there already.
function markOf(option, [cx, cy], {criteria, colours, labelOf, light, choose}) {
  const told = criteria.map((criterion, at) => `${labelOf(criterion)} ${option.texts[at]}`).join(", ");
  const group = drawn("g", {class: "option", "data-letter": option.letter, tabindex: 0, role: "img", "aria-label": `${option.letter}: ${told}`});
  group.append(drawn("circle", {cx, cy, r: 9, fill: colours[option.letter], stroke: "#fff"}),
    drawn("text", {x: cx, y: cy, class: "mark"}, option.letter));
  group.onmouseenter = group.onfocus = () => light(option.letter);
  group.onmouseleave = group.onblur = () => light(null);
  group.onclick = () => choose(option.letter);
  return group;
}

function free(point, taken) {
  const [x, y] = point;
  const isFree = ([cx, cy]) => cx > 60 && cx < 371 && cy > 10 && cy < 204 && taken.every(([tx, ty]) => Math.hypot(cx - tx, cy - ty) >= 19);
  if (taken.every(([tx, ty]) => Math.hypot(x - tx, y - ty) >= 19)) return point;
  for (const radius of [21, 30, 42]) {
    for (let turn = 0; turn < 12; turn++) {
      const place = [x + radius * Math.cos(turn * Math.PI / 6), y - radius * Math.sin(turn * Math.PI / 6)];
      if (isFree(place)) return place;
    }
  }
  return point;
}

const column = (answer, place) => answer.costs.map((cost) => cost[place]);

function scale(values, first, last) {
  const [least, most] = [Math.min(...values), Math.max(...values)];
  const inner = [first + (last - first) * 0.06, last - (last - first) * 0.06];
  const step = most === least ? 0 : (inner[1] - inner[0]) / (most - least);
  return (weight) => (step ? inner[0] + (weight - least) * step : (first + last) / 2);
}

function ticks(answer, place) {
  const values = column(answer, place), least = Math.min(...values), most = Math.max(...values);
  return least === most ? [least] : [least, (least + most) / 2, most];
}
