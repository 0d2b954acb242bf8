// Lines of routes that share a road, side by side: geometry in points of the screen.

export const LANE = 5, EDGE = 1.5;  // a lane's width, and the white on each side of it

const away = ([ax, ay], [bx, by]) => Math.hypot(bx - ax, by - ay);

export function lengthOf(line) {
  let sum = 0;
  for (let at = 1; at < line.length; at++) sum += away(line[at - 1], line[at]);
  return sum;
}

// For each option the runs of its lane: stretches on which as many routes go along.
export function laneRuns(options, roads, project) {
  const users = new Map(), towards = new Map(), lines = new Map();
  for (const option of options) {
    for (const [road, back] of option.roads) {
      if (!users.has(road)) { users.set(road, []); towards.set(road, back); }
      if (!users.get(road).includes(option.letter)) users.get(road).push(option.letter);
    }
  }
  const lineOf = (road, back) => {
    if (!lines.has(road)) lines.set(road, roads[road].map(project));
    return back ? [...lines.get(road)].reverse() : lines.get(road);
  };
  return options.map((option) => mergedRuns(option.roads.map(([road, back]) => {
    const letters = users.get(road);
    const place = letters.indexOf(option.letter) - (letters.length - 1) / 2;
    return {line: lineOf(road, back), count: letters.length,
      offset: (LANE + EDGE) * place * (towards.get(road) === back ? 1 : -1)};
  })));
}

// A run of fewer points of the screen than two lanes goes on in the lane of the run before it.
function mergedRuns(parts) {
  const whole = [];
  for (const part of parts) {
    const last = whole.at(-1);
    if (last && last.offset === part.offset && last.count === part.count) last.line = last.line.concat(part.line.slice(1));
    else whole.push({...part});
  }
  const runs = [];
  for (const run of whole) {
    const last = runs.at(-1);
    if (last && (lengthOf(run.line) < 2 * (LANE + EDGE) || last.offset === run.offset)) {
      last.line = last.line.concat(run.line.slice(1));
    } else runs.push({...run});
  }
  return runs.map((run) => ({...run, line: beside(simplified(run.line, 0.5 * LANE), run.offset)}));
}

// The line through some of its points, from which the others are at most so far away (Douglas and Peucker).
function simplified(line, most) {
  const kept = new Set([0, line.length - 1]), open = [[0, line.length - 1]];
  while (open.length) {
    const [first, last] = open.pop();
    let farthest = -1, worst = most;
    for (let at = first + 1; at < last; at++) {
      const distance = fromChord(line[at], line[first], line[last]);
      if (distance > worst) [farthest, worst] = [at, distance];
    }
    if (farthest < 0) continue;
    kept.add(farthest);
    open.push([first, farthest], [farthest, last]);
  }
  return line.filter((_, at) => kept.has(at));
}

function fromChord(point, first, last) {
  const [dx, dy] = [last[0] - first[0], last[1] - first[1]];
  const length = Math.hypot(dx, dy);
  if (length < 1e-6) return away(point, first);
  return Math.abs(dx * (point[1] - first[1]) - dy * (point[0] - first[0])) / length;
}

// The line moved aside, to the right where the offset is positive. Sharp corners are cut.
function beside(line, offset) {
  const points = line.filter((point, at) => at === 0 || away(point, line[at - 1]) > 1e-6);
  if (points.length < 2 || offset === 0) return points;
  const sides = points.slice(1).map((point, at) => {
    const length = away(points[at], point);
    return [-(point[1] - points[at][1]) / length, (point[0] - points[at][0]) / length];
  });
  return points.map((point, at) => {
    const [one, other] = [sides[Math.max(at - 1, 0)], sides[Math.min(at, sides.length - 1)]];
    const corner = [(one[0] + other[0]) / 2, (one[1] + other[1]) / 2];
    const share = offset / Math.max(corner[0] ** 2 + corner[1] ** 2, 0.4);
    return [point[0] + corner[0] * share, point[1] + corner[1] * share];
  });
}

// Where a letter may stand: the middles of its loneliest and longest runs first, then points along them.
export function letterPlaces(runs) {
  const sorted = [...runs].sort((a, b) => a.count - b.count || lengthOf(b.line) - lengthOf(a.line));
  return [0.5, 0.35, 0.65, 0.2, 0.8, 0.08, 0.92].flatMap((share) => sorted.slice(0, 6).map((run) => pointAt(run.line, share)))
    .filter(Boolean);
}

function pointAt(line, share) {
  if (line.length < 2) return line[0];
  let left = lengthOf(line) * share;
  for (let at = 1; at < line.length; at++) {
    const step = away(line[at - 1], line[at]);
    if (left <= step && step > 0) {
      return [0, 1].map((axis) => line[at - 1][axis] + (line[at][axis] - line[at - 1][axis]) * left / step);
    }
    left -= step;
  }
  return line.at(-1);
}

// Of the places the first that is far enough from all that are taken; else the one that is farthest from them.
export function freePlace(places, taken, least) {
  const room = (place) => Math.min(Infinity, ...taken.map((other) => away(place, other)));
  return places.find((place) => room(place) >= least) ?? places.reduce((a, b) => (room(b) > room(a) ? b : a));
}
