// Routes of wires: along the lines of the grid, around the boxes, with few bends and crossings, no two along one line. Each wire takes the
// cheapest route that is left, short wires first. A wire keeps its route until its ends move or a box is placed on it.
import {BOX} from "./drawing.js";

const MARGIN = 14, FAR_MARGIN = 30;
const AHEAD = 2, BEND = 7, CROSS = 7, NEAR = 2, TOUCH = 26, ALONG = 46;
// The directions north, east, south, west, in the order of the sides.
const DX = [0, 1, 0, -1], DY = [-1, 0, 1, 0];
const MOST_COST = 20000;

// The position of a port on the edge of its box. Outputs are on the right, seen from the element, so neighbours are connected straight.
/** @type {(at: number[], port: number, isOut: boolean) => number[]} */
export function portAt([x, y], port, isOut) {
  const near = isOut ? 3 : 1, far = BOX - near;
  return [[x + near, y], [x + BOX, y + near], [x + far, y + BOX], [x, y + far]][port & 3];
}
/** @type {(at: number[], port: number, isOut: boolean) => number[]} */
const stubAt = (at, port, isOut) => {
  const [x, y] = portAt(at, port, isOut);
  return [x + DX[port & 3], y + DY[port & 3]];
};

// The grid with its boxes and wires.
class Ground {
  /** @param {Drawing} it @param {Way[]} ways */
  constructor(it, ways) {
    const xs = [...it.at.map(at => at[0]), ...ways.flat().map(at => at[0])], ys = [...it.at.map(at => at[1]), ...ways.flat().map(at => at[1])];
    const margin = it.bars.length > 40 ? FAR_MARGIN : MARGIN;
    this.x = least(xs) - margin;
    this.y = least(ys) - margin;
    this.wide = greatest(xs) + BOX + margin - this.x + 1;
    this.high = greatest(ys) + BOX + margin - this.y + 1;
    const size = this.wide * this.high;
    // Boxes; grid lines in use, to the right and down; points on wires; bends.
    const made = () => new Uint8Array(size);
    this.boxes = made();
    this.nears = made();
    this.rights = made();
    this.downs = made();
    this.level = made();
    this.upright = made();
    this.bends = made();
    this.best = new Int32Array(4 * size).fill(MOST_COST);
    this.before = new Int8Array(4 * size);
    /** @type {number[]} */
    this.touched = [];
    for (const [element, [x, y]] of it.at.entries()) {
      for (let dy = 0; dy <= BOX; dy++) for (let dx = 0; dx <= BOX; dx++) this.boxes[this.point(x + dx, y + dy)] = 1;
      for (let side = 0; side < 4; side++) for (const isOut of [true, false]) this.nears[this.point(...pair(stubAt(it.at[element], side, isOut)))] = 1;
    }
  }
  /** @type {(x: number, y: number) => number} */
  point(x, y) { return (y - this.y) * this.wide + x - this.x; }
  // Adds a wire, or removes it.
  /** @type {(way: Way, by: number) => void} */
  put(way, by) {
    for (let k = 1; k < way.length; k++) {
      const [x, y] = way[k - 1], [a, b] = way[k], isLevel = y === b, length = Math.abs(a - x) + Math.abs(b - y);
      const first = this.point(Math.min(x, a), Math.min(y, b)), next = isLevel ? 1 : this.wide;
      for (let n = 0; n < length; n++) (isLevel ? this.rights : this.downs)[first + n * next] += by;
      for (let n = 0; n <= length; n++) (isLevel ? this.level : this.upright)[first + n * next] += by;
      if (k > 1) this.bends[this.point(x, y)] += by;
    }
  }
  // The cheapest route between two points with the given directions at its ends, or null.
  /** @type {(from: number[], leaves: number, to: number[], arrives: number) => Way | null} */
  way(from, leaves, to, arrives) {
    const {wide, best, before} = this, goal = this.point(...pair(to)), start = this.point(...pair(from));
    for (const key of this.touched) best[key] = MOST_COST;
    this.touched = [];
    if (this.boxes[goal] || this.boxes[start]) return null;
    const goalX = to[0] - this.x, goalY = to[1] - this.y, moves = DY.map((dy, k) => dy * wide + DX[k]);
    /** @type {number[][]} */
    const queue = [];
    /** @type {(key: number, cost: number, way: number) => void} */
    const reach = (key, cost, way) => {
      if (cost >= best[key]) return;
      if (best[key] === MOST_COST) this.touched.push(key);
      best[key] = cost;
      before[key] = way;
      const at = key >> 2, left = cost + AHEAD * (Math.abs(at % wide - goalX) + Math.abs(Math.floor(at / wide) - goalY));
      if (left < MOST_COST) (queue[left] ??= []).push(key);
    };
    reach(4 * start + leaves, 0, -1);
    let found = -1;
    for (let cost = 0; cost < queue.length && found < 0; cost++) {
      const line = queue[cost];
      if (!line) continue;
      for (let n = 0; n < line.length; n++) {
        const key = line[n], at = key >> 2, came = key & 3, x = at % wide, y = Math.floor(at / wide);
        if (cost !== best[key] + AHEAD * (Math.abs(x - goalX) + Math.abs(y - goalY))) continue;
        if (at === goal && came === arrives) { found = key; break; }
        for (let way = 0; way < 4; way++) {
          if (way === (came ^ 2)) continue;
          const next = at + moves[way], nx = x + DX[way], ny = y + DY[way];
          if (nx < 0 || ny < 0 || nx >= wide || ny >= this.high || this.boxes[next]) continue;
          const isLevel = way & 1, line = isLevel ? this.rights : this.downs;
          let more = AHEAD + NEAR * this.nears[next] + ALONG * line[way === 1 || way === 2 ? at : next];
          // A bend on another wire, or a wire through a bend, would look like a joint.
          if (way !== came) more += BEND + TOUCH * (this.level[at] || this.upright[at] ? 1 : 0);
          more += TOUCH * (this.bends[next] ? 1 : 0) + CROSS * ((isLevel ? this.upright : this.level)[next] ? 1 : 0);
          reach(4 * next + way, best[key] + more, came);
        }
      }
    }
    if (found < 0) return null;
    /** @type {Way} */
    const way = [];
    for (let key = found; ;) {
      const at = key >> 2, came = before[key];
      way.push([at % wide + this.x, Math.floor(at / wide) + this.y]);
      if (came < 0) break;
      key = 4 * (at - moves[key & 3]) + came;
    }
    return way.reverse();
  }
}
/** @type {(list: number[]) => number} */
const least = list => list.reduce((a, b) => Math.min(a, b), list[0] ?? 0);
/** @type {(list: number[]) => number} */
const greatest = list => list.reduce((a, b) => Math.max(a, b), list[0] ?? 0);
/** @type {(list: number[]) => [number, number]} */
const pair = ([x, y]) => [x, y];
// Only the corners of a route.
/** @type {(way: Way) => Way} */
const corners = way => way.filter(([x, y], k) => {
  if (k === 0 || k === way.length - 1) return true;
  const [a, b] = way[k - 1], [c, d] = way[k + 1];
  return !(a === x && x === c || b === y && y === d);
});
// If there is no route: straight over everything.
/** @type {(from: number[], to: number[]) => Way} */
const over = (from, to) => [from, [to[0], from[1]], to];

/** @type {(it: Drawing, out: number) => number} */
function reachOf(it, out) {
  const [x, y] = it.at[out >> 2], [a, b] = it.at[it.targets[out] >> 2];
  return Math.abs(a - x) + Math.abs(b - y);
}
// The route of each wire by its output. Routes of the previous drawing, `old`, are kept if they are still right.
/** @type {(it: Drawing, old?: Map<number, Way>) => Map<number, Way>} */
export function waysOf(it, old = new Map()) {
  const outs = [...it.targets.keys()].filter(out => it.targets[out] >= 0);
  /** @type {Map<number, Way>} */
  const ways = new Map();
  if (!outs.length) return ways;
  const ground = new Ground(it, [...old.values()]);
  /** @type {(at: number[], other: number[]) => boolean} */
  const same = (at, other) => at[0] === other[0] && at[1] === other[1];
  for (const out of outs) {
    const way = old.get(out), into = it.targets[out];
    if (!way || !same(way[0], portAt(it.at[out >> 2], out, true)) || !same(way[way.length - 1], portAt(it.at[into >> 2], into, false))) continue;
    if (isBarred(ground, way)) continue;
    ways.set(out, way);
    ground.put(way, 1);
  }
  for (const out of outs.filter(out => !ways.has(out)).sort((a, b) => reachOf(it, a) - reachOf(it, b) || a - b)) {
    const way = oneWay(ground, it, out);
    ways.set(out, way);
    ground.put(way, 1);
  }
  return ways;
}
/** @type {(ground: Ground, it: Drawing, out: number) => Way} */
function oneWay(ground, it, out) {
  const into = it.targets[out], from = it.at[out >> 2], to = it.at[into >> 2];
  const way = ground.way(stubAt(from, out, true), out & 3, stubAt(to, into, false), (into & 3) ^ 2);
  const ends = [portAt(from, out, true), portAt(to, into, false)];
  return way ? corners([ends[0], ...way, ends[1]]) : over(ends[0], ends[1]);
}
// Whether a box is on a route, except at its ends.
/** @type {(ground: Ground, way: Way) => boolean} */
function isBarred(ground, way) {
  for (let k = 1; k < way.length; k++) {
    const [x, y] = way[k - 1], [a, b] = way[k], length = Math.abs(a - x) + Math.abs(b - y);
    for (let n = 0; n <= length; n++) {
      const isEnd = k === 1 && n === 0 || k === way.length - 1 && n === length;
      if (!isEnd && ground.boxes[ground.point(x + Math.sign(a - x) * n, y + Math.sign(b - y) * n)]) return true;
    }
  }
  return false;
}
// The routes, with those between moved elements moved along.
/** @type {(ways: Map<number, Way>, it: Drawing, elements: Set<number>, by: number[]) => Map<number, Way>} */
export function waysMoved(ways, it, elements, [dx, dy]) {
  return new Map([...ways].map(([out, way]) => elements.has(out >> 2) && elements.has(it.targets[out] >> 2)
    ? [out, way.map(([x, y]) => [x + dx, y + dy])] : [out, way]));
}

// ---- as a path

// The SVG path of a route, with rounded corners; `unit` is in pixels.
/** @type {(way: Way, unit: number, round?: number) => string} */
export function pathOf(way, unit, round = .62) {
  const points = way.map(([x, y]) => [x * unit, y * unit]);
  let path = `M${points[0]}`;
  for (let k = 1; k < points.length - 1; k++) {
    const [a, b, c] = [points[k - 1], points[k], points[k + 1]];
    const most = Math.min(round * unit, Math.hypot(b[0] - a[0], b[1] - a[1]) / 2, Math.hypot(c[0] - b[0], c[1] - b[1]) / 2);
    path += `L${toward(b, a, most)}Q${b} ${toward(b, c, most)}`;
  }
  return `${path}L${points[points.length - 1]}`;
}
/** @type {(from: number[], to: number[], by: number) => number[]} */
function toward([x, y], [a, b], by) {
  const far = Math.hypot(a - x, b - y) || 1;
  return [x + (a - x) * by / far, y + (b - y) * by / far].map(it => Math.round(it * 10) / 10);
}
