// The state diagram: as many states as are asked for, those around the one that is at work where there are more. A state
// that was put somewhere stands there; the others stand in rows.
import {escaped} from "./state.js";
import {n1, svg} from "./svg.js";

const MOST_STATES = 14, IN_TWO_ROWS = 8, GAP = 8, LEAST_NAME = 2, SMALL_WIDTH = 480, MOST_NAME = 9, LINE = 11.5, MOST_LABELS = 3, LETTER = 6.4, MOST_ROW = 230;
// In large: a label's letters are so wide and its lines so high; where along an edge labels may stand; and in how many
// points an edge is looked at.
const LARGE_LETTER = 8.5, LARGE_LINE = 15, ALONG = [.5, .4, .6, .3, .7, .22, .78], POINTS = 24;
const MOVES = {"+": "R", "-": "L", "0": "N"};

// How many rows so many states stand in, and how many are side by side where they stand in a grid.
const rowsOf = count => count <= 2 ? 1 : count <= IN_TWO_ROWS ? 2 : 3;
const gridOf = (count, width, height) => Math.max(2, Math.round(Math.sqrt(count * width / height * .62)));

// How the diagram is laid out: which states, how large, where each stands.
class Layout {
  /** @param {Rule[]} rules @param {Record<string, any>} how */
  constructor(rules, {width, height, now, name, chosen, places = {}, most = MOST_STATES, isOpen = false, isLarge = isOpen}) {
    const states = [...new Set(rules.flatMap(it => [it.state, it.next]))], middle = chosen ?? now ?? states[0];
    this.rules = rules;
    this.width = width;
    this.height = height;
    this.name = name;
    /** @type {string[]} */
    this.shown = states.length > most ? near(rules, states, middle, most) : states;
    // Where each of them stands, and to which side its loop goes.
    /** @type {Map<string, number[]>} */
    this.places = new Map();
    const count = this.shown.length;
    this.isSmall = count > IN_TWO_ROWS && width < SMALL_WIDTH;
    this.isLarge = isLarge && !this.isSmall;
    this.R = this.isSmall ? 14 : count > MOST_STATES ? 16 : this.isLarge ? 21 : 19;
    this.isDense = this.isSmall || height < 130 || count > MOST_STATES;
    this.loops = new Set(rules.filter(it => it.state === it.next).map(it => it.state));
    const loopRoom = this.isDense ? 16 : this.isLarge ? 38 : 31;
    this.top = this.R * .72 + (this.shown.some(it => this.loops.has(it)) ? loopRoom : 14);
    // So many stand side by side, and so long is a name at most that no box lies over the next one.
    this.across = count <= MOST_STATES ? Math.ceil(count / rowsOf(count)) : gridOf(count, width - (this.isSmall ? 40 : 56), height);
    const letters = Math.floor((width / (this.across + (count > MOST_STATES ? .5 : 0)) - GAP - 14) / (2 * this.letter()));
    this.mostName = Math.max(LEAST_NAME, Math.min(MOST_NAME, letters));
    const own = k => count <= MOST_STATES ? this.inRows(k) : this.inGrid(k);
    this.shown.forEach((it, k) => this.places.set(it, this.placed(it, places[name(it)]) ?? own(k)));
    if (this.isLarge) for (const it of this.loops) this.turnLoop(it);
  }
  // A loop stands on the side to which fewer steep edges go.
  turnLoop(state) {
    const here = this.places.get(state);
    if (!here) return;
    const edges = this.rules.filter(it => it.state !== it.next && (it.state === state || it.next === state));
    const others = edges.map(it => this.places.get(it.state === state ? it.next : it.state));
    const steep = up => others.filter(it => it && up * (here[1] - it[1]) > .45 * Math.abs(it[0] - here[0])).length;
    const own = here[2] < 0 ? 1 : -1;
    if (steep(own) > steep(-own)) this.places.set(state, [here[0], here[1], -here[2]]);
  }
  // Where a state was put, within the picture.
  placed(state, share) {
    if (!Array.isArray(share) || share.length !== 2 || !share.every(Number.isFinite)) return null;
    const {width, height, R} = this, half = this.half(state) + 2, high = R * .72 + 3;
    const within = (it, edge, size) => Math.max(edge, Math.min(size - edge, it * size));
    return [within(share[0], half, width), within(share[1], high, height), share[1] > .6 ? Math.PI / 2 : -Math.PI / 2];
  }
  // Half the width of a state's box.
  half(state) {
    return Math.max(this.R, Math.min(this.mostName, this.name(state).length) * this.letter() + 7);
  }
  // Half the width of a letter.
  letter() { return this.isSmall ? 3.1 : this.isLarge ? 4.2 : 3.6; }
  // How far the first box of a row stands from the edge: within the picture, and not farther than it has to.
  inset(least) {
    const wide = Math.max(...this.shown.map(it => this.half(it))) + 3, free = (this.width - 2 * wide * this.across) / 2 + wide;
    return Math.max(wide, Math.min(least, free));
  }
  // Up to eight states stand in two rows, there and back; more in three. The last number is the side of a loop.
  inRows(k) {
    const count = this.shown.length, {across} = this, rows = rowsOf(count);
    const row = Math.floor(k / across), inRow = Math.min(across, count - row * across), inset = this.inset(this.isDense ? 32 : 40);
    const number = row % 2 ? inRow - 1 - (k - row * across) : k - row * across, room = this.width - 2 * inset;
    const x = inRow === 1 ? this.width / 2 : inset + room * (inRow < across ? (number + .5) / inRow : number / (inRow - 1));
    const high = Math.min(this.height - 2 * this.top, MOST_ROW * (rows - 1)), y = (this.height - high) / 2 + (rows === 1 ? 0 : high * row / (rows - 1));
    return [x, y, row === 0 ? -Math.PI / 2 : row === rows - 1 ? Math.PI / 2 : -Math.PI / 2];
  }
  // Many states stand in a grid, there and back; every other row is set off, so that edges don't go along one line.
  inGrid(k) {
    const {width, height, across} = this, count = this.shown.length, inset = this.inset(this.isSmall ? 40 : 56);
    const rows = Math.ceil(count / across);
    const row = Math.floor(k / across), number = row % 2 ? across - 1 - (k - row * across) : k - row * across;
    const room = width - 2 * inset, gap = room / (across - .5), x = inset + gap * (number + (row % 2 ? .5 : 0));
    return [x, this.top + (height - 2 * this.top) * (rows > 1 ? row / (rows - 1) : .5), row < rows / 2 ? -Math.PI / 2 : Math.PI / 2];
  }
  // The edges with their labels; rules between the same two states are one edge.
  edges() {
    const found = new Map();
    this.rules.forEach((it, k) => {
      if (!this.places.has(it.state) || !this.places.has(it.next)) return;
      const key = it.state + "\n" + it.next, written = it.read === it.write ? "" : "→" + it.write;
      if (!found.has(key)) found.set(key, {from: it.state, to: it.next, labels: []});
      found.get(key).labels.push({text: `${it.read}${written} ${MOVES[it.shift]}`, rule: k + 1});
    });
    return found;
  }
}
// The states next to one; where many may be seen, others too.
function near(rules, states, middle, most) {
  const found = new Set([middle]);
  for (const it of rules) {
    if (it.state === middle) found.add(it.next);
    if (it.next === middle) found.add(it.state);
  }
  for (const it of states) if (most > MOST_STATES && found.size < most) found.add(it);
  return states.filter(it => found.has(it)).slice(0, most);
}

// `chosen` is a state whose edges stand out, `mark` gives what stands at a state's name; with `isOpen` each state can be
// come to by keys and is named for those who hear it.
export function diagramPicture(rules, how) {
  const layout = new Layout(rules, how), edges = layout.edges(), isNow = edge => edge.labels.some(it => it.rule === how.rule);
  let lines = "", labels = "";
  const all = [...edges.values()], places = layout.isLarge ? keptPlaces(rules, layout, all, edges) : new Map();
  for (const edge of all.sort((a, b) => Number(isNow(a)) - Number(isNow(b)))) {
    const isLoop = edge.from === edge.to;
    const own = isLoop ? loopOf(layout, edge, isNow(edge)) : arcOf(layout, edge, isNow(edge), hasBack(edges, edge));
    const drawn = {...own, ...places.get(edge.from + "\n" + edge.to)};
    const isFar = how.chosen && layout.isDense && edge.from !== how.chosen && edge.to !== how.chosen && !isNow(edge);
    lines += isFar ? `<g class="far">${drawn.line}</g>` : drawn.line;
    labels += labelsOf(layout, edge, drawn, how, isNow(edge));
  }
  const nodes = layout.shown.map(it => nodeOf(layout, it, how)).join(""), role = how.isOpen ? "group" : "img";
  const kind = `diagram${layout.isLarge ? " large" : ""}`, start = startOf(layout);
  return svg(how.width, how.height, `<g class="${how.stage}">${lines}${start}${labels}${nodes}</g>`, kind,
             `role="${role}" aria-label="${escaped(diagramWords(layout, how))}"`);
}
// The diagram as it is heard.
function diagramWords({rules, name, shown}, {now}) {
  const count = new Set(rules.flatMap(it => [it.state, it.next])).size, part = shown.length < count ? `, ${shown.length} of them seen` : "";
  return `the state diagram: ${count} states${part}, ${rules.length} rules${now ? `; at work is ${name(now)}` : ""}`;
}

function edgeTip(x, y, angle, kind) {
  const side = turn => `${n1(x - 9 * Math.cos(angle + turn))},${n1(y - 9 * Math.sin(angle + turn))}`;
  return `<path class="edgetip ${kind}" d="M${n1(x)},${n1(y)} L${side(-.4)} L${side(.4)}z"/>`;
}
function startOf(layout) {
  if (!layout.shown.length) return "";
  const [x, y] = layout.places.get(layout.shown[0]), half = layout.half(layout.shown[0]);
  return `<path class="edge" d="M${n1(x - half - 15)},${n1(y)}H${n1(x - half - 2)}"/>` + edgeTip(x - half - 1, y, 0, "");
}

// A loop, and where its one label stands.
function loopOf(layout, edge, isNow) {
  const {R, width} = layout, [x, y, angle] = layout.places.get(edge.from), kind = isNow ? "now" : "";
  const dx = Math.cos(angle), up = Math.sin(angle) > .3 ? 1 : -1, middle = Math.atan2(up, 0);
  const near = [-.55, .55].map(turn => [x + R * .8 * Math.cos(middle + turn), y + R * .8 * Math.sin(middle + turn)]);
  const reach = (R * .72 + 17) * 1.15, far = [-.67, .67].map(turn => [x + reach * Math.cos(middle + turn), y + reach * Math.sin(middle + turn)]);
  const point = it => it.map(n1).join();
  const line = `<path class="edge ${kind}" d="M${point(near[0])} C${point(far[0])} ${point(far[1])} ${point(near[1])}"/>`
    + edgeTip(...near[1], middle + .55 + Math.PI + .22 * up, kind);
  const aside = Math.abs(dx) > .3 ? Math.sign(dx) * -6 : 0;
  const half = layout.isLarge ? sizeOf(layout, edge, true)[0] / 2 : 34, away = R * .72 + (layout.isLarge ? 25 : 20);
  return {line, x: Math.max(half, Math.min(width - half, x + aside)), y: y + up * away - 1, anchor: "middle", isOne: true};
}
const hasBack = (edges, edge) => edges.has(edge.to + "\n" + edge.from);
// How wide and how high the labels of an edge are, in large; those of a loop stand in one line.
/** @returns {[number, number]} */
function sizeOf(layout, edge, isOne) {
  const texts = edge.labels.slice(0, MOST_LABELS).map(it => it.text.length);
  const more = edge.labels.length > MOST_LABELS ? 2 : 0;
  const letters = isOne ? texts.reduce((sum, it) => sum + it + 2, -2) : Math.max(...texts);
  return [LARGE_LETTER * (letters + more) + 4, isOne ? LARGE_LINE + 2 : LARGE_LINE * texts.length + 2];
}
// In large, where the labels of all edges stand, so that none lies over another, over a state, a loop or an edge, where
// that can be; loops first, which have one place.
function placesOf(layout, all, edges) {
  const found = new Map(), lines = [], high = layout.R * 1.44;
  const taken = [...layout.places].map(([state, [x, y]]) => boxAt(x, y, 2 * layout.half(state), high));
  for (const edge of all) {
    if (edge.from !== edge.to) {
      const it = curveOf(layout, edge, hasBack(edges, edge));
      for (let k = 0; k <= POINTS; k++) lines.push(pointOf(it, k / POINTS));
      continue;
    }
    const {x, y} = loopOf(layout, edge, false), [p, q] = layout.places.get(edge.from), size = sizeOf(layout, edge, true);
    taken.push(boxAt(x, y, ...size), boxAt(p, (y + q) / 2, 2 * layout.R, Math.abs(y - q)));
  }
  const isIn = ([left, top, right, bottom], [x, y]) => x > left && x < right && y > top && y < bottom;
  const isOut = box => box[0] < 0 || box[1] < 0 || box[2] > layout.width || box[3] > layout.height;
  const faults = box => taken.filter(it => areOver(it, box)).length + lines.filter(it => isIn(box, it)).length
    + 9 * Number(isOut(box));
  for (const edge of all) {
    if (edge.from === edge.to) continue;
    const curve = curveOf(layout, edge, hasBack(edges, edge)), size = sizeOf(layout, edge, false);
    const tried = ALONG.flatMap(t => [1, -1].map(side => besideOf(curve, t, side, size)));
    const many = tried.map(it => faults(boxAt(it.x, it.y, ...size))), best = tried[many.indexOf(Math.min(...many))];
    taken.push(boxAt(best.x, best.y, ...size));
    found.set(edge, {...best, anchor: "middle"});
  }
  return found;
}
// While a machine plays its states stay where they are, and so do the labels.
const kept = new WeakMap();
function keptPlaces(rules, layout, all, edges) {
  const key = [layout.width, layout.height, ...layout.places].join();
  if (kept.get(rules)?.key !== key) {
    /** @type {[string, any][]} */
    const found = [...placesOf(layout, all, edges)].map(([{from, to}, place]) => [from + "\n" + to, place]);
    kept.set(rules, {key, found: new Map(found)});
  }
  return kept.get(rules).found;
}
const boxAt = (x, y, wide, high) => [x - wide / 2, y - high / 2, x + wide / 2, y + high / 2];
const areOver = (a, b) => a[0] < b[2] && b[0] < a[2] && a[1] < b[3] && b[1] < a[3];
// A point of an edge, and a box beside it that the edge's line doesn't touch there.
function pointOf({x, y, mx, my, p, q}, t) {
  const on = (a, b, c) => (1 - t) * (1 - t) * a + 2 * t * (1 - t) * b + t * t * c;
  return [on(x, mx, p), on(y, my, q)];
}
function besideOf(curve, t, side, [wide, high]) {
  const [x, y] = pointOf(curve, t), [u, v] = pointOf(curve, t + .01), length = Math.hypot(u - x, v - y) || 1;
  const dx = -side * (v - y) / length, dy = side * (u - x) / length;
  const far = Math.abs(dx) * wide / 2 + Math.abs(dy) * high / 2 + 5;
  return {x: x + dx * far, y: y + dy * far};
}

// An edge from one state to another, and where its labels stand.
function curveOf(layout, edge, isTwo) {
  const {places, width} = layout, [x, y] = places.get(edge.from), [p, q] = places.get(edge.to);
  const dx = p - x, dy = q - y, length = Math.hypot(dx, dy) || 1, bow = isTwo ? 18 : length > 150 ? 14 : 8;
  const isSteep = Math.abs(dy) > .45 * Math.abs(dx);
  const turn = isSteep && !isTwo && ((x + p) / 2 - width / 2) * -dy < 0 ? -1 : 1, across = [-turn * dy / length, turn * dx / length];
  const bent = by => ({x, y, p, q, isSteep, mx: (x + p) / 2 + across[0] * by, my: (y + q) / 2 + across[1] * by});
  if (!layout.isLarge || layout.shown.length > MOST_STATES) return bent(bow);
  // In large it goes around the states that are in its way, where it can.
  return [bow, 60, -60, 100, -100].map(bent).find(it => !isOverState(layout, edge, it)) ?? bent(bow);
}
function isOverState(layout, edge, curve) {
  const high = layout.R * .72 + 3;
  const others = [...layout.places].filter(([state]) => state !== edge.from && state !== edge.to);
  for (let k = 1; k < POINTS; k++) {
    const [x, y] = pointOf(curve, k / POINTS);
    const isOver = ([state, [p, q]]) => Math.abs(x - p) < layout.half(state) + 3 && Math.abs(y - q) < high;
    if (others.some(isOver)) return true;
  }
  return false;
}
function arcOf(layout, edge, isNow, isTwo) {
  const {R, width} = layout, curve = curveOf(layout, edge, isTwo), {x, y, p, q, mx, my, isSteep} = curve;
  const kind = isNow ? "now" : "";
  const out = Math.atan2(my - y, mx - x), into = Math.atan2(q - my, p - mx);
  // Where a line leaves or comes to a state's rounded box.
  const rim = (state, angle, more) => Math.min((R * .72 + more) / Math.max(.01, Math.abs(Math.sin(angle))),
                                               (layout.half(state) + more) / Math.max(.01, Math.abs(Math.cos(angle))));
  const away = rim(edge.from, out, 0), reach = rim(edge.to, into, 1.5), ex = p - reach * Math.cos(into), ey = q - reach * Math.sin(into);
  const line = `<path class="edge ${kind}" d="M${n1(x + away * Math.cos(out))},${n1(y + away * Math.sin(out))} Q${n1(mx)},${n1(my)} ${n1(ex)},${n1(ey)}"/>`
    + edgeTip(ex, ey, into, kind);
  const labelAt = t => {
    const [lx, ly] = pointOf(curve, t);
    if (!isSteep) return {line, x: lx, y: ly + (my > (y + q) / 2 ? 8 : -11), anchor: "middle", isOne: false};
    const side = mx > (x + p) / 2 ? 1 : -1, room = side > 0 ? width - lx : lx, isStart = (room > 48 ? side : -side) > 0;
    return {line, x: lx + (isStart ? 7 : -7), y: ly, anchor: isStart ? "start" : "end", isOne: false};
  };
  // Not in the middle, so that the labels of two rows, there and back, don't meet; elsewhere, where a state is in the way.
  const first = isSteep ? .5 : .4, places = [first, .3, .62, .22, .75].map(labelAt);
  return places.find(it => isFree(layout, edge, it)) ?? places[0];
}
// Whether the labels of an edge would lie over no state's box.
function isFree(layout, edge, {x, y, anchor}) {
  const shown = edge.labels.slice(0, MOST_LABELS), wide = LETTER * Math.max(...shown.map(it => it.text.length)) + 2, high = LINE * shown.length + 2;
  const middle = anchor === "middle" ? x : anchor === "start" ? x + wide / 2 : x - wide / 2;
  return [...layout.places].every(([state, [p, q]]) =>
    Math.abs(p - middle) >= layout.half(state) + wide / 2 || Math.abs(q - y) >= layout.R * .72 + high / 2);
}

function labelsOf(layout, edge, {x, y, anchor, isOne}, {rule, chosen}, isNowEdge) {
  const isChosen = chosen && (edge.from === chosen || edge.to === chosen);
  const [line, base] = layout.isLarge ? [LARGE_LINE, 5] : [LINE, 4];
  const shown = edge.labels.slice(0, MOST_LABELS);
  const rows = isOne ? [{text: shown.map(it => it.text).join("  "), isNow: isNowEdge}] : shown.map(it => ({text: it.text, isNow: it.rule === rule}));
  return rows.map(({text, isNow}, k) => {
    if (layout.isDense && !isNow && !isChosen) return "";
    const more = k === rows.length - 1 && edge.labels.length > MOST_LABELS ? " …" : "";
    const at = y + base + (k - (rows.length - 1) / 2) * line;
    return `<text class="label${isNow ? " now" : ""}" data-rule="${(isOne ? shown[0] : shown[k]).rule}" style="text-anchor:${anchor}" x="${n1(x)}" y="${n1(at)}">${escaped(text)}${more}</text>`;
  }).join("");
}
/** @param {Layout} layout @param {string} state @param {Record<string, any>} how */
function nodeOf(layout, state, {now, stops, chosen, isOpen, mark = _ => ""}) {
  const {R, name, isDense} = layout, [x, y] = layout.places.get(state) ?? [0, 0], half = layout.half(state), text = name(state), isNow = state === now;
  const isFinal = !layout.rules.some(it => it.state === state), short = text.length > layout.mostName ? text.slice(0, layout.mostName - 1) + "…" : text;
  const box = (inset, more) => `x="${n1(x - half + inset)}" y="${n1(y - R * .72 + inset)}" width="${n1(2 * (half - inset))}" height="${n1(R * 1.44 - 2 * inset)}" rx="${n1(R * .72 - inset)}"${more}`;
  const sign = mark(text), answers = {"✓": ", accepts", "✗": ", rejects"}[sign] ?? "", halts = isFinal ? ", halting" : "";
  const heard = ` tabindex="0" role="button"${isOpen ? ` aria-pressed="${state === chosen}"` : ""} aria-label="state ${escaped(text)}${halts}${answers}"`;
  const does = isOpen ? "select it; drag it, or move it with the arrow keys" : "click for details; drag it";
  return `<g data-state="${escaped(state)}"${heard}><title>${escaped(text)}${halts}${answers}: ${does}</title>`
    + `<rect class="state${isNow ? " now" : ""}${stops.has(state) ? " stop" : ""}${state === chosen ? " chosen" : ""}" ${box(0, "")}/>`
    + (isFinal ? `<rect class="state" ${box(3, ' style="fill:none"')}/>` : "")
    + `<text text-anchor="middle" ${isDense && !layout.isLarge ? 'style="font-size:11px"' : ""} x="${n1(x)}" y="${n1(y + 4)}" ${isNow ? 'font-weight="700"' : ""}>${escaped(short)}</text>`
    + (sign ? `<text class="sign ${sign === "✓" ? "accepts" : "rejects"}" text-anchor="middle" x="${n1(x + half - 1)}" y="${n1(y - R * .72 + 4)}">${sign}</text>` : "") + "</g>";
}
