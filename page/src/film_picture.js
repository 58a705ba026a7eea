// The run in one picture: time to the right, the cells of the three tapes downward, the history upward. It is drawn of
// columns, each a moment that stands up to the next one that is drawn.
import {n1, svg} from "./svg.js";

const GAP = 5, TOP_ROOM = 17, BOTTOM_ROOM = 3, LEAST_BAND = 14, ROWS_A_PIXEL = 2;

// Where the band of each tape stands.
export function bandsOf(run, height) {
  const counts = run.moments[0].tapes.map(it => it.symbols.length), all = counts.reduce((a, b) => a + b, 0);
  const free = height - TOP_ROOM - BOTTOM_ROOM - 2 * GAP, least = Math.min(LEAST_BAND, free / 4);
  const heights = counts.map(count => Math.max(least, free * count / all)), scale = free / heights.reduce((a, b) => a + b, 0);
  let y = TOP_ROOM;
  return counts.map((count, k) => {
    const it = {y, height: heights[k] * scale, count};
    y += it.height + GAP;
    return it;
  });
}

// The part of the time line that is seen is `from` to `to`, with its stages.
export function filmPicture(run, columns, {from, to, stages}, width, height) {
  const wide = width / (to - from), placed = columns.map(it => ({x: (it.from - from) * wide, end: (it.to - from) * wide, tapes: it.moment.tapes}));
  const bands = bandsOf(run, height).map((band, k) => cellsPicture(run, placed, band, k) + headLine(placed, band, k));
  const seen = stages.filter(it => it.to > from && it.from < to).map(it =>
    `<g class="${it.stage}"><rect class="tint" x="${n1((it.from - from) * wide)}" y="0" width="${n1((it.to - it.from) * wide)}" height="${height}"/></g>`);
  return svg(width, height, seen.join("") + bands.join(""), "film", 'preserveAspectRatio="none" aria-hidden="true"');
}

// The row of a band in which a cell stands.
const rowOf = (band, k, place) => k === 1 ? band.count - 1 - place : place;
// The cells that are drawn: all, or as many as can be told apart.
function cellsPicture(run, columns, band, k) {
  const stride = Math.max(1, Math.floor(band.count / (band.height * ROWS_A_PIXEL))), high = band.height / band.count;
  const thick = n1(Math.max(high * stride - (high > 4 ? .7 : 0), .5)), shades = new Map();
  for (let cell = 0; cell < band.count; cell += stride) {
    const y = n1(band.y + rowOf(band, k, cell) * high);
    for (let at = 0; at < columns.length;) {
      const symbol = columns[at].tapes[k].symbols[cell], first = at;
      while (at < columns.length && columns[at].tapes[k].symbols[cell] === symbol) at++;
      if (symbol === "_") continue;
      const shade = shadeOf(run, k, symbol), x = n1(columns[first].x), length = n1(columns[at - 1].end - columns[first].x);
      shades.set(shade, `${shades.get(shade) ?? ""}M${x},${y}h${length}v${thick}h${-length}z`);
    }
  }
  return [...shades].map(([shade, path]) => `<path class="ink${k + 1}" opacity="${shade}" d="${path}"/>`).join("");
}
// The later a letter or a rule stands in the table, the darker it is.
function shadeOf({letters, rules}, k, symbol) {
  const [at, last] = k === 1 ? [Number(symbol), rules.length] : [letters.indexOf(symbol), letters.length - 1];
  return n1(.3 + .6 * at / Math.max(1, last));
}
function headLine(columns, band, k) {
  const high = band.height / band.count;
  let line = "", last = null;
  for (const {x, end, tapes} of columns) {
    const {head, first} = tapes[k];
    if (head === null) {
      last = null;
      continue;
    }
    const y = n1(band.y + (rowOf(band, k, head - first) + .5) * high), on = `H${n1(end)}`;
    line += last === null ? `M${n1(x)},${y}${on}` : y === last ? on : `V${y}${on}`;
    last = y;
  }
  return `<path class="head-line" d="${line}"/>`;
}
