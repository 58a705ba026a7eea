// What is drawn on the screen as a list of shapes, in pixels from the picture's corner: paths and words, with their
// colours as the browser has computed them, whichever scheme it shows.
const SKIPPED = new Set(["title", "desc", "defs", "clipPath"]);
const NUMBER = /-?(?:\d*\.)?\d+(?:e-?\d+)?/g;
/** @type {Record<string, number>} */
const NUMBERS_OF = {M: 2, L: 2, H: 1, V: 1, C: 6, Q: 4};
// How far the middle of a quarter of a circle is from its ends, as a cubic curve has it; and how far a letter's foot is
// below the middle of its line, as a share of its size, and how wide a letter is about.
const ROUND = .5523, FOOT = .36, WIDE = .55;
const MARGIN = 12, TITLE_ROOM = 24, TITLE_SIZE = 13;

// ---- paths

/** @type {(x: number, y: number, width: number, height: number, radius: number) => PathPart[]} */
export function boxParts(x, y, width, height, radius) {
  const r = Math.min(radius, width / 2, height / 2), right = x + width, low = y + height, k = r * (1 - ROUND);
  if (!r) return [["M", [x, y]], ["L", [right, y]], ["L", [right, low]], ["L", [x, low]], ["Z"]];
  return [
    ["M", [x + r, y]], ["L", [right - r, y]], ["C", [right - k, y], [right, y + k], [right, y + r]],
    ["L", [right, low - r]], ["C", [right, low - k], [right - k, low], [right - r, low]],
    ["L", [x + r, low]], ["C", [x + k, low], [x, low - k], [x, low - r]],
    ["L", [x, y + r]], ["C", [x, y + k], [x + k, y], [x + r, y]], ["Z"],
  ];
}
// The text of a path, with all its points from the corner; a quadratic curve as a cubic one.
/** @type {(d: string) => PathPart[]} */
export function pathParts(d) {
  /** @type {PathPart[]} */
  const found = [];
  let at = [0, 0], begin = at;
  for (const [, letter, rest] of d.matchAll(/([a-df-z])([^a-df-z]*)/gi)) {
    const parts = partsOf(letter, (rest.match(NUMBER) ?? []).map(Number), at);
    found.push(...parts);
    const [kind, ...points] = parts[parts.length - 1];
    if (letter.toUpperCase() === "M") [, begin] = parts[0];
    at = kind === "Z" ? begin : points[points.length - 1];
  }
  return found;
}
// The parts that one letter begins, from a point on.
/** @type {(letter: string, numbers: number[], at: number[]) => PathPart[]} */
function partsOf(letter, numbers, at) {
  const kind = letter.toUpperCase(), many = NUMBERS_OF[kind];
  if (kind === "Z") return [["Z"]];
  if (!many) throw new Error(`a path has ${letter}`);
  let here = at;
  return Array.from({length: numbers.length / many}, (_, k) => {
    const points = pointsOf(kind, numbers.slice(k * many, (k + 1) * many), here, letter === kind ? [0, 0] : here);
    const part = partOf(kind === "M" && k > 0 ? "L" : kind, points, here);
    here = points[points.length - 1];
    return part;
  });
}
/** @type {(kind: string, numbers: number[], at: number[], from: number[]) => number[][]} */
function pointsOf(kind, numbers, at, from) {
  if (kind === "H") return [[numbers[0] + from[0], at[1]]];
  if (kind === "V") return [[at[0], numbers[0] + from[1]]];
  return Array.from({length: numbers.length / 2}, (_, k) => [numbers[2 * k] + from[0], numbers[2 * k + 1] + from[1]]);
}
/** @type {(kind: string, points: number[][], at: number[]) => PathPart} */
function partOf(kind, points, at) {
  /** @type {(end: number[], middle: number[]) => number[]} */
  const toward = (end, middle) => [0, 1].map(k => end[k] + (middle[k] - end[k]) * 2 / 3);
  if (kind === "Q") return ["C", toward(at, points[0]), toward(points[1], points[0]), points[1]];
  return [kind === "M" || kind === "C" ? kind : "L", ...points];
}

// A part with its points elsewhere.
/** @type {(part: PathPart, act: (point: number[]) => number[]) => PathPart} */
const moved = ([kind, ...points], act) => [kind, ...points.map(act)];
/** @type {(parts: PathPart[]) => number[][]} */
const pointsIn = parts => parts.flatMap(([, ...points]) => points);

// ---- shapes of the screen

// A colour that is computed, as red, green and blue up to 255, with how much of it covers; null where there is none.
/** @type {(words: string) => Colour | null} */
export function colourOf(words) {
  const numbers = (words.match(NUMBER) ?? []).map(Number), isShare = words.startsWith("color(srgb");
  if (numbers.length < 3 || !isShare && !words.startsWith("rgb")) return null;
  const alpha = numbers[3] ?? 1, rgb = numbers.slice(0, 3).map(it => Math.round(isShare ? 255 * it : it));
  return alpha > 0 ? {rgb, alpha} : null;
}
/** @type {(it: any, ...names: string[]) => number[]} */
const valuesOf = (it, ...names) => names.map(name => it[name].baseVal.value);
/** @type {Record<string, (it: any) => PathPart[]>} */
const GEOMETRY = {
  rect: it => {
    const [x, y, width, height, rx, ry] = valuesOf(it, "x", "y", "width", "height", "rx", "ry");
    return boxParts(x, y, width, height, rx || ry);
  },
  circle: it => {
    const [x, y, r] = valuesOf(it, "cx", "cy", "r");
    return boxParts(x - r, y - r, 2 * r, 2 * r, r);
  },
  line: it => {
    const [x, y, u, v] = valuesOf(it, "x1", "y1", "x2", "y2");
    return [["M", [x, y]], ["L", [u, v]]];
  },
  path: it => pathParts(it.getAttribute("d") ?? ""),
};
/** @type {(matrix: DOMMatrix, point: number[]) => number[]} */
const placed = (matrix, [x, y]) => [matrix.a * x + matrix.c * y + matrix.e, matrix.b * x + matrix.d * y + matrix.f];
/** @type {(matrix: DOMMatrix) => number} */
const scaleOf = matrix => Math.sqrt(Math.abs(matrix.a * matrix.d - matrix.b * matrix.c));
/** @type {(words: string, scale: number) => number[]} */
const dashesOf = (words, scale) => words === "none" ? [] : (words.match(NUMBER) ?? []).map(it => Number(it) * scale);
// The box around points, by its left, top, right and lower end.
/** @type {(points: number[][]) => number[]} */
const boxOf = points => points.reduce(([left, top, right, low], [x, y]) =>
  [Math.min(left, x), Math.min(top, y), Math.max(right, x), Math.max(low, y)],
  [Infinity, Infinity, -Infinity, -Infinity]);

// What a node and those in it draw; `around` has how much of it covers and the box that it is cut off by.
/** @typedef {{alpha: number, clip: number[], isGrey: boolean}} Around */
/** @type {(node: any, around: Around) => Shape[]} */
function shapesIn(node, around) {
  const style = getComputedStyle(node);
  if (SKIPPED.has(node.tagName) || style.display === "none" || style.visibility === "hidden") return [];
  const inner = {...around, alpha: around.alpha * Number(style.opacity), clip: clipOf(node, around.clip)};
  if (node.tagName === "text") return wordsIn(node, style, inner);
  const draw = GEOMETRY[node.tagName];
  return draw ? pathIn(node, style, draw(node), inner) : [...node.children].flatMap(it => shapesIn(it, inner));
}
/** @type {(node: any, clip: number[]) => number[]} */
function clipOf(node, clip) {
  const name = /#([\w-]+)/.exec(node.getAttribute("clip-path") ?? "")?.[1];
  const rect = name && node.ownerSVGElement.querySelector(`#${name} rect`);
  if (!rect) return clip;
  const corners = pointsIn(GEOMETRY.rect(rect)), matrix = node.getScreenCTM();
  const box = boxOf(corners.map(it => placed(matrix, it)));
  return box.map((it, k) => k < 2 ? Math.max(it, clip[k]) : Math.min(it, clip[k]));
}
/** @type {(node: any, style: CSSStyleDeclaration, local: PathPart[], around: Around) => PathShape[]} */
function pathIn(node, style, local, {alpha, clip, isGrey}) {
  const matrix = node.getScreenCTM(), scale = scaleOf(matrix), width = parseFloat(style.strokeWidth) * scale;
  const fill = colourOf(style.fill), stroke = width ? colourOf(style.stroke) : null;
  const parts = local.map(part => moved(part, it => placed(matrix, it)));
  const [left, top, right, low] = boxOf(pointsIn(parts));
  const isOut = right < clip[0] || low < clip[1] || left > clip[2] || top > clip[3];
  if (!parts.length || isOut || !fill && !stroke) return [];
  const isCut = left < clip[0] - 1 || top < clip[1] - 1 || right > clip[2] + 1 || low > clip[3] + 1;
  return [{kind: "path", parts, fill, stroke, width, alpha, isGrey, clip: isCut ? clip : null,
           dashes: dashesOf(style.strokeDasharray, scale), isRound: style.strokeLinecap === "round",
           joinsRound: style.strokeLinejoin === "round"}];
}
/** @type {(node: any, style: CSSStyleDeclaration, around: Around) => WordsShape[]} */
function wordsIn(node, style, {alpha, clip, isGrey}) {
  const text = [...node.childNodes].filter(it => it.nodeType === 3).map(it => it.data).join("");
  const matrix = node.getScreenCTM(), scale = scaleOf(matrix);
  const fill = colourOf(style.fill), stroke = colourOf(style.stroke);
  const [x, y] = placed(matrix, ["x", "y"].map(it => Number(node.getAttribute(it) ?? 0)));
  if (!text.trim() || !fill || x < clip[0] - 1 || x > clip[2] + 1 || y < clip[1] || y > clip[3] + 8) return [];
  const hasHalo = stroke && style.paintOrder.startsWith("stroke");
  const halo = hasHalo ? {colour: stroke, width: parseFloat(style.strokeWidth) * scale} : null;
  return [{kind: "words", text, x, y, size: parseFloat(style.fontSize) * scale, anchor: style.textAnchor, fill, halo,
           alpha, isGrey, clip: null, ...fontOf(style)}];
}
/** @type {(style: CSSStyleDeclaration) => {isBold: boolean, isMono: boolean}} */
const fontOf = ({fontWeight, fontFamily}) =>
  ({isBold: Number(fontWeight) >= 600, isMono: /mono/i.test(fontFamily.split(",")[0])});

// The lines of text that stand in a box of the page.
/** @type {(box: Element) => WordsShape[]} */
function linesIn(box) {
  const walker = document.createTreeWalker(box, NodeFilter.SHOW_TEXT);
  /** @type {WordsShape[]} */
  const lines = [];
  while (walker.nextNode()) lines.push(...linesOf(/** @type {Text} */ (walker.currentNode)));
  return lines;
}
// Those of one text, which may go over several.
/** @type {(node: Text) => WordsShape[]} */
function linesOf(node) {
  const parent = node.parentElement, range = document.createRange();
  if (!parent || parent.closest("svg,.visually-hidden") || !parent.getClientRects().length) return [];
  const style = getComputedStyle(parent), size = parseFloat(style.fontSize), fill = colourOf(style.color);
  /** @type {WordsShape[]} */
  const lines = [];
  for (const {0: text, index = 0} of fill ? node.data.matchAll(/\S+/g) : []) {
    range.setStart(node, index);
    range.setEnd(node, index + text.length);
    const rect = range.getClientRects()[0], last = lines[lines.length - 1];
    if (!rect?.width) continue;
    const y = rect.top + rect.height / 2 + size * FOOT;
    if (last && Math.abs(last.y - y) < 2) last.text += ` ${text}`;
    else lines.push({...wordsAt(text, rect.left, y, size, fill), ...fontOf(style)});
  }
  return lines;
}
/** @type {(text: string, x: number, y: number, size: number, fill: Colour | null) => WordsShape} */
const wordsAt = (text, x, y, size, fill) => ({
  kind: "words", text, x, y, size, anchor: "start", fill, halo: null, alpha: 1, isGrey: false, clip: null,
  isBold: false, isMono: false,
});

// ---- the whole

// A shape as it stands where the corner is another.
/** @type {(shape: Shape, dx: number, dy: number) => Shape} */
function shifted(shape, dx, dy) {
  /** @type {(it: number[]) => number[]} */
  const by = it => [it[0] - dx, it[1] - dy], clip = shape.clip && shape.clip.map((it, k) => it - (k % 2 ? dy : dx));
  if (shape.kind === "words") return {...shape, x: shape.x - dx, y: shape.y - dy};
  return {...shape, clip, parts: shape.parts.map(part => moved(part, by))};
}
/** @type {(it: Element) => boolean} */
export const isSeen = it => it.getBoundingClientRect().width > 0 && getComputedStyle(it).visibility !== "hidden";
// The pictures that a selector finds, and the texts of another one, each where it stands on the screen; with a title
// above, or none. Null where none is seen.
/** @type {(pictures: string, texts: string, title?: string) => Scene | null} */
export function sceneOf(pictures, texts, title = "") {
  const ground = colourOf(getComputedStyle(document.querySelector(".panel") ?? document.body).backgroundColor)?.rgb;
  const found = [...document.querySelectorAll(pictures)].filter(isSeen);
  const boxes = found.map(it => it.getBoundingClientRect());
  /** @param {Element} it */
  const isGrey = it => [it, it.parentElement ?? it].some(one => getComputedStyle(one).filter.startsWith("grayscale"));
  const drawn = found.flatMap((it, k) => {
    const {left, top, right, bottom} = boxes[k];
    return shapesIn(it, {alpha: 1, clip: [left, top, right, bottom], isGrey: isGrey(it)});
  });
  if (!drawn.length) return null;
  const lines = texts ? [...document.querySelectorAll(texts)].flatMap(linesIn) : [];
  const [left, top, right, low] = boxOf([
    ...boxes.flatMap(it => [[it.left, it.top], [it.right, it.bottom]]),
    ...lines.flatMap(({x, y, size, text}) => [[x, y - size], [x + size * text.length * WIDE, y + size * (1 - FOOT)]]),
  ]);
  const above = title ? TITLE_ROOM : 0, ink = colourOf(getComputedStyle(document.body).color);
  const head = title ? [wordsAt(title, MARGIN, MARGIN + TITLE_SIZE, TITLE_SIZE, ink)] : [];
  const shapes = [...drawn, ...lines].map(it => shifted(it, left - MARGIN, top - MARGIN - above));
  return {width: Math.ceil(right - left + 2 * MARGIN), height: Math.ceil(low - top + 2 * MARGIN + above),
          ground: ground ?? [255, 255, 255], shapes: [...head, ...shapes]};
}
