// Writes a picture's shapes as SVG or as TikZ, both of them vector drawings. In black and white each colour is the grey
// that is as light, on white paper whatever the screen's scheme. TikZ's words have the font of the document around it.
import {escaped} from "./state.js";

const FAMILIES = {
  sans: ["system-ui,sans-serif", "ui-monospace,monospace"], serif: ["serif", "serif"], mono: ["monospace", "monospace"],
};
const LIGHT = .5, WHITE = 250;
// A pixel in points.
export const POINTS = .75;
export const n2 = it => String(Math.round(it * 100) / 100);
export const at = ([x, y]) => `${n2(x)} ${n2(y)}`;
/** @typedef {(rgb: number[]) => string} Ink */

// ---- colours

const lightOf = rgb => (.299 * rgb[0] + .587 * rgb[1] + .114 * rgb[2]) / 255;
// A colour as it is written: on a dark ground black and white change places.
/** @type {(rgb: number[], scene: Scene, isGrey: boolean) => number[]} */
export function shown(rgb, {ground}, isGrey) {
  if (!isGrey) return rgb;
  const light = Math.round(255 * lightOf(rgb)), grey = lightOf(ground) < LIGHT ? 255 - light : light;
  return [grey, grey, grey];
}
const hex = rgb => rgb.map(it => it.toString(16).padStart(2, "0")).join("");
const isWhite = rgb => rgb.every(it => it > WHITE);

// ---- SVG

/** @type {(name: string, colour: Colour | null, alpha: number, ink: Ink) => string} */
function svgPaint(name, colour, alpha, ink) {
  if (!colour) return ` ${name}="none"`;
  const cover = colour.alpha * alpha, opacity = cover < 1 ? ` ${name}-opacity="${n2(cover)}"` : "";
  return ` ${name}="#${ink(colour.rgb)}"${opacity}`;
}
const svgWay = parts => parts.map(([kind, ...points]) => kind + points.map(at).join(" ")).join("");
/** @type {(it: PathShape, ink: Ink) => string} */
function svgPath(it, ink) {
  const paint = svgPaint("fill", it.fill, it.alpha, ink) + svgPaint("stroke", it.stroke, it.alpha, ink);
  const dash = it.dashes.length ? ` stroke-dasharray="${it.dashes.map(n2).join(" ")}"` : "";
  const ends = `${it.isRound ? ' stroke-linecap="round"' : ""}${it.joinsRound ? ' stroke-linejoin="round"' : ""}`;
  const stroke = it.stroke ? ` stroke-width="${n2(it.width)}"${dash}${ends}` : "";
  return `<path d="${svgWay(it.parts)}"${paint}${stroke}/>`;
}
/** @type {(it: WordsShape, ink: Ink, family: SaveStyle["family"]) => string} */
function svgWords(it, ink, family) {
  const {halo, alpha} = it, wide = halo ? ` stroke-width="${n2(halo.width)}" stroke-linejoin="round"` : "";
  const behind = halo ? ` paint-order="stroke"${svgPaint("stroke", halo.colour, alpha, ink)}${wide}` : "";
  const anchor = it.anchor === "start" ? "" : ` text-anchor="${it.anchor}"`;
  const bold = it.isBold ? ' font-weight="bold"' : "";
  const mono = it.isMono && family === "sans" ? ` font-family="${FAMILIES.sans[1]}"` : "";
  return `<text x="${n2(it.x)}" y="${n2(it.y)}" font-size="${n2(it.size)}"${anchor}${bold}${mono}`
    + `${svgPaint("fill", it.fill, alpha, ink)}${behind}>${escaped(it.text)}</text>`;
}
/** @type {(clip: number[]) => string} */
const svgBox = ([left, top, right, low]) =>
  `<rect x="${n2(left)}" y="${n2(top)}" width="${n2(right - left)}" height="${n2(low - top)}"/>`;
/** @type {(scene: Scene, style: SaveStyle) => string} */
export function svgOf(scene, {isGrey, family, made}) {
  const {width, height, shapes} = scene, paper = hex(shown(scene.ground, scene, isGrey));
  const clips = [...new Set(shapes.flatMap(it => it.clip ? [svgBox(it.clip)] : []))];
  const body = shapes.map(it => {
    /** @type {Ink} */
    const ink = rgb => hex(shown(rgb, scene, isGrey || it.isGrey));
    const drawn = it.kind === "words" ? svgWords(it, ink, family) : svgPath(it, ink);
    return it.clip ? `<g clip-path="url(#cut${clips.indexOf(svgBox(it.clip))})">${drawn}</g>` : drawn;
  });
  const cuts = clips.map((it, k) => `<clipPath id="cut${k}">${it}</clipPath>`).join("");
  const defs = cuts && `<defs>${cuts}</defs>\n`;
  return `<svg xmlns="http://www.w3.org/2000/svg" width="${width}" height="${height}" viewBox="0 0 ${width} ${height}"`
    + ` font-family="${FAMILIES[family][0]}" role="img">\n<title>${escaped(made)}</title>\n`
    + `${defs}<rect width="${width}" height="${height}" fill="#${paper}"/>\n${body.join("\n")}\n</svg>\n`;
}

// ---- TikZ

// What LaTeX reads otherwise than it stands there, or not at all.
const SPECIAL = {
  "\\": "\\textbackslash{}", "~": "\\textasciitilde{}", "^": "\\textasciicircum{}", "<": "\\textless{}",
  ">": "\\textgreater{}", "|": "\\textbar{}", '"': "''", "`": "\\textasciigrave{}", "−": "$-$", "·": "$\\cdot$",
  "…": "\\ldots{}", "→": "$\\to$", "←": "$\\leftarrow$", "▾": "$\\bigtriangledown$", "▸": "$\\triangleright$",
  "◂": "$\\triangleleft$", "“": "``", "”": "''", "’": "'", "×": "$\\times$",
  ...Object.fromEntries([..."#$%&_{}"].map(it => [it, `\\${it}`])),
};
const GREEK = {
  α: "alpha", β: "beta", γ: "gamma", δ: "delta", ε: "varepsilon", ζ: "zeta", η: "eta", θ: "theta", ι: "iota",
  κ: "kappa", λ: "lambda", μ: "mu", ν: "nu", ξ: "xi", π: "pi", ρ: "rho", σ: "sigma", τ: "tau", υ: "upsilon",
  φ: "varphi", χ: "chi", ψ: "psi", ω: "omega", Γ: "Gamma", Δ: "Delta", Θ: "Theta", Λ: "Lambda", Ξ: "Xi", Π: "Pi",
  Σ: "Sigma", Φ: "Phi", Ψ: "Psi", Ω: "Omega",
};
export const LOW_DIGITS = "₀₁₂₃₄₅₆₇₈₉";
// A sign that LaTeX has no way to by itself is a question mark.
function texSign(it) {
  if (SPECIAL[it] !== undefined) return SPECIAL[it];
  if (it >= " " && it <= "~") return it;
  const digit = LOW_DIGITS.indexOf(it);
  return GREEK[it] ? `$\\${GREEK[it]}$` : digit >= 0 ? `$_${digit}$` : "?";
}
const tex = text => [...text].map(texSign).join("");
/** @type {(point: number[]) => string} */
const tikzAt = ([x, y]) => `(${n2(x)},${n2(y)})`;
/** @type {(part: PathPart, k: number) => string} */
function tikzPart([kind, ...points], k) {
  const [first, second, third] = points.map(tikzAt);
  if (kind === "Z") return " -- cycle";
  if (kind === "C") return ` .. controls ${first} and ${second} .. ${third}`;
  return kind === "L" ? ` -- ${first}` : `${k ? "\n" : ""}${first}`;
}
const ANCHORS = {start: "base west", middle: "base", end: "base east"};
const tikzDashes = dashes => (dashes.length % 2 ? [...dashes, ...dashes] : dashes).map((it, k) =>
  `${k % 2 ? "off" : "on"} ${n2(it * POINTS)}bp`).join(" ");
/** @type {(name: string, opacity: string, colour: Colour | null, alpha: number, ink: Ink) => string[]} */
function tikzPaint(name, opacity, colour, alpha, ink) {
  if (!colour) return [];
  const cover = colour.alpha * alpha;
  return [`${name}=${ink(colour.rgb)}`, ...(cover < 1 ? [`${opacity} opacity=${n2(cover)}`] : [])];
}
/** @type {(it: PathShape, ink: Ink) => string} */
function tikzPath(it, ink) {
  const {fill, stroke, alpha} = it;
  const said = [...tikzPaint("fill", "fill", fill, alpha, ink), ...tikzPaint("draw", "draw", stroke, alpha, ink)];
  if (stroke) said.push(`line width=${n2(it.width * POINTS)}bp`);
  if (stroke && it.isRound) said.push("line cap=round");
  if (stroke && it.joinsRound) said.push("line join=round");
  if (stroke && it.dashes.length) said.push(`dash pattern=${tikzDashes(it.dashes)}`);
  return `\\path[${said.join(",")}] ${it.parts.map(tikzPart).join("")};`;
}
/** @type {(it: WordsShape, ink: Ink) => string} */
function tikzWords(it, ink) {
  const behind = it.halo ? [`fill=${ink(it.halo.colour.rgb)}`, "inner sep=.6bp"] : ["inner sep=0bp"];
  const said = [`anchor=${ANCHORS[it.anchor] ?? "base west"}`, `text=${ink(it.fill?.rgb ?? [0, 0, 0])}`,
                `scale=${n2(it.size / 12)}`, ...(it.isBold ? ["font=\\bfseries"] : []), ...behind];
  return `\\node[${said.join(",")}] at ${tikzAt([it.x, it.y])} {\\hithwelorsize ${tex(it.text)}};`;
}
// For \input in a document that loads tikz. Its words have the document's font, at 9 points; a document may define
// \hithwelorsize otherwise.
/** @type {(scene: Scene, style: SaveStyle) => string} */
export function tikzOf(scene, {isGrey, made}) {
  const ground = shown(scene.ground, scene, isGrey), all = tikzAt([scene.width, scene.height]), used = new Set();
  const named = rgb => {
    used.add(hex(rgb));
    return `hithwelor${hex(rgb)}`;
  };
  const body = scene.shapes.map(it => {
    /** @type {Ink} */
    const ink = rgb => named(shown(rgb, scene, isGrey || it.isGrey));
    const drawn = it.kind === "words" ? tikzWords(it, ink) : tikzPath(it, ink);
    if (!it.clip) return drawn;
    return `\\begin{scope}\\clip ${tikzAt(it.clip)} rectangle ${tikzAt(it.clip.slice(2))};\n${drawn}\n\\end{scope}`;
  });
  const paper = isWhite(ground) ? "" : `\\fill[${named(ground)}] (0,0) rectangle ${all};\n`;
  const colours = [...used].sort().map(it => `\\definecolor{hithwelor${it}}{HTML}{${it.toUpperCase()}}%`);
  return `% ${made.replace(/[^ -~]/g, "-")}\n${colours.join("\n")}\n`
    + "\\providecommand\\hithwelorsize{\\fontsize{9}{10}\\selectfont}%\n"
    + `\\begin{tikzpicture}[x=${POINTS}bp,y=-${POINTS}bp]\n\\useasboundingbox (0,0) rectangle ${all};\n`
    + `${paper}${body.join("\n")}\n\\end{tikzpicture}%\n`;
}
