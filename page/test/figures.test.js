// Pictures that are saved: paths as they are read, and the three writers on a small scene.
import assert from "node:assert/strict";
import {test} from "node:test";
import {pdfOf} from "../src/figure_pdf.js";
import {svgOf, tikzOf} from "../src/figures.js";
import {boxParts, colourOf, pathParts} from "../src/scene.js";

const INK = {rgb: [200, 20, 60], alpha: 1}, PALE = {rgb: [240, 230, 220], alpha: .5};
const path = more => ({kind: "path", parts: pathParts("M1,2h8v8z"), fill: PALE, stroke: INK, width: 2, dashes: [], isRound: false, joinsRound: false, alpha: 1, isGrey: false, clip: null, ...more});
const words = (text, more = {}) => ({kind: "words", text, x: 50, y: 20, size: 12, anchor: "start", fill: INK, halo: null, isBold: false, isMono: true, alpha: 1, isGrey: false, clip: null, ...more});
const scene = (shapes, ground = [255, 255, 255]) => ({width: 100, height: 40, ground, shapes});
const STYLE = {isGrey: false, family: /** @type {const} */ ("sans"), made: "a made picture (one)"}, GREY = {...STYLE, isGrey: true};
const measure = text => 6 * [...text].length;

test("a path's points are read from the corner, quadratic curves as cubic ones", () => {
  assert.deepEqual(pathParts("M1,2L3-4h-2.5V.5z"), [["M", [1, 2]], ["L", [3, -4]], ["L", [.5, -4]], ["L", [.5, .5]], ["Z"]]);
  assert.deepEqual(pathParts("m1 2 3 4zl1,1"), [["M", [1, 2]], ["L", [4, 6]], ["Z"], ["L", [2, 3]]]);
  assert.deepEqual(pathParts("M0,0Q3,0 3,3"), [["M", [0, 0]], ["C", [2, 0], [3, 1], [3, 3]]]);
  assert.deepEqual(pathParts("M5,5c1,0 2,1 2,2"), [["M", [5, 5]], ["C", [6, 5], [7, 6], [7, 7]]]);
  assert.throws(() => pathParts("M0,0A1 1 0 0 0 2 2"), /a path has A/);
});

test("colours as browsers compute them, and round corners", () => {
  assert.deepEqual(colourOf("rgb(1, 2, 3)"), {rgb: [1, 2, 3], alpha: 1});
  assert.deepEqual(colourOf("rgba(1, 2, 3, 0.5)"), {rgb: [1, 2, 3], alpha: .5});
  assert.deepEqual(colourOf("color(srgb 0.2 0.4 1e-05 / 0.25)"), {rgb: [51, 102, 0], alpha: .25});
  for (const it of ["none", "rgba(0, 0, 0, 0)"]) assert.equal(colourOf(it), null);
  assert.equal(boxParts(0, 0, 4, 2, 0).length, 5);
  assert.equal(boxParts(0, 0, 4, 2, 9).filter(([kind]) => kind === "C").length, 4);
});

test("SVG has shapes alone, cut off where they are", () => {
  const text = svgOf(scene([path({clip: [0, 0, 5, 5]}), path({clip: [0, 0, 5, 5], dashes: [3, 2]}), words("a<b & c", {anchor: "middle"})]), STYLE);
  assert.equal(text.match(/<clipPath/g)?.length, 1);
  assert.ok(text.includes('<path d="M1 2L9 2L9 10Z" fill="#f0e6dc" fill-opacity="0.5" stroke="#c8143c" stroke-width="2"/>'), text);
  assert.ok(text.includes('stroke-dasharray="3 2"') && text.includes(">a&lt;b &amp; c</text>") && text.includes('text-anchor="middle"'));
});

test("black and white are on white paper, whatever the ground", () => {
  const light = svgOf(scene([path()]), GREY), dark = svgOf(scene([path()], [20, 25, 30]), GREY);
  for (const text of [light, dark]) for (const [, a, b, c] of text.matchAll(/#(..)(..)(..)/g)) assert.ok(a === b && b === c);
  assert.ok(light.includes('height="40" fill="#ffffff"') && dark.includes('height="40" fill="#e7e7e7"'));
});

test("TikZ spells what LaTeX reads otherwise, and asks for what it can't spell", () => {
  const text = tikzOf(scene([path({alpha: .5, dashes: [4]}), words("q_0 → δ₁ 100% ☃", {anchor: "end", halo: {colour: PALE, width: 3}})]), STYLE);
  assert.ok(text.includes("q\\_0 $\\to$ $\\delta$$_1$ 100\\% ?"), text);
  assert.ok(text.includes("dash pattern=on 3bp off 3bp") && text.includes("fill opacity=0.25") && text.includes("anchor=base east"));
  assert.ok([...text].every(it => it === "\n" || it >= " " && it <= "~"));
});

test("a PDF has its objects where its table says, and its words where their anchors are", () => {
  const text = pdfOf(scene([path({alpha: .5}), words("(ab)", {anchor: "end"}), words("δ→1", {isMono: false, anchor: "middle"}), words("x", {clip: [0, 0, 9, 9]})]), STYLE, measure);
  const places = [...text.matchAll(/^(\d{10}) 00000 n $/gm)].map(it => Number(it[1]));
  places.forEach((place, k) => assert.ok(text.startsWith(`${k + 1} 0 obj\n`, place)));
  assert.ok(text.startsWith("xref\n", Number(/startxref\n(\d+)/.exec(text)?.[1])));
  const [, length, stream] = /\/Length (\d+) >>\nstream\n([^]*?)\nendstream/.exec(text) ?? [];
  assert.equal(stream.length, Number(length));
  assert.ok(stream.includes("(\\(ab\\)) Tj") && stream.includes("/F4 12 Tf") && stream.includes("/Title") === false && text.includes("/Title (a made picture \\(one\\))"));
  // Courier's letters are six tenths of their size wide.
  assert.ok(stream.includes(`1 0 0 -1 ${Math.round((50 - 4 * .6 * 12) * 100) / 100} 20 Tm`), stream);
  assert.ok(stream.includes("0 0 9 9 re W n") && text.includes("/G0 << /Type /ExtGState /ca 0.25 /CA 0.5 >>"));
});
