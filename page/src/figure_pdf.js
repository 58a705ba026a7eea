// Writes a picture's shapes as a PDF of one page. It names the fonts that every viewer has, with none inside; letters
// beyond the Latin ones are of the two fonts of signs among them.
import {at, LOW_DIGITS, n2, POINTS, shown} from "./figures.js";

// The plain and the bold font of each family, those for what is mono on the screen, and a family of the screen that is
// as wide.
const FONTS = {
  sans: {names: ["Helvetica", "Helvetica-Bold", "Courier", "Courier-Bold"],
         seen: 'Helvetica,Arial,"Liberation Sans",sans-serif'},
  serif: {names: ["Times-Roman", "Times-Bold", "Times-Roman", "Times-Bold"],
          seen: 'Times,"Times New Roman","Liberation Serif",serif'},
  mono: {names: ["Courier", "Courier-Bold", "Courier", "Courier-Bold"],
         seen: 'Courier,"Courier New","Liberation Mono",monospace'},
};
const COURIER_WIDTH = .6, SIGNS_AT = 4, DINGBATS_AT = 5, QUESTION = 63;
// Where a sign stands: in the Latin font's code beyond its first half, in Symbol, in ZapfDingbats.
const LATIN = {"…": 0x85, "‘": 0x91, "’": 0x92, "“": 0x93, "”": 0x94, "–": 0x96, "−": 0x96};
const inOrder = (signs, letters) => Object.fromEntries([...signs].map((it, k) => [it, letters.charCodeAt(k)]));
const SYMBOL = {
  "→": 0xae, "←": 0xac, "≤": 0xa3, "≥": 0xb3, ...inOrder("αβχδεφγηικλμνοπθρστυωξψζ", "abcdefghiklmnopqrstuwxyz"),
  ...inOrder("ΑΒΧΔΕΦΓΗΙΚΛΜΝΟΠΘΡΣΤΥΩΞΨΖ", "ABCDEFGHIKLMNOPQRSTUWXYZ"),
};
const DINGBATS = {"▾": 0x74, "▸": 0xe4, "●": 0x6c};

// The font of a sign, behind the four of Latin letters or among them, and its byte there.
function placeOf(it) {
  if (SYMBOL[it]) return [SIGNS_AT, SYMBOL[it]];
  if (DINGBATS[it]) return [DINGBATS_AT, DINGBATS[it]];
  const code = it.codePointAt(0) ?? 0, low = LOW_DIGITS.indexOf(it), isPlain = code > 31 && code < 127;
  if (low >= 0) return [0, 48 + low];
  return [0, LATIN[it] ?? (isPlain || code > 160 && code < 256 ? code : QUESTION)];
}
// A text in parts of one font each.
function partsOf(text) {
  /** @type {{font: number, bytes: number[], text: string}[]} */
  const parts = [];
  for (const it of text) {
    const [font, byte] = placeOf(it), last = parts[parts.length - 1];
    if (last?.font === font) {
      last.bytes.push(byte);
      last.text += it;
    } else parts.push({font, bytes: [byte], text: it});
  }
  return parts;
}
const isSpecial = byte => [40, 41, 92].includes(byte);
const pdfString = bytes => `(${bytes.map(it => `${isSpecial(it) ? "\\" : ""}${String.fromCharCode(it)}`).join("")})`;
const pdfColour = (rgb, operator) => `${rgb.map(it => n2(it / 255)).join(" ")} ${operator}`;
const OPERATORS = {M: "m", L: "l", C: "c"};
const pdfWay = parts => parts.map(([kind, ...points]) =>
  kind === "Z" ? "h" : `${points.map(at).join(" ")} ${OPERATORS[kind]}`).join(" ");

class Writer {
  /** @param {Scene} scene @param {SaveStyle} style @param {(text: string, font: string) => number} measure */
  constructor(scene, style, measure) {
    this.scene = scene;
    this.isGrey = style.isGrey;
    this.fonts = FONTS[style.family];
    this.measure = measure;
    // How much of a filling and of a line covers, in pairs, as they are named.
    /** @type {string[]} */ this.covers = [];
  }
  cover(fill, stroke) {
    const it = `/ca ${n2(fill)} /CA ${n2(stroke)}`;
    if (!this.covers.includes(it)) this.covers.push(it);
    return `/G${this.covers.indexOf(it)} gs`;
  }
  ink(it, rgb, operator) { return pdfColour(shown(rgb, this.scene, this.isGrey || it.isGrey), operator); }
  /** @param {PathShape} it */
  path(it) {
    const {fill, stroke, alpha} = it;
    const said = [this.cover((fill?.alpha ?? 1) * alpha, (stroke?.alpha ?? 1) * alpha)];
    if (fill) said.push(this.ink(it, fill.rgb, "rg"));
    if (stroke) {
      said.push(this.ink(it, stroke.rgb, "RG"), `${n2(it.width)} w ${Number(it.isRound)} J ${Number(it.joinsRound)} j`,
                `[${it.dashes.map(n2).join(" ")}] 0 d`);
    }
    return `${said.join(" ")} ${pdfWay(it.parts)} ${fill && stroke ? "B" : fill ? "f" : "S"}`;
  }
  // PDF has no anchors, so words are placed by how wide they are.
  widthOf(it, {font, text}) {
    const {names, seen} = this.fonts, isCourier = font === 0 && names[it.isMono ? 2 : 0] === "Courier";
    if (isCourier) return COURIER_WIDTH * it.size * [...text].length;
    return this.measure(text, `${it.isBold ? "bold " : ""}${n2(it.size)}px ${seen}`);
  }
  // The parts of words, one behind the other, from where their anchor lets them begin.
  /** @param {WordsShape} it */
  drawnWords(it) {
    const parts = partsOf(it.text).map(part => ({...part, width: this.widthOf(it, part)}));
    const width = parts.reduce((sum, part) => sum + part.width, 0), plain = (it.isMono ? 2 : 0) + (it.isBold ? 1 : 0);
    let x = it.x - ({middle: .5, end: 1}[it.anchor] ?? 0) * width;
    return parts.map(part => {
      const place = `1 0 0 -1 ${n2(x)} ${n2(it.y)} Tm`;
      x += part.width;
      return `/F${part.font || plain} ${n2(it.size)} Tf ${place} ${pdfString(part.bytes)} Tj`;
    }).join(" ");
  }
  /** @param {WordsShape} it */
  words(it) {
    const drawn = this.drawnWords(it), {halo} = it, fill = this.ink(it, it.fill?.rgb ?? [0, 0, 0], "rg");
    const line = halo ? `${this.ink(it, halo.colour.rgb, "RG")} ${n2(halo.width)} w 1 j [] 0 d` : "";
    const behind = halo ? `${line} BT 1 Tr ${drawn} ET ` : "";
    return `${this.cover((it.fill?.alpha ?? 1) * it.alpha, it.alpha)} ${behind}${fill} BT 0 Tr ${drawn} ET`;
  }
  content() {
    const {width, height, ground, shapes} = this.scene;
    const drawn = shapes.map(it => {
      const said = it.kind === "words" ? this.words(it) : this.path(it);
      if (!it.clip) return said;
      const [left, top, right, low] = it.clip;
      return `q ${n2(left)} ${n2(top)} ${n2(right - left)} ${n2(low - top)} re W n ${said} Q`;
    });
    const paper = pdfColour(shown(ground, this.scene, this.isGrey), "rg");
    const below = `${this.cover(1, 1)} ${paper} 0 0 ${width} ${height} re f`;
    return `${POINTS} 0 0 -${POINTS} 0 ${n2(height * POINTS)} cm\n${below}\n${drawn.join("\n")}`;
  }
}

const hasOwnCode = name => name === "Symbol" || name === "ZapfDingbats";
const fontObject = name =>
  `<< /Type /Font /Subtype /Type1 /BaseFont /${name}${hasOwnCode(name) ? "" : " /Encoding /WinAnsiEncoding"} >>`;
// The numbered objects of a page with this content.
function objectsOf(scene, writer, content, made) {
  const fonts = [...writer.fonts.names, "Symbol", "ZapfDingbats"], first = 6;
  const box = `[0 0 ${n2(scene.width * POINTS)} ${n2(scene.height * POINTS)}]`;
  const covers = writer.covers.map((it, k) => `/G${k} << /Type /ExtGState ${it} >>`).join(" ");
  const named = fonts.map((_, k) => `/F${k} ${first + k} 0 R`).join(" ");
  const title = [...made].map(it => placeOf(it)).map(([font, byte]) => font ? QUESTION : byte);
  return [
    "<< /Type /Catalog /Pages 2 0 R >>", "<< /Type /Pages /Kids [3 0 R] /Count 1 >>",
    `<< /Type /Page /Parent 2 0 R /MediaBox ${box} /Contents 4 0 R`
      + ` /Resources << /Font << ${named} >> /ExtGState << ${covers} >> >> >>`,
    `<< /Length ${content.length} >>\nstream\n${content}\nendstream`,
    `<< /Title ${pdfString(title)} /Creator (Hithwelor) >>`, ...fonts.map(fontObject),
  ];
}
// The text of a PDF, of which each character is a byte. `measure` tells how wide a text is in a font of the screen.
/** @type {(scene: Scene, style: SaveStyle, measure: (text: string, font: string) => number) => string} */
export function pdfOf(scene, style, measure) {
  const writer = new Writer(scene, style, measure), objects = objectsOf(scene, writer, writer.content(), style.made);
  let text = "%PDF-1.4\n";
  const places = objects.map((it, k) => {
    const place = text.length;
    text += `${k + 1} 0 obj\n${it}\nendobj\n`;
    return place;
  });
  const count = objects.length + 1, table = places.map(it => `${String(it).padStart(10, "0")} 00000 n \n`).join("");
  return `${text}xref\n0 ${count}\n0000000000 65535 f \n${table}trailer\n`
    + `<< /Size ${count} /Root 1 0 R /Info 5 0 R >>\nstartxref\n${text.length}\n%%EOF\n`;
}
